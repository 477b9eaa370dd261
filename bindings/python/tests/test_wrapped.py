"""Shards with codecs of Python inside that stand behind transpositions and before codecs of bytes: Python cuts them."""

import importlib.util
import pickle

import numpy as np
import pytest
from samples import LITTLE, VLEN, RecordingFile, same, some, some_region, some_texts, transpose
from test_sharding import GZIP, sharded

import zarrs_codecs as z
from zarrs_codecs import Array, Chain

SHAPE = (6, 4, 8)
ZLIB = {"name": "numcodecs.zlib", "configuration": {"level": 1}}
LISTS = {
    "transposed": [transpose([2, 1, 0]), *sharded([4, 2, 3], [LITTLE, GZIP])],
    "transposed twice": [transpose([2, 1, 0]), transpose([0, 2, 1]), *sharded([4, 3, 2], [LITTLE, GZIP])],
    "checksum": [*sharded([3, 2, 4], [LITTLE, GZIP]), "crc32c"],
    "gzip of gzip": [*sharded([3, 2, 4], [LITTLE, GZIP]), GZIP],
    "all": [transpose([1, 2, 0]), *sharded([2, 4, 3], [transpose([2, 0, 1]), LITTLE, GZIP]), GZIP, "crc32c"],
    "shards inside": [transpose([2, 0, 1]), *sharded([4, 6, 2], [transpose([1, 0, 2]), *sharded([3, 4, 1], [LITTLE, GZIP])])],
}


@pytest.mark.parametrize("name", LISTS)
def test_wrapped_shards(name, rng):
    codecs = LISTS[name]
    chain = Chain(codecs, SHAPE, "int32", 7)
    array = some(rng, "int32", chain.dtype, SHAPE).copy()
    array[:3, :, :4] = 7
    value = chain.encode(array)
    same(chain.decode(value), array)
    out = np.empty(SHAPE, "i4")
    assert chain.decode(value, out) is out and (out == array).all()
    for _ in range(5):
        region = some_region(rng, SHAPE)
        same(chain.read(value, region), array[region])
        same(chain.read_from(RecordingFile(value), region), array[region])
        same(chain.read(None, region), np.full_like(array[region], 7))
    rows = rng.integers(0, 4, (9, 3))
    same(chain.read(value, rows), array[tuple(rows.T)])
    same(chain.read_many(value, [0, np.s_[..., ::-2]])[1], array[..., ::-2])
    written = chain.write(value, np.s_[1:5, ::2, 3], [[1], [2], [3], [4]])
    array[1:5, ::2, 3] = [[1], [2], [3], [4]]
    written = chain.write(written, rows, np.arange(9))
    for row, element in zip(rows, range(9), strict=True):
        array[tuple(row)] = element
    same(chain.decode(written), array)
    same(chain.decode(chain.write_many(written, [(0, 5), (np.s_[:, 1], 6)]))[0, 1], np.full(8, 6, "i4"))
    plain = Chain([LITTLE], SHAPE, "int32", 7)
    same(plain.decode(chain.reencode(written, [LITTLE])), array)
    same(chain.decode(plain.reencode(plain.encode(array), codecs)), array)
    assert chain.unproved[:2] == ("sharding_indexed", "gzip" if name != "shards inside" else "sharding_indexed")
    assert chain.planned_ranges(0) is None
    same(pickle.loads(pickle.dumps(chain)).decode(written), array)
    with pytest.raises(z.NotInPlace, match=f"by codec {codecs.index(next(c for c in codecs if 'sharding' in str(c)))}, 'sharding"):
        chain.write(written, 0, 1, out=written)


def test_texts(rng):
    chain = Chain([transpose([1, 0]), *sharded([2, 3], [VLEN, GZIP])], (6, 4), "string", "?")
    texts = some_texts(rng, (6, 4))
    value = chain.encode(texts)
    same(chain.decode(value), texts)
    same(chain.read(value, np.s_[1:5, 3]), texts[1:5, 3])


def test_errors_say_where():
    codecs = [transpose([1, 0]), *sharded([2, 2], [LITTLE, GZIP]), "crc32c"]
    chain = Chain(codecs, (4, 4), "int32")
    value = chain.encode(np.arange(16).reshape(4, 4))
    damaged = value.copy()
    damaged[3] ^= 1
    with pytest.raises(z.BytesCodec, match="by codec 2, 'crc32c'"):
        chain.decode(damaged)
    inside = Chain(codecs[:2], (4, 4), "int32")
    damaged = value[:-4].copy()
    damaged[12] ^= 255
    with pytest.raises(z.Refused, match="of inner chunk 0, by codec 1, 'sharding_indexed', in its codecs") as error:
        inside.decode(damaged)
    assert error.value.codec == (1, "sharding_indexed")
    with pytest.raises(z.IndivisibleShape, match="by codec 1, 'sharding_indexed'"):
        Chain([transpose([1, 0]), *sharded([3, 2], [LITTLE, GZIP])], (4, 4), "int32")
    with pytest.raises(z.UnknownName):
        Chain([*sharded([2, 2], [LITTLE, GZIP]), "adler32"], (4, 4), "int32")
    with pytest.raises(z.Refused):
        Chain([transpose([0, 0]), *sharded([2, 2], [LITTLE, GZIP])], (4, 4), "int32")


def test_an_array_reads_the_inner_chunks_that_it_needs(rng, tmp_path):
    codecs = [transpose([1, 0]), *sharded([8, 8], [LITTLE, GZIP])]
    array = Array.create(tmp_path / "a", (128, 128), (64, 64), "int32", codecs=codecs)
    expected = rng.integers(0, 1 << 30, (128, 128)).astype("i4")
    array[...] = expected
    same(Array(tmp_path / "a")[3:70, 5], expected[3:70, 5])
    value = array.chunk_path((0, 0)).read_bytes()
    file = RecordingFile(value)
    same(array.chain.read_from(file, np.s_[:, 5]), expected[:64, 5])
    assert len(file.seen) < len(value) / 4


@pytest.mark.skipif(importlib.util.find_spec("numcodecs") is None, reason="python3-numcodecs isn't installed")
def test_numcodecs_behind_a_shard(rng):
    chain = Chain([*sharded([2, 2], [LITTLE, ZLIB]), ZLIB], (4, 4), "int32")
    array = rng.integers(0, 9, (4, 4)).astype("i4")
    same(chain.read(chain.encode(array), np.s_[1:, 2]), array[1:, 2])
