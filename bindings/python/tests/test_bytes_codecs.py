"""Bytes codecs that Python runs behind a chain."""

import gzip
import importlib.util
import io
import subprocess
import sys

import numpy as np
import pytest
from samples import LITTLE, VLEN, RecordingFile, same, some, some_region, transpose

import zarrs_codecs as z
from zarrs_codecs import Chain

GZIP = {"name": "gzip", "configuration": {"level": 5}}
ZSTD = {"name": "zstd", "configuration": {"level": 3, "checksum": False}}
BLOSC = {
    "name": "blosc",
    "configuration": {
        "cname": "lz4",
        "clevel": 5,
        "shuffle": "shuffle",
        "typesize": 4,
        "blocksize": 0,
    },
}
HAS_NUMCODECS = importlib.util.find_spec("numcodecs") is not None
numcodecs_alone = pytest.mark.skipif(not HAS_NUMCODECS, reason="python3-numcodecs isn't installed")
OUTER = [
    [GZIP],
    *(pytest.param(codecs, marks=numcodecs_alone) for codecs in ([ZSTD], [BLOSC], [BLOSC, GZIP])),
]


@pytest.mark.parametrize("outer", OUTER)
def test_round_the_chain(outer, rng):
    inner = Chain([transpose([1, 0]), LITTLE], (5, 6), "float32")
    chain = Chain([*inner.codecs, *outer], (5, 6), "float32")
    array = some(rng, "float32", chain.dtype, chain.shape).copy()
    value = chain.encode(array)
    assert value.dtype == np.uint8 and value.tobytes() != inner.encode(array).tobytes()
    same(chain.decode(value), array)
    region = some_region(rng, chain.shape)
    same(chain.read(value, region), array[region])
    same(chain.read(None, region), np.zeros_like(array[region]))
    assert chain.planned_ranges(region) is None
    file = RecordingFile(value)
    same(chain.read_from(file, region), array[region])
    written = chain.write(value, np.s_[1:3, ::2], 5)
    array[1:3, ::2] = 5
    same(chain.decode(written), array)
    same(chain.decode(chain.write(None, ..., array)), array)
    same(inner.decode(chain.reencode(written, inner.codecs)), array)
    same(chain.decode(inner.reencode(inner.encode(array), chain.codecs)), array)
    assert chain.unproved == tuple(codec["name"] for codec in outer) and inner.unproved == ()


def test_gzip_is_gzips_own():
    chain = Chain(["bytes", GZIP], (4,), "uint8")
    value = chain.encode(np.arange(4))
    assert gzip.decompress(value) == bytes(range(4))
    assert value.tobytes() == chain.encode(np.arange(4)).tobytes()
    assert chain.decode(gzip.compress(b"ab") + gzip.compress(b"cd")).tobytes() == b"abcd"


@numcodecs_alone
def test_blosc_shuffles_elements():
    rising = np.arange(10_000, dtype="<i4")
    sizes = []
    for shuffle, size in (("noshuffle", 4), ("shuffle", 1), ("shuffle", 4), ("bitshuffle", 4)):
        configuration = {**BLOSC["configuration"], "shuffle": shuffle, "typesize": size}
        chain = Chain(
            [LITTLE, {"name": "blosc", "configuration": configuration}], rising.shape, "int32"
        )
        value = chain.encode(rising)
        same(chain.decode(value), rising)
        sizes.append(value.size)
    assert max(sizes[2:]) < min(sizes[:2]) / 4


@numcodecs_alone
def test_texts_behind_a_bytes_codec():
    chain = Chain([VLEN, ZSTD], (3,), "string", "")
    array = np.array(["a", "", "ccc" * 100], object)
    same(chain.decode(chain.encode(array)), array)
    same(chain.read_from(io.BytesIO(chain.encode(array)), np.s_[1:]), array[1:])


@pytest.mark.parametrize("outer", OUTER)
def test_damaged_values(outer, rng):
    chain = Chain(["bytes", *outer], (64,), "uint8")
    value = chain.encode(some(rng, "uint8", chain.dtype, (64,)))
    for damaged in (b"", value[:-1], value[1:], b"nothing of the kind"):
        with pytest.raises(z.Refused):
            chain.decode(damaged)
    with pytest.raises(z.BytesCodec, match=outer[-1]["name"]):
        chain.decode(b"nothing of the kind")


def test_values_of_another_length():
    with pytest.raises(z.InvalidBytesLength):
        Chain(["bytes", GZIP], (4,), "uint8").decode(gzip.compress(bytes(5)))


@pytest.mark.parametrize(
    "codec",
    [
        "gzip",
        {"name": "gzip"},
        {"name": "gzip", "configuration": {}},
        {"name": "gzip", "configuration": {"level": 10}},
        {"name": "gzip", "configuration": {"level": "5"}},
        {"name": "gzip", "configuration": 5},
        *(
            pytest.param(
                {"name": "blosc", "configuration": {**BLOSC["configuration"], **wrong}},
                marks=numcodecs_alone,
            )
            for wrong in (
                {"cname": "zip"},
                {"shuffle": "none"},
                {"clevel": 10},
                {"clevel": "5"},
                {"typesize": 0},
            )
        ),
    ],
)
def test_configurations_that_are_none(codec):
    with pytest.raises(z.InvalidConfiguration):
        Chain(["bytes", codec], (4,), "uint8")


def test_only_codecs_at_the_end_are_pythons():
    for codecs in (
        [GZIP, "bytes"],
        ["bytes", GZIP, "adler32"],
        ["bytes", GZIP, transpose([0])],
        [{**VLEN, "configuration": {**VLEN["configuration"], "data_codecs": ["bytes", GZIP]}}],
    ):
        with pytest.raises(z.UnknownName):
            Chain(codecs, (4,), "string" if len(codecs) == 1 else "uint8")


def test_checksums_behind_codecs_of_python(rng):
    codecs = [LITTLE, "crc32c", GZIP, {"name": "crc32c"}]
    chain = Chain(codecs, (5, 6), "int16")
    array = some(rng, "int16", chain.dtype, chain.shape)
    value = chain.encode(array)
    zipped = Chain(codecs[:3], (5, 6), "int16").encode(array)
    assert value[:-4].tobytes() == zipped.tobytes()
    assert value.tobytes() == Chain(["bytes", "crc32c"], zipped.shape, "uint8").encode(zipped).tobytes()
    same(chain.decode(value), array)
    same(chain.read(value, np.s_[1:3, 2]), array[1:3, 2])
    same(chain.decode(chain.write(value, 0, 7)), np.concatenate([np.full((1, 6), 7, "<i2"), array[1:]]))
    assert chain.unproved == ("gzip",)
    for damaged in (b"", value[:4], value[:-1], value[1:], value ^ np.uint8(1)):
        with pytest.raises(z.BytesCodec, match="by codec 3, 'crc32c'"):
            chain.decode(damaged)
    with pytest.raises(z.Refused) as told:
        Chain([LITTLE, GZIP, {"name": "crc32c", "configuration": 5}], (5, 6), "int16")
    assert told.value.codec == (2, "crc32c")
    inner = {"chunk_shape": [5, 3], "codecs": codecs, "index_codecs": [LITTLE]}
    shards = Chain([{"name": "sharding_indexed", "configuration": inner}], (5, 6), "int16")
    same(shards.decode(shards.encode(array)), array)
    assert shards.unproved == ("sharding_indexed", "gzip")


def test_without_numcodecs():
    """Its codecs are unknown then."""
    code = f"""
import sys
sys.modules["numcodecs"] = None
import zarrs_codecs as z
for codec in ({ZSTD}, {BLOSC}):
    try:
        z.Chain(["bytes", codec], (4,), "uint8")
    except z.UnknownName:
        continue
    raise SystemExit("no refusal")
z.Chain(["bytes", {GZIP}], (4,), "uint8").encode([1, 2, 3, 4])
"""
    subprocess.run([sys.executable, "-c", code], check=True, timeout=600)
