"""Shards: worked values of the codec `sharding_indexed`, random ones beside numpy, what a read asks for, and damage.

The library runs the codec; where inner chunks have codecs of Python, Python cuts the chunk. What both do is tested of both.
"""

import gzip
import pickle

import numpy as np
import pytest
from samples import (
    LITTLE,
    VLEN,
    RecordingFile,
    make_array,
    optional,
    same,
    same_masked,
    some,
    some_index,
    some_region,
    some_rows,
    some_texts,
    transpose,
)

import zarrs_codecs as z
from zarrs_codecs import Array, Chain
from zarrs_codecs._sharding import ShardCoder
from zarrs_codecs.chain import coder_in, cut_chain

GZIP = {"name": "gzip", "configuration": {"level": 1}}
PACKED = {"name": "packbits", "configuration": {"last_bit": 3}}


def sharded(chunk_shape, codecs, index_codecs=(LITTLE,), **more):
    said = {"chunk_shape": list(chunk_shape), "codecs": list(codecs), "index_codecs": list(index_codecs), **more}
    return [{"name": "sharding_indexed", "configuration": said}]


EACH = pytest.mark.parametrize("make", [Chain, cut_chain])


@EACH
def test_a_value_with_its_index_behind(make):
    chain = make(sharded([2, 2], ["bytes", "crc32c"], [LITTLE, "crc32c"]), (4, 4), "uint8", 0)
    chunk = np.array([[1, 2, 0, 0], [3, 4, 0, 0], [0, 0, 0, 0], [0, 0, 0, 9]], "u1")
    value = chain.encode(chunk)
    assert bytes(value).hex() == (
        "01020304f48c3029000000090b90d53000000000000000000800000000000000ffffffffffffffffffffffffffffffff"
        "ffffffffffffffffffffffffffffffff080000000000000008000000000000006729498b"
    )
    same(chain.decode(value), chunk)
    same(chain.read(value, np.s_[2:, 2:]), chunk[2:, 2:])
    written = chain.write(None, (3, 3), 9)
    assert bytes(written).hex() == (
        "000000090b90d530ffffffffffffffffffffffffffffffffffffffffffffffffffffffffffffffffffffffffffffffff"
        "ffffffffffffffff00000000000000000800000000000000469ca9c0"
    )
    assert chain.unproved == (() if make is Chain else ("sharding_indexed",))
    assert chain.representation == ("bounded", 4 * 8 + 68)


def test_codecs_in_a_tuple():
    inner = {"chunk_shape": (2, 2), "codecs": (LITTLE, GZIP), "index_codecs": (LITTLE,)}
    chain = Chain(({"name": "sharding_indexed", "configuration": inner},), (4, 4), "int16", 7)
    chunk = np.arange(16, dtype="<i2").reshape(4, 4)
    same(chain.decode(chain.encode(chunk)), chunk)
    assert chain.unproved == ("sharding_indexed", "gzip") and chain.codecs == sharded([2, 2], [LITTLE, GZIP])


@EACH
def test_a_value_with_its_index_before(make):
    chain = make(sharded([2, 4], ["bytes"], index_location="start"), (4, 4), "uint8", 255)
    chunk = np.array([[255] * 4, [255] * 4, [1, 2, 3, 4], [5, 6, 7, 8]], "u1")
    value = chain.encode(chunk)
    assert bytes(value).hex() == (
        "ffffffffffffffffffffffffffffffff200000000000000008000000000000000102030405060708"
    )
    same(chain.read(value, [[3, 0], [0, 0], [2, 3]]), np.array([5, 255, 4], "u1"))
    damaged = value.copy()
    damaged[24] = 9
    with pytest.raises(z.InvalidByteRange, match="inner chunk 1"):
        chain.decode(damaged)
    same(chain.read(damaged, [[0, 0]]), np.array([255], "u1"))
    with pytest.raises(z.InvalidBytesLength):
        chain.decode(b"\0")


@EACH
def test_shards_in_shards(make):
    inside = sharded([1], [LITTLE])
    chain = make(sharded([2], inside), (4,), "uint16", 0)
    value = chain.encode([0, 1, 0, 0])
    assert bytes(value).hex() == (
        "0100ffffffffffffffffffffffffffffffff0000000000000000020000000000000000000000000000002200000000000000"
        "ffffffffffffffffffffffffffffffff"
    )
    same(chain.decode(value), np.array([0, 1, 0, 0], "u2"))
    same(chain.read(value, np.s_[::-1]), np.array([0, 0, 1, 0], "u2"))
    assert chain.unproved == (() if make is Chain else ("sharding_indexed",))


def test_texts_behind_an_order_of_the_axes():
    chain = Chain([transpose([1, 0]), *sharded([1, 2], ["vlen-utf8"])], (2, 2), "string", "")
    array = np.array([["a", ""], ["bc", ""]], object)
    value = chain.encode(array)
    assert bytes(value).hex() == (
        "02000000010000006102000000626300000000000000000f00000000000000ffffffffffffffffffffffffffffffff"
    )
    same(chain.decode(value), array)
    assert chain.unproved == () and chain.representation == ("unbounded", None)


@pytest.mark.parametrize(
    "shape, codecs, fill, refusal",
    [
        ((4, 4), sharded([2], ["bytes"]), 0, z.IncompatibleDimensionality),
        ((4, 4), sharded([3, 2], ["bytes"]), 0, z.IndivisibleShape),
        ((4, 4), sharded([0, 2], ["bytes"]), 0, z.ZeroSize),
        ((4, 4), sharded([2, 2], ["bytes"], sharded([1, 1, 2], [LITTLE])), 0, z.IndexNotFixed),
        ((4, 4), sharded([2, 2], ["bytes"], [LITTLE, GZIP]), 0, z.UnknownName),
        ((4, 4), sharded([2, 2], ["bytes", GZIP], [LITTLE, GZIP]), 0, z.IndexNotFixed),
        ((4, 4), sharded([2, 2], [PACKED]), 255, z.InvalidFillValue),
        ((4, 4), sharded([2, 2], ["bytes"], index_location="middle"), 0, z.InvalidConfiguration),
        ((4, 4), sharded([2, -2], ["bytes"]), 0, z.InvalidConfiguration),
        ((4, 4), sharded([2, 2], [transpose([0])]), 0, z.MissingArrayToBytes),
        ((4, 4), sharded([2, 2], ["adler32", "bytes"]), 0, z.UnknownName),
        ((4, 4), sharded([2, 2], ["bytes"], ["bytes"]), 0, z.EndiannessMissing),
        ((4, 4), [{"name": "sharding_indexed"}], 0, z.InvalidConfiguration),
    ],
)
def test_what_is_refused(shape, codecs, fill, refusal, tmp_path):
    with pytest.raises(refusal) as refused:
        make_array(tmp_path / "a", shape, shape, "uint8", codecs, fill)
    assert refused.value.codec == (0, "sharding_indexed") and refused.value.path == tmp_path / "a" / "zarr.json"
    with pytest.raises(refusal) as refused:
        Chain(codecs, shape, "uint8", fill)
    assert refused.value.codec == (0, "sharding_indexed")


def test_a_refusal_says_where():
    with pytest.raises(z.UnknownName, match=r"by codec 0, 'sharding_indexed', in its codecs\[1\], 'adler32'"):
        cut_chain(sharded([2], ["bytes", "adler32"]), (4,), "uint8")


@EACH
def test_lossy_inner_chunks_are_left_out_by_their_normal_forms(make):
    chain = make(sharded([2], [PACKED]), (4,), "uint8", 1)
    assert bytes(chain.encode([0x11, 0xF1, 1, 2])) == bytes(chain.encode([1, 1, 1, 2]))
    same(chain.decode(chain.encode([0x11, 0xF1, 1, 2])), np.array([1, 1, 1, 2], "u1"))


ALONE = [
    ("int16", [transpose([1, 0]), LITTLE], -3),
    ("float64", [LITTLE, "crc32c"], "NaN"),
    ("bool", ["packbits"], True),
    ("string", ["vlen-utf8"], "?"),
    ("string", [VLEN], ""),
    ({"optional": "int16"}, [optional(LITTLE)], None),
    ("uint8", [{"name": "packbits", "configuration": {"first_bit": 2, "last_bit": 4}}], 12),
    ("int32", sharded([1, 3], [LITTLE, "crc32c"], index_location="start"), 7),
]


def chunk_of(rng, name, chain):
    """Random elements, most of them the fill value."""
    fill = chain.read(None, (0,) * len(chain.shape))
    array = chain.read(None, ...)
    for _ in range(rng.integers(4)):
        place = some_region(rng, chain.shape)
        shape = array[place].shape
        if name == "string":
            array[place] = some_texts(rng, shape)
        elif isinstance(name, dict):
            array[place] = np.ma.MaskedArray(some(rng, "int16", np.dtype("i2"), shape), rng.integers(2, size=shape))
        else:
            array[place] = np.where(rng.integers(3, size=shape) == 0, fill, some(rng, name, chain.dtype, shape))
    return array


@pytest.mark.parametrize("location", ["start", "end"])
@pytest.mark.parametrize("name, codecs, fill", ALONE)
def test_the_library_and_python_agree(name, codecs, fill, location, rng):
    """Random chunks, reads and writes: the same values and elements."""
    alike = same_masked if isinstance(name, dict) else same
    for _ in range(25):
        grid = rng.integers(1, 4, 2)
        said = sharded([2, 3], codecs, [LITTLE, "crc32c"] if rng.integers(2) else [LITTLE], index_location=location)
        form = said, tuple(int(size) for size in grid * [2, 3]), name, fill
        whole, parts = Chain(*form), cut_chain(*form)
        array = chunk_of(rng, name, whole)
        value = whole.encode(array)
        kept = whole.decode(value)
        if "packbits" not in str(codecs):
            alike(kept, array)
        index, rows = some_index(rng, whole.shape), some_rows(rng, whole.shape)
        new = chunk_of(rng, name, whole)[index]
        written = whole.write(value, index, new)
        same(parts.encode(array), value)
        alike(parts.decode(value), kept)
        for selection in (index, rows, ...):
            alike(parts.read(value, selection), whole.read(value, selection))
            alike(parts.read_from(RecordingFile(value), selection), whole.read(value, selection))
            alike(parts.read(None, selection), whole.read(None, selection))
        same(parts.write(value, index, new), written)
        same(parts.write(None, index, new), whole.write(None, index, new))
        other = [LITTLE] if isinstance(name, str) and name != "string" else said
        same(parts.reencode(value, other), whole.reencode(value, other))


def test_chains_with_codecs_of_python_inside(rng):
    array = some(rng, "int16", np.dtype("i2"), (4, 4)).copy()
    array[:2, :2] = 5
    said = sharded([2, 2], [LITTLE, GZIP])
    chain = Chain(said, (4, 4), "int16", 5)
    assert isinstance(coder_in(chain), ShardCoder) and chain.unproved == ("sharding_indexed", "gzip")
    value = chain.encode(array)
    same(chain.decode(value), array)
    same(pickle.loads(pickle.dumps(chain)).decode(value), array)
    whole = Chain(sharded([2, 2], [LITTLE]), (4, 4), "int16", 5)
    assert type(whole) is Chain
    same(chain.reencode(value, whole.codecs), whole.encode(array))
    same(whole.reencode(whole.encode(array), said), value)
    with pytest.raises(z.UnknownName, match="Python runs gzip"):
        Chain([{"name": "reshape", "configuration": {"shape": [4, 4]}}, *said], (4, 4), "int16")


def test_an_array_whose_shards_stand_between_other_codecs(tmp_path, rng):
    codecs = [transpose([1, 0]), *sharded([3, 2], [LITTLE, "crc32c"]), "crc32c"]
    array = Array.create(tmp_path / "a", (5, 7), (4, 6), "int16", fill_value=-1, codecs=codecs)
    beside = np.full((5, 7), -1, "i2")
    for _ in range(20):
        index = some_index(rng, array.shape)
        new = some(rng, "int16", np.dtype("i2"), beside[index].shape)
        array[index] = beside[index] = new[()]
        index = some_index(rng, array.shape)
        same(Array(tmp_path / "a")[index], beside[index])
    assert array.chain.unproved == () and array.info["Python's codecs"] == []


INSIDE = [
    ("int16", [transpose([1, 0]), LITTLE, GZIP], -3),
    ("float64", [LITTLE, "crc32c"], "NaN"),
    ("bool", ["packbits", GZIP], True),
    ("string", ["vlen-utf8", GZIP], "?"),
    ("string", [VLEN], ""),
    ({"optional": "int16"}, [optional(LITTLE)], None),
]


@pytest.mark.parametrize("location", ["start", "end"])
@pytest.mark.parametrize("name, codecs, fill", INSIDE)
def test_as_numpy_does(name, codecs, fill, location, tmp_path, rng):
    """Random reads and writes of an array of shards, and of numpy's array beside it."""
    codecs = sharded([2, 3], codecs, [LITTLE, "crc32c"], index_location=location)
    array = Array.create(tmp_path / "a", (9, 13), (4, 6), name, fill_value=fill, codecs=codecs)
    beside = array[...]
    alike = same_masked if isinstance(name, dict) else same
    for _ in range(40):
        index = some_index(rng, array.shape)
        if rng.integers(2):
            shape = np.shape(beside[index])
            new = some_texts(rng, shape) if name == "string" else some(rng, "int16", np.dtype("i2"), shape)
            new = new if name in ("string", "int16") or isinstance(name, dict) else new.astype(array.dtype)
            new = beside[index] if rng.integers(4) == 0 else new[()]
            array[index] = new
            beside[index] = new
        alike(array[index], beside[index])
        rows = some_rows(rng, array.shape, 7)
        alike(array.vindex[rows[:, 0], rows[:, 1]], beside[rows[:, 0], rows[:, 1]])
    alike(Array(tmp_path / "a")[...], beside)
    alike(pickle.loads(pickle.dumps(array))[...], beside)


def test_a_read_asks_for_the_index_and_its_inner_chunks(rng):
    chain = cut_chain(sharded([4, 4], ["bytes", GZIP]), (16, 16), "uint8", 7)
    chunk = some(rng, "uint8", np.dtype("u1"), (16, 16)).copy()
    chunk[4:8, 4:8] = 7
    value = chain.encode(chunk)
    file = RecordingFile(value)
    same(chain.read_from(file, np.s_[3:6, 5:6]), chunk[3:6, 5:6])
    first, last = (np.frombuffer(bytes(value[-256:]), "<u8").reshape(4, 4, 2)[at, 1].tolist() for at in (0, 1))
    assert last == [2**64 - 1] * 2
    index = set(range(value.size - 256, value.size))
    assert file.seen == index | set(range(first[0], sum(first)))


@pytest.mark.parametrize(
    "kind, codec, texts",
    [("string", "vlen-utf8", ["abcdef", "gh"]), ("bytes", "vlen-bytes", [b"ab\0", b"\0"]), ("string", VLEN, ["", "i"])],
)
def test_a_chunk_without_axes_is_written_by_rows(kind, codec, texts):
    chain = cut_chain(sharded([], [codec, GZIP]), (), kind)
    for count in (1, 2):
        value = chain.write(None, np.zeros((count, 0), int), texts[:count])
        assert chain.decode(value)[()] == texts[count - 1]


def test_a_moment_without_axes_is_written_by_rows():
    chain = cut_chain(sharded([], [optional(LITTLE), GZIP]), (), {"optional": np.dtype("M8[s]")})
    moment = np.ma.MaskedArray(np.array([np.datetime64(5, "s")]), [False])
    same_masked(chain.decode(chain.write(None, np.zeros((1, 0), int), moment)), moment[0:1].reshape(()))


@EACH
def test_inner_chunks_in_any_order_with_gaps_and_twice(make):
    chain = make(sharded([2], ["bytes"]), (6,), "uint8", 0)
    parts = b"\7\7zz\1\2x"
    index = np.array([[4, 2], [0, 2], [4, 2]], "<u8").tobytes()
    same(chain.decode(parts + index), np.array([1, 2, 7, 7, 1, 2], "u1"))
    written = chain.write(parts + index, 0, 9)
    assert bytes(written[:6]) == b"\x09\2\7\7\1\2"


@EACH
def test_damage_of_each_byte(make):
    chain = make(sharded([2], ["bytes", "crc32c"], [LITTLE, "crc32c"]), (6,), "uint8", 0)
    value = chain.encode([1, 2, 0, 0, 3, 4])
    for place in range(value.size):
        damaged = value.copy()
        damaged[place] ^= 1
        with pytest.raises(z.BytesCodec):
            chain.decode(damaged)
    for size in range(value.size):
        with pytest.raises((z.InvalidBytesLength, z.BytesCodec)):
            chain.decode(value[:size])


def test_a_write_leaves_the_bytes_of_other_inner_chunks():
    chain = cut_chain(sharded([2], ["bytes", GZIP]), (4,), "uint8", 0)
    other = gzip.compress(b"\5\6", 9, mtime=1)
    index = np.array([[0, len(other)], [2**64 - 1] * 2], "<u8").tobytes()
    written = bytes(chain.write(other + index, 3, 8))
    assert written.startswith(other)
    same(chain.decode(written), np.array([5, 6, 0, 8], "u1"))
    with pytest.raises(z.NotInPlace):
        held = bytearray(written)
        chain.write(held, 3, 8, out=held)


def refusals_of(chain, value):
    """What each call refuses that reads all of a value."""
    for call in (
        lambda: chain.decode(value),
        lambda: chain.read(value, np.s_[::-1]),
        lambda: chain.read_from(RecordingFile(value), ...),
        lambda: chain.read_many(value, [0, ...]),
        lambda: chain.write(value, ..., 1) if chain.unproved == () else chain.write(value, np.s_[1:], 1),
        lambda: chain.reencode(value, [LITTLE]),
    ):
        with pytest.raises(z.Refused) as refused:
            call()
        yield refused.value


@pytest.mark.parametrize("codec, said", [(GZIP, "gzip"), ("crc32c", "crc32c")])
def test_refusals_say_the_codec_inside_and_the_inner_chunk(codec, said):
    chain = Chain(sharded([2], ["bytes", codec], [LITTLE, "crc32c"]), (8,), "uint8", 0)
    value = chain.encode(np.arange(1, 9, dtype="u1"))
    # an index of four entries and a checksum has 68 bytes
    third = int(np.frombuffer(bytes(value[-68:]), "<u8", 8).reshape(4, 2)[2, 0])
    for place, key, number in ((third, "codecs", 2), (value.size - 5, "index_codecs", None)):
        damaged = value.copy()
        damaged[place] ^= 1
        for refused in refusals_of(chain, damaged):
            name = said if key == "codecs" else "crc32c"
            assert type(refused) is z.BytesCodec
            assert refused.codec == (0, "sharding_indexed") and refused.inner == ((key, 1, name),)
            assert f"in its {key}[1], {name!r}" in str(refused)
            assert ("of inner chunk" in str(refused)) == (number is not None)
            assert number is None or f"of inner chunk {number}, by" in str(refused)
    for refused in refusals_of(chain, value[:67]):
        assert str(refused) == "67 bytes, where the index has 68, by codec 0, 'sharding_indexed'"
    with pytest.raises(z.OutOfBounds) as refused:
        chain.read_from(RecordingFile(value), [[8]])
    assert refused.value.codec is None


def test_each_shard_around_says_which_inner_chunk():
    """Number 1 of the inner shards, and number 12 in it."""
    chain = Chain(sharded([16], sharded([1], ["bytes", GZIP])), (32,), "uint8", 0)
    value = chain.encode(np.arange(1, 33, dtype="u1"))
    second = int(np.frombuffer(bytes(value[-32:]), "<u8").reshape(2, 2)[1, 0])
    each = len(gzip.compress(b"a", 1))
    value[second + 12 * each] ^= 1
    with pytest.raises(z.BytesCodec, match="of inner chunk 12, of inner chunk 1, by codec 0") as refused:
        chain.decode(value)
    assert refused.value.inner == (("codecs", 0, "sharding_indexed"), ("codecs", 1, "gzip"))


def test_one_of_many_inner_chunks_is_found_by_halves(monkeypatch):
    """Of 4,096 with five bytes each; Python opens 256 of them at most."""
    chain = Chain(sharded([1], ["bytes", "crc32c"]), (4096,), "uint8", 0)
    value = chain.encode(np.full(4096, 7, "u1"))
    value[5 * 3001] ^= 1
    opened, once = [], ShardCoder._opened
    monkeypatch.setattr(ShardCoder, "_opened", lambda *given: opened.append(given[1]) or once(*given))
    rows = np.arange(4095, -1, -1)[:, np.newaxis]
    for selection in (..., np.s_[::-2], rows):
        file = RecordingFile(value)
        with pytest.raises(z.BytesCodec, match="of inner chunk 3001, by"):
            chain.read_from(file, selection)
        with pytest.raises(z.BytesCodec, match="of inner chunk 3001, by"):
            chain.read(value, selection)
        assert len(opened) <= 2 * 256 and set(opened) <= set(range(2400, 3600))
        opened.clear()


def test_refusals_of_files_say_which(tmp_path):
    codecs = sharded([2], ["bytes", "crc32c"])
    array = Array.create(tmp_path / "a", (4,), (4,), "uint8", codecs=codecs)
    array[...] = [1, 2, 3, 4]
    path = array.chunk_path((0,))
    stored = bytearray(path.read_bytes())
    stored[0] ^= 1
    path.write_bytes(stored)
    same(array[2:], np.array([3, 4], "u1"))
    with pytest.raises(z.BytesCodec, match="inner chunk 0") as refused:
        array[:]
    assert refused.value.path == path
    assert array.info["Python's codecs"] == [] and array.info["codecs"] == ["sharding_indexed"]
