"""What is refused or answered before it takes time or memory, whatever a `zarr.json` or a value claims."""

import gzip
import threading
import tracemalloc
import zlib

import numpy as np
import pytest
from samples import LITTLE, make_array, same, transpose
from test_sharding import GZIP, sharded

import zarrs_codecs as z
from zarrs_codecs import Array, Chain, _locating

ZSTD = {"name": "zstd", "configuration": {"level": 1, "checksum": False}}
BLOSC = {
    "name": "blosc",
    "configuration": {"cname": "lz4", "clevel": 5, "shuffle": "noshuffle", "typesize": 1, "blocksize": 0},
}


def peak(call):
    """What a call answers, and how many bytes were taken for it at a time."""
    tracemalloc.start()
    try:
        return call(), tracemalloc.get_traced_memory()[1]
    finally:
        tracemalloc.stop()


# -- answers of no elements


@pytest.mark.parametrize(
    "shape, chunks",
    [((0, 1 << 62), (1, 1 << 10)), ((1 << 62, 0), (1, 1)), ((0, 300_000), (1, 1)), ((1 << 40, 1 << 20, 0), (1, 1, 1))],
)
def test_arrays_of_no_elements(shape, chunks, tmp_path, monkeypatch):
    array = make_array(tmp_path / "a", shape, chunks, "int8", [LITTLE], 0)
    monkeypatch.setattr(array._chunks, "read", None)
    monkeypatch.setattr(array._chunks, "write", None)
    found, taken = peak(lambda: array[...])
    assert found.shape == shape and taken < 1 << 17
    array[...] = 5
    assert array.oindex[..., []].shape == (*shape[:-1], 0)


def test_indices_of_no_elements(tmp_path, monkeypatch):
    array = make_array(tmp_path / "a", (1 << 50, 1 << 50), (1, 1), "int8", [LITTLE], 0)
    monkeypatch.setattr(array._chunks, "read", None)
    for index in (np.s_[:, []], np.s_[[], ::-3], np.s_[5:5, ::2], np.s_[:, 7:7]):
        found, taken = peak(lambda index=index: array[index])
        assert 0 in found.shape and taken < 1 << 17
    assert array.oindex[:, []].shape == (1 << 50, 0)
    assert array.vindex[[], []].shape == (0,)


def test_reads_of_no_elements_of_a_chunk():
    chain = Chain([LITTLE], (4, 1 << 50), "int8")
    for index in (np.s_[0:0, ::2], np.s_[2:2, ::-7]):
        found, taken = peak(lambda index=index: chain.read(None, index))
        assert found.shape[0] == 0 and taken < 1 << 17


# -- where codecs are refused


@pytest.mark.parametrize(
    "refused, error, key",
    [
        ("nope", z.UnknownName, None),
        ({"name": "transpose", "configuration": {"order": [1, 1]}}, z.NotAPermutation, "order"),
        ({"name": "transpose", "configuration": {"ordr": [1, 0]}}, z.InvalidConfiguration, "order"),
    ],
)
@pytest.mark.parametrize("place", [0, 500, 999])
def test_the_place_in_a_long_list(refused, error, key, place, monkeypatch):
    """By some twenty questions, which are some 50 ms."""
    asked, bounded = [], _locating._bounded
    monkeypatch.setattr(
        _locating, "_bounded", lambda ask, codecs: bounded(lambda other: asked.append(other) or ask(other), codecs)
    )
    codecs = [transpose([1, 0])] * 1000
    codecs[place] = refused
    with pytest.raises(error) as caught:
        Chain([*codecs, LITTLE], (4, 4), "int16")
    assert caught.value.codec == (place, refused if isinstance(refused, str) else "transpose")
    assert caught.value.key in (key, None)
    assert len(asked) <= 60


def test_lists_in_lists():
    """The library says that they are too deep, and where isn't looked for without end."""
    codecs = [LITTLE]
    for _ in range(240):
        codecs = sharded([1, 1], codecs)
    with pytest.raises(z.Syntax):
        Chain(codecs, (1, 1), "int16")
    for _ in range(1000):
        codecs = sharded([1, 1], codecs)
    with pytest.raises(z.Syntax, match="too deeply"):
        Chain(codecs, (1, 1), "int16")


# -- what a `zarr.json` claims


@pytest.mark.parametrize("name", ["fixed_length_utf32", "null_terminated_bytes", "raw_bytes"])
def test_sizes_of_elements(name, tmp_path):
    named = {"name": name, "configuration": {"length_bytes": 1 << 20}}
    assert Chain([LITTLE], (1,), named).dtype.itemsize == 1 << 20
    for size in ((1 << 20) + 4, 100_000_000, (1 << 31) - 4):
        named["configuration"]["length_bytes"] = size

        def opened():
            with pytest.raises(z.UnsupportedDataType):
                make_array(tmp_path / f"{size}", [1], [1], named, [LITTLE], "")

        assert peak(opened)[1] < 1 << 20
    for size in ((1 << 23) + 8, 800_000_000):
        with pytest.raises(z.UnsupportedDataType):
            Chain([LITTLE], (1,), f"r{size}")


@pytest.mark.parametrize("name", ["r" + "8" * 5000, "r١٦", "int٨", "r08", "int08", "uint064", "float032", "r0", "r"])
def test_names_of_other_digits(name):
    with pytest.raises(z.UnsupportedDataType):
        Chain([LITTLE], (1,), name)


# -- values that open to more than is due


def compressed(codec, value):
    if codec == GZIP:
        return gzip.compress(value, 1)
    name = pytest.importorskip(f"numcodecs.{codec['name']}")
    return bytes((name.Zstd(1) if codec == ZSTD else name.Blosc("lz4", 5, 0)).encode(value))


@pytest.mark.parametrize("codec", [GZIP, ZSTD, BLOSC], ids=["gzip", "zstd", "blosc"])
@pytest.mark.parametrize("form", ["alone", "with a checksum", "twice", "in a shard", "bounded"])
def test_bombs(codec, form):
    value = compressed(codec, bytes(1 << 26))
    chain = Chain(["bytes", codec], (8,), "uint8")
    if form == "with a checksum":
        chain = Chain(["bytes", codec, "crc32c"], (8,), "uint8")
        value = Chain(["bytes", "crc32c"], (len(value),), "uint8").encode(np.frombuffer(value, "u1"))
    if form == "twice":
        chain, value = Chain(["bytes", codec, codec], (8,), "uint8"), compressed(codec, value)
        value = compressed(codec, bytes(1 << 26)) if codec == BLOSC else value
    if form == "in a shard":
        chain = Chain(sharded([8], ["bytes", codec]), (8,), "uint8")
        value = value + np.array([0, len(value)], "<u8").tobytes()
    if form == "bounded":
        optional = {"name": "zarrs.optional", "configuration": {"mask_codecs": ["bytes"], "data_codecs": ["bytes"]}}
        chain = Chain([optional, codec], (8,), {"optional": "uint8"})

    def opened(read):
        with pytest.raises((z.InvalidBytesLength, z.BytesCodec)):
            read()

    for read in (lambda: chain.decode(value), lambda: chain.read(value, 0), lambda: chain.write(value, 0, 1)):
        assert peak(lambda read=read: opened(read))[1] < 1 << 22


@pytest.mark.parametrize("codec", [GZIP, ZSTD, BLOSC], ids=["gzip", "zstd", "blosc"])
def test_values_of_the_due_length_and_one_more(codec, rng):
    for size in (2, 255, 256, 300, 65_535, 65_536, 70_000, 1 << 20):
        value = rng.bytes(size)
        stored = compressed(codec, value)
        assert Chain(["bytes", codec], (size,), "uint8").decode(stored).tobytes() == value
        for other in (value + b"\0", value[:-1]):
            with pytest.raises(z.InvalidBytesLength, match="bytes, where"):
                Chain(["bytes", codec], (size,), "uint8").decode(compressed(codec, other))


@pytest.mark.parametrize("codec", [GZIP, ZSTD, BLOSC], ids=["gzip", "zstd", "blosc"])
def test_a_shard_with_gaps_that_is_compressed_whole(codec):
    index = np.array([[0, 1], [3, 1]], "<u8").tobytes()
    stored = compressed(codec, b"\x07\0\0\x08" + index)
    chain = Chain([*sharded([1], ["bytes"]), codec], (2,), "uint8", 0)
    assert chain.decode(stored).tolist() == [7, 8]


def test_members_of_gzip():
    chain = Chain(["bytes", GZIP], (4,), "uint8")
    ab, cd = gzip.compress(b"ab"), gzip.compress(b"cd")
    for value in (ab + cd, ab + cd + bytes(9), ab + bytes(3) + cd, gzip.compress(b"") + ab + cd):
        assert chain.decode(value).tobytes() == b"abcd" == gzip.decompress(value)
    for value in (ab, ab + cd + gzip.compress(b"e"), b""):
        with pytest.raises(z.InvalidBytesLength):
            chain.decode(value)
    for value in (ab + cd[:-1], ab + cd + b"x", ab + cd[:12], ab[:-8] + b"xxxx" + ab[-4:] + cd, b"\0" + ab + cd):
        with pytest.raises(z.BytesCodec):
            chain.decode(value)
        with pytest.raises((OSError, EOFError, zlib.error)):
            gzip.decompress(value)


# -- threads


def test_parts_are_handed_to_threads_a_few_at_a_time(tmp_path):
    array = make_array(tmp_path / "a", (30_000,), (1,), "int8", [LITTLE], 7)
    lent = Array(tmp_path / "a", threads=3)
    handed, done, ahead, lock = [0], [0], [0], threading.Lock()

    def parts():
        for number in range(500):
            handed[0] += 1
            yield (number,)

    def call(number):
        with lock:
            ahead[0] = max(ahead[0], handed[0] - done[0])
            done[0] += 1

    lent._chunks.each(call, parts())
    assert done == [500] and ahead[0] <= 6
    same(lent[::10], array[::10])
    assert peak(lambda: lent[...])[1] < 4 * peak(lambda: array[...])[1] + (1 << 20)


def test_the_first_of_several_exceptions(tmp_path):
    array = make_array(tmp_path / "a", (4,), (1,), "int8", [LITTLE], 7)
    chunks = Array(tmp_path / "a", threads=2)._chunks
    begun, both = [], threading.Barrier(2)

    def call(number):
        begun.append(number)
        if number < 2:
            both.wait()
        raise ValueError(number)

    with pytest.raises(ValueError, match="^0$"):
        chunks.each(call, ((number,) for number in range(100)))
    assert sorted(begun) == [0, 1] and array[0] == 7

    def broken():
        yield (5,)
        raise KeyError("parts")

    with pytest.raises(KeyError, match="parts"):
        chunks.each(lambda number: None, broken())
