"""Random arrays of zarr-python, written and edited by one pipeline and read by the other, beside numpy."""

import numpy as np
import pytest
from pipelines import IS_3_0, OURS, STORES, THEIRS, counted, made, opened, same_bits, some_store
from samples import NUMERIC, some, some_texts

from zarr.codecs import (
    BloscCodec,
    BytesCodec,
    Crc32cCodec,
    GzipCodec,
    ShardingCodec,
    TransposeCodec,
    VLenBytesCodec,
    VLenUTF8Codec,
    ZstdCodec,
)
from zarr.storage import MemoryStore

pytestmark = pytest.mark.filterwarnings("ignore")


def shard(*codecs, of=(2, 3), **more):
    return ShardingCodec(chunk_shape=of, codecs=codecs or [BytesCodec()], **more)


# what stands before, the array-to-bytes codec, and what stands behind
LISTS = {
    "bytes": ([], BytesCodec(), []),
    "big": ([], BytesCodec(endian="big"), []),
    "transpose": ([TransposeCodec(order=(1, 0))], BytesCodec(), []),
    "crc32c": ([], BytesCodec(), [Crc32cCodec()]),
    "gzip": ([], BytesCodec(), [GzipCodec(level=1)]),
    "zstd": ([], BytesCodec(), [ZstdCodec(level=1, checksum=True)]),
    "blosc": ([], BytesCodec(), [BloscCodec(cname="lz4", shuffle="bitshuffle")]),
    "several": ([TransposeCodec(order=(1, 0))], BytesCodec(endian="big"), [ZstdCodec(level=1), Crc32cCodec()]),
    "shards": ([], shard(), []),
    "shards, index at the start": ([], shard(BytesCodec(), Crc32cCodec(), index_location="start"), []),
    "shards of zstd": ([], shard(BytesCodec(), ZstdCodec(level=1)), []),
    "shards of transposed blosc": ([], shard(TransposeCodec(order=(1, 0)), BytesCodec(), BloscCodec(cname="zstd")), []),
    "transposed shards": ([TransposeCodec(order=(1, 0))], shard(of=(4, 2)), []),
    "shards behind a checksum": ([], shard(), [Crc32cCodec()]),
    "shards in shards": ([], shard(shard(), of=(4, 6)), []),
    "shards in shards of zstd": ([], shard(shard(BytesCodec(), ZstdCodec(level=1)), of=(4, 6)), []),
}
# zarr-python 3.0 reads no part of the former, and writes no inner chunk of fill values of the latter
NOT_THEIRS = {"shards in shards", "shards in shards of zstd", "shards behind a checksum", "transposed shards"}
NOT_THEIRS = NOT_THEIRS if IS_3_0 else set()
FILLS = {"b": [False, True], "i": [0, -3], "u": [0, 7], "f": [0, -0.0, np.nan, 1.5], "c": [0, complex(1.5, -np.inf)]}
KINDS = [*NUMERIC, "string", "bytes"]


def some_array(rng, codecs, name, kind, folder, path):
    """A random array, of which nothing is stored, and what is in it."""
    before, coded, behind = LISTS[codecs]
    shape = tuple(int(size) for size in rng.integers(1, 26, 2))
    chunks = (8, 12) if "shards" in codecs else tuple(int(size) for size in rng.integers(1, 10, 2))
    if name in ("string", "bytes"):
        fill = {"string": ["", "fill ä"], "bytes": [b""]}[name][int(rng.integers(2 if name == "string" else 1))]
        dtype = str if name == "string" else "bytes" if IS_3_0 else "variable_length_bytes"
        expected = np.full(shape, fill, object)
    else:
        dtype = np.dtype(name)
        fill = dtype.type(rng.choice(np.array(FILLS[dtype.kind], object)))
        expected = np.full(shape, fill, dtype)
    more = {"filters": before, "serializer": coded, "compressors": behind, "fill_value": fill}
    more["config"] = {"write_empty_chunks": bool(rng.integers(2)), "order": str(rng.choice(["C", "F"]))}
    array = made(some_store(kind, folder), path, shape=shape, chunks=chunks, dtype=dtype, **more)
    return array, expected


def some_elements(rng, expected, name, shape):
    """Random elements, of which some are fill values all together."""
    if name in ("string", "bytes"):
        return some_texts(rng, shape, "" if name == "string" else b"")
    return some(rng, name, expected.dtype, shape)


def some_slices(rng, shape, steps=(1, 1, 2)):
    ends = [sorted(rng.integers(0, size + 1, 2).tolist()) for size in shape]
    return tuple(slice(first, last, int(rng.choice(steps))) for first, last in ends)


def places(rng, size, count):
    return rng.integers(0, size, count).tolist()


def edited(rng, array, expected, name):
    """Edits of all kinds, in an array and in what is due of it."""
    for _ in range(3):
        index = some_slices(rng, array.shape)
        new = some_elements(rng, expected, name, expected[index].shape)
        array[index] = new
        expected[index] = new
    rows, columns = places(rng, array.shape[0], 3), places(rng, array.shape[1], 3)
    new = some_elements(rng, expected, name, (3,))
    # of a place that comes twice nothing is promised
    if len(set(zip(rows, columns, strict=True))) == 3:
        array.vindex[rows, columns] = new
        expected[rows, columns] = new
    index = int(rng.integers(array.shape[0])), some_slices(rng, array.shape[1:])[0]
    one = some_elements(rng, expected, name, (1,))[0]
    array[index] = one
    expected[index] = one


def read(rng, array, expected):
    """Reads of all kinds, of an array and of what is due of it."""
    same_bits(array[...], expected)
    for _ in range(3):
        index = some_slices(rng, array.shape)
        same_bits(array[index], expected[index])
    row, column = (int(rng.integers(size)) for size in array.shape)
    same_bits(array[row], expected[row])
    same_bits(array[row, column], expected[row, column])
    rows, columns = (sorted(set(places(rng, size, 4))) for size in array.shape)
    same_bits(array.oindex[rows, columns], expected[np.ix_(rows, columns)])
    same_bits(array.oindex[rows, 2:9], expected[rows, 2:9])
    same_bits(array.oindex[row, columns], expected[row, columns])
    rows, columns = places(rng, array.shape[0], 5), places(rng, array.shape[1], 5)
    same_bits(array.vindex[rows, columns], expected[rows, columns])
    mask = rng.random(array.shape) < 0.2
    same_bits(array.get_mask_selection(mask), expected[mask])


@pytest.mark.parametrize("kind", STORES)
@pytest.mark.parametrize("codecs", LISTS)
def test_arrays_of_numbers(codecs, kind, rng, tmp_path):
    for number, name in enumerate(rng.permutation(NUMERIC)[:4]):
        array, expected = some_array(rng, codecs, name, kind, tmp_path / str(number), (OURS, THEIRS)[number % 2])
        ours, theirs = opened(array, OURS), opened(array, THEIRS)
        for writer in (ours, ours) if codecs in NOT_THEIRS else (ours, theirs, ours):
            edited(rng, writer, expected, name)
            read(rng, ours, expected)
            if codecs not in NOT_THEIRS:
                same_bits(theirs[...], expected)


TEXTS = {
    "alone": ([], None, []),
    "zstd": ([], None, [ZstdCodec(level=1)]),
    "crc32c": ([], None, [Crc32cCodec()]),
    "shards": ([], "shards", []),
}


@pytest.mark.parametrize("kind", STORES)
@pytest.mark.parametrize("codecs", TEXTS)
@pytest.mark.parametrize("name", ["string", "bytes"])
def test_arrays_of_texts(name, codecs, kind, rng, tmp_path, monkeypatch):
    before, coded, behind = TEXTS[codecs]
    variable = VLenUTF8Codec() if name == "string" else VLenBytesCodec()
    LISTS[f"{codecs} texts"] = before, shard(variable) if coded else variable, behind
    try:
        array, expected = some_array(rng, f"{codecs} texts", name, kind, tmp_path, OURS)
    finally:
        del LISTS[f"{codecs} texts"]
    ours, theirs = opened(array, OURS), opened(array, THEIRS)
    edited(rng, ours, expected, name)
    read(rng, ours, expected)
    same_bits(theirs[...], expected)
    new = some_elements(rng, expected, name, array.shape)
    theirs[...] = new
    read(rng, ours, new)


@pytest.mark.skipif(IS_3_0, reason="zarr-python 3.0 has no such types")
@pytest.mark.parametrize("dtype", ["M8[s]", "M8[10ms]", "m8[us]", "U4", "S3", "V2", ">i4", ">f8", ">M8[s]"])
@pytest.mark.parametrize("shards", [None, (8, 6)])
def test_types_of_numpys_with_a_configuration(dtype, shards, rng, tmp_path):
    dtype = np.dtype(dtype)
    array = made(MemoryStore(), shape=(13, 7), chunks=(4, 3), shards=shards, dtype=dtype)
    if dtype.kind in "US":
        texts = np.array(["", "a", "ab", "xyz"]).astype(dtype)
        expected = texts[rng.integers(0, 4, (13, 7))]
    else:
        expected = np.frombuffer(rng.bytes(13 * 7 * dtype.itemsize), dtype).reshape(13, 7).copy()
    array[...] = expected
    theirs = opened(array, THEIRS)
    same_bits(theirs[...], expected)
    array[3:9, 2] = expected[3:9, 2] = expected[4:10, 3]
    read(rng, array, expected)
    same_bits(theirs[...], expected)


def test_axes_of_all_numbers(rng):
    for axes in range(6):
        shape = tuple(int(size) for size in rng.integers(1, 5, axes))
        chunks = tuple(max(size - 1, 1) for size in shape)
        array = made(MemoryStore(), shape=shape, chunks=chunks, dtype="f4", fill_value=np.nan)
        expected = np.full(shape, np.nan, "f4")
        same_bits(array[...], expected)
        array[...] = 5
        expected[...] = 5
        same_bits(opened(array, THEIRS)[...], expected)
        new = rng.random(shape).astype("f4")
        array[...] = new
        same_bits(array[...], new)
        same_bits(opened(array, THEIRS)[...], new)


COMPRESSORS = {
    "none": None,
    "zstd": {"id": "zstd", "level": 1},
    "gzip": {"id": "gzip", "level": 1},
    "blosc": {"id": "blosc", "cname": "lz4", "clevel": 5, "shuffle": 1, "blocksize": 0},
    "blosc by the size": {"id": "blosc", "cname": "zstd", "clevel": 1, "shuffle": -1, "blocksize": 0},
    "zlib": {"id": "zlib", "level": 1},
    "lz4": {"id": "lz4", "acceleration": 1},
    "bz2": {"id": "bz2", "level": 1},
}


@pytest.mark.parametrize("order", ["C", "F"])
@pytest.mark.parametrize("compressor", COMPRESSORS)
def test_arrays_of_zarr_2(compressor, order, rng, tmp_path):
    import numcodecs

    declared = COMPRESSORS[compressor]
    codec = None if declared is None else numcodecs.get_codec(declared)
    for number, name in enumerate(["u1", "<u2", ">i4", "<f8", ">c8", "?", "<M8[s]", ">m8[us]"]):
        # zarr-python 3.0 reads back complex fill values as pairs
        kind, fill = np.dtype(name), None if number % 2 or "c" in name else np.zeros((), name)[()]
        filters = [numcodecs.Shuffle(kind.itemsize), numcodecs.CRC32()][number % 3 :] or None
        more = {"fill_value": fill, "compressors": codec, "filters": filters, "order": order, "zarr_format": 2}
        store = some_store(STORES[number % 3], tmp_path / str(number))
        array = made(store, (OURS, THEIRS)[number // 4], shape=(13, 7), chunks=(5, 4), dtype=kind, **more)
        ours, theirs = opened(array, OURS), opened(array, THEIRS)
        expected = np.array(theirs[...])
        for writer in (ours, theirs):
            index = some_slices(rng, array.shape)
            new = rng.integers(0, 2 if kind.kind == "b" else 99, expected[index].shape).astype(kind)
            writer[index] = new
            expected[index] = new
            with counted() as stats:
                read(rng, ours, expected)
            assert stats.read and not stats.read_by_zarr_python, stats
            same_bits(theirs[...], expected)
