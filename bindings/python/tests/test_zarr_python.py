"""Arrays that zarr-python 3 writes are read and written here, and those that are made here by zarr-python."""

import importlib.metadata
import importlib.util
import itertools
import json

import numpy as np
import pytest
from samples import LITTLE, NUMERIC, some, some_index, some_shape, transpose

import zarrs_codecs as z
from zarrs_codecs import Array

if importlib.util.find_spec("zarr") is None or int(importlib.metadata.version("zarr").split(".")[0]) < 3:
    pytest.skip("zarr-python 3 isn't installed", allow_module_level=True)

import zarr  # noqa: E402
from zarr.codecs import BloscCodec, Crc32cCodec, GzipCodec, ZstdCodec  # noqa: E402

IS_3_0 = zarr.__version__.startswith("3.0.")
COMPRESSORS = {
    "usual": "auto",
    "none": None,
    "gzip": [GzipCodec(level=4)],
    "zstd": [ZstdCodec(level=3)],
    "zstd with a checksum": [ZstdCodec(level=3, checksum=True)],
    "blosc": [BloscCodec(cname="zstd", shuffle="bitshuffle")],
    "crc32c": [Crc32cCodec()],
    "several": [BloscCodec(cname="lz4", shuffle="shuffle"), GzipCodec(level=1), Crc32cCodec()],
}
GZIP = {"name": "gzip", "configuration": {"level": 1}}
ZSTD = {"name": "zstd", "configuration": {"level": 1, "checksum": True}}
BLOSC = {
    "name": "blosc",
    "configuration": {"cname": "lz4", "clevel": 5, "shuffle": "shuffle", "typesize": 4, "blocksize": 0},
}


def shards(*inner, place="end"):
    said = {"chunk_shape": [2, 3], "codecs": list(inner), "index_codecs": [LITTLE, "crc32c"], "index_location": place}
    return [{"name": "sharding_indexed", "configuration": said}]


LISTS = {
    "usual": None,
    "transpose": [transpose([1, 0]), LITTLE],
    "gzip": [LITTLE, GZIP],
    "zstd": [LITTLE, ZSTD],
    "blosc": [LITTLE, BLOSC],
    "crc32c": [LITTLE, "crc32c"],
    "shards": shards(LITTLE, place="start"),
    "shards with checksums": shards(LITTLE, {"name": "crc32c"}),
    "checksums of gzip": [LITTLE, GZIP, "crc32c"],
    "shards of gzip": shards(transpose([1, 0]), LITTLE, GZIP, "crc32c"),
}


def same(found, expected):
    """Whether elements are the same, to the last bit; texts of any type of numpy's."""
    found, expected = np.asarray(found), np.asarray(expected)
    assert found.shape == expected.shape
    if found.dtype == object:
        assert found.tolist() == [text if isinstance(text, bytes) else str(text) for text in expected.ravel()]
    else:
        assert found.dtype == expected.dtype and found.tobytes() == expected.tobytes()


def opened(folder):
    """The array, as zarr-python has it."""
    return zarr.open_array(str(folder), mode="r+")


@pytest.mark.parametrize("name", NUMERIC)
@pytest.mark.parametrize("compressors", COMPRESSORS)
def test_what_zarr_python_writes(compressors, name, rng, tmp_path):
    kind = np.dtype(name)
    for number, shards_of in enumerate((None, (8, 6))):
        # zarr-python writes no bits of a NaN
        fill = {"b": True, "i": -3, "u": 7, "f": np.nan, "c": complex(1.5, -np.inf)}[kind.kind] if number else None
        theirs = zarr.create_array(
            str(tmp_path / str(number)),
            shape=(13, 11),
            chunks=(4, 3),
            shards=shards_of,
            dtype=name,
            compressors=COMPRESSORS[compressors],
            fill_value=fill,
            chunk_key_encoding={"name": ("default", "v2")[number], "separator": str(rng.choice(["/", "."]))},
            attributes={"a": [number]},
            dimension_names=["y", "x"],
        )
        theirs[:9] = some(rng, name, kind, (9, 11))
        mine = Array(tmp_path / str(number))
        same(mine[...], theirs[...])
        assert dict(mine.attrs) == {"a": [number]} and mine.dimension_names == ("y", "x")
        same(mine.fill_value, theirs.fill_value)
        expected = np.array(theirs[...])
        for _ in range(4):
            index = some_index(rng, mine.shape)
            same(mine[index], expected[index])
        rows, columns = [12, 0, 3, 3], [10, 5, 0, 5]
        same(mine.oindex[rows, columns], expected[np.ix_(rows, columns)])
        same(mine.vindex[rows, columns], theirs.vindex[rows, columns])
        mine[3:10, 2:9] = expected[3:10, 2:9] = some(rng, name, kind, (7, 7))
        same(opened(mine.folder)[...], expected)


@pytest.mark.parametrize("name", NUMERIC)
@pytest.mark.parametrize("codecs", LISTS)
def test_what_is_made_here(codecs, name, rng, tmp_path):
    fill = {"b": True, "i": -3, "u": 7, "f": "NaN", "c": [1.5, "-Infinity"]}[np.dtype(name).kind]
    array = Array.create(
        tmp_path / "a", (13, 11), (4, 6), name, codecs=LISTS[codecs], fill_value=fill, attributes={"a": 1}, dimension_names=["y", None]
    )
    array[2:11, 3:10] = some(rng, name, array.dtype, (9, 7))
    theirs, expected = opened(tmp_path / "a"), array[...]
    same(theirs[...], expected)
    assert dict(theirs.attrs) == {"a": 1}
    theirs[5:7, 1:9] = expected[5:7, 1:9] = some(rng, name, array.dtype, (2, 8))
    same(array[...], expected)


# zarr-python 3.0 names byte strings otherwise, and takes base64, in which a fill value of them is written, for themselves
@pytest.mark.parametrize(
    "name, texts",
    [
        ("string", ["a", "ä", "", "c" * 99]),
        ("bytes" if IS_3_0 else "variable_length_bytes", [b"" if IS_3_0 else b"?", b"a", b"\xff", b"c" * 99]),
    ],
)
def test_texts_and_byte_strings(name, texts, tmp_path):
    for number, (compressors, shards_of) in enumerate(itertools.product(("auto", None), (None, (4,)))):
        theirs = zarr.create_array(
            str(tmp_path / str(number)),
            shape=(7,),
            chunks=(2,),
            shards=shards_of,
            dtype=str if name == "string" else name,
            compressors=compressors,
            fill_value=texts[0],
        )
        theirs[1:5] = np.array(texts, object)
        mine = Array(tmp_path / str(number))
        same(mine[...], theirs[...])
        mine[4:6] = texts[3]
        same(mine[...], opened(mine.folder)[...])
    made = Array.create(tmp_path / "made", [7], [2], name, fill_value=texts[0])
    made[1:5] = np.array(texts, object)
    same(made[...], opened(tmp_path / "made")[...])


@pytest.mark.skipif(IS_3_0, reason="zarr-python 3.0 has no such types")
@pytest.mark.parametrize(
    "kind, elements, fill",
    [
        ("M8[s]", ["2020-01-01", "NaT", "1970-01-02"], "NaT"),
        ("M8[10ms]", ["2020-01-01", "NaT", "1970-01-02"], np.datetime64(5, "s")),
        ("m8[us]", [1, -2, 3], np.timedelta64(7, "us")),
        ("U4", ["a", "äbcd", ""], "?"),
        ("S3", [b"a", b"abc", b""], b"?"),
        ("V2", [b"ab", b"cd", b"\0\1"], b"?!"),
    ],
)
def test_types_of_numpys_with_a_configuration(kind, elements, fill, tmp_path):
    data = np.array(elements, kind)
    theirs = zarr.create_array(str(tmp_path / "a"), shape=(5,), chunks=(2,), dtype=data.dtype)
    theirs[:3] = data
    mine = Array(tmp_path / "a")
    same(mine[...], theirs[...])
    mine[2:] = data
    same(opened(tmp_path / "a")[...], mine[...])
    made = Array.create(tmp_path / "b", 5, 2, data.dtype, fill_value=fill)
    made[:3] = data
    same(opened(tmp_path / "b")[...], made[...])


def test_groups_and_arrays_of_version_2(tmp_path):
    root = zarr.open_group(str(tmp_path / "g"), mode="w")
    root.create_array("sub/x", shape=(4,), chunks=(2,), dtype="int32")[...] = np.arange(4)
    zarr.consolidate_metadata(str(tmp_path / "g"))
    assert json.loads((tmp_path / "g/zarr.json").read_text())["consolidated_metadata"]["metadata"]
    assert Array(tmp_path / "g/sub/x")[...].tolist() == [0, 1, 2, 3]
    with pytest.raises(z.InvalidMetadata, match="of a group"):
        Array(tmp_path / "g")
    zarr.create_array(str(tmp_path / "v2"), shape=(4,), chunks=(2,), dtype="int32", zarr_format=2)
    with pytest.raises(z.InvalidMetadata, match="Zarr v2"):
        Array(tmp_path / "v2")


@pytest.mark.parametrize("shape", [(), (0, 3), (5,)])
def test_arrays_of_few_elements(shape, rng, tmp_path):
    theirs = zarr.create_array(str(tmp_path / "a"), shape=shape, chunks=tuple(max(size, 1) for size in shape), dtype="int16")
    theirs[...] = some(rng, "int16", np.dtype("<i2"), shape)
    same(Array(tmp_path / "a")[...], theirs[...])
    made = Array.create(tmp_path / "b", shape, some_shape(rng, len(shape)), "int16", fill_value=5)
    same(opened(tmp_path / "b")[...], made[...])
