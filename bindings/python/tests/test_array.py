"""Arrays in folders, beside numpy."""

import json
import math
import os
import pickle
import shutil
from functools import partial
from pathlib import Path

import numpy as np
import pytest
from samples import (
    BIG,
    LITTLE,
    VLEN,
    make_array,
    optional,
    same,
    same_masked,
    some,
    some_index,
    some_region,
    some_shape,
    some_texts,
    transpose,
)

from test_refusals import spoilt

from zarrs_codecs import (
    Array,
    InvalidBytesLength,
    InvalidConfiguration,
    InvalidFillValue,
    InvalidMetadata,
    Refused,
    UnknownName,
    _files,
)

GZIP = {"name": "gzip", "configuration": {"level": 1}}
KEYS = {
    "default": ("default", "c/1/0"),
    "default.": ({"name": "default", "configuration": {"separator": "."}}, "c.1.0"),
    "v2": ({"name": "v2"}, "1.0"),
    "v2/": ({"name": "v2", "configuration": {"separator": "/"}}, "1/0"),
}


@pytest.mark.parametrize("outer", [[], [GZIP]])
@pytest.mark.parametrize("keys", KEYS)
def test_arrays_beside_numpy(keys, outer, rng, tmp_path):
    for number in range(5):
        axes = int(rng.integers(1, 4))
        shape = tuple(int(size) for size in rng.integers(1, 20, axes))
        chunks = tuple(int(size) for size in rng.integers(1, 8, axes))
        codecs = [transpose(rng.permutation(axes)), BIG, *outer]
        array = make_array(
            tmp_path / str(number), shape, chunks, "float32", codecs, 7.5, KEYS[keys][0]
        )
        expected = np.full(shape, 7.5, "<f4")
        for _ in range(8):
            index = some_index(rng, shape)
            same(array[index], expected[index])
            new = some(rng, "float32", expected.dtype, expected[index].shape)
            array[index] = new
            expected[index] = new
        same(Array(tmp_path / str(number))[...], expected)


@pytest.mark.parametrize("keys, key", KEYS.values())
def test_where_chunks_are(keys, key, tmp_path):
    array = make_array(tmp_path / "a", (6, 4), (3, 4), "uint8", ["bytes"], 0, keys)
    array[4, 1] = 5
    files = [path for path in (tmp_path / "a").rglob("*") if path.is_file()]
    assert {path.relative_to(tmp_path / "a").as_posix() for path in files} == {"zarr.json", key}
    assert array.chunk_path((1, 0)) == tmp_path / "a" / key
    assert (tmp_path / "a" / key).read_bytes() == bytes([0] * 5 + [5] + [0] * 6)


@pytest.mark.parametrize("keys, key", [("default", "c"), ("v2", "0")])
def test_arrays_without_axes(keys, key, tmp_path):
    array = make_array(tmp_path / "a", (), (), "int16", [LITTLE], 3, keys)
    assert array[()] == 3 and array[...].shape == ()
    array[()] = 500
    assert array[()] == 500
    assert (tmp_path / "a" / key).read_bytes() == b"\xf4\x01"
    with pytest.raises(TypeError):
        len(array)


def test_texts(rng, tmp_path):
    array = make_array(tmp_path / "a", (7, 9), (3, 4), "string", [VLEN, GZIP], "?")
    expected = np.full((7, 9), "?", object)
    for _ in range(10):
        region = some_region(rng, expected.shape)
        expected[region] = some_texts(rng, expected[region].shape)
        array[region] = expected[region]
        same(array[...], expected)
    array[1] = "everywhere"
    assert (array[1] == "everywhere").all()
    assert array[1, 2] == "everywhere"


def test_masked_arrays(rng, tmp_path):
    kind = {"name": "zarrs.optional", "configuration": {"name": "int32"}}
    array = make_array(tmp_path / "a", (7, 9), (3, 4), kind, [optional(LITTLE)], None)
    expected = np.ma.masked_all((7, 9), "<i4")
    for _ in range(10):
        index = some_index(rng, expected.shape)
        data = some(rng, "int32", expected.dtype, np.shape(expected[index]))
        if data.ndim:
            new = np.ma.MaskedArray(data, rng.integers(0, 2, data.shape).astype(bool))
            expected[index] = new
            array[index] = new
            same_masked(array[...], expected)
            same_masked(array[index], expected[index])


class Counted:
    """The reads of chunks: which files, and how many bytes."""

    def __init__(self, monkeypatch):
        self.files, self.bytes = 0, 0
        opened, some_of = _files.File.__init__, _files.File._some

        def count_file(source, file):
            self.files += 1
            opened(source, file)

        def count_bytes(source, view, place):
            count = some_of(source, view, place)
            self.bytes += count
            return count

        monkeypatch.setattr(_files.File, "__init__", count_file)
        monkeypatch.setattr(_files.File, "_some", count_bytes)


@pytest.mark.parametrize(
    "index, files, more",
    [
        (np.s_[5:25, 7:9, 3], 6, 0),
        # of the last of these chunks half is needed, and all is read at once
        (np.s_[10:20], 3, 1280),
        (np.s_[3, 4, 5], 1, 0),
        (np.s_[::29, 0, 0], 2, 0),
        (np.s_[3:3], 0, 0),
        (np.s_[25:, 19, ::-1], 1, 0),
    ],
)
def test_only_what_is_needed_is_read(index, files, more, rng, tmp_path, monkeypatch):
    array = make_array(
        tmp_path / "a", (30, 20, 8), (10, 8, 8), "int32", [transpose([2, 0, 1]), LITTLE], 0
    )
    expected = some(rng, "int32", np.dtype("<i4"), (30, 20, 8))
    array[...] = expected
    # what lies between ranges that are near is read too
    monkeypatch.setattr("zarrs_codecs._files._NEAR_IN_FILE", 0)
    counted = Counted(monkeypatch)
    same(array[index], expected[index])
    assert counted.bytes == expected[index].nbytes + more
    assert counted.files == files


def test_whole_chunks_are_written_without_a_read(tmp_path):
    array = make_array(tmp_path / "a", (4, 6), (2, 3), "uint8", ["bytes", GZIP], 0)
    array[...] = 1
    for path in (tmp_path / "a" / "c").rglob("*"):
        if path.is_file():
            path.write_bytes(b"cut")
    array[:2] = 7
    assert (array[:2] == 7).all()
    with pytest.raises(ValueError):
        array[2:]


def test_a_failed_write_leaves_the_chunk(tmp_path, monkeypatch):
    array = make_array(tmp_path / "a", (4,), (4,), "uint8", ["bytes"], 0)
    array[...] = 1

    def fails(*_):
        raise OSError("no")

    monkeypatch.setattr("os.replace", fails)
    with pytest.raises(OSError, match="no"):
        array[...] = 2
    assert array[...].tolist() == [1] * 4
    assert [path.name for path in (tmp_path / "a" / "c").iterdir()] == ["0"]


def test_what_an_array_says(tmp_path):
    array = make_array(
        tmp_path / "a", (30, 20), (10, 8), "int32", [LITTLE], 5, attributes={"unit": "m"}
    )
    assert (array.shape, array.chunks, array.dtype, array.ndim, array.size, len(array)) == (
        (30, 20),
        (10, 8),
        np.int32,
        2,
        600,
        30,
    )
    assert array.metadata["attributes"] == {"unit": "m"}
    assert array.chain.shape == (10, 8)
    other = pickle.loads(pickle.dumps(array))
    assert repr(other) == repr(array)
    same(other[:2, :2], np.full((2, 2), 5, "<i4"))


def changed(tmp_path, **changes):
    make_array(tmp_path / "a", (4, 4), (2, 2), "uint8", ["bytes"], 0)
    path = tmp_path / "a" / "zarr.json"
    metadata = json.loads(path.read_text())
    for key, value in changes.items():
        if value is None:
            del metadata[key]
        else:
            metadata[key] = value
    path.write_text(json.dumps(metadata))
    return tmp_path / "a"


@pytest.mark.parametrize(
    "changes",
    [
        {"zarr_format": 2},
        {"node_type": "group"},
        {"chunk_grid": {"name": "rectangular", "configuration": {}}},
        {"chunk_grid": {"name": "regular", "configuration": {"chunk_shape": [2]}}},
        {"chunk_grid": {"name": "regular", "configuration": {"chunk_shape": [2, 0]}}},
        {"chunk_grid": {"name": "regular", "configuration": {"chunk_shape": [2, "2"]}}},
        {"chunk_grid": "regular"},
        {"chunk_grid": {"configuration": {"chunk_shape": [2, 2]}}},
        {"shape": [4, -4]},
        {"shape": [4, 4.0]},
        {"shape": 4},
        {"chunk_key_encoding": "v1"},
        {"chunk_key_encoding": {"name": "default", "configuration": {"separator": ":"}}},
        {"data_type": "uint3"},
        {"fill_value": 256},
        {"storage_transformers": [{"name": "any"}]},
        {"storage_transformers": {}},
        {"storage_transformers": False},
        {"shape": [4, 1 << 63]},
        {"shape": [4, 10**400]},
        {"chunk_grid": {"name": "regular", "configuration": {"chunk_shape": [2, 1 << 63]}}},
        {"data_type": "float16", "codecs": [LITTLE], "fill_value": 1e9},
        {"data_type": "r16", "fill_value": [2]},
        {"unknown": 5},
        {"unknown": {"must_understand": True}},
        {"codecs": ["sharding_indexed"]},
        {"codecs": {"bytes": 1}},
        {"codecs": "bytes"},
        {"codecs": [None]},
        {"chunk_grid": {"name": "regular"}},
        {"chunk_grid": {"name": "regular", "configuration": [2, 2]}},
        {"chunk_grid": ["regular"]},
        {"chunk_key_encoding": {"name": "default", "configuration": "."}},
        {"chunk_key_encoding": 5},
        {"data_type": 5},
        {"data_type": ["uint8"]},
        {"data_type": {"name": "uint8", "configuration": 5}},
        {"fill_value": "a"},
        {"fill_value": [0]},
        {"data_type": "r16", "fill_value": 2},
        {"data_type": "bytes", "fill_value": 3, "codecs": [VLEN]},
        {"data_type": "float32", "codecs": [LITTLE], "fill_value": 10**400},
    ],
)
def test_folders_that_are_not_read(changes, tmp_path):
    with pytest.raises(ValueError):
        Array(changed(tmp_path, **changes))


@pytest.mark.parametrize("text", ["[]", '"x"', "null", "5", "[" * 5000 + "]" * 5000, "{"])
def test_texts_that_are_no_metadata(text, tmp_path):
    (tmp_path / "zarr.json").write_text(text)
    with pytest.raises(ValueError):
        Array(tmp_path)


@pytest.mark.parametrize("key", ["codecs", "shape", "chunk_grid", "data_type", "chunk_key_encoding"])
def test_keys_that_are_null(key, tmp_path):
    folder = changed(tmp_path)
    metadata = json.loads((folder / "zarr.json").read_text())
    (folder / "zarr.json").write_text(json.dumps({**metadata, key: None}))
    with pytest.raises(ValueError):
        Array(folder)


@pytest.mark.parametrize("name", ["int8", "float32", "bool", "r16", "string", "bytes"])
def test_a_fill_value_of_null_is_absent_alone(name, tmp_path):
    with pytest.raises(InvalidFillValue, match="null isn't of .*zarr.json$"):
        make_array(tmp_path / "a", (4,), (2,), name, [VLEN if name in ("string", "bytes") else LITTLE], None)


@pytest.mark.parametrize(
    "sizes, says", [([2, 0], "the chunk shape"), ([2, "2"], "the chunk shape"), (None, "the chunk shape"), ([2], "chunks of 1 axes")]
)
def test_a_chunk_shape_that_is_none_is_named(sizes, says, tmp_path):
    with pytest.raises(InvalidMetadata, match=says):
        Array(changed(tmp_path, chunk_grid={"name": "regular", "configuration": {"chunk_shape": sizes}}))


@pytest.mark.parametrize(
    "key, name, says",
    [("chunk_grid", "regular", "configuration 5 of 'regular'"), ("chunk_key_encoding", "default", "configuration 5 of 'default'")],
)
def test_a_configuration_that_is_none_is_named(key, name, says, tmp_path):
    with pytest.raises(InvalidMetadata, match=says):
        Array(changed(tmp_path, **{key: {"name": name, "configuration": 5}}))


@pytest.mark.parametrize("codecs", ["bytes", {"name": "bytes"}])
def test_no_array_of_codecs_that_are_no_list(codecs, tmp_path):
    with pytest.raises(InvalidConfiguration, match="list"):
        Array.create(tmp_path / "a", [4], [2], "uint8", codecs=codecs)
    shards = {"chunk_shape": [2], "codecs": ["bytes", GZIP], "index_codecs": [LITTLE]}
    array = Array.create(tmp_path / "a", [4], [4], "uint8", codecs=({"name": "sharding_indexed", "configuration": shards},))
    array[...] = 1
    assert Array(tmp_path / "a")[...].tolist() == [1] * 4


@pytest.mark.parametrize(
    "key", ["shape", "codecs", "data_type", "chunk_grid", "chunk_key_encoding", "fill_value"]
)
def test_keys_that_are_missing(key, tmp_path):
    with pytest.raises(ValueError, match=key):
        Array(changed(tmp_path, **{key: None}))


def test_codecs_that_are_unknown(tmp_path):
    with pytest.raises(UnknownName, match="by codec 1, 'adler32'") as told:
        Array(changed(tmp_path, codecs=["bytes", "adler32"]))
    assert told.value.codec == (1, "adler32")


@pytest.mark.parametrize(
    "codecs, place",
    [
        ([{"name": "transpose", "configuration": {}}, "bytes"], 0),
        ([transpose([0, 1]), transpose([0, 0]), "bytes"], 1),
        ([transpose([0, 1]), {"name": "packbits", "configuration": {"first_bit": 3, "last_bit": 2}}], 1),
        (["bytes", {"name": "gzip", "configuration": {"level": 10}}], 1),
    ],
)
def test_codecs_that_cannot_be_made_are_named(codecs, place, tmp_path):
    with pytest.raises(ValueError) as told:
        Array(changed(tmp_path, codecs=codecs))
    assert told.value.codec == (place, codecs[place]["name"])


def test_keys_that_need_not_be_understood(tmp_path):
    folder = changed(
        tmp_path,
        more={"must_understand": False},
        dimension_names=["y", "x"],
        consolidated_metadata={},
        storage_transformers=[],
    )
    assert Array(folder)[...].shape == (4, 4)


def test_no_folder(tmp_path):
    with pytest.raises(FileNotFoundError):
        Array(tmp_path)


def test_indices_outside(tmp_path):
    array = make_array(tmp_path / "a", (4, 4), (2, 2), "uint8", ["bytes"], 0)
    for index in (4, (0, -5), (0, 0, 0)):
        with pytest.raises(IndexError):
            array[index]
    for index in ("a", 1.5, (0, {}), ([0], [0]), [4], [-5], [0.5], [[0]], [True]):
        with pytest.raises(IndexError):
            array[index]
        with pytest.raises(IndexError):
            array[index] = 0
    for index in ((0,), (0, 4), ([0, 1], [0, 1, 2]), (0, "a"), (0, slice(None))):
        with pytest.raises(IndexError):
            array.vindex[index]
    for index in ([[0], [0, 1]], ([0, [1]], 0)):
        for one in (array, array.oindex, array.vindex):
            with pytest.raises(IndexError):
                one[index]
    with pytest.raises(IndexError, match=r"mask of shape \(2, 4\)"):
        array[np.ones((2, 4), bool)]
    with pytest.raises(IndexError, match="list of places, and not str"):
        array["x"]
    for truth in (True, np.True_, np.array(True)):
        with pytest.raises(IndexError, match="a truth value is no index"):
            array[truth]
    same(array[range(3, 0, -2), 1:], array[...][range(3, 0, -2), 1:])


def test_numpys_functions_take_an_array(tmp_path):
    array = make_array(tmp_path / "a", (3, 4), (2, 2), "int32", [LITTLE], 5)
    array[1] = np.arange(4)
    same(np.asarray(array), array[...])
    same(np.asarray(array, "f8"), array[...].astype("f8"))
    assert np.sum(array) == array[...].sum()
    with pytest.raises(ValueError):
        array.__array__(copy=False)
    point = make_array(tmp_path / "point", (), (), "int16", [LITTLE], 3)
    same(np.asarray(point), np.array(3, "<i2"))
    none = make_array(tmp_path / "none", (0, 3), (1, 1), "int16", [LITTLE], 3)
    same(np.asarray(none), np.empty((0, 3), "<i2"))
    texts = make_array(tmp_path / "texts", (2,), (1,), "string", [VLEN], "a")
    same(np.asarray(texts), np.array(["a", "a"], object))
    kind = {"name": "zarrs.optional", "configuration": {"name": "int32"}}
    masked = make_array(tmp_path / "masked", (2,), (1,), kind, [optional(LITTLE)], None)
    masked[0] = 7
    same(np.asarray(masked), np.array([7, 0], "<i4"))
    for found in (np.ma.asarray(masked), np.asanyarray(masked), np.ma.array(masked, "f8")):
        assert found.tolist() == [7, None]


def test_an_array_is_gone_through_row_by_row(tmp_path):
    array = make_array(tmp_path / "a", (3, 2), (2, 2), "int32", [LITTLE], 5)
    array[1] = [6, 7]
    assert [row.tolist() for row in array] == [[5, 5], [6, 7], [5, 5]] and 7 in np.array(list(array))
    with pytest.raises(TypeError, match="without axes"):
        iter(make_array(tmp_path / "point", (), (), "int16", [LITTLE], 3))


@pytest.mark.parametrize("name, codec", [("int32", LITTLE), ("string", VLEN)])
def test_blanks_stand_under_absent_elements(name, codec, tmp_path):
    kind = {"name": "zarrs.optional", "configuration": {"name": name}}
    array = make_array(tmp_path / "a", (4,), (2,), kind, [optional(codec)], None)
    array[0] = np.ma.masked
    for found in (array[...], array[1:]):
        assert np.ma.getmaskarray(found).all()
        assert found.data.tolist() == [0 if name == "int32" else ""] * len(found)


def test_the_folder_is_that_of_the_moment_when_it_is_opened(tmp_path, monkeypatch):
    make_array(tmp_path / "a", (2,), (2,), "uint8", ["bytes"], 9)
    monkeypatch.chdir(tmp_path)
    array = Array("a")
    array[0] = 1
    monkeypatch.chdir("/")
    assert array[...].tolist() == [1, 9]
    array[1] = 2
    assert (tmp_path / "a" / "c" / "0").read_bytes() == b"\1\2"


def test_a_folder_that_is_gone(tmp_path):
    array = make_array(tmp_path / "a", (2,), (2,), "uint8", ["bytes"], 9)
    (tmp_path / "a").rename(tmp_path / "b")
    with pytest.raises(FileNotFoundError):
        array[...]
    with pytest.raises(FileNotFoundError):
        array[...] = 1
    assert not (tmp_path / "a").exists()


def test_a_folder_without_its_metadata(tmp_path):
    """Whatever an index needs of it."""
    array = make_array(tmp_path / "a", (4,), (2,), "uint8", ["bytes"], 9)
    array[...] = 1
    (tmp_path / "a" / "zarr.json").unlink()
    indices = [..., 0, slice(0), [0], []]
    for call in [*(lambda index=index: array[index] for index in indices), lambda: array.vindex[[0]], lambda: array.oindex[[]]]:
        with pytest.raises(FileNotFoundError, match="zarr.json"):
            call()
    with pytest.raises(FileNotFoundError, match="zarr.json"):
        array[0] = 2
    assert (tmp_path / "a" / "c" / "0").read_bytes() == b"\1\1"


def test_a_file_that_the_system_refuses_is_named(tmp_path):
    array = make_array(tmp_path / "a", (4,), (2,), "uint8", ["bytes", GZIP], 9)
    (tmp_path / "a" / "c" / "0").mkdir(parents=True)
    for call in (lambda: array[0], lambda: array.__setitem__(0, 1)):
        with pytest.raises(IsADirectoryError, match="a/c/0"):
            call()


def test_chunks_of_another_length(tmp_path):
    array = make_array(tmp_path / "a", (4,), (4,), "uint8", ["bytes"], 9)
    array[...] = 1
    path = tmp_path / "a" / "c" / "0"
    for wrong in (b"", b"123", b"12345"):
        path.write_bytes(wrong)
        for call in (lambda: array[0], lambda: array.__setitem__(0, 5)):
            with pytest.raises(InvalidBytesLength, match="4 are due, in .*/a/c/0$") as told:
                call()
            assert told.value.path == path
        assert path.read_bytes() == wrong
    array[...] = 2
    assert path.read_bytes() == bytes([2] * 4)


def test_modes_and_links_are_kept(tmp_path):
    array = make_array(tmp_path / "a", (4,), (2,), "uint8", ["bytes"], 9)
    array[...] = 1
    first, second = tmp_path / "a" / "c" / "0", tmp_path / "a" / "c" / "1"
    first.chmod(0o640)
    second.rename(tmp_path / "elsewhere")
    second.symlink_to(tmp_path / "elsewhere")
    array[1:3] = 2
    assert first.stat().st_mode & 0o777 == 0o640
    assert second.is_symlink() and (tmp_path / "elsewhere").read_bytes() == b"\2\1"
    assert array[...].tolist() == [1, 2, 2, 1]


def some_list(rng, size):
    """A list of places or a mask of an axis."""
    if rng.integers(2):
        return rng.integers(0, 2, size).astype(bool)
    places = rng.integers(-size, size, rng.integers(0, 6))
    return places.tolist() if len(places) and rng.integers(2) else places


def some_outer(rng, shape):
    """A basic index with lists in place of some entries."""
    entries = []
    for size in shape:
        entry = (some_index(rng, (size,)) or (slice(None),))[0]
        entry = slice(None) if entry is None or entry is Ellipsis else entry
        entries.append(some_list(rng, size) if rng.integers(2) else entry)
    return tuple(entries)


def one_list(entries):
    """The same with one list alone."""
    kept = []
    for entry in entries:
        is_list = isinstance(entry, (list, np.ndarray))
        kept.append(slice(None) if is_list and any(map(_is_list, kept)) else entry)
    return tuple(kept)


def _is_list(entry):
    return isinstance(entry, (list, np.ndarray))


def as_numpy_has_it(entries, shape):
    """An index of numpy that takes each list with each."""
    places = []
    for entry, size in zip(entries, shape):
        if isinstance(entry, slice):
            places.append(np.arange(size)[entry])
        elif _is_list(entry):
            places.append(np.arange(size)[np.asarray(entry, None if len(entry) else int)])
        else:
            places.append(np.array([entry]))
    dropped = tuple(axis for axis, entry in enumerate(entries) if isinstance(entry, int))
    return np.ix_(*places), dropped


def some_values(rng, shape):
    """Elements that are broadcast to a shape: some axes are of one element, some leading ones aren't there, or one more is."""
    sizes = [size if rng.integers(4) else 1 for size in shape]
    return rng.integers(-99, 99, [1] * int(rng.integers(2)) + sizes[int(rng.integers(len(sizes) + 1)) if rng.integers(2) else 0 :])


def compare(rng, array, expected):
    """Reads an array by an index of any kind and writes it, beside numpy; what it did is yielded before."""
    kind, new, shape = rng.integers(5), int(rng.integers(-99, 99)), expected.shape
    outer = some_outer(rng, shape)
    if kind == 3:
        index = tuple(rng.integers(-size, size, (2, 3)) for size in shape)
        yield "vindex", index
        assert (array.vindex[index] == expected[index]).all()
        values = rng.integers(-99, 99, (2, 3))
        array.vindex[index] = values
        # of points that come twice the last value stands
        for place, value in zip(zip(*(one.ravel() for one in index)), values.ravel()):
            expected[place] = value
        return
    if kind == 4:
        yield "oindex", outer
        index, dropped = as_numpy_has_it(outer, shape)
        assert np.array_equal(array.oindex[outer], expected[index].squeeze(dropped))
        array.oindex[outer] = expected[index] = new
        return
    index = [some_index(rng, shape), one_list(outer), rng.integers(0, 2, shape).astype(bool)][kind]
    found = expected[index]
    values = new if kind == 1 or rng.integers(3) == 0 else rng.integers(-99, 99, np.shape(found))
    if kind == 0 and rng.integers(2):
        values = some_values(rng, np.shape(found))
    yield index, values
    assert np.shape(array[index]) == np.shape(found) and np.array_equal(array[index], found)
    try:
        expected[index] = values
    except ValueError:
        # from 2.4 on numpy takes no array with axes for an element
        with pytest.raises(ValueError):
            array[index] = values
        return
    array[index] = values


def test_a_thousand_indices_beside_numpy(tmp_path):
    seed = int(np.random.SeedSequence().entropy % 2**32)
    rng = np.random.default_rng(seed)
    for number in range(20):
        shape = some_shape(rng, int(rng.integers(1, 4)))
        chunks = some_shape(rng, len(shape))
        shards = {"chunk_shape": [1] * len(shape), "codecs": [BIG, "crc32c"], "index_codecs": [LITTLE, "crc32c"]}
        inside = [[BIG], [BIG, GZIP], [{"name": "sharding_indexed", "configuration": shards}]][number % 3]
        codecs = inside if number % 6 == 2 else [transpose(rng.permutation(len(shape))), *inside]
        array = make_array(tmp_path / str(number), shape, chunks, "int16", codecs, 7)
        expected = np.full(shape, 7, "<i2")
        for _ in range(50):
            what = None
            try:
                for what in compare(rng, array, expected):
                    pass
                assert (array[...] == expected).all()
            except Exception as error:
                raise AssertionError(f"seed {seed}, array {number}, {shape} by {chunks}, {codecs}: {what}") from error


class Calls:
    """How often the system was asked by these names."""

    def __init__(self, monkeypatch, *names):
        self.counts = dict.fromkeys(names, 0)
        for name in names:
            monkeypatch.setattr(os, name, partial(self._count, name, getattr(os, name)))

    def _count(self, name, call, *arguments, **more):
        self.counts[name] += 1
        return call(*arguments, **more)


def test_what_a_chunk_asks_of_the_system(tmp_path, monkeypatch):
    """One look at `zarr.json` for a read, and one for a chunk that isn't there; one wait for the disk for one that is
    written."""
    array = make_array(tmp_path / "a", (10,), (1,), "int32", [LITTLE], 0)
    calls = Calls(monkeypatch, "stat", "lstat", "fstat", "open", "fsync", "replace", "makedirs")
    assert not array[...].any()
    assert calls.counts == dict.fromkeys(calls.counts, 0) | {"stat": 11, "open": 10}
    array[...] = 1
    calls = Calls(monkeypatch, *calls.counts)
    array[3:5] = 2
    due = {"stat": 2, "lstat": 2, "fstat": 0, "open": 2, "fsync": 2, "replace": 2, "makedirs": 0}
    assert calls.counts == due
    assert array[...].tolist() == [1, 1, 1, 2, 2, 1, 1, 1, 1, 1]


def test_any_spoilt_metadata_raises_a_refusal_or_opens(tmp_path):
    seed = int(np.random.SeedSequence().entropy % 2**32)
    rng = np.random.default_rng(seed)
    more = {"attributes": {"a": [1]}, "dimension_names": ["y", None], "consolidated_metadata": None}
    array = make_array(tmp_path / "a", (4, 4), (2, 2), "int16", [transpose([1, 0]), LITTLE], 0, **more)
    for _ in range(500):
        said = array.metadata
        shutil.rmtree(tmp_path / "a" / "c", ignore_errors=True)
        for _ in range(rng.integers(1, 3)):
            said = spoilt(rng, said)
        (tmp_path / "a" / "zarr.json").write_text(json.dumps(said))
        try:
            opened = Array(tmp_path / "a")
        except Refused as error:
            assert error.path == tmp_path / "a" / "zarr.json", (seed, said)
            continue
        except Exception as error:
            raise AssertionError(f"seed {seed}: {said!r:.1000}") from error
        try:
            use(rng, opened)
        except Exception as error:
            raise AssertionError(f"seed {seed}: {said!r:.1000}") from error


def use(rng, array):
    """Asks an array what it is, reads and writes some of it, and reads chunks that are spoilt."""
    assert repr(array) and repr(array.info) and array.nbytes >= 0 and dict(array.attrs) is not None
    if 0 in array.shape or math.prod(array.chunks) > 1 << 16 or array.ndim > 8:
        return
    first, some_of, lists = (0,) * array.ndim, (slice(2),) * array.ndim, tuple([0] for _ in array.shape)
    for spoil in (False, True):
        for path in filter(Path.is_file, array.folder.glob("[!z]*/**/*")) if spoil else ():
            value = bytearray(path.read_bytes())
            value[rng.integers(len(value))] = rng.integers(256)
            path.write_bytes(value[: rng.integers(1, len(value) + 1)])
        for call in (
            lambda: array.__setitem__(first, array[first]),
            lambda: array[some_of],
            lambda: array[(-1,) * array.ndim],
            lambda: array.vindex[lists],
            lambda: array.oindex[lists],
        ):
            try:
                call()
            except Refused as error:
                assert error.path is not None and str(error.path) in str(error)


@pytest.mark.parametrize("text", [b"\xff", b"", b'{"shape": ' + b"1" * 5000 + b"}", b"[" * 5000])
def test_a_text_that_is_no_metadata_is_named(text, tmp_path):
    (tmp_path / "zarr.json").write_bytes(text)
    with pytest.raises(InvalidMetadata, match="zarr.json$") as told:
        Array(tmp_path)
    assert told.value.path == tmp_path / "zarr.json"
