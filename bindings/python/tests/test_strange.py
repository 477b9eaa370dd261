"""Strange files, stores, names, indices and sizes: each is refused by name, or read as it should be."""

import io
import json
import os
import threading

import numpy as np
import pytest
from samples import LITTLE, make_array, same
from test_sharding import sharded
from test_stores import Opening, Ranging, files_of

import zarrs_codecs as z
from zarrs_codecs import Array, Chain, _files


@pytest.fixture
def array(tmp_path):
    made = make_array(tmp_path / "a", (5, 6), (5, 6), "int32", [LITTLE, "crc32c"], 0)
    made[...] = np.arange(30).reshape(5, 6)
    return made


# -- indices


@pytest.mark.parametrize(
    "index", [([], 99), ([], -7), ([], {1}), ({1}, []), (2**63, []), ("x", []), ([], 1.5), ([], True), (-1, True, []), ([], [9])]
)
def test_the_other_entries_of_an_index_of_no_elements(array, index):
    for lends in (array, array.oindex):
        with pytest.raises(IndexError):
            lends[index]
        with pytest.raises(IndexError):
            lends[index] = 1
    assert array[[], 2].shape == (0,) and array[[], 1:3].shape == (0, 2)


def test_axes_that_are_longer_than_numpy_counts():
    size = 2**63 + 10
    chain = Chain(["packbits"], (size,), "bool")
    value = io.BytesIO(bytes([0b101]))
    assert chain.read(None, [[-(2**63)], [5]]).tolist() == [False, False]
    for row, place in ((-(2**63), 10), (-10, 2**63), (-1, size - 1), (7, 7)):
        assert chain.planned_ranges([[row]]).tolist() == [[place // 8, place // 8 + 1]]
        assert chain.planned_ranges(row).tolist() == [[place // 8, place // 8 + 1]]
    with pytest.raises(z.OutOfBounds):
        Chain(["packbits"], (9,), "bool").read(value.getvalue(), [[-(2**63)]])
    assert chain.planned_ranges(np.s_[3:]).tolist() == [[0, -(-size // 8)]]
    assert chain.read(None, np.s_[:: 2**62]).tolist() == [False] * 3
    assert chain.read(None, np.s_[size - 2 :: -(2**62)]).shape == (3,)
    for index in (np.s_[:], np.s_[1:], np.s_[::-1], np.s_[::2]):
        with pytest.raises(z.OutOfMemory):
            chain.read(None, index)


def test_chunks_that_no_memory_holds():
    for shape in ((1 << 40, 1 << 10), (1 << 59,), (1 << 61,)):
        chain = Chain([LITTLE], shape, "int32")
        for read in (chain.decode, lambda value, chain=chain: chain.read(value, ...)):
            with pytest.raises((z.InvalidBytesLength, z.OutOfMemory)):
                read(b"abcd")
        with pytest.raises(z.OutOfMemory):
            chain.read(None, ...)
    with pytest.raises(z.InvalidBytesLength):
        Chain([LITTLE], (1 << 40,), "int32").decode(b"abcd")
    many = Chain([LITTLE], (1,) * 65, "int8")
    with pytest.raises(ValueError, match="dim"):
        many.decode(b"a")
    assert many.read(b"a", [[0] * 65]).tolist() == [97]


# -- files


def test_what_is_no_file(array, tmp_path):
    """A pipe that nobody writes to isn't waited for."""
    path = array.chunk_path((0, 0))
    path.unlink()
    os.mkfifo(path)
    os.makedirs(tmp_path / "piped")
    os.mkfifo(tmp_path / "piped" / "zarr.json")
    raised = []

    def opens():
        for read in (lambda: array[0, 0], lambda: Array(tmp_path / "piped")):
            try:
                read()
            except OSError as error:
                raised.append(str(error))

    thread = threading.Thread(target=opens, daemon=True)
    thread.start()
    thread.join(20)
    assert len(raised) == 2 and all("it is no file" in said for said in raised)
    path.unlink()
    path.mkdir()
    with pytest.raises(IsADirectoryError):
        array[0, 0]


@pytest.mark.parametrize("said", [float("nan"), float("inf"), -float("inf")])
def test_attributes_that_have_no_json_stay(array, said):
    metadata = array.folder / "zarr.json"
    metadata.write_text(json.dumps({**json.loads(metadata.read_text()), "attributes": {"offset": said, "unit": "m"}}))
    opened = Array(array.folder)
    opened.attrs["by"] = "hand"
    del opened.attrs["unit"]
    assert repr(dict(Array(array.folder).attrs)) == repr({"offset": said, "by": "hand"})
    with pytest.raises(z.InvalidMetadata):
        opened.attrs["other"] = said


def test_what_a_killed_writer_leaves(tmp_path, monkeypatch):
    def killed(*_):
        raise SystemExit

    with monkeypatch.context() as patched:
        patched.setattr(_files.os, "replace", killed)
        patched.setattr(_files.os, "unlink", killed)
        with pytest.raises(SystemExit):
            Array.create(tmp_path / "a", [4], [2], "int8")
    assert len(os.listdir(tmp_path / "a")) == 1
    made = Array.create(tmp_path / "a", [4], [2], "int8")
    made[...] = 3
    assert made[...].tolist() == [3] * 4
    (tmp_path / "b").mkdir()
    (tmp_path / "b" / "note.tmp").touch()
    with pytest.raises(FileExistsError):
        Array.create(tmp_path / "b", [4], [2], "int8")


class Answering(io.BytesIO):
    """A file whose reads answer something else, and say another number."""

    def __init__(self, value, answer):
        super().__init__(value)
        self.answer = answer

    def readinto(self, view):
        super().readinto(view)
        return self.answer


class Reading:
    """The same with `read` alone."""

    def __init__(self, answer, end=72):
        self.answer, self.end = answer, end

    def seek(self, place, whence=0):
        return self.end if whence else place

    def read(self, count=-1):
        return self.answer(count)

    def close(self):
        pass


@pytest.mark.parametrize("answer", [-1, -7, 10**9, "5", 1.5])
def test_a_file_that_says_strange_numbers(answer):
    chain = Chain([LITTLE], (6,), "int32")
    with pytest.raises(OSError, match="where a number of bytes is due"):
        chain.read_from(Answering(bytes(24), answer), np.s_[1:5])


@pytest.mark.parametrize("answer", [lambda count: bytes(count + 1), lambda count: None, lambda count: "a" * count])
def test_a_file_that_reads_strange_things(answer, array):
    for codecs in ([LITTLE], sharded([2], [LITTLE])):
        with pytest.raises(OSError, match="a file answered"):
            Chain(codecs, (6,), "int32").read_from(Reading(answer), np.s_[1:5])

    class Store(Opening):
        def open(self, path):
            return Reading(answer, 124) if path.endswith("0/0") else super().open(path)

    lent = Array("bucket/a", store=Store(files_of(array.folder)))
    with pytest.raises(OSError, match="in bucket/a/c/0/0"):
        lent[0, 0]


@pytest.mark.parametrize("end", [-1, "9", 2.5])
def test_a_file_of_a_strange_length(end):
    file = Reading(bytes)
    file.seek = lambda place, whence=0: end
    with pytest.raises(OSError, match="where a number of bytes is due"):
        Chain(sharded([2], [LITTLE]), (6,), "int32").read_from(file, 0)


@pytest.mark.parametrize("answer", [None, [], 5, [b""] * 2, [None], ["a" * 124], [bytes(10**4)]])
def test_a_store_that_answers_strange_things(answer, array):
    class Store(Ranging):
        def cat_ranges(self, paths, starts, ends):
            return answer

    lent = Array("bucket/a", store=Store(files_of(array.folder)))
    with pytest.raises(OSError, match="in bucket/a/c/0/0") as raised:
        lent[0, 0]
    assert "answered" in str(raised.value)


@pytest.mark.parametrize("size", [-1, "many", 1.5])
def test_a_store_that_tells_strange_sizes(size, array):
    class Store(Ranging):
        def info(self, path):
            return {**super().info(path), "size": size}

    lent = Array("bucket/a", store=Store(files_of(array.folder)))
    with pytest.raises(OSError, match="where a number of bytes is due, in bucket/a/c/0/0"):
        lent[0, 0]
    same(Array(array.folder)[...], array[...])


def test_one_text_of_numbers_that_are_no_characters(tmp_path):
    kind = {"name": "fixed_length_utf32", "configuration": {"length_bytes": 4}}
    chain, value = Chain([LITTLE], (2,), kind), bytes.fromhex("ffffff7f61000000")
    assert chain.read(value, 1) == "a" == chain.read_many(value, [1])[0]
    array = make_array(tmp_path / "a", (2,), (2,), kind, [LITTLE], "")
    array.chunk_path((0,)).parent.mkdir(parents=True, exist_ok=True)
    array.chunk_path((0,)).write_bytes(value)
    file = io.BytesIO(value)
    for read in (lambda: chain.read(value, 0), lambda: chain.read_many(value, [0]), lambda: chain.read_from(file, 0), lambda: array[0]):
        with pytest.raises(z.InvalidText):
            read()
