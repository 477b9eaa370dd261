"""Arrays in stores: objects that open files, and such as fetch ranges of them by one call."""

import io
import os
import pickle
import zipfile
from pathlib import Path

import numpy as np
import pytest
from samples import LITTLE, VLEN, make_array, optional, same, same_masked, some, some_index, some_texts, transpose
from test_sharding import GZIP, sharded

from zarrs_codecs import Array, InvalidBytesLength, InvalidMetadata, Refused, _chunks, _files


class Lent:
    """A file with `read` and `seek` alone, which reads no more than a few bytes at a time."""

    def __init__(self, value):
        self._file = io.BytesIO(value)

    def read(self, count=-1):
        return self._file.read(count if count < 0 else min(count, 7))

    def seek(self, place, whence=0):
        self._file.seek(place, whence)

    def tell(self):
        return self._file.tell()

    def close(self):
        pass


class Opening:
    """A store that opens files."""

    def __init__(self, files):
        self.files = files

    def open(self, path):
        if path not in self.files:
            raise FileNotFoundError(path)
        return Lent(self.files[path])


class Ranging(Opening):
    """A store that fetches ranges, and knows which were fetched by each call."""

    def __init__(self, files, tag="ETag"):
        super().__init__(files)
        self.tag = tag
        self.calls = []

    def info(self, path):
        if path not in self.files:
            raise FileNotFoundError(path)
        value = self.files[path]
        return {"name": path, "size": len(value), "type": "file", self.tag: hash(value)}

    def cat_ranges(self, paths, starts, ends):
        assert len({*paths}) == 1
        self.calls.append(list(zip(starts, ends, strict=True)))
        return [self.files[path][start:end] for path, start, end in zip(paths, starts, ends, strict=True)]

    def calls_of(self, read):
        """The ranges of each call that a read makes, and what it answers."""
        self.calls = []
        return read(), self.calls


def files_of(folder, root="bucket/a"):
    return {
        f"{root}/{path.relative_to(folder)}": path.read_bytes()
        for path in Path(folder).rglob("*")
        if path.is_file()
    }


ARRAYS = {
    "bytes": ([transpose([1, 0]), LITTLE], "int32", 0),
    "packbits": (["packbits"], "bool", False),
    "crc32c": ([LITTLE, "crc32c"], "int32", 7),
    "gzip": ([LITTLE, GZIP], "int32", 7),
    "texts": ([VLEN], "string", "?"),
    "vlen-utf8": ([{"name": "vlen-utf8"}], "string", "?"),
    "optional": ([optional(LITTLE)], {"name": "zarrs.optional", "configuration": {"name": "int32"}}, None),
    "shards": (sharded([2, 3], [LITTLE, "crc32c"], [LITTLE, "crc32c"]), "int32", 0),
    "shards of texts": (sharded([2, 3], [VLEN], index_location="start"), "string", ""),
    "shards of gzip": (sharded([2, 3], [LITTLE, GZIP]), "int32", 0),
    "shards in shards": (sharded([2, 6], sharded([1, 3], [LITTLE]), index_location="start"), "int32", 0),
    "shards of gzip in shards": (sharded([2, 6], sharded([1, 3], [LITTLE, GZIP]), index_location="start"), "int32", 0),
}


def filled(folder, name, rng):
    """An array with random elements, but for a chunk that isn't there, and these."""
    codecs, kind, fill = ARRAYS[name]
    array = make_array(folder, (11, 14), (4, 6), kind, codecs, fill)
    inside = (slice(0, 8), slice(None))
    shape = (8, 14)
    if array.dtype == object:
        array[inside] = some_texts(rng, shape)
    elif name == "optional":
        data = some(rng, "int32", np.dtype("<i4"), shape)
        array[inside] = np.ma.MaskedArray(data, rng.integers(0, 2, shape).astype(bool))
    else:
        array[inside] = some(rng, kind, array.dtype, shape)
    return array, array[...]


@pytest.mark.parametrize("small", [0, 1 << 16])
@pytest.mark.parametrize("make", [Opening, Ranging])
@pytest.mark.parametrize("name", ARRAYS)
def test_arrays_in_stores_beside_folders(name, make, small, rng, tmp_path, monkeypatch):
    monkeypatch.setattr(_chunks, "_SMALL", small)
    array, expected = filled(tmp_path / "a", name, rng)
    alike = same_masked if name == "optional" else same
    stored = Array("bucket/a/", store=make(files_of(tmp_path / "a")), threads=1 + (small == 0))
    alike(stored[...], expected)
    for _ in range(6):
        index = some_index(rng, array.shape)
        alike(stored[index], array[index])
        rows = tuple(rng.integers(0, size, 9) for size in array.shape)
        alike(stored.vindex[rows], array.vindex[rows])
    assert stored.folder == Path("bucket/a") and repr(stored) == "Array('bucket/a')"
    assert stored.chunk_path((0, 1)) == Path("bucket/a/c/0/1")


@pytest.mark.parametrize("name", ARRAYS)
def test_at_most_three_calls_of_a_chunk(name, rng, tmp_path, monkeypatch):
    monkeypatch.setattr(_chunks, "_SMALL", 0)
    _, expected = filled(tmp_path / "a", name, rng)
    store = Ranging(files_of(tmp_path / "a"))
    array = Array("bucket/a", store=store, cache=0)
    alike = same_masked if name == "optional" else same
    for index in (np.s_[1:3, 1:5], np.s_[::3, 2:6:3], np.s_[3, 5:7], np.s_[0:4, 0:6]):
        chunks = len({*np.arange(11)[index[0]].reshape(-1) // 4}) * len({*np.arange(14)[index[1]].reshape(-1) // 6})
        found, calls = store.calls_of(lambda: array[index])
        alike(found, expected[index])
        most = 3 if name == "texts" or name.endswith("in shards") else 2 if name.startswith("shards") else 1
        assert len(calls) <= most * chunks
    assert len(store.calls_of(lambda: array[9:, 13])[1]) == 0


@pytest.mark.parametrize(
    "name, first",
    [("texts", 2), ("shards", 1), ("shards in shards", 2), ("shards of gzip in shards", 2), ("shards of texts", 1)],
)
@pytest.mark.parametrize("make", ["folder", Ranging])
def test_an_index_and_offsets_are_kept(name, first, make, rng, tmp_path, monkeypatch):
    """They are read once, as long as the file is the same and there is room for them."""
    monkeypatch.setattr(_chunks, "_SMALL", 0)
    monkeypatch.setattr("zarrs_codecs._cache._SETTLED_NANOSECONDS", 0)
    written, expected = filled(tmp_path / "a", name, rng)
    files = files_of(tmp_path / "a")
    store, calls, kept = None if make == "folder" else make(files), [], {}
    folder, value = (tmp_path / "a", files["bucket/a/c/0/0"]) if store is None else ("bucket/a", files["bucket/a/c/0/0"])
    fetch = _files.NearFile.pieces

    def counted(self, ranges):
        calls.append(ranges.tolist())
        return fetch(self, ranges)

    monkeypatch.setattr(_files.NearFile, "pieces", counted)
    index = np.s_[0:2, 1:3]
    for cache in (1 << 20, 0):
        array = Array(folder, store=store, cache=cache)
        for turn in range(2):
            calls.clear()
            same(array[index] if store is None else store.calls_of(lambda: array[index])[0], expected[index])
            made = list(calls) if store is None else store.calls
            assert len(made) == first + 1 - (first if turn and cache else 0)
        kept[cache] = array._chunks.cache.nbytes
    assert 0 < kept[1 << 20] < len(value) + 64 and kept[0] == 0
    array = Array(folder, store=store)
    same(array[index], expected[index])
    other = expected.copy()
    other[index] = other[4:6, 7:9]
    written[...] = other
    if store is not None:
        store.files = files_of(tmp_path / "a")
    same(array[index], other[index])


def test_what_may_have_changed_is_not_kept(rng, tmp_path, monkeypatch):
    monkeypatch.setattr(_chunks, "_SMALL", 0)
    filled(tmp_path / "a", "shards", rng)
    for tag, kept in (("version", True), ("contentMd5", True), ("checksum", True), ("ino", False), ("Size", False)):
        array = Array("bucket/a", store=Ranging(files_of(tmp_path / "a"), tag))
        array[0, 0]
        assert (array._chunks.cache.nbytes > 0) == kept
    array = Array("bucket/a", store=Opening(files_of(tmp_path / "a")))
    array[0, 0]
    assert array._chunks.cache.nbytes == 0


def test_stores_are_not_written(rng, tmp_path):
    written, expected = filled(tmp_path / "a", "bytes", rng)
    written.attrs["unit"] = "m"
    array = Array("bucket/a", store=Ranging(files_of(tmp_path / "a")))
    for change in (
        lambda: array.__setitem__((0, 0), 1),
        lambda: array.vindex.__setitem__(([0], [0]), 1),
        lambda: array.oindex.__setitem__(([0], [0]), 1),
        lambda: array.attrs.__setitem__("unit", "s"),
    ):
        with pytest.raises(io.UnsupportedOperation):
            change()
    assert dict(array.attrs) == {"unit": "m"}
    same(array[...], expected)


@pytest.mark.parametrize(
    "codecs, rows", [([LITTLE], 4), ([transpose([1, 0]), LITTLE], 61), (sharded([16, 16], [LITTLE], [LITTLE]), 4)]
)
def test_rows_that_are_far_apart_are_fetched_by_one_call(codecs, rows, tmp_path):
    """Of 64 rows of 16 KiB each twentieth: of a shard the index first, and no inner chunk that has none of them. Where
    columns stand together, rows aren't far apart."""
    numbers = np.arange(64 * 4096, dtype="<i4").reshape(64, 4096)
    array = make_array(tmp_path / "a", numbers.shape, numbers.shape, "int32", codecs, -1)
    array[...] = numbers
    store = Ranging(files_of(tmp_path / "a"))
    lent = Array("bucket/a", store=store, coalesce=0)
    found, calls = store.calls_of(lambda: lent[::20])
    same(found, numbers[::20])
    is_shard = "chunk_shape" in str(codecs)
    assert len(calls) == 1 + is_shard
    fetched = sum(end - start for call in calls for start, end in call)
    assert fetched == rows * 4096 * 4 + is_shard * 1024 * 16


@pytest.mark.parametrize(
    "inside, kind, elements", [([LITTLE, GZIP], "int32", [5, 6, 7, 8]), ([VLEN], "string", ["five", "six", "seven", "eight"])]
)
def test_inner_chunks_that_touch_are_fetched_as_one_range(inside, kind, elements, tmp_path, monkeypatch):
    """In whatever order they stand: the third, the first and the second of four, and behind one byte the last."""
    monkeypatch.setattr(_chunks, "_SMALL", 0)
    array = make_array(tmp_path / "a", (8,), (8,), kind, sharded([2], inside), "" if kind == "string" else 0)
    array[...] = elements * 2
    path = array.chunk_path((0,))
    stored = path.read_bytes()
    each = [stored[begin : begin + size] for begin, size in np.frombuffer(stored[-64:], "<u8").reshape(4, 2).tolist()]
    value, entries = b"", [None] * 4
    for place in (2, 0, 1, 3):
        value += b"x" if place == 3 else b""
        entries[place] = len(value), len(each[place])
        value += each[place]
    path.write_bytes(value + np.array(entries, "<u8").tobytes())
    store = Ranging(files_of(tmp_path / "a"))
    found, calls = store.calls_of(lambda: Array("bucket/a", store=store, coalesce=0)[...])
    assert found.tolist() == elements * 2
    last = len(value) - len(each[3])
    assert calls == [[(len(value), len(value) + 64)], [(0, last - 1), (last, len(value))]]
    found, calls = store.calls_of(lambda: Array("bucket/a", store=store, coalesce=0)[1:5])
    assert found.tolist() == (elements * 2)[1:5] and calls[1] == [(0, last - 1)]


@pytest.mark.parametrize("codecs", [[LITTLE], sharded([32, 32], [LITTLE], [LITTLE])])
def test_lists_of_few_places_fetch_these(codecs, tmp_path):
    """Each with each, of 512 times 512: no element between them; and many are copied out of what has them."""
    numbers = np.arange(512 * 512, dtype="<i4").reshape(512, 512)
    array = make_array(tmp_path / "a", numbers.shape, numbers.shape, "int32", codecs, -1)
    array[...] = numbers + 1
    index = 256 * 16 if "chunk_shape" in str(codecs) else 0
    store = Ranging(files_of(tmp_path / "a"))
    for read, expected in (
        (lambda lent: lent.oindex[[500, 3], [7, 500, 7]], numbers[np.ix_([500, 3], [7, 500, 7])]),
        (lambda lent: lent[[0, 500], 5], numbers[[0, 500], 5]),
        (lambda lent: lent.oindex[::200, None, [1, 400]], numbers[::200, None][..., [1, 400]]),
        (lambda lent: lent.oindex[510, [9, 400]], numbers[510, [9, 400]]),
    ):
        lent = Array("bucket/a", store=store, coalesce=0)
        found, calls = store.calls_of(lambda: read(lent))
        same(found, expected + 1)
        fetched = {(start, end) for call in calls for start, end in call}
        assert sum(end - start for start, end in fetched) == index + np.unique(expected).size * 4
    same(lent.oindex[[1, 2, 4], [5, 3]], numbers[np.ix_([1, 2, 4], [5, 3])] + 1)


@pytest.mark.parametrize(
    "codecs, requests, size",
    [
        # of rows of 2 KiB the first 40, and 80 bytes of each: from the first to the last byte
        ([LITTLE], [1], 39 * 2048 + 80),
        # the index of inner chunks of 2 KiB, and then of four of them, two of which stand 64 KiB behind the others
        (sharded([32, 32], [LITTLE], [LITTLE]), [1, 1], None),
    ],
    ids=["plain", "shards"],
)
def test_ranges_that_are_near_are_one_request(codecs, requests, size, tmp_path):
    """A window of 40 rows: as many requests as rounds, and no byte before the first or behind the last one that is needed."""
    numbers = np.arange(1024 * 1024, dtype="<u2").reshape(1024, 1024)
    array = make_array(tmp_path / "a", numbers.shape, numbers.shape, "uint16", codecs, 7)
    array[...] = numbers
    store = Ranging(files_of(tmp_path / "a"))
    found, calls = store.calls_of(lambda: Array("bucket/a", store=store, coalesce=1 << 16)[:40, :40])
    same(found, numbers[:40, :40])
    assert [len(call) for call in calls] == requests
    exact, many = store.calls_of(lambda: Array("bucket/a", store=store, coalesce=0)[:40, :40])
    same(exact, found)
    assert sum(map(len, many)) >= 3 + len(requests)
    for call, near in zip(many, calls, strict=True):
        assert near == [(call[0][0], call[-1][1])]
    if size is not None:
        assert sum(end - start for call in calls for start, end in call) == size
    far = Array("bucket/a", store=store, coalesce=1 << 20)
    found, calls = store.calls_of(lambda: far[[0, 300], 5])
    same(found, numbers[[0, 300], 5])
    assert [len(call) for call in calls] == requests


def test_no_request_is_too_long(tmp_path, monkeypatch):
    monkeypatch.setattr("zarrs_codecs._stores.MOST_JOINED", 4096)
    numbers = np.arange(64 * 512, dtype="<u2").reshape(64, 512)
    array = make_array(tmp_path / "a", numbers.shape, numbers.shape, "uint16", [LITTLE], 7)
    array[...] = numbers
    store = Ranging(files_of(tmp_path / "a"))
    stored = Array("bucket/a", store=store, coalesce=1 << 16)
    found, calls = store.calls_of(lambda: stored[:40, :40])
    same(found, numbers[:40, :40])
    (ranges,) = calls
    assert len(ranges) == 10 and max(end - start for start, end in ranges) <= 4096
    assert pickle.loads(pickle.dumps(stored))._coalesce == 1 << 16


def test_near_ranges_of_a_folder_are_one_call(tmp_path, monkeypatch):
    numbers = np.arange(512 * 512, dtype="<u2").reshape(512, 512)
    array = make_array(tmp_path / "a", numbers.shape, numbers.shape, "uint16", [LITTLE], 7)
    array[...] = numbers
    calls, read = [], os.preadv

    def counted(number, views, place):
        calls.append((place, sum(map(len, views))))
        return read(number, views, place)

    monkeypatch.setattr(os, "preadv", counted)
    same(Array(tmp_path / "a")[3:43, 5:45], numbers[3:43, 5:45])
    assert calls == [(3 * 1024 + 10, 39 * 1024 + 80)]


class Breaking(Ranging):
    """One whose calls answer less, an exception, or raise one."""

    how = "less"

    def cat_ranges(self, paths, starts, ends):
        if self.how == "raises":
            raise ConnectionError("away")
        if self.how == "answers":
            return [ConnectionError("away")] * len(paths)
        return [part[:-1] for part in super().cat_ranges(paths, starts, ends)]


@pytest.mark.parametrize("name", ARRAYS)
def test_a_store_that_fails(name, rng, tmp_path):
    filled(tmp_path / "a", name, rng)
    store = Breaking(files_of(tmp_path / "a"))
    array = Array("bucket/a", store=store)
    for how, error in (("less", EOFError), ("raises", ConnectionError), ("answers", ConnectionError)):
        store.how = how
        with pytest.raises(error) as raised:
            array[0, 0]
        said = "the file ended while it was read" if how == "less" else "away"
        assert str(raised.value) == f"{said}, in bucket/a/c/0/0"


def test_files_that_are_not_there(rng, tmp_path):
    for make in (Opening, Ranging):
        with pytest.raises(FileNotFoundError):
            Array("bucket/a", store=make({}))
        with pytest.raises(InvalidMetadata, match="Zarr v2"):
            Array("bucket/a", store=make({"bucket/a/.zarray": b"{}"}))
        filled(tmp_path / make.__name__, "bytes", rng)
        store = make(files_of(tmp_path / make.__name__))
        array = Array("bucket/a", store=store)
        assert array[10, 13] == 0
        store.files["bucket/a/c/0/0"] = b"1"
        with pytest.raises(InvalidBytesLength) as caught:
            array[0, 0]
        assert isinstance(caught.value, Refused) and caught.value.path == Path("bucket/a/c/0/0")
        store.files = {}
        with pytest.raises(FileNotFoundError):
            array[0, 0]
    with pytest.raises(TypeError):
        Array("bucket/a", store={})


def test_an_archive(rng, tmp_path):
    _, expected = filled(tmp_path / "a", "shards", rng)
    for root in ("", "inside/of"):
        with zipfile.ZipFile(tmp_path / "a.zip", "w") as archive:
            for path, value in files_of(tmp_path / "a", root or "x").items():
                archive.writestr(path if root else path[2:], value)
        with zipfile.ZipFile(tmp_path / "a.zip") as archive:
            array = Array(root, store=archive)
            same(array[...], expected)
            assert array[10, 13] == 0


def test_a_store_that_is_pickled(rng, tmp_path):
    _, expected = filled(tmp_path / "a", "bytes", rng)
    array = Array("bucket/a", store=Ranging(files_of(tmp_path / "a")), threads=2)
    other = pickle.loads(pickle.dumps(array))
    same(other[...], expected)
    assert other._settings == {"cache": 1 << 25, "threads": 2}


@pytest.mark.parametrize("name", ARRAYS)
def test_file_systems_of_fsspec(name, rng, tmp_path):
    fsspec = pytest.importorskip("fsspec")
    _, expected = filled(tmp_path / "a", name, rng)
    alike = same_masked if name == "optional" else same
    memory = fsspec.filesystem("memory")
    root = f"/{name.replace(' ', '_')}"
    for path, value in files_of(tmp_path / "a", root).items():
        memory.makedirs(path.rpartition("/")[0], exist_ok=True)
        memory.pipe_file(path, value)
    for store, folder in ((memory, root), (fsspec.filesystem("file"), str(tmp_path / "a"))):
        array = Array(folder, store=store, threads=2)
        alike(array[...], expected)
        alike(array[1:3, 2:8], expected[1:3, 2:8])
        with pytest.raises(FileNotFoundError):
            Array(f"{folder}/none", store=store)
