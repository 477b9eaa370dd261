"""Files that others replace while they are read, and attributes that threads set."""

import contextlib
import itertools
import struct
import threading
import time
from datetime import datetime, timezone
from email.utils import format_datetime

import numpy as np
import pytest
from samples import LITTLE, VLEN, loose_values, make_array, optional, same, same_masked, some_texts
from test_sharding import GZIP, sharded
from test_stores import Ranging, files_of

from zarrs_codecs import Array, Chain, Refused, _chunks, _stores
from zarrs_codecs.chain import coder_in

CHUNK = "bucket/a/c/0"
SHARDS = {
    "numbers": (sharded([4], [LITTLE]), "int32"),
    "texts": (sharded([4], [VLEN]), "string"),
    "gzip": (sharded([4], [LITTLE, GZIP]), "int32"),
    "shards inside": (sharded([4], sharded([2], [LITTLE])), "int32"),
    "offsets": ([VLEN], "string"),
}


class Replacing(Ranging):
    """A store that puts other values, one behind the other, in the place of a chunk's behind each of so many calls."""

    def __init__(self, files, others=(), tag="ETag"):
        super().__init__(files, tag)
        self.others = list(others)
        self.told = 0

    def info(self, path):
        self.told += path == CHUNK
        return super().info(path)

    def cat_ranges(self, paths, starts, ends):
        found = super().cat_ranges(paths, starts, ends)
        if self.others:
            self.files[CHUNK] = self.others.pop(0)
        return found


def versions(folder, name, count, monkeypatch):
    """Values of one chunk, of which no two elements are the same, the elements, and the files with the first one."""
    monkeypatch.setattr(_chunks, "_SMALL", 0)
    codecs, kind = SHARDS[name]
    array = make_array(folder, (16,), (16,), kind, codecs, "" if kind == "string" else 0)
    values, elements = [], []
    for number in range(count):
        own = np.arange(16) + 1000 * (number + 1)
        # inner chunks of other lengths, of which some aren't stored
        own[: 4 * (number % 3)] = 0
        new = own.astype(array.dtype) if kind != "string" else np.array(["t" * (one // 999) + str(one) for one in own], object)
        array[...] = new
        values.append(array.chunk_path((0,)).read_bytes())
        elements.append(new)
    files = files_of(folder)
    return {**files, CHUNK: values[0]}, values, elements


def put_behind_info(store, value, monkeypatch):
    """Has a value put in the place of a chunk's behind each `info` of that."""

    def replaced(path, info=store.info):
        found = info(path)
        if path == CHUNK:
            store.files[CHUNK] = value
        return found

    monkeypatch.setattr(store, "info", replaced)


@pytest.mark.parametrize("name", SHARDS)
def test_a_read_answers_of_one_value(name, tmp_path, monkeypatch):
    files, values, elements = versions(tmp_path / "a", name, 3, monkeypatch)
    for index in (np.s_[:], np.s_[3:14:5], np.s_[15]):
        for behind in (values[1:2], values[1:]):
            found = Array("bucket/a", store=Replacing(dict(files), behind), cache=0)[index]
            assert np.asarray(found).tolist() in [np.asarray(one[index]).tolist() for one in elements]


@pytest.mark.parametrize("name", SHARDS)
def test_what_was_kept_is_of_the_same_value(name, tmp_path, monkeypatch):
    files, values, elements = versions(tmp_path / "a", name, 2, monkeypatch)
    store = Replacing(dict(files))
    array = Array("bucket/a", store=store)
    same(array[3], elements[0][3])
    put_behind_info(store, values[1], monkeypatch)
    same(array[13], elements[1][13])


@pytest.mark.parametrize("small", [0, 1 << 16])
@pytest.mark.parametrize("name", SHARDS)
def test_a_file_of_another_length_is_put_before_the_first_call(name, small, tmp_path, monkeypatch):
    files, values, elements = versions(tmp_path / "a", name, 3, monkeypatch)
    monkeypatch.setattr(_chunks, "_SMALL", small)
    for first, last in itertools.permutations(range(3), 2):
        for index in (np.s_[:], np.s_[3:14:5], np.s_[0], np.s_[4], np.s_[15]):
            store = Replacing({**files, CHUNK: values[first]})
            put_behind_info(store, values[last], monkeypatch)
            same(Array("bucket/a", store=store, cache=0)[index], elements[last][index])


def texts_like_an_index():
    """Codecs of byte strings with an index behind, and two of these, twice: of the second ones a value is made that is
    longer, and has another index where the first ones' value ends."""
    *_, (behind, value) = loose_values([0, 1, 2], b"ab")
    yield [behind], [b"c", b"d"], [value, b"e"]
    in_shard = {**VLEN["configuration"], "data_codecs": sharded([16], ["bytes"])}
    one, entry = b"\1" * 16, struct.pack("<QQ", 0, 16)
    yield [{**VLEN, "configuration": in_shard}], [one, bytes(16)], [one, entry]


@pytest.mark.parametrize("codecs, first, last", texts_like_an_index())
def test_texts_that_look_like_an_index(codecs, first, last, tmp_path, monkeypatch):
    array = make_array(tmp_path / "a", (2,), (2,), "bytes", codecs, "")
    array[...] = first
    store = Replacing(files_of(tmp_path / "a"))
    array[...] = last
    value = array.chunk_path((0,)).read_bytes()
    assert array._chunks._coder.decode(value[: len(store.files[CHUNK])]).tolist() not in (first, last)
    put_behind_info(store, value, monkeypatch)
    assert Array("bucket/a", store=store)[...].tolist() == last


def test_a_file_that_is_replaced_each_time(tmp_path, monkeypatch):
    files, values, _ = versions(tmp_path / "a", "numbers", 3, monkeypatch)
    store = Replacing(dict(files), [*values[1:], values[0]] * 50)
    with pytest.raises(OSError, match="replaced each time that it was read, in bucket/a/c/0"):
        Array("bucket/a", store=store, cache=0)[13:15]


def test_a_file_that_is_deleted_while_it_is_read(tmp_path, monkeypatch):
    files, _, _ = versions(tmp_path / "a", "numbers", 1, monkeypatch)

    class Deleting(Replacing):
        def cat_ranges(self, paths, starts, ends):
            return [self.files.pop(CHUNK, b"")[start:end] for start, end in zip(starts, ends, strict=True)]

    store = Deleting(dict(files))
    assert Array("bucket/a", store=store, cache=0)[3:5].tolist() == [0, 0]


CUT = {
    "offsets in front": ([VLEN], "string"),
    "texts": (["vlen-utf8"], "string"),
    "optional": ([optional(LITTLE)], {"optional": "int32"}),
    "optional texts": ([optional(VLEN)], {"optional": "string"}),
    "checksum": ([VLEN, "crc32c"], "string"),
    "gzip": ([*sharded([4], [LITTLE]), GZIP], "int32"),
}


@pytest.mark.parametrize("name", CUT)
def test_a_cut_value_without_an_index_behind_is_refused_or_read_rightly(name, rng):
    codecs, kind = CUT[name]
    chain = Chain(codecs, (4,), kind)
    assert not coder_in(chain).rests_on_length
    for _ in range(3):
        chunk = some_texts(rng, (4,)) if "string" in str(kind) else rng.integers(-9, 9, 4).astype("<i4")
        if "optional" in str(kind):
            chunk = np.ma.MaskedArray(chunk, rng.integers(0, 2, 4).astype(bool))
        value = chain.encode(chunk)
        for size, read in itertools.product(range(len(value)), (chain.decode, lambda cut: chain.read(cut, np.s_[:2]))):
            with contextlib.suppress(Refused):
                found = read(value[:size])
                same_masked(found, chunk[: len(found)])


# Codecs; of reads of a large and a small value, how often `info` is asked and how many calls fetch; of these again behind a
# read that has kept what it could.
ASKED = {
    "bytes": ([LITTLE], [(1, 1), (1, 1)], [(1, 1), (1, 1)]),
    "checksum": ([LITTLE, "crc32c"], [(1, 1), (1, 1)], [(1, 0), (1, 0)]),
    "gzip": ([LITTLE, GZIP], [(1, 1), (1, 1)], [(1, 0), (1, 0)]),
    "shards": (sharded([4], [LITTLE]), [(2, 2), (2, 1)], [(2, 1), (1, 0)]),
    "shards of gzip": (sharded([4], [LITTLE, GZIP]), [(2, 2), (2, 2)], [(2, 1), (2, 1)]),
    "shards in gzip": ([*sharded([4], [LITTLE]), GZIP], [(1, 1), (1, 1)], [(1, 0), (1, 0)]),
    "offsets": ([VLEN], [(2, 3), (1, 1)], [(2, 1), (1, 0)]),
    "texts": (["vlen-utf8"], [(1, 1), (1, 1)], [(1, 0), (1, 0)]),
}


@pytest.mark.parametrize("name", ASKED)
def test_info_is_asked_again_of_several_calls_and_of_an_index_behind(name, tmp_path, monkeypatch):
    codecs, *due = ASKED[name]
    kind, fill = ("string", "") if name in ("offsets", "texts") else ("int32", 0)
    array = make_array(tmp_path / "a", (16,), (16,), kind, codecs, fill)
    array[...] = [str(number) if kind == "string" else number for number in range(1, 17)]
    for small, *each in zip((0, 1 << 16), *due, strict=True):
        monkeypatch.setattr(_chunks, "_SMALL", small)
        store = Replacing(files_of(tmp_path / "a"))
        lent = Array("bucket/a", store=store)
        for asked in each:
            store.told, store.calls = 0, []
            same(lent[3:5], array[3:5])
            assert (store.told, len(store.calls)) == asked


def test_info_is_asked_once_where_an_index_that_was_kept_says_all(tmp_path, monkeypatch):
    array = make_array(tmp_path / "a", (16,), (16,), "int32", sharded([4], [LITTLE, GZIP]), 7)
    array[4] = 1
    store = Replacing(files_of(tmp_path / "a"))
    lent = Array("bucket/a", store=store)
    for asked in ((2, 1), (1, 0)):
        store.told, store.calls = 0, []
        assert lent[8:12].tolist() == [7] * 4
        assert (store.told, len(store.calls)) == asked


def test_what_a_read_changes_is_no_change(tmp_path, monkeypatch):
    files, _, elements = versions(tmp_path / "a", "numbers", 1, monkeypatch)
    store, times = Replacing(dict(files)), iter(range(1000))
    told = store.info
    monkeypatch.setattr(store, "info", lambda path: {**told(path), "atime": next(times), "LastAccessed": next(times)})
    array = Array("bucket/a", store=store)
    same(array[3:5], elements[0][3:5])
    assert array._chunks.cache.nbytes > 0


def moments(seconds):
    """A time as stores tell it."""
    at = datetime.fromtimestamp(int(seconds), timezone.utc)
    return {
        "mtime": int(seconds),
        "modified": at.replace(tzinfo=None),
        "Last-Modified": format_datetime(at, usegmt=True),
        "LastModified": at,
        "updated": at.strftime("%Y-%m-%dT%H:%M:%SZ"),
        "lastmodified_ms": int(seconds) * 1000,
    }


@pytest.mark.parametrize("name", moments(0))
@pytest.mark.parametrize("codecs", [[LITTLE, "crc32c"], [LITTLE, GZIP], sharded([4], [LITTLE])])
def test_times_in_whole_seconds(name, codecs, tmp_path, monkeypatch):
    """What has the time of this second may be changed and have it still; what is older is kept."""
    monkeypatch.setattr(_chunks, "_SMALL", 0)
    array = make_array(tmp_path / "a", (16,), (16,), "int32", codecs, 0)
    values = []
    for first in (1, 2):
        array[...] = np.arange(16) + first
        values.append(array.chunk_path((0,)).read_bytes())
    assert len(values[0]) == len(values[1])
    for age, kept in ((0, False), (40 * 3600, True)):
        store = Ranging(files_of(tmp_path / "a"), name)
        store.files[CHUNK] = values[0]
        said = moments(time.time() - age)[name]
        monkeypatch.setattr(store, "info", lambda path, said=said, store=store: {"size": len(store.files[path]), name: said})
        lent = Array("bucket/a", store=store)
        assert lent[3] == 4
        assert (lent._chunks.cache.nbytes > 0) == kept
        store.files[CHUNK] = values[1]
        assert kept or lent[3] == 5


def test_times_that_are_none():
    for said in ("yesterday", b"2020", None, True, [], datetime, "2020-13-01"):
        assert _stores._moment(said) is None
    assert _stores._moment(1.5) == 1.5


def test_attributes_of_threads(tmp_path, monkeypatch):
    """Of two arrays over one folder too."""
    arrays = [Array.create(tmp_path / "a", (4,), (2,), "int8"), Array(tmp_path / "a")]
    replace = _stores.Folder.replace

    def slow(self, path, value):
        time.sleep(0.002)
        replace(self, path, value)

    monkeypatch.setattr(_stores.Folder, "replace", slow)

    def set_some(number):
        for turn in range(10):
            arrays[number % 2].attrs[f"{number} {turn}"] = turn

    threads = [threading.Thread(target=set_some, args=[number]) for number in range(4)]
    for thread in threads:
        thread.start()
    for thread in threads:
        thread.join()
    assert len(Array(tmp_path / "a").attrs) == 40
