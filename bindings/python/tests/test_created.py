"""Arrays that are made here, their attributes, the values that are kept, and many chunks at once."""

import gzip
import importlib.util
import json
import pickle
import threading
import zlib
import time

import numpy as np
import pytest
from samples import LITTLE, VLEN, make_array, same, same_masked, some, some_index, some_texts

import zarrs_codecs as z
from zarrs_codecs import Array, _cache

GZIP = {"name": "gzip", "configuration": {"level": 1}}


@pytest.mark.parametrize(
    "name, fill, said",
    [
        ("bool", True, True),
        ("int2", -2, -2),
        ("uint64", np.uint64(2**64 - 1), 2**64 - 1),
        ("float16", np.float16(0.1), float(np.float16(0.1))),
        ("float32", float("nan"), "NaN"),
        ("float32", "0x7fc00001", "0x7fc00001"),
        ("float64", -np.inf, "-Infinity"),
        ("complex64", complex(1, np.inf), [1.0, "Infinity"]),
        ("r16", b"\1\2", [1, 2]),
        ({"name": "raw_bytes", "configuration": {"length_bytes": 2}}, b"\1\2", "AQI="),
        ("string", "ä", "ä"),
        ("bytes", b"\1\2", "AQI="),
        ({"optional": "int16"}, 5, [5]),
        ({"optional": "string"}, None, None),
        ({"optional": "r8"}, None, None),
        ({"optional": "r8"}, b"\0", [[0]]),
        ({"optional": {"name": "raw_bytes", "configuration": {"length_bytes": 2}}}, None, None),
        ({"name": "numpy.datetime64", "configuration": {"unit": "s", "scale_factor": 1}}, "NaT", "NaT"),
        ({"name": "fixed_length_utf32", "configuration": {"length_bytes": 8}}, "ä", "ä"),
        ({"name": "null_terminated_bytes", "configuration": {"length_bytes": 2}}, b"a", "YQ=="),
        ("int8", None, 0),
    ],
)
def test_arrays_of_every_type(name, fill, said, tmp_path):
    codecs = ["packbits"] if name == "int2" else None
    made = Array.create(tmp_path / "a", (3, 2), [2, 2], name, fill_value=fill, codecs=codecs)
    assert json.loads((tmp_path / "a" / "zarr.json").read_text())["fill_value"] == said
    opened = Array(tmp_path / "a")
    assert opened.shape == (3, 2) and opened.chunks == (2, 2) and opened.dtype == made.dtype
    assert (opened.fill_value is None) == (said is None)
    (same_masked if isinstance(name, dict) and "optional" in name else same)(made[...], opened[...])
    opened[2] = opened[0]
    assert opened.chunk_path((1, 0)).is_file()


def test_codecs_are_written_as_objects(tmp_path):
    """zarr-python 3.0 opens no array whose `zarr.json` has a codec's name alone."""
    inner = {"chunk_shape": (1,), "codecs": ["bytes", "crc32c"], "index_codecs": (LITTLE, "crc32c")}
    shards = {"name": "sharding_indexed", "configuration": {"chunk_shape": [2], "codecs": [{"name": "sharding_indexed", "configuration": inner}], "index_codecs": [LITTLE]}}
    lists = {"int8": (["bytes", "crc32c"], [{"name": "bytes"}, {"name": "crc32c"}]), "uint8": ([shards], None), "optional": (None, None)}
    for name, (codecs, due) in lists.items():
        array = Array.create(tmp_path / name, [4], [4], {"optional": "int8"} if name == "optional" else name, codecs=codecs)
        array[:2] = 1
        said = json.loads((tmp_path / name / "zarr.json").read_text())["codecs"]
        assert due in (None, said)
        left = list(said)
        while left:
            codec = left.pop()
            assert isinstance(codec, dict)
            left += [one for key, value in codec.get("configuration", {}).items() if key.endswith("codecs") for one in value]
        assert Array(tmp_path / name)[:2].tolist() == [1, 1]


def test_where_an_array_is_made(tmp_path, monkeypatch):
    monkeypatch.chdir(tmp_path)
    array = Array.create("a/b", (4,), (2,), "int8", attributes={"a": 1}, dimension_names=[None])
    assert array.folder == tmp_path / "a" / "b" and array.dimension_names == (None,)
    for folder in ("a/b", "a"):
        with pytest.raises(FileExistsError):
            Array.create(folder, (4,), (2,), "int8")
    for wrong in (
        {"shape": (-1,)},
        {"chunks": (0,)},
        {"chunks": (1, 1)},
        {"data_type": "int9"},
        {"fill_value": 300},
        {"codecs": ["adler32"]},
        {"attributes": {"a": float("nan")}},
        {"attributes": {"a": object()}},
        {"attributes": 5},
        {"dimension_names": ["a", "b"]},
    ):
        with pytest.raises(z.Refused):
            Array.create("c", **{"shape": (4,), "chunks": (2,), "data_type": "int8", **wrong})
    assert not (tmp_path / "c").exists()


def test_attributes(tmp_path):
    array = Array.create(tmp_path / "a", (4,), (2,), "int8", attributes={"a": 1})
    other = Array(tmp_path / "a")
    array.attrs["b"] = {"deep": [1]}
    other.attrs.update(c=2, d=None)
    assert dict(Array(tmp_path / "a").attrs) == {"a": 1, "b": {"deep": [1]}, "c": 2, "d": None}
    array.attrs["b"]["deep"] = 5
    assert array.attrs["b"] == {"deep": [1]}
    del other.attrs["a"]
    assert set(other.attrs) == {"b", "c", "d"} and len(other.attrs) == 3 and "a" not in other.attrs
    for name, value in (("x", object()), ("x", float("nan")), (5, 1)):
        with pytest.raises(z.InvalidMetadata):
            array.attrs[name] = value
    with pytest.raises(KeyError):
        del other.attrs["x"]
    with pytest.raises(KeyError):
        array.attrs["x"]
    assert Array(tmp_path / "a").metadata["shape"] == [4]
    assert array.metadata["attributes"] == dict(array.attrs)
    assert array[...].tolist() == [0] * 4


def test_info(tmp_path):
    array = Array.create(tmp_path / "a", (4, 2), (2, 2), "int16", codecs=[LITTLE, GZIP])
    info = array.info
    assert (info["codecs"], info["Python's codecs"], info["bytes"]) == (["bytes"], ["gzip"], 16)
    assert repr(info).splitlines()[1] == "shape            (4, 2)"


class Opened:
    """How many values Python's codecs have opened."""

    def __init__(self, monkeypatch):
        self.count, self._lock = 0, threading.Lock()
        opened = zlib.decompressobj

        def counted(bits):
            with self._lock:
                self.count += 1
            return opened(bits)

        monkeypatch.setattr(zlib, "decompressobj", counted)


def settled(monkeypatch):
    """Files are taken as they are at once."""
    monkeypatch.setattr(_cache, "_SETTLED_NANOSECONDS", 0)


def test_opened_values_are_kept(tmp_path, monkeypatch, rng):
    settled(monkeypatch)
    opened = Opened(monkeypatch)
    array = make_array(tmp_path / "a", (40,), (10,), "int32", [LITTLE, GZIP], 0)
    array = Array(tmp_path / "a", cache=80)
    array[...] = np.arange(40)
    for _ in range(3):
        assert array[5] == 5 and array[15] == 15
    assert opened.count == 2 and array._chunks.cache.nbytes == 80
    assert array[25] == 25
    assert opened.count == 3 and array._chunks.cache.nbytes == 80
    # what was used longest ago is gone, the other is there
    assert array[15] == 15 and opened.count == 3
    assert array[5] == 5 and opened.count == 4
    # a write through this array, and one through another
    array[5] = 50
    assert array[5] == 50
    Array(tmp_path / "a")[5] = 500
    assert array[5] == 500
    path = array.chunk_path((0,))
    path.write_bytes(gzip.compress(np.full(10, 7, "<i4").tobytes()))
    assert array[5] == 7
    path.unlink()
    assert array[5] == 0


def test_without_a_cache(tmp_path, monkeypatch):
    settled(monkeypatch)
    opened = Opened(monkeypatch)
    make_array(tmp_path / "a", (10,), (10,), "int32", [LITTLE, GZIP], 0)
    array = Array(tmp_path / "a", cache=0)
    array[...] = 1
    assert [array[5], array[6]] == [1, 1]
    assert opened.count == 2 and array._chunks.cache.nbytes == 0
    small = Array(tmp_path / "a", cache=39)
    assert [small[5], small[6]] == [1, 1] and opened.count == 4


def test_a_file_that_was_changed_just_now_is_not_kept(tmp_path, monkeypatch):
    opened = Opened(monkeypatch)
    array = make_array(tmp_path / "a", (10,), (10,), "int32", [LITTLE, GZIP], 0)
    monkeypatch.setattr(_cache, "_SETTLED_NANOSECONDS", 10**12)
    array[...] = 1
    assert [array[5], array[6]] == [1, 1]
    assert opened.count == 2
    monkeypatch.setattr(_cache, "_SETTLED_NANOSECONDS", 10**8)
    time.sleep(0.12)
    assert [array[5], array[6]] == [1, 1]
    assert opened.count == 3


def test_texts_are_kept_as_values(tmp_path, monkeypatch):
    settled(monkeypatch)
    array = make_array(tmp_path / "a", (4,), (2,), "string", [VLEN], "")
    array[...] = np.array(["a", "b", "c", "d"], object)
    assert array[...].tolist() == ["a", "b", "c", "d"]
    assert array._chunks.cache.nbytes == sum(array.chunk_path((n,)).stat().st_size for n in (0, 1))
    plain = make_array(tmp_path / "b", (4,), (2,), "int8", ["bytes"], 0)
    plain[...] = 1
    assert plain[...].tolist() == [1] * 4 and plain._chunks.cache.nbytes == 0


@pytest.mark.parametrize("threads", [1, 3])
@pytest.mark.parametrize("name", ["int32", "string"])
def test_places_of_masked_arrays(name, threads, tmp_path, rng):
    array = Array.create(tmp_path / "a", (7, 9), (3, 4), {"optional": name}, threads=threads)
    data = np.arange(63).reshape(7, 9).astype("<i4")
    data = data if name == "int32" else data.astype(str).astype(object)
    expected = np.ma.MaskedArray(data, rng.integers(0, 2, (7, 9)).astype(bool))
    array[...] = expected
    points = rng.integers(-7, 7, (4, 5)), rng.integers(-9, 9, (4, 5))
    mask = rng.integers(0, 2, (7, 9)).astype(bool)
    same_masked(array.vindex[points], expected[points])
    same_masked(array.oindex[[3, 1], [0, 8, 2]], expected[np.ix_([3, 1], [0, 8, 2])])
    same_masked(array[mask], expected[mask])
    new = np.ma.MaskedArray(data[:2, :2], [[True, False], [False, True]])
    places = np.array([[0, 1], [2, 3]]), np.array([[0, 1], [2, 3]])
    array.vindex[places] = expected[places] = new
    same_masked(array[...], expected)
    array.oindex[[0, 6], :] = np.ma.masked
    expected[[0, 6]] = np.ma.masked
    same_masked(array[...], expected)
    assert array[0, 3] is np.ma.masked and array.fill_value is None


@pytest.mark.parametrize("name, codec", [("int32", LITTLE), ("string", VLEN)])
def test_many_chunks_at_once(name, codec, tmp_path, rng):
    make_array(tmp_path / "a", (30, 20), (4, 3), name, [codec, GZIP], 0 if name == "int32" else "")
    array = Array(tmp_path / "a", threads=4, cache=1 << 12)
    expected = np.full((30, 20), array.fill_value, array.dtype)
    for _ in range(10):
        index = some_index(rng, expected.shape)
        shape = np.shape(expected[index])
        new = some(rng, name, expected.dtype, shape) if name == "int32" else some_texts(rng, shape)
        array[index] = expected[index] = new if shape else new[()]
        same(array[...], expected)
        rows = tuple(rng.integers(0, size, 50) for size in expected.shape)
        same(array.vindex[rows], expected[rows])
    other = pickle.loads(pickle.dumps(array))
    assert other._settings == {"cache": 1 << 12, "threads": 4}
    same(other[...], expected)


@pytest.mark.parametrize(
    "by, index",
    [
        (None, np.s_[::3]),
        (None, [0, 4, 8]),
        (None, np.arange(9) % 4 == 0),
        ("oindex", ([0, 3, 7], slice(1))),
        ("oindex", (slice(None, None, 4), 0)),
        ("vindex", ([0, 3, 7], [0, 1, 0])),
    ],
)
def test_so_many_chunks_of_any_index_at_a_time(by, index, tmp_path, monkeypatch):
    make_array(tmp_path / "a", (9, 2), (3, 2), "int32", [LITTLE], 0)
    array, together = Array(tmp_path / "a", threads=3), threading.Barrier(3, timeout=5)
    written = np.arange(18).reshape(9, 2)
    array[...] = written
    for name in ("read_into", "write"):
        call = getattr(array._chunks, name)

        def waiting(*arguments, call=call):
            together.wait()
            return call(*arguments)

        monkeypatch.setattr(array._chunks, name, waiting)
    indexed = array if by is None else getattr(array, by)
    assert np.array_equal(indexed[index], written[index])
    indexed[index] = written[index] = -written[index]
    monkeypatch.undo()
    assert np.array_equal(array[...], written)


def test_many_threads_and_one_cache(tmp_path, rng):
    """Each thread writes chunks of its own, and reads all."""
    make_array(tmp_path / "a", (64,), (4,), "int32", [LITTLE, GZIP], 0)
    array = Array(tmp_path / "a", cache=100, threads=2)
    wrong = []

    def work(number):
        for turn in range(20):
            array[16 * number : 16 * number + 16] = 100 * number + turn
            found = array[...].reshape(4, 16)
            if (found[number] != 100 * number + turn).any() or (found // 100 > np.arange(4)[:, None]).any():
                wrong.append((number, turn, found))

    threads = [threading.Thread(target=work, args=(number,)) for number in range(4)]
    for thread in threads:
        thread.start()
    for thread in threads:
        thread.join()
    assert not wrong
    assert array._chunks.cache.nbytes <= 100


def test_the_first_refusal_of_many_is_raised(tmp_path):
    make_array(tmp_path / "a", (40,), (1,), "int32", [LITTLE], 0)
    array = Array(tmp_path / "a", threads=4)
    array[...] = 1
    array.chunk_path((7,)).write_bytes(b"")
    array.chunk_path((30,)).write_bytes(b"")
    with pytest.raises(z.InvalidBytesLength) as told:
        array[...]
    assert told.value.path == array.chunk_path((7,))
    assert (array[8:30] == 1).all()


def test_settings_that_are_none(tmp_path):
    make_array(tmp_path / "a", (4,), (1,), "int32", [LITTLE], 0)
    for wrong in ({"threads": 0}, {"cache": -1}):
        with pytest.raises(ValueError):
            Array(tmp_path / "a", **wrong)


@pytest.mark.skipif(importlib.util.find_spec("dask") is None, reason="python3-dask isn't installed")
def test_dask_writes_regions_of_shared_chunks(tmp_path):
    """With the lock that `dask.array.store` takes by itself."""
    import dask.array

    array = Array.create(tmp_path / "a", (64, 8), (64, 8), "int32")
    expected = np.arange(512).reshape(64, 8)
    lazy = dask.array.from_array(expected, chunks=(4, 4))
    lazy.store(array, scheduler="threads", num_workers=4)
    same(array[...], expected.astype("<i4"))
    read = dask.array.from_array(array, chunks=(16, 8))
    assert read.sum().compute(scheduler="threads") == expected.sum()
