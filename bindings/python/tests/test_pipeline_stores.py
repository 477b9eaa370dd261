"""The pipeline over stores: how many requests it makes, how many bytes it asks for, and what it does where they fail."""

import asyncio
import os
import time

import numpy as np
import pytest
from pipelines import IS_3_0, OURS, THEIRS, Far, counted, made, opened, same_bits, using
from samples import some

import zarr
from zarr.codecs import BytesCodec, Crc32cCodec, ShardingCodec, ZstdCodec
from zarr.storage import LocalStore, MemoryStore
from zarrs_codecs import InvalidByteRange, InvalidBytesLength, Refused

pytestmark = pytest.mark.filterwarnings("ignore")
SIZE = 1024
DATA = np.arange(SIZE * SIZE, dtype="uint32").reshape(SIZE, SIZE) % 65521
PLAIN = {"chunks": (512, 512), "compressors": None}
SHARDS = {"chunks": (64, 64), "shards": (512, 512), "compressors": None}
LAYOUTS = {
    "plain": PLAIN,
    "zstd": {"chunks": (512, 512), "compressors": [ZstdCodec(level=1)]},
    "shards": SHARDS,
    "shards, index at the start": {
        "chunks": (512, 512),
        "serializer": ShardingCodec(chunk_shape=(64, 64), index_location="start", codecs=[BytesCodec()]),
        "compressors": None,
    },
    "shards of zstd": {"chunks": (64, 64), "shards": (512, 512), "compressors": [ZstdCodec(level=1)]},
    "shards in shards": {
        "chunks": (512, 512),
        "serializer": ShardingCodec(
            chunk_shape=(128, 128), codecs=[ShardingCodec(chunk_shape=(32, 32), codecs=[BytesCodec(), Crc32cCodec()])]
        ),
        "compressors": None,
    },
}
INDICES = {
    "element": np.s_[5, 5],
    "window": np.s_[100:140, 200:240],
    "window over four chunks": np.s_[500:530, 490:520],
    "row": np.s_[77, :],
    "column": np.s_[:, 77],
    "large window": np.s_[100:400, 100:400],
    "step": np.s_[3::8, 5:500:7],
    "all": np.s_[:],
}


@pytest.fixture(scope="module")
def stored():
    """A store of memory with an array of each layout."""
    store = MemoryStore()
    for name, layout in LAYOUTS.items():
        made(store, THEIRS, name=name, shape=DATA.shape, dtype=DATA.dtype, **layout)[...] = DATA
    return store


def far_array(stored, name, path=OURS, latency=0.0):
    """An array in a store that is far away, which hasn't been asked for a chunk."""
    far = Far(stored, latency)
    with using(path):
        return zarr.open_array(far, path=name, mode="r"), far


@pytest.mark.parametrize("index", INDICES)
@pytest.mark.parametrize("name", LAYOUTS)
def test_requests_are_as_many_as_zarr_pythons_and_bytes_no_more(name, index, stored):
    index = INDICES[index]
    array, far = far_array(stored, name)
    with counted() as stats:
        same_bits(array[index], DATA[index])
    assert stats.requests == len(far.asked) and stats.read_by_zarr_python == 0
    if IS_3_0 and "shards in shards" in name:
        return
    theirs, beside = far_array(stored, name, THEIRS)
    same_bits(theirs[index], DATA[index])
    # of a shard in a shard zarr-python fetches the inner shard at once, and here its index goes before
    rounds = 2 if "shards in shards" in name else 1
    assert len(far.asked) <= rounds * len(beside.asked)
    # zarr-python 3.0 joins none
    assert IS_3_0 or far.bytes <= beside.bytes


def test_a_column_of_a_shard_takes_two_requests_each(stored):
    array, far = far_array(stored, "shards")
    array[:, 77]
    assert len(far.asked) == 4 and len(far.suffixes) == 2


@pytest.mark.parametrize("setting, least, most", [("gap_bytes", 500, 9999), ("bytes", 5, 100)])
def test_how_near_is_near_is_zarr_pythons_setting(setting, least, most, stored):
    far = Far(stored)
    with using(OURS), zarr.config.set({f"array.sharding_coalesce_max_{setting}": 0 if setting == "gap_bytes" else 1 << 15}):
        same_bits(zarr.open_array(far, path="shards", mode="r")[:, 77], DATA[:, 77])
    assert least <= len(far.asked) <= most


def test_requests_go_side_by_side(stored):
    array, far = far_array(stored, "shards", latency=0.1)
    array[500:530, 490:520]
    assert far.most == 4
    with zarr.config.set({"async.concurrency": 2}):
        far.clear_counts()
        array[500:530, 490:520]
    assert far.most == 2


def test_chunks_that_are_not_there(stored):
    far = Far(MemoryStore())
    for name, layout in LAYOUTS.items():
        array = made(far, name=name, shape=DATA.shape, dtype=DATA.dtype, fill_value=9, **layout)
        far.clear_counts()
        assert (array[500:530, 490:520] == 9).all()
        assert len(far.asked) == 4, name


@pytest.mark.skipif(IS_3_0, reason="zarr-python 3.0 doesn't ask which chunks are there")
@pytest.mark.parametrize("store", [MemoryStore, lambda: Far(MemoryStore())])
def test_chunks_that_have_to_be_there(store):
    array = made(store(), shape=(8,), chunks=(4,), dtype="u1", config={"read_missing_chunks": False})
    array[:4] = 7
    assert array[1:3].tolist() == [7, 7]
    with pytest.raises(zarr.errors.ChunkNotFoundError):
        array[3:6]


def test_a_value_that_is_too_short(stored):
    cut = MemoryStore()
    for name in ("plain", "shards", "zstd"):
        array = made(cut, name=name, shape=DATA.shape, dtype=DATA.dtype, **LAYOUTS[name])
        array[...] = DATA
        key = f"{name}/c/0/0"
        value = cut._store_dict[key]
        cut._store_dict[key] = value[: len(value) // 2]
        for store in (cut, Far(cut)):
            with using(OURS):
                array = zarr.open_array(store, path=name, mode="r")
            for index in (np.s_[:], np.s_[400:420, 10:30]):
                with pytest.raises(Refused) as raised:
                    array[index]
                assert "c/0/0" in str(raised.value), name
                if name == "plain":
                    assert isinstance(raised.value, (InvalidByteRange, InvalidBytesLength))


def is_failing(keys):
    return lambda key: key in keys


@pytest.mark.parametrize("name", ["plain", "shards", "zstd"])
def test_a_read_that_fails_waits_for_what_it_began(name, stored):
    array, far = far_array(stored, name, latency=0.05)
    far.fails = is_failing({f"{name}/c/1/0"})
    with pytest.raises(OSError, match="c/1/0 is too far away"):
        array[400:600, 400:600]
    ended = len(far.ended)
    assert far.going == 0
    time.sleep(0.2)
    assert len(far.ended) == ended
    far.fails = is_failing(())
    same_bits(array[400:600, 400:600], DATA[400:600, 400:600])


def test_a_write_that_fails_waits_for_what_it_began():
    far = Far(MemoryStore(), 0.02)
    array = made(far, shape=(64,), chunks=(2,), dtype="u2", compressors=None)
    far.clear_counts()
    far.fails = is_failing({"c/3"})
    with zarr.config.set({"async.concurrency": 4}), pytest.raises(OSError, match="c/3 is too far away"):
        array[...] = 1 + np.arange(64)
    assert far.going == 0
    begun = len(far.ended)
    # no other was begun behind it
    assert begun <= 8
    time.sleep(0.1)
    assert len(far.ended) == begun


def test_whole_chunks_are_asked_for_side_by_side(stored):
    array, far = far_array(stored, "plain", latency=0.2)
    same_bits(array[...], DATA)
    assert len(far.asked) == far.most == 4


def test_a_folders_files(tmp_path, rng):
    array = made(LocalStore(tmp_path), shape=(40, 40), chunks=(16, 16), dtype="u2", compressors=None)
    expected = some(rng, "uint16", np.dtype("<u2"), (40, 40)).copy()
    array[...] = expected
    assert (tmp_path / "c/0/0").stat().st_size == 512
    same_bits(array[3:20, 5:18], expected[3:20, 5:18])
    (tmp_path / "c/1/1").unlink()
    expected[16:32, 16:32] = 0
    same_bits(array[...], expected)
    (tmp_path / "c/1/1").mkdir()
    same_bits(array[20:30, 20:30], expected[20:30, 20:30])


def test_a_folder_that_cant_be_read(tmp_path):
    array = made(LocalStore(tmp_path), shape=(4,), chunks=(2,), dtype="u2")
    array[...] = 5
    os.truncate(tmp_path / "c/1", 3)
    for index in (np.s_[:], np.s_[3]):
        with pytest.raises(Refused) as raised:
            array[index]
        assert str(raised.value).endswith(f"in file://{tmp_path}/c/1")


def test_stores_that_may_not_be_written(tmp_path):
    for store in (MemoryStore(), LocalStore(tmp_path)):
        array = made(store, shape=(4,), chunks=(2,), dtype="u2")
        array[...] = 5
        where = store._store_dict if isinstance(store, MemoryStore) else tmp_path
        again = type(store)(where, read_only=True)
        with using(OURS):
            read_only = zarr.open_array(again, mode="r")
        with pytest.raises(ValueError, match="read-only"):
            read_only[...] = 6
        assert read_only[...].tolist() == [5] * 4


def test_classes_below_zarr_pythons_stores_are_asked_themselves(tmp_path):
    """Not a folder behind them, nor what lies in memory."""

    class Loud(LocalStore):
        async def get(self, key, prototype=None, byte_range=None):
            asked.append(key)
            return await super().get(key, prototype, byte_range)

    asked = []
    array = made(Loud(tmp_path), shape=(4,), chunks=(2,), dtype="u2")
    array[...] = 5
    assert array[1:3].tolist() == [5, 5]
    assert asked[-2:] in (["c/0", "c/1"], ["c/1", "c/0"])


def test_others_that_wait_for_the_event_loop_have_their_turn():
    array = made(MemoryStore(), shape=(4,), chunks=(2,), dtype="u2")
    turns = []

    async def count():
        for _ in range(3):
            turns.append(len(done))
            await asyncio.sleep(0)

    async def read():
        for _ in range(3):
            await array._async_array.getitem(slice(None))
            done.append(1)

    async def both():
        await asyncio.gather(read(), count())

    done = []
    asyncio.run(both())
    assert turns[-1] < 3


def test_an_edit_of_a_complete_chunk_reads_nothing(rng):
    far = Far(MemoryStore())
    array = made(far, shape=(10, 10), chunks=(4, 4), dtype="u1", compressors=None)
    far.clear_counts()
    array[...] = 1
    # those at the array's edge too
    assert far.asked == []
    array[:2] = 2
    assert len(far.asked) == 3
    same_bits(opened(array, THEIRS)[...], np.array([[2] * 10] * 2 + [[1] * 10] * 8, "u1"))
