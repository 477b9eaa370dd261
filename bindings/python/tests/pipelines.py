"""zarr-python's arrays by each of two pipelines, its own and the package's, and stores that are far away. A test that
imports this is skipped where zarr-python 3 isn't installed."""

import asyncio
import importlib.metadata
import importlib.util
from contextlib import contextmanager

import numpy as np
import pytest

if importlib.util.find_spec("zarr") is None or int(importlib.metadata.version("zarr").split(".")[0]) < 3:
    pytest.skip("zarr-python 3 isn't installed", allow_module_level=True)

import zarr  # noqa: E402
from zarr.abc.store import Store, SuffixByteRequest  # noqa: E402
from zarr.storage import LocalStore, MemoryStore, WrapperStore  # noqa: E402

import zarrs_codecs  # noqa: E402

IS_3_0 = zarr.__version__.startswith("3.0.")
THEIRS = "zarr.core.codec_pipeline.BatchedCodecPipeline"
OURS = f"{zarrs_codecs.CodecPipeline.__module__}.CodecPipeline"
WAYS = {"ours": OURS, "theirs": THEIRS}
STORES = ["memory", "folder", "far"]


def using(path):
    """A time in which arrays that are opened or made have this pipeline."""
    return zarr.config.set({"codec_pipeline.path": path})


def opened(array, path):
    """The same array with another pipeline."""
    with using(path):
        return zarr.open_array(array.store_path.store, path=array.store_path.path, mode="r+")


def made(store, path=OURS, **declared):
    """A new array with a pipeline."""
    with using(path):
        return zarr.create_array(store, **declared)


def some_store(kind, folder):
    """A store of a kind, with nothing in it."""
    if kind == "folder":
        return LocalStore(str(folder))
    return MemoryStore() if kind == "memory" else Far(MemoryStore())


class Far(WrapperStore):
    """A store that answers after some seconds, counts what it was asked, and fails where it is told to."""

    def __init__(self, store, latency=0.0):
        super().__init__(store)
        self.latency, self.fails = latency, lambda key: False
        self.clear_counts()

    def clear_counts(self):
        self.asked, self.bytes, self.going, self.most = [], 0, 0, 0
        self.ended = []

    async def _far(self, key, call):
        self.going += 1
        self.most = max(self.most, self.going)
        try:
            await asyncio.sleep(self.latency)
            if self.fails(key):
                raise OSError(f"{key} is too far away")
            found = await call
        finally:
            call.close()
            self.going -= 1
            self.ended.append(key)
        return found

    async def get(self, key, prototype=None, byte_range=None):
        is_chunk = "c/" in key
        if is_chunk:
            self.asked.append((key, byte_range))
        found = await self._far(key, self._store.get(key, prototype, byte_range))
        self.bytes += len(found) if is_chunk and found is not None else 0
        return found

    async def set(self, key, value):
        await self._far(key, self._store.set(key, value))

    async def delete(self, key):
        await self._far(key, self._store.delete(key))

    def with_read_only(self, read_only=False):
        return self

    if hasattr(Store, "get_ranges"):

        def get_ranges(self, *arguments, **more):
            # by `get`, and not the store's own
            return Store.get_ranges(self, *arguments, **more)

        @property
        def _supports_sync_io(self):
            return False

    @property
    def suffixes(self):
        return [one for _, one in self.asked if isinstance(one, SuffixByteRequest)]


@contextmanager
def counted():
    """What the pipeline counts meanwhile."""
    zarrs_codecs.CodecPipeline.stats.clear()
    yield zarrs_codecs.CodecPipeline.stats


def same_bits(found, expected):
    """Whether arrays or scalars are the same, to the last bit; texts of whatever type of numpy's."""
    found, expected = np.asarray(found), np.asarray(expected)
    assert found.shape == expected.shape
    if found.dtype.kind in "OTUS":
        assert found.tolist() == expected.tolist()
    else:
        assert found.dtype.newbyteorder("=") == expected.dtype.newbyteorder("="), (found.dtype, expected.dtype)
        assert found.astype(expected.dtype).tobytes() == expected.tobytes()
