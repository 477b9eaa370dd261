"""Where the values of an array's chunks are: at hand, in a folder, or far away."""

import asyncio
import bisect
import os
from typing import Any

import numpy as np
from zarr.abc.store import RangeByteRequest, SuffixByteRequest
from zarr.core.config import config
from zarr.storage import LocalStore, MemoryStore, StorePath

from .._files import MOST_JOINED, NearFile, Source, cut, near, opened_with_size
from .._types import AnyArray, listed
from ..refusals import InvalidByteRange

# No store is asked how long a value is: of one of this length what lacks at its end is fetched by a request of a suffix.
_LENGTH = 1 << 62
# Ranges that are as near as this are one request, where zarr-python's configuration has no other number.
_NEAR = 1 << 20


class Missing(Exception):
    """Nothing is stored."""


class Lacking(Exception):
    """A read lacks ranges of a value, which are fetched before it is begun again."""

    def __init__(self, ranges: list[list[int]]) -> None:
        super().__init__(ranges)
        self.ranges = ranges


class AllLacking(Exception):
    """A read lacks all of a value."""


def is_at_hand(getter: Any) -> bool:
    """Whether a value is in memory, as those of a memory store are, and those of zarr-python's own shards."""
    return not isinstance(getter, StorePath) or type(getter.store) is MemoryStore


def file_of(getter: Any) -> str | None:
    """The path of a value's file; None where it isn't in a folder. A store of a class below that of folders may have its
    values elsewhere."""
    if isinstance(getter, StorePath) and type(getter.store) is LocalStore:
        return os.path.join(str(getter.store.root), str(getter.path))
    return None


def is_set_in_threads(setter: Any) -> bool:
    """Whether a value is in a folder or in memory, and written with no event loop: by zarr-python 3.1 and later versions."""
    is_near = file_of(setter) is not None or isinstance(setter, StorePath) and is_at_hand(setter)
    return is_near and hasattr(setter.store, "set_sync") and not setter.store.read_only


class ChunkFile(NearFile):
    """A value's file, which is open in a `with` block. Raises `Missing` where there is none."""

    def __init__(self, path: str) -> None:
        try:
            number, self._size = opened_with_size(path)
        except (FileNotFoundError, IsADirectoryError, NotADirectoryError) as error:
            raise Missing from error
        super().__init__(number)

    def __enter__(self) -> "ChunkFile":
        return self

    def __exit__(self, *_: object) -> None:
        os.close(self._file)

    def length(self) -> int:
        return self._size

    def whole(self) -> AnyArray:
        return self.one_piece(0, self._size)


def _setting(spec: Any, name: str, default: int) -> int:
    """A number of an array's configuration, which zarr-python 3.0 doesn't have."""
    found = getattr(spec.config, name, None)
    return int(config.get(f"array.{name}", default) if found is None else found)


class FarValue(Source):
    """A value that is read by requests to a store, which the event loop makes: a read that lacks ranges ends with `Lacking`,
    and is begun again when these were fetched."""

    part_bytes = None

    def __init__(self, getter: Any, spec: Any, turn: asyncio.Semaphore) -> None:
        self._getter, self._prototype, self._turn = getter, spec.prototype, turn
        self._near = _setting(spec, "sharding_coalesce_max_gap_bytes", _NEAR)
        self._most = _setting(spec, "sharding_coalesce_max_bytes", MOST_JOINED)
        # ranges that were fetched, in order, and their bytes
        self._there: list[list[int]] = []
        self._parts: list[AnyArray] = []
        self.requests = 0

    def length(self) -> int:
        return _LENGTH

    def _is_there(self, begin: int, end: int) -> bool:
        at = bisect.bisect_right(self._there, [begin, _LENGTH]) - 1
        return at >= 0 and end <= self._there[at][1]

    def pieces(self, ranges: AnyArray) -> AnyArray:
        if not len(ranges):
            return np.empty(0, np.uint8)
        lacking = [one for one in listed(ranges) if not self._is_there(*one)]
        if lacking:
            raise Lacking(lacking)
        return cut(ranges, self._there, self._parts)

    def whole(self) -> AnyArray:
        raise AllLacking

    async def fetch(self, ranges: list[list[int]]) -> None:
        """Fetches ranges that a read lacks, those together that are near. Raises `Missing` where nothing is stored,
        `AllLacking` where they are all of the value, and `InvalidByteRange` where it is too short."""
        if any(end == _LENGTH and begin < _LENGTH // 2 for begin, end in ranges):
            raise AllLacking
        asked = near(ranges, self._near, self._most)
        found = await asyncio.gather(*(self._got(*one) for one in asked), return_exceptions=True)
        for one, part in zip(asked, found, strict=True):
            if isinstance(part, BaseException):
                raise part
            at = bisect.bisect(self._there, one)
            self._there.insert(at, one)
            self._parts.insert(at, part)

    async def get(self) -> Any:
        """All of the value, as zarr-python hands it on; None where nothing is stored."""
        async with self._turn:
            self.requests += 1
            return await self._getter.get(self._prototype)

    async def _got(self, begin: int, end: int) -> AnyArray:
        is_suffix = end == _LENGTH
        request = SuffixByteRequest(end - begin) if is_suffix else RangeByteRequest(begin, end)
        async with self._turn:
            self.requests += 1
            found = await self._getter.get(self._prototype, request)
        if found is None:
            raise Missing
        if len(found) != end - begin:
            which = f"the last {end - begin} bytes" if is_suffix else f"bytes {begin} to {end}"
            raise InvalidByteRange(f"{which} were asked for, and the store has {len(found)} of them")
        part: AnyArray = found.as_numpy_array().view(np.uint8)
        return part
