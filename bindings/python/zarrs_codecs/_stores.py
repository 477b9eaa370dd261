"""Where an array's files are: in a folder, or in a store that lends them."""

import io
import os
import re
import reprlib
import time
from collections.abc import Iterator
from contextlib import closing, contextmanager
from datetime import datetime, timezone
from email.utils import parsedate_to_datetime
from typing import Any

import numpy as np

from ._cache import State
from ._files import MOST_JOINED, File, NearFile, Source, bytes_of, counted, cut, near, opened, replace
from ._types import AnyArray, listed

# Words of `info` that differ after a change, in whatever case: tags, of which each value has its own, and times.
_TAG = re.compile("etag|generation|md5|digest|checksum|^version(_?id)?$", re.IGNORECASE)
_TIME = re.compile("modified|mtime|created|updated", re.IGNORECASE)
# Those that a read may change.
_OF_READS = re.compile("^a?time$|access", re.IGNORECASE)
# A file that was changed fewer seconds ago may be changed again and have the same time: some stores report whole seconds.
_SETTLED_SECONDS = 2
# A greater number is one of milliseconds.
_MOST_SECONDS = 1e11


class Folder:
    """The files of the file system."""

    def open(self, path: str) -> Source:
        """The value of a file. Raises `FileNotFoundError`."""
        return _Own(opened(path))

    def read(self, path: str) -> bytes:
        """All bytes of a file. Raises `FileNotFoundError`."""
        with open(opened(path), "rb") as file:
            return file.read()

    def check(self, path: str) -> None:
        """Raises `FileNotFoundError` where there is no such file."""
        os.stat(path)

    def check_written(self) -> None:
        """Raises an exception where files can't be written."""

    def replace(self, path: str, value: AnyArray) -> None:
        """Makes a file of a value."""
        replace(path, value)


class Store(Folder):
    """The files that an object opens by their paths. Where it has `info` and `cat_ranges`, as fsspec's file systems
    have, it fetches all ranges of a file that a read needs by one call, those that are near as one. It isn't written."""

    def __init__(self, store: Any, near: int) -> None:
        self._near = near
        if not hasattr(store, "open"):
            raise TypeError(f"a {type(store).__name__} opens no files")
        self._store = store
        self._has_ranges = hasattr(store, "info") and hasattr(store, "cat_ranges")

    def open(self, path: str) -> Source:
        with _named(path):
            return _Ranged(self._store, path, self._near) if self._has_ranges else _Opened(self._store.open(path))

    def read(self, path: str) -> bytes:
        with _named(path), closing(self._store.open(path)) as file:
            return bytes(bytes_of(file.read()))

    def check(self, path: str) -> None:
        self.open(path).close()

    def check_written(self) -> None:
        raise io.UnsupportedOperation("an array in a store is read, and not written")

    def replace(self, path: str, value: AnyArray) -> None:
        self.check_written()


@contextmanager
def _named(path: str) -> Iterator[None]:
    """A `KeyError`, as archives raise it, is a file that isn't there."""
    try:
        yield
    except KeyError as error:
        raise FileNotFoundError(f"the store has no {path}") from error


class _Own(NearFile):
    """A file that was opened for a read, by its number."""

    def close(self) -> None:
        os.close(self._file)


class _Opened(File):
    """A file that a store opened for a read."""

    def close(self) -> None:
        self._file.close()


def _moment(reported: Any) -> float | None:
    """The moment that `info` reports, in seconds; None where it isn't known."""
    if isinstance(reported, str):
        try:
            reported = datetime.fromisoformat(re.sub("Z$", "+00:00", reported))
        except ValueError:
            try:
                reported = parsedate_to_datetime(reported)
            except (TypeError, ValueError):
                return None
    if isinstance(reported, datetime):
        # of one without a zone the later one of the two that it may be
        zones = (None, timezone.utc) if reported.tzinfo is None else (reported.tzinfo,)
        return max(reported.replace(tzinfo=zone).timestamp() for zone in zones)
    if type(reported) not in (int, float):
        return None
    return float(reported) / (1000 if reported > _MOST_SECONDS else 1)


class _Ranged(Source):
    """A file of a store of which several ranges are fetched by one call, each time by its path."""

    def __init__(self, store: Any, path: str, near: int) -> None:
        self._store, self._path, self._near = store, path, near
        self._info = self._reported()
        if self._info.get("type") == "directory":
            raise FileNotFoundError(f"{path} is a folder")
        if self._info.get("size") is None:
            raise OSError(f"the store doesn't report how many bytes {path} has")

    def _reported(self) -> dict[str, Any]:
        """What the store reports of the file, but for what a read may change."""
        reported = self._store.info(self._path)
        return {name: reported[name] for name in sorted(reported) if not _OF_READS.search(name)}

    @property
    def part_bytes(self) -> int | None:
        return None

    def length(self) -> int:
        return counted(self._info["size"])

    def state(self) -> State | None:
        times = [_moment(value) for name, value in self._info.items() if _TIME.search(name) and value]
        settled = time.time() - _SETTLED_SECONDS
        has_tag = any(_TAG.search(name) and value for name, value in self._info.items())
        if not has_tag and (not times or any(one is None or one > settled for one in times)):
            return None
        return self.length(), repr(self._info)

    def is_same(self, rests_on_length: bool = False, has_failed: bool = False) -> bool:
        # what was kept is of the moment when `info` reported of the file, and so is the length
        moments = self.calls + (self.has_kept or rests_on_length)
        if moments < 2 and not has_failed:
            return True
        try:
            with _named(self._path):
                return self._reported() == self._info
        except FileNotFoundError:
            return False

    def pieces(self, ranges: AnyArray) -> AnyArray:
        if not len(ranges):
            return np.empty(0, np.uint8)
        self.calls += 1
        covering = near(listed(ranges), self._near, MOST_JOINED)
        begins, ends = (list(column) for column in zip(*covering, strict=True))
        parts = self._store.cat_ranges([self._path] * len(begins), begins, ends)
        if not isinstance(parts, (list, tuple)) or len(parts) != len(begins):
            raise OSError(f"a store answered {reprlib.repr(parts)}, where {len(begins)} parts are due")
        for part, begin, end in zip(parts, begins, ends, strict=True):
            if isinstance(part, BaseException):
                raise part
            if len(bytes_of(part, end - begin)) < end - begin:
                raise EOFError("the file ended while it was read")
        return cut(ranges, covering, [np.frombuffer(part, np.uint8) for part in parts])
