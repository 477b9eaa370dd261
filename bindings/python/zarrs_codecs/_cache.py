"""What is kept of values that were read, up to so many bytes."""

import os
import threading
import time
from collections import OrderedDict
from typing import Any

# A file that was changed a shorter time ago may be changed again and look the same.
_SETTLED_NANOSECONDS = 100_000_000
# What a file was when its value was read.
State = tuple[Any, ...]


def state_of(found: os.stat_result) -> State | None:
    """What a file is, by which a later change is seen; None where one might not be."""
    changed = max(found.st_mtime_ns, found.st_ctime_ns)
    if time.time_ns() - changed < _SETTLED_NANOSECONDS:
        return None
    return found.st_ino, found.st_size, found.st_mtime_ns, found.st_ctime_ns


class Cache:
    """What is kept of files' values, a thing with `nbytes` of each: those that were used last. Threads may use it
    together."""

    def __init__(self, limit: int) -> None:
        self._limit = limit
        self._bytes = 0
        self._values: OrderedDict[str, tuple[State, Any]] = OrderedDict()
        self._lock = threading.Lock()

    @property
    def nbytes(self) -> int:
        """How many bytes it has that are kept."""
        return self._bytes

    def get(self, path: str, state: State | None) -> Any:
        """What was kept of a file as it is; None where nothing was."""
        with self._lock:
            found = self._values.get(path)
            if found is None or found[0] != state:
                return None
            self._values.move_to_end(path)
            return found[1]

    def put(self, path: str, state: State | None, value: Any) -> None:
        """Keeps this of a file, where it isn't larger than all that may be kept; the oldest goes."""
        with self._lock:
            self._drop(path)
            if state is None or value.nbytes > self._limit:
                return
            self._values[path] = state, value
            self._bytes += value.nbytes
            while self._bytes > self._limit:
                self._drop(next(iter(self._values)))

    def drop(self, path: str) -> None:
        """Keeps nothing of a file any longer."""
        with self._lock:
            self._drop(path)

    def _drop(self, path: str) -> None:
        found = self._values.pop(path, None)
        if found is not None:
            self._bytes -= found[1].nbytes
