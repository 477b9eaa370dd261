"""Stores in memory: of files by `open`, or of ranges of many by one call, as fsspec's file systems have them. They count what they
are asked, return short, raise, and have objects that others replace meanwhile."""

import datetime
import io
import itertools
import time


class Raised(OSError):
    """What a store of these raises."""


class Objects:
    """What is stored, by paths: bytes, each with a number of its own and the time when it was put. `turns` are what others do
    before a call of this number."""

    def __init__(self):
        self.found, self.calls, self.turns = {}, 0, {}
        self._numbers = itertools.count()

    def put(self, path, value, at=None):
        """Stores an object as a whole."""
        self.found[path] = bytes(value), next(self._numbers), time.time() if at is None else at

    def called(self):
        """Counts a call, before which others may do something."""
        self.calls += 1
        if self.calls in self.turns:
            self.turns[self.calls]()

    def get(self, path):
        """An object as it is; `FileNotFoundError` is raised where there is none."""
        if path not in self.found:
            raise FileNotFoundError(path)
        return self.found[path]


class Opening:
    """A store that opens files, each of which is the object of that moment."""

    def __init__(self, objects, missing=FileNotFoundError):
        self.objects, self._missing = objects, missing
        self.requests, self.asked = 0, 0

    def open(self, path):
        self.objects.called()
        self.requests += 1
        try:
            return io.BytesIO(self.objects.get(path)[0])
        except FileNotFoundError as error:
            raise self._missing(path) from error


def _second(at):
    return datetime.datetime.fromtimestamp(int(at), datetime.timezone.utc)


# What `info` tells of an object's number and time, by names of stores that there are.
TELLS = {
    "tag": lambda number, at: {"ETag": f"{number:x}", "LastModified": _second(at)},
    "md5": lambda number, at: {"md5Hash": f"{number:032x}"},
    "generation": lambda number, at: {"generation": str(number), "updated": _second(at).isoformat()},
    "exact time": lambda number, at: {"mtime": at + number * 1e-6},
    "whole seconds": lambda number, at: {"mtime": int(at)},
    "whole seconds as a float": lambda number, at: {"mtime": float(int(at))},
    "whole seconds as a date": lambda number, at: {"LastModified": _second(at)},
    "whole seconds as a text": lambda number, at: {"last_modified": _second(at).strftime("%a, %d %b %Y %H:%M:%S GMT")},
    "nothing": lambda number, at: {},
}
OF_SECONDS = [name for name in TELLS if name.startswith("whole")]


class Ranged(Opening):
    """A store that tells of an object, and fetches ranges of many by one call. `short` is the call whose ranges lack a byte, and
    `raises` the one that raises, or that returns what it would raise."""

    def __init__(self, objects, tells="tag", short=None, raises=None, returns=None):
        super().__init__(objects)
        self._tells, self._short, self._raises, self._returns = tells, short, raises, returns
        self.fetches = []

    def info(self, path):
        self.objects.called()
        value, number, at = self.objects.get(path)
        return {"name": path, "size": len(value), "type": "file", **TELLS[self._tells](number, at)}

    def cat_ranges(self, paths, starts, ends, **_):
        self.objects.called()
        self.requests += 1
        found = []
        for path, begin, end in zip(paths, starts, ends):
            value = self.objects.get(path)[0]
            self.fetches.append((path, begin, end, self.requests))
            self.asked += end - begin
            found.append(value[begin:end])
        if self.requests == self._raises:
            raise Raised("the store is away")
        if self.requests == self._returns:
            found[-1] = Raised("the store is away")
        if self.requests == self._short:
            found[-1] = found[-1][:-1]
        return found
