"""Where a value's bytes are: reading pieces of it, and replacing files."""

import bisect
import contextlib
import errno
import io
import os
import re
import reprlib
import secrets
import stat
from collections.abc import Iterator
from typing import Any

import numpy as np

from ._cache import State, state_of
from ._types import AnyArray, listed

# Files that a writer leaves behind that is killed, which nothing reads.
UNFINISHED = re.compile(r".*\.[0-9a-f]{16}\.tmp", re.DOTALL)
# How many bytes of a file are fetched at a time, where a read needs more.
PART_BYTES = 1 << 20
# Ranges of a file that are as near as this are read by one call, since a call takes as long as so many bytes.
_NEAR_IN_FILE = 1 << 13
# A request of a far value, which has ranges in it that are near, has so many bytes at most.
MOST_JOINED = 1 << 24


def joined(ranges: AnyArray) -> AnyArray:
    """The same bytes in ranges of which none touches the next."""
    if len(ranges) < 2:
        return ranges
    is_first = np.ones(len(ranges), bool)
    is_first[1:] = ranges[1:, 0] != ranges[:-1, 1]
    is_last = np.ones(len(ranges), bool)
    is_last[:-1] = is_first[1:]
    return np.column_stack((ranges[is_first, 0], ranges[is_last, 1]))


def near(ranges: list[list[int]], gap: int, most: int | None = None) -> list[list[int]]:
    """Ranges that cover these, in order, each a start and an end: those with so many bytes between them, or fewer, are one,
    where that has so many bytes at most."""
    found: list[list[int]] = []
    for begin, end in sorted(ranges):
        if found and begin - found[-1][1] <= gap and (most is None or end - found[-1][0] <= most):
            found[-1][1] = max(found[-1][1], end)
        else:
            found.append([begin, end])
    return found


def cut(ranges: AnyArray, covering: list[list[int]], parts: list[AnyArray]) -> AnyArray:
    """The bytes of ranges, joined, of ranges that cover them, as `near` makes these, and of the bytes of each."""
    begins = [begin for begin, _ in covering]
    found = []
    for begin, end in listed(ranges):
        at = bisect.bisect_right(begins, begin) - 1
        found.append(parts[at].data[begin - begins[at] : end - begins[at]])
    return np.frombuffer(bytearray().join(found), np.uint8)


def opened(path: str) -> int:
    """The number of a file that is opened to be read. Raises `FileNotFoundError`, and `OSError` of what is no file: the
    opening of a pipe would wait for another end."""
    return opened_with_size(path)[0]


def opened_with_size(path: str) -> tuple[int, int]:
    """The same, and how many bytes the file has."""
    number = os.open(path, os.O_RDONLY | os.O_CLOEXEC | os.O_NONBLOCK)
    found = os.fstat(number)
    if stat.S_ISREG(found.st_mode):
        return number, found.st_size
    os.close(number)
    if stat.S_ISDIR(found.st_mode):
        raise IsADirectoryError(errno.EISDIR, os.strerror(errno.EISDIR), path)
    raise OSError(errno.EINVAL, "it is no file", path)


def _descriptor(file: Any) -> int | None:
    """The number of a plain file, which is read with no position of its own."""
    if isinstance(file, int):
        return file
    raw = file.raw if type(file) is io.BufferedReader else file
    return raw.fileno() if type(raw) is io.FileIO else None


def counted(returned: Any, most: int | None = None) -> int:
    """A number of bytes that a file or a store returns. Raises `OSError` where it can't be one."""
    if isinstance(returned, float) and returned.is_integer():
        returned = int(returned)
    if not hasattr(returned, "__index__") or not 0 <= returned or most is not None and returned > most:
        raise OSError(f"a file returned {reprlib.repr(returned)}, where a number of bytes is due")
    return int(returned)


def bytes_of(returned: Any, most: int | None = None) -> Any:
    """Bytes that a file or a store answers, so many at most. Raises `OSError` where they are none."""
    try:
        found = memoryview(returned).cast("B")
    except TypeError as error:
        raise OSError(f"a file answered {reprlib.repr(returned)}, where bytes are due") from error
    if most is not None and len(found) > most:
        raise OSError(f"a file answered {len(found)} bytes, where {most} were asked for")
    return found


class Source:
    """Where a value's bytes are."""

    # how many calls have fetched of it, where each looks it up anew, and whether what was kept of it is read as well
    calls = 0
    has_kept = False

    @property
    def part_bytes(self) -> int | None:
        """How many bytes are fetched at a time, where a read needs more; None where all are."""
        return PART_BYTES

    def length(self) -> int:
        """How many bytes it has."""
        raise NotImplementedError

    def pieces(self, ranges: AnyArray) -> AnyArray:
        """The bytes of ranges, each a start and an end, joined."""
        raise NotImplementedError

    def state(self) -> State | None:
        """What it is, by which a later change is seen; None where one might not be."""
        return None

    def is_same(self, rests_on_length: bool = False, has_failed: bool = False) -> bool:
        """Whether all that was read is of one value, or may be so, and so the length, where the read rests on it; of what was
        failed, whether it is still the one that was begun with."""
        return True

    def close(self) -> None:
        """Ends what was begun to read it."""

    def each(self, ranges: list[tuple[int, int]]) -> Iterator[Any]:
        """The bytes of each range; as many are fetched together as may be."""
        at = 0
        while at < len(ranges):
            group, count = [ranges[at]], ranges[at][1] - ranges[at][0]
            for begin, end in ranges[at + 1 :]:
                count += end - begin
                if self.part_bytes is not None and count > self.part_bytes:
                    break
                group.append((begin, end))
            fetched, place = self.pieces(np.array(group, np.uint64)), 0
            for begin, end in group:
                yield fetched[place : place + end - begin]
                place += end - begin
            at += len(group)

    def whole(self) -> AnyArray:
        """All bytes."""
        return self.pieces(np.array([[0, self.length()]], np.uint64))


class Held(Source):
    """A value that is in memory."""

    def __init__(self, value: Any) -> None:
        self._view = memoryview(value).cast("B")

    def length(self) -> int:
        return len(self._view)

    def pieces(self, ranges: AnyArray) -> AnyArray:
        return np.concatenate([np.frombuffer(part, np.uint8) for part in self.each(listed(ranges))])

    def each(self, ranges: list[tuple[int, int]]) -> Iterator[Any]:
        for begin, end in ranges:
            yield self._view[begin:end]


class File(Source):
    """A file, its number, or an object with `seek`, and `readinto` or `read`."""

    def __init__(self, file: Any) -> None:
        self._file = file
        self._number = _descriptor(file)
        self._fills = hasattr(file, "readinto")
        if self._number is None and not (hasattr(file, "seek") and (self._fills or hasattr(file, "read"))):
            raise TypeError(f"a {type(file).__name__} is no file that seeks and reads")

    def length(self) -> int:
        if self._number is not None:
            return os.fstat(self._number).st_size
        end = self._file.seek(0, os.SEEK_END)
        return counted(self._file.tell() if end is None else end)

    def state(self) -> State | None:
        return None if self._number is None else state_of(os.fstat(self._number))

    def _some(self, view: memoryview, place: int) -> int:
        if self._number is not None:
            return os.preadv(self._number, [view], place)
        self._file.seek(place)
        if self._fills:
            return counted(self._file.readinto(view) or 0, len(view))
        found = bytes_of(self._file.read(len(view)), len(view))
        view[: len(found)] = found
        return len(found)

    def _read(self, view: memoryview, place: int) -> None:
        while len(view):
            count = self._some(view, place)
            if count == 0:
                raise EOFError("the file ended while it was read")
            view, place = view[count:], place + count

    def pieces(self, ranges: AnyArray) -> AnyArray:
        fetched = np.empty(int((ranges[:, 1] - ranges[:, 0]).sum()), np.uint8)
        view, at = fetched.data, 0
        for begin, end in listed(joined(ranges)):
            self._read(view[at : at + end - begin], begin)
            at += end - begin
        return fetched

    def one_piece(self, begin: int, end: int) -> AnyArray:
        """The bytes of one range."""
        fetched = np.empty(end - begin, np.uint8)
        self._read(fetched.data, begin)
        return fetched


class NearFile(File):
    """An open file at hand, by its number: of ranges of it those that are near are read by one call."""

    def pieces(self, ranges: AnyArray) -> AnyArray:
        covering = near(listed(ranges), _NEAR_IN_FILE)
        if len(covering) == len(ranges):
            return super().pieces(ranges)
        return cut(ranges, covering, [self.one_piece(*one) for one in covering])


def _created(path: str) -> int:
    """The number of a new file, in a folder that is made where it isn't there."""
    flags = os.O_WRONLY | os.O_CREAT | os.O_EXCL | os.O_CLOEXEC
    try:
        return os.open(path, flags, 0o666)
    except FileNotFoundError:
        os.makedirs(os.path.dirname(path), exist_ok=True)
        return os.open(path, flags, 0o666)


def replace(path: str, value: AnyArray) -> None:
    """Makes a file of a value, which is there as a whole or not at all. A link to a file stays one, and the
    file's mode what it was."""
    mode = None
    with contextlib.suppress(FileNotFoundError):
        mode = os.lstat(path).st_mode
        if stat.S_ISLNK(mode):
            path, mode = os.path.realpath(path), None
            mode = os.stat(path).st_mode
    made = f"{path}.{secrets.token_hex(8)}.tmp"
    number = _created(made)
    try:
        with open(number, "wb", buffering=0) as file:
            if mode is not None:
                os.fchmod(number, stat.S_IMODE(mode))
            view = value.data
            while len(view):
                view = view[file.write(view) :]
            os.fsync(number)
        os.replace(made, path)
    except BaseException:
        with contextlib.suppress(FileNotFoundError):
            os.unlink(made)
        raise
