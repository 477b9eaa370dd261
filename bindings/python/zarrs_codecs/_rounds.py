"""A value that is read in rounds: what a read of it lacks is fetched, and it is read again."""

import ctypes
from collections.abc import Callable
from typing import Any, NamedTuple

import numpy as np
import numpy.typing as npt

from ._buffers import counted, start
from ._files import Held, Source, joined
from ._library import SHORT, checked
from ._types import AnyArray, listed

Ranges = npt.NDArray[np.uint64]


class Pieces(NamedTuple):
    """Ranges of a value, rows of a start and an end, in order and none touching the next; and their bytes, joined."""

    ranges: Ranges
    bytes: AnyArray

    @property
    def nbytes(self) -> int:
        """How many bytes they take."""
        return self.ranges.nbytes + self.bytes.nbytes


_NOTHING = Pieces(np.empty((0, 2), np.uint64), np.empty(0, np.uint8))


class Fetched:
    """What was fetched of a value so far, beginning with what was kept of it."""

    def __init__(self, source: Source, kept: Pieces | None = None) -> None:
        self.source = source
        self.length = source.length()
        source.has_kept |= kept is not None
        self._pieces = _NOTHING if kept is None else kept
        # what every round but the last has fetched: it says where the elements are
        self.first = self._pieces

    @property
    def size(self) -> int:
        """How many bytes were fetched."""
        return self._pieces.bytes.size

    def fetch(self, lacking: Ranges) -> None:
        """Fetches ranges of which no byte is there, in order."""
        self.first = self._pieces
        new = Pieces(lacking, self.source.pieces(lacking))
        self._pieces = _merged(self._pieces, new) if self.size else new

    def bytes_of(self, begin: int, end: int) -> AnyArray | None:
        """The bytes of a range, where all of them are there."""
        if begin == end:
            return self._pieces.bytes[:0]
        begins, ends = self._pieces.ranges.T
        at = int(np.searchsorted(begins, np.uint64(begin), "right")) - 1
        if at < 0 or end > ends[at]:
            return None
        place = int((ends[:at] - begins[:at]).sum()) + begin - int(begins[at])
        return self._pieces.bytes[place : place + end - begin]

    def there(self, begin: int, end: int) -> AnyArray:
        """The bytes of a range that was fetched."""
        found = self.bytes_of(begin, end)
        assert found is not None
        return found

    def without(self, ranges: Ranges) -> Ranges:
        """The bytes of ranges that aren't there, in ranges of which none touches the next. The given ones are in the order
        of their first bytes, and may overlap."""
        begins, ends = (listed(column) for column in self._pieces.ranges.T)
        found, piece, behind = [], 0, 0
        for first, end in listed(ranges):
            begin, behind = max(first, behind), max(behind, end)
            while piece < len(ends) and ends[piece] <= begin:
                piece += 1
            at = piece
            while begin < end:
                if at == len(begins) or begins[at] >= end:
                    found.append((begin, end))
                    break
                if begin < begins[at]:
                    found.append((begin, begins[at]))
                begin, at = ends[at], at + 1
        return joined(np.array(found, np.uint64).reshape(-1, 2))

    def missing(self) -> Ranges:
        """The ranges of all bytes that aren't there."""
        begins, ends = self._pieces.ranges.T
        rows = np.column_stack((np.append(np.uint64(0), ends), np.append(begins, np.uint64(self.length))))
        return np.ascontiguousarray(rows[rows[:, 0] < rows[:, 1]], np.uint64)

    def index(self, begin: int, end: int) -> AnyArray:
        """The bytes of the range that says where the elements are."""
        if not self.size or self.bytes_of(begin, end) is None:
            asked = np.array([[begin, end]], np.uint64)
            self.fetch(self.without(asked) if self.size else asked)
            self.first = self._pieces
        return self.there(begin, end)

    def anew(self) -> "Fetched":
        """The same, for another read."""
        return Fetched(self.source, self._pieces)

    def arguments(self) -> tuple[Any, ...]:
        """What C is given of them."""
        ranges, fetched = self._pieces
        return self.length, *counted(ranges, ranges.size), *counted(fetched, fetched.size)


def at_hand(value: Any) -> Fetched:
    """A value that is in memory, of None one of no bytes."""
    return Fetched(Held(b"" if value is None else value))


def returned_ranges(call: Callable[..., Any], guess: int) -> Ranges:
    """The ranges that a call returns, rows of a start and an end; `guess` is how many numbers there may be."""
    numbers, needed = np.empty(guess, np.uint64), ctypes.c_size_t()
    code = call(start(numbers), numbers.size, ctypes.byref(needed))
    if code == SHORT:
        numbers = np.empty(needed.value, np.uint64)
        code = call(start(numbers), numbers.size, ctypes.byref(needed))
    checked(code)
    return numbers[: needed.value].reshape(-1, 2)


class Window(Source):
    """A part of a value, of which the bytes that are read were fetched."""

    def __init__(self, fetched: Fetched, begin: int, end: int) -> None:
        self._fetched, self._begin, self._end = fetched, begin, end

    def length(self) -> int:
        return self._end - self._begin

    def pieces(self, ranges: AnyArray) -> AnyArray:
        found = [self._fetched.there(self._begin + begin, self._begin + end) for begin, end in listed(ranges)]
        return np.concatenate(found)


def _merged(*parts: Pieces) -> Pieces:
    """The same bytes, in order."""
    ranges = np.concatenate([part.ranges for part in parts])
    split = []
    for part in parts:
        ends = np.cumsum((part.ranges[:, 1] - part.ranges[:, 0]).astype(np.int64))
        split += np.split(part.bytes, ends[:-1])
    order = np.argsort(ranges[:, 0], kind="stable")
    return Pieces(joined(ranges[order]), np.concatenate([split[place] for place in listed(order)]))
