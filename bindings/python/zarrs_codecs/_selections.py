"""numpy's basic indices, and lists of elements' indices, as the numbers that C reads."""

import math
import operator
from collections.abc import Iterator, Sequence
from dataclasses import dataclass
from typing import Any

import numpy as np

from ._buffers import lent, start
from ._library import BOX
from ._types import AnyArray, Shape
from .refusals import OutOfBounds

# Boxes of fewer elements than these that are apart from each other are read as rows, so many at a time.
_FEW_TOGETHER = 256
_MANY_ROWS = 4096
# Of so many elements at most that lie apart a list of their indices is made, by which no others are read.
MOST_APART = 1 << 20
# What is at hand is copied with what lies between, where that is fewer times as much.
SPARSE = 32

# What C is given: how many rows, or that it is a box, and the numbers.
Arguments = tuple[int, Any, int]


@dataclass(slots=True)
class Rows:
    """Elements' indices, a row for each."""

    rows: AnyArray
    after: None = None
    has_gaps: bool = False

    @property
    def shape(self) -> Shape:
        """That of the answer."""
        return (len(self.rows),)

    def numbers(self) -> tuple[int, AnyArray]:
        """How many rows there are, and their numbers."""
        return len(self.rows), self.rows.reshape(-1)

    def arguments(self) -> Arguments:
        """What C is given."""
        return len(self.rows), lent(self.rows)[0], self.rows.size

    def closed(
        self, item_size: int = 1, gap: int | None = None, order: Sequence[int] | None = None, sizes: Shape | None = None
    ) -> "Rows":
        """The same: there is nothing between the elements."""
        return self

    def moved(self, order: Sequence[int]) -> "Rows":
        """The same elements, of a chunk with its axes in this order."""
        return Rows(self.rows[:, list(order)])

    def without_gaps(self) -> "Rows":
        """The same."""
        return self

    def in_order(self, order: Sequence[int]) -> tuple["Rows", AnyArray]:
        """The same elements as they are stored in this order of the axes, the slowest first, and where each one is then."""
        places = np.lexsort([self.rows[:, axis] for axis in reversed(order)])
        return Rows(self.rows[places]), np.argsort(places)

    def parts(self, limit: int, together: int | None = None) -> Iterator["Rows"]:
        """Selections of so many elements at most, whose answers, one behind another, are this one's."""
        for first in range(0, len(self.rows), limit):
            yield Rows(self.rows[first : first + limit])


@dataclass(slots=True)
class Box:
    """Rising places on each axis, and numpy's index that makes the answer of the elements there; None where
    they are the answer. C is given no gaps, so they have to be closed, or the parts to be taken."""

    on_axes: list[range]
    after: tuple[Any, ...] | None

    @property
    def shape(self) -> Shape:
        """That of the elements."""
        try:
            return tuple(map(len, self.on_axes))
        except OverflowError:
            # an axis is longer than Python counts
            return tuple(max((one.stop - one.start + one.step - 1) // one.step, 0) for one in self.on_axes)

    @property
    def has_gaps(self) -> bool:
        """Whether there are elements between those that are selected."""
        return any(one.step > 1 for one in self.on_axes)

    def numbers(self) -> tuple[int, AnyArray]:
        """That it is a box, and its starts and lengths."""
        starts = [one.start for one in self.on_axes]
        return BOX, np.array([*starts, *self.shape], np.uint64)

    def arguments(self) -> Arguments:
        """What C is given."""
        tuples, numbers = self.numbers()
        return tuples, start(numbers), numbers.size

    def closed(
        self, item_size: int = 1, gap: int | None = None, order: Sequence[int] | None = None, sizes: Shape | None = None
    ) -> "Box":
        """The same elements, and those in gaps of fewer bytes, in all where it is None: `after` leaves them
        out. Where sizes are given, of inner chunks, a gap is one in an inner chunk, and those that pass one stay. Where
        an order of the axes is given, elements are stored in it, the slowest axis first, and a gap stays where what is in
        it would be in pieces too: it would be more ranges, and none fewer."""
        if not self.has_gaps:
            return self
        on_axes = list(self.on_axes)
        steps = [1] * len(on_axes)
        between, is_whole = item_size, True
        for axis in reversed(range(len(on_axes)) if order is None else order):
            one = on_axes[axis]
            is_near = gap is None or (one.step - 1) * between < gap
            is_closed = is_near and (is_whole or order is None) and (sizes is None or one.step <= sizes[axis])
            if one.step > 1 and is_closed:
                steps[axis] = one.step
                on_axes[axis] = range(one.start, one[-1] + 1)
            one = on_axes[axis]
            size = -((one.start - one.stop) // one.step) if sizes is None else sizes[axis]
            is_whole = is_whole and one.step == 1 and one.stop - one.start >= size
            between *= size
        return Box(on_axes, _stepped(self.after, steps))

    def moved(self, order: Sequence[int]) -> "Box":
        """The same elements, of a chunk with its axes in this order."""
        return Box([self.on_axes[axis] for axis in order], None)

    def without_gaps(self) -> "Box | Rows":
        """The same elements in the same order, as rows where there are elements between those that are selected."""
        return Rows(self._rows()) if self.has_gaps else self

    def parts(self, limit: int, together: int | None = None) -> Iterator["Box | Rows"]:
        """Selections without gaps and of so many elements at most, whose answers, one behind another, are
        this one's elements. Those apart from each other come as rows; where `together` is given, as few such
        selections of so many elements."""
        count = math.prod(self.shape)
        has_gaps = self.has_gaps
        if count <= limit and not has_gaps:
            yield self
        elif count <= min(limit, together or _MANY_ROWS):
            yield Rows(self._rows())
        else:
            yield from self._divided(count, limit, together)

    def _divided(self, count: int, limit: int, together: int | None) -> Iterator["Box | Rows"]:
        axis, one = next((axis, one) for axis, one in enumerate(self.on_axes) if len(one) > 1)
        each = count // len(one)
        if not self.has_gaps:
            step = max(limit // each, 1)
        else:
            is_joined = together is not None or each < _FEW_TOGETHER
            step = max(min(limit, together or _MANY_ROWS) // each, 1) if is_joined else 1
        for first in range(0, len(one), step):
            on_axes = list(self.on_axes)
            on_axes[axis] = _rising(one[first : first + step])
            yield from Box(on_axes, None).parts(limit, together)

    def _rows(self) -> AnyArray:
        """The elements' indices."""
        if not all(self.on_axes):
            return np.empty((0, len(self.on_axes)), np.uint64)
        # numpy's own steps of so many go by floats
        places = [np.uint64(one.start) + np.uint64(one.step) * np.arange(len(one), dtype=np.uint64) for one in self.on_axes]
        grid = np.meshgrid(*places, indexing="ij")
        rows: AnyArray = np.stack(grid, axis=-1).reshape(-1, len(places))
        return rows


def _stepped(after: tuple[Any, ...] | None, steps: list[int]) -> tuple[Any, ...]:
    """An index over axes with so many places for each one before."""
    if after is None:
        return tuple(slice(None, None, step) for step in steps)
    left = iter(steps)
    stepped: list[Any] = []
    for one in after:
        if one is None or one is Ellipsis:
            stepped.append(one)
        else:
            step = next(left)
            stepped.append(slice(None, None, one.step * step) if isinstance(one, slice) else one)
    return tuple(stepped)


def entries_of(selection: Any, axes: int) -> tuple[list[Any], bool]:
    """An entry for each axis, None for each new one, and whether there was an ellipsis."""
    entries = list(selection) if isinstance(selection, tuple) else [selection]
    ellipses = [place for place, one in enumerate(entries) if one is Ellipsis]
    missing = axes - len(entries) + len(ellipses) + sum(one is None for one in entries)
    if missing < 0 or len(ellipses) > 1:
        raise IndexError(f"too many indices of {axes} axes")
    place = ellipses[0] if ellipses else len(entries)
    entries[place : place + len(ellipses)] = [slice(None)] * missing
    return entries, bool(ellipses)


def _place(index: Any, axis: int, size: int) -> int:
    if isinstance(index, (bool, np.bool_)) or (isinstance(index, np.ndarray) and index.dtype == bool):
        raise IndexError("a truth value is no index here")
    try:
        place = operator.index(index)
    except TypeError as error:
        raise IndexError(
            f"an index is an integer, a slice, `...` or None, or of an array a list of places, and not {type(index).__name__}"
        ) from error
    if not -size <= place < size:
        raise IndexError(f"index {place} is out of bounds for axis {axis} with size {size}")
    return place % size


def _rising(places: range) -> range:
    """The same places from the lowest on, and with no step where there is no second one."""
    if not places[1:]:
        return range(places[0], places[0] + 1) if places else range(0)
    return places if places.step > 0 else places[::-1]


def box(selection: Any, shape: Shape) -> Box:
    """The places that a basic index selects. Raises `IndexError` where it is none, and `TypeError`
    where a slice has other ends than integers."""
    entries, has_ellipsis = entries_of(selection, len(shape))
    on_axes: list[range] = []
    after: list[Any] = []
    is_answer = bool(shape) or has_ellipsis
    for one in entries:
        if isinstance(one, slice):
            places = range(*one.indices(shape[len(on_axes)]))
            sign = 1 if places.step > 0 else -1
            on_axes.append(places if places.step == 1 and places else _rising(places))
            after.append(slice(None, None, sign))
            is_answer = is_answer and sign == 1
        elif one is None:
            after.append(None)
            is_answer = False
        else:
            place = _place(one, len(on_axes), shape[len(on_axes)])
            on_axes.append(range(place, place + 1))
            after.append(0)
            is_answer = False
    if is_answer:
        return Box(on_axes, None)
    return Box(on_axes, (*after, ...) if has_ellipsis else tuple(after))


def as_places(given: Any) -> AnyArray:
    """Places, or a mask, as an array. Raises `IndexError` where lists of several lengths are none."""
    try:
        return np.asarray(given)
    except ValueError as error:
        raise IndexError(f"lists of places of several lengths: {error}") from error


def check_inside(rows: AnyArray, shape: Shape) -> None:
    """Raises `OutOfBounds` where an element's indices are outside, as the library does, and says which."""
    outside = rows >= np.array(shape, np.uint64)
    if outside.any():
        row = int(outside.any(axis=1).argmax())
        raise OutOfBounds(f"row {row} of the list is outside of {shape}")


def _rows(selection: Any, shape: Shape) -> Rows:
    rows = as_places(selection)
    if rows.size == 0:
        rows = rows.reshape(len(rows), len(shape)).astype(np.int64)
    if rows.ndim == 1 and len(shape) == 1:
        rows = rows[:, np.newaxis]
    if rows.dtype.kind not in "iu" or rows.ndim != 2 or rows.shape[1] != len(shape):
        raise IndexError(f"indices are rows of {len(shape)} integers")
    is_behind = rows < 0
    rows = np.ascontiguousarray(rows, np.uint64)
    if is_behind.any():
        # 2^64 numbers go round: one that stays below zero is above each size
        rows = np.where(is_behind, rows + np.array(shape, np.uint64), rows)
    check_inside(rows, shape)
    return Rows(rows if rows.flags.aligned else rows.copy())


Selection = Box | Rows


def select(selection: Any, shape: Shape) -> Selection:
    """The selection of a basic index, or of a list or array of elements' indices, a row for each; of a selection itself.

    Raises `IndexError` or `TypeError` where it is neither, and `OutOfBounds` where an element of a list is outside.
    """
    if isinstance(selection, (Box, Rows)):
        return selection
    if isinstance(selection, (list, np.ndarray)):
        return _rows(selection, shape)
    return box(selection, shape)
