"""Lists of places: outer indices, with a list or a mask for some axes, and points, with an index for each axis."""

import itertools
import math
from collections.abc import Iterator
from dataclasses import dataclass
from typing import Any, NamedTuple

import numpy as np

from ._selections import MOST_APART, SPARSE, Box, as_places, box, entries_of
from ._types import AnyArray, Shape, listed


class Step(NamedTuple):
    """A basic index, the elements in what it reads, and where these are in the answer."""

    place: tuple[Any, ...]
    inside: tuple[AnyArray, ...]
    there: tuple[AnyArray, ...]

    def is_sparse(self, box: Box) -> bool:
        """Whether the elements are few among those of the box that the basic index selects."""
        count = math.prod(one.size for one in self.inside)
        return count <= MOST_APART and count * SPARSE <= math.prod(box.shape)

    def points(self, box: Box) -> tuple[Any, ...]:
        """The elements' places on each axis of the array, to be broadcast."""
        inside = iter(self.inside)
        found: list[Any] = []
        for entry in self.place:
            if entry is None:
                next(inside)
                continue
            on_axis = box.on_axes[len(found)]
            found.append(on_axis.start + on_axis.step * next(inside) if isinstance(entry, slice) else on_axis.start)
        return tuple(found)


def is_list(entry: Any) -> bool:
    """Whether an entry of an index is a list of places or a mask."""
    return isinstance(entry, (list, range)) or (isinstance(entry, np.ndarray) and entry.ndim > 0)


def counted(given: Any, axis: int, size: int) -> AnyArray:
    """Places on an axis, counted from its begin. Raises `IndexError` where they are none."""
    places = as_places(given)
    if places.size == 0:
        return places.astype(np.int64)
    if places.dtype.kind not in "iu":
        raise IndexError(f"places are integers, and not {places.dtype}")
    outside = (places >= size) | (places < -size if places.dtype.kind == "i" else False)
    if outside.any():
        wrong = places[outside][0]
        raise IndexError(f"index {wrong} is out of bounds for axis {axis} with size {size}")
    places = places.astype(np.int64)
    counted_on: AnyArray = np.where(places < 0, places + size, places)
    return counted_on


def _places(entry: Any, axis: int, size: int) -> AnyArray:
    """The places on an axis that a list or a mask selects."""
    places = as_places(entry)
    if places.ndim != 1 and places.dtype == bool:
        raise IndexError(f"a mask of shape {places.shape}: one is of one axis, or of all with the array's shape")
    if places.ndim != 1:
        raise IndexError(f"a list of places has one axis, and not {places.ndim}; vindex takes points")
    if places.dtype != bool:
        return counted(places, axis, size)
    if len(places) != size:
        raise IndexError(f"a mask of {len(places)} for axis {axis} with size {size}")
    return np.flatnonzero(places)


def grouped(numbers: AnyArray) -> Iterator[tuple[int, AnyArray]]:
    """Each number that comes, in order, and its places."""
    order = np.argsort(numbers, kind="stable")
    in_order = numbers[order]
    begin = 0
    for end in listed(np.flatnonzero(in_order[1:] != in_order[:-1]) + 1) + [len(order)]:
        if begin < end:
            yield int(in_order[begin]), order[begin:end]
        begin = end


def _stretches(places: AnyArray, size: int, step: int = 1) -> Iterator[tuple[slice, AnyArray, AnyArray]]:
    """For each chunk of an axis with places of a list: the stretch from the first to the last of these, each so many apart
    from the next, the places in it, and their numbers in the list."""
    for _, numbers in grouped(places // size):
        inside = places[numbers]
        first, last = int(inside.min()), int(inside.max())
        yield slice(first, last + 1, step), (inside - first) // step, numbers


@dataclass(slots=True)
class _Axis:
    """An entry of an outer index: its axis of the array, None of a new one; and the places of a list."""

    entry: Any
    number: int | None
    places: AnyArray | None = None

    @property
    def is_dropped(self) -> bool:
        """Whether the answer has no such axis."""
        return self.places is None and self.number is not None and not isinstance(self.entry, slice)

    def length(self, shape: Shape) -> int:
        """How long the answer's axis is."""
        if self.places is not None:
            return len(self.places)
        return 1 if self.number is None else len(range(*self.entry.indices(shape[self.number])))


class Outer:
    """An outer index: an integer, a slice, a list of places or a mask for each axis, and new axes.

    The answer has an axis for each slice, list and new axis, in their order; `front` is the one that numpy
    puts first, if it does.
    """

    def __init__(self, selection: Any, shape: Shape) -> None:
        self._whole = shape
        self._axes: list[_Axis] = []
        number = 0
        entries = entries_of(selection, len(shape))[0]
        # what is no index fails where the answer has no elements too
        box(tuple(slice(None) if is_list(entry) else entry for entry in entries), shape)
        for entry in entries:
            if entry is None:
                self._axes.append(_Axis(entry, None))
                continue
            places = _places(entry, number, shape[number]) if is_list(entry) else None
            self._axes.append(_Axis(entry, number, places))
            number += 1
        self._kept = [axis for axis in self._axes if not axis.is_dropped]
        self.shape = tuple(axis.length(shape) for axis in self._kept)

    @property
    def lists(self) -> int:
        """How many axes have lists or masks."""
        return sum(axis.places is not None for axis in self._axes)

    @property
    def front(self) -> int | None:
        """The answer's axis that numpy puts first: that of a list, where a slice stands between it and an
        integer."""
        advanced = [n for n, axis in enumerate(self._axes) if axis.is_dropped or axis.places is not None]
        if len(advanced) == advanced[-1] - advanced[0] + 1:
            return None
        return next(n for n, axis in enumerate(self._kept) if axis.places is not None)

    def _of_chunks(self, axis: _Axis, chunks: Shape) -> Iterator[tuple[Any, AnyArray, AnyArray]]:
        """The stretches of the chunks that an axis of the answer touches."""
        if axis.number is None:
            return iter([(None, np.arange(1), np.arange(1))])
        if axis.places is not None:
            return _stretches(axis.places, chunks[axis.number])
        places = range(*axis.entry.indices(self._whole[axis.number]))
        return _stretches(np.arange(places.start, places.stop, places.step), chunks[axis.number], abs(places.step))

    def steps(self, chunks: Shape) -> Iterator[Step]:
        """Reads or writes of one chunk each, of all chunks with places of the index."""
        if 0 in self.shape:
            return
        stretches = [list(self._of_chunks(axis, chunks)) for axis in self._kept]
        for each in itertools.product(*stretches):
            entries = iter([one[0] for one in each])
            index = tuple(axis.entry if axis.is_dropped else next(entries) for axis in self._axes)
            yield Step(index, np.ix_(*(one[1] for one in each)), np.ix_(*(one[2] for one in each)))


class Points:
    """Points: an index for each axis, or one mask of all. The answer has the shape of these, broadcast."""

    def __init__(self, selection: Any, shape: Shape) -> None:
        entries = selection if isinstance(selection, tuple) else (selection,)
        masks = [as_places(entry) for entry in entries]
        if len(masks) == 1 and masks[0].dtype == bool and masks[0].shape == shape and shape:
            entries = np.nonzero(masks[0])
        if len(entries) != len(shape):
            raise IndexError(f"points have an index for each of {len(shape)} axes, and not {len(entries)}")
        each = [counted(entry, axis, size) for axis, (entry, size) in enumerate(zip(entries, shape))]
        try:
            together = np.broadcast_arrays(*each) if each else [np.zeros((), np.int64)]
        except ValueError as error:
            raise IndexError(f"the indices of points don't broadcast: {error}") from error
        self.shape = together[0].shape
        self._rows = np.stack([one.ravel() for one in together], axis=1) if each else None

    def by_chunk(self, chunks: Shape) -> Iterator[tuple[tuple[Any, ...], AnyArray, AnyArray]]:
        """For each chunk with points: its numbers, the points in it, and which ones of the answer they are."""
        if self._rows is None:
            yield (), np.zeros((1, 0), np.uint64), np.zeros(1, np.int64)
            return
        chunk_of, which = np.unique(self._rows // chunks, axis=0, return_inverse=True)
        for number, numbers in grouped(which.ravel()):
            yield tuple(listed(chunk_of[number])), self._rows[numbers] - chunk_of[number] * chunks, numbers
