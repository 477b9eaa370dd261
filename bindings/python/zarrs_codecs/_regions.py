"""An array's elements by numpy's indices, read and written chunk by chunk."""

import itertools
from collections.abc import Iterator
from typing import Any

import numpy as np
from numpy.typing import ArrayLike

from ._chunks import Chunks, Each, one_by_one
from ._data_types import DataType
from ._elements import empty, held, picked, spread
from ._grid import on_axis
from ._indexing import Outer, Points, Step, is_list
from ._selections import Box, box
from ._types import AnyArray, Shape

# A chunk's numbers, the places in it, and those in the answer.
Part = tuple[tuple[int, ...], tuple[slice, ...], tuple[slice, ...]]


class Elements:
    """The elements of an array of this shape, whose chunks have these sizes; `fill` is where no chunk is."""

    def __init__(self, shape: Shape, sizes: Shape, kind: DataType, fill: Any, chunks: Chunks) -> None:
        self.shape, self._sizes, self._kind, self._fill, self._chunks = shape, sizes, kind, fill, chunks

    def _parts(self, on_axes: list[range]) -> Iterator[Part]:
        """The parts of a basic index, one of each chunk that has some of it."""
        if not all(on_axes):
            return
        touched = [on_axis(one, size) for one, size in zip(on_axes, self._sizes)]
        for each in itertools.product(*touched):
            numbers, inside, there = zip(*each) if each else ((), (), ())
            yield numbers, inside, there

    def read(self, selection: Any) -> Any:
        """The elements of an index."""
        if _is_mask(selection, self.shape):
            return self.read_points(selection)
        if _has_list(selection):
            return self.read_outer(*self._numpys(selection))
        chosen = box(selection, self.shape)
        self._chunks.check_folder()
        return self._read_box(chosen, self._chunks.each)

    def _read_box(self, chosen: Box, each: Each) -> Any:
        """The elements of a basic index."""
        answer = empty(self._kind, chosen.shape)
        parts = self._parts(chosen.on_axes)
        fill = self._fill
        each(
            self._chunks.read_into,
            ((chunk, (*inside, ...), answer, (*there, ...), fill) for chunk, inside, there in parts),
        )
        return picked(answer, chosen.after)

    def _write_box(self, new: AnyArray, chosen: Box, each: Each) -> None:
        """Writes elements that the type holds, broadcast, at the places of a basic index."""
        parts = self._parts(chosen.on_axes)
        whole: Any = spread(self._kind, new, chosen.shape, chosen.after)
        each(
            self._chunks.write,
            ((chunk, (*inside, ...), whole[(*there, ...)]) for chunk, inside, there in parts),
        )

    def _numpys(self, selection: Any) -> tuple[Outer, int | None]:
        """An outer index with one list, which is numpy's too, and the axis that numpy puts first."""
        chosen = Outer(selection, self.shape)
        if chosen.lists > 1:
            raise IndexError("several lists of places: oindex takes each with each, vindex points")
        return chosen, chosen.front

    def read_outer(self, chosen: Outer, front: int | None = None) -> AnyArray:
        """The elements of an outer index; numpy puts the axis `front` first."""
        self._chunks.check_folder()
        answer = empty(self._kind, chosen.shape)

        def read(step: Step) -> None:
            place = box((*step.place, ...), self.shape)
            if step.is_sparse(place):
                answer[step.there] = self._read_points(Points(step.points(place), self.shape), one_by_one)
            else:
                answer[step.there] = self._read_box(place, one_by_one)[step.inside]

        self._chunks.each(read, ((step,) for step in chosen.steps(self._sizes)))
        return answer if front is None else np.moveaxis(answer, front, 0)

    def write_outer(self, array: ArrayLike, chosen: Outer, front: int | None = None) -> None:
        """Writes elements at an outer index."""
        shape = list(chosen.shape)
        if front is not None:
            shape.insert(0, shape.pop(front))
        new = spread(self._kind, held(self._kind, array), tuple(shape), None)
        if front is not None:
            new = np.moveaxis(new, 0, front)
        self._chunks.check_folder()

        def write(step: Step) -> None:
            place = box((*step.place, ...), self.shape)
            elements = self._read_box(place, one_by_one)
            elements[step.inside] = new[step.there]
            self._write_box(elements, place, one_by_one)

        self._chunks.each(write, ((step,) for step in chosen.steps(self._sizes)))

    def _read_points(self, points: Points, each: Each) -> Any:
        """The elements at points."""
        answer = empty(self._kind, points.shape)
        in_a_row = answer.reshape(-1)
        parts = points.by_chunk(self._sizes)
        each(
            self._chunks.read_into,
            ((chunk, rows, in_a_row, numbers, self._fill) for chunk, rows, numbers in parts),
        )
        return picked(answer, ())

    def read_points(self, selection: Any) -> Any:
        """The elements at points: an index for each axis, or a mask of all."""
        points = Points(selection, self.shape)
        self._chunks.check_folder()
        return self._read_points(points, self._chunks.each)

    def write_points(self, selection: Any, array: ArrayLike) -> None:
        """Writes elements at points."""
        points = Points(selection, self.shape)
        new = spread(self._kind, held(self._kind, array), points.shape, None).reshape(-1)
        parts = points.by_chunk(self._sizes)
        self._chunks.each(self._chunks.write, ((chunk, rows, new[numbers]) for chunk, rows, numbers in parts))

    def write(self, selection: Any, array: ArrayLike) -> None:
        """Writes elements at an index, broadcast."""
        if _is_mask(selection, self.shape):
            self.write_points(selection, array)
            return
        if _has_list(selection):
            self.write_outer(array, *self._numpys(selection))
            return
        self._write_box(held(self._kind, array), box(selection, self.shape), self._chunks.each)


def _has_list(selection: Any) -> bool:
    """Whether a list of places or a mask is in an index."""
    return any(map(is_list, selection if isinstance(selection, tuple) else (selection,)))


def _is_mask(selection: Any, shape: tuple[int, ...]) -> bool:
    """Whether an index is a mask of all elements, of an array with several axes."""
    mask = isinstance(selection, np.ndarray) and selection.dtype == bool
    return mask and selection.ndim > 1 and selection.shape == shape
