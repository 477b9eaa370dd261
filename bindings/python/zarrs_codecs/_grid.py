"""A regular grid of chunks, or of the inner chunks of a shard: which of them have elements of a selection, and where."""

import itertools
import math
from collections.abc import Iterator

import numpy as np

from ._coder import Piece
from ._indexing import grouped
from ._selections import Rows, Selection
from ._types import AnyArray, Shape


def on_axis(places: range, size: int) -> list[tuple[int, slice, slice]]:
    """The chunks that rising places touch on an axis: each one's number, the places in it, and those of the
    answer."""
    found = []
    first = 0
    while first < len(places):
        number, inside = divmod(places[first], size)
        end = (number + 1) * size
        last = min(first + -((places[first] - end) // places.step), len(places))
        stop = places[last - 1] - number * size + 1
        found.append((number, slice(inside, stop, places.step), slice(first, last)))
        first = last
    return found


class Grid:
    """The inner chunks of a shard: how many there are on each axis, and their sizes."""

    def __init__(self, counts: Shape, sizes: Shape) -> None:
        self.counts, self.sizes = counts, sizes
        self.count = math.prod(counts)

    def numbers(self, chosen: Selection) -> AnyArray:
        """The numbers of the inner chunks with elements of a selection, in order."""
        if isinstance(chosen, Rows):
            grid = chosen.rows.astype(np.int64) // np.array(self.sizes, np.int64)
            each = np.ravel_multi_index(tuple(grid.T), self.counts) if self.counts else np.zeros(1, np.int64)
            found: AnyArray = np.unique(each)
            return found
        numbers: AnyArray = np.zeros(1, np.int64)
        for one, size, count in zip(chosen.on_axes, self.sizes, self.counts, strict=True):
            places = np.unique(np.arange(one.start, one.stop, one.step, dtype=np.int64) // size)
            numbers = (numbers[:, np.newaxis] * count + places).ravel()
        return numbers

    def pieces(self, chosen: Selection) -> list[Piece]:
        """The elements of a selection, inner chunk by inner chunk, in the order of their numbers."""
        if isinstance(chosen, Rows):
            sizes = np.array(self.sizes, np.uint64)
            grid = chosen.rows // sizes if chosen.rows.size else chosen.rows
            inside = chosen.rows - grid * sizes
            numbers: AnyArray = np.zeros(len(grid), np.int64)
            for axis, count in enumerate(self.counts):
                numbers = numbers * count + grid[:, axis].astype(np.int64)
            return [Piece(number, inside[there], there) for number, there in grouped(numbers)]
        on_axes = [on_axis(one, size) for one, size in zip(chosen.on_axes, self.sizes, strict=True)]
        found = []
        for each in itertools.product(*on_axes):
            number = 0
            for (at, _, _), count in zip(each, self.counts, strict=True):
                number = number * count + at
            found.append(Piece(number, (*(one for _, one, _ in each), ...), (*(there for _, _, there in each), ...)))
        return found

    def places(self) -> Iterator[tuple[slice, ...]]:
        """Where the inner chunks are in the chunk, in the order of their numbers."""
        on_axes = (
            [slice(at * size, (at + 1) * size) for at in range(count)]
            for count, size in zip(self.counts, self.sizes, strict=True)
        )
        yield from itertools.product(*on_axes)
