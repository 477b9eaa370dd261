"""The part of a chunk that is read or written."""

import math
import threading
from typing import Any

import numpy as np

from .._dense import touched_chunks
from .._elements import words_of
from .._files import Source
from .._selections import Selection, select
from .._types import AnyArray, Bytes, Shape
from ._chains import Coding

# Lists of more elements than one in so many of a chunk are taken from the decoded chunk.
_FEW = 8
# A value is read at once where more than one in so many of its elements are read: one in a file, one of a shard, and one that
# is far away.
_WHOLE_FROM, _WHOLE_FROM_OF_SHARDS, _WHOLE_FROM_OF_FAR = 4, 2, 2
# Each thread keeps an array of so many bytes at most.
_MOST_KEPT = 1 << 24
_rooms = threading.local()


def is_basic(selection: tuple[Any, ...]) -> bool:
    """Whether a selection has slices and integers alone."""
    return all(isinstance(one, slice) or np.ndim(one) == 0 for one in selection)


def _is_whole(selection: tuple[Any, ...], shape: Shape) -> bool:
    """Whether a selection is all of a chunk, in its shape."""
    return len(selection) == len(shape) and all(
        isinstance(one, slice) and not one.start and one.step in (None, 1) and (one.stop is None or one.stop >= size)
        for one, size in zip(selection, shape, strict=True)
    )


def _listed(selection: tuple[Any, ...], shape: Shape) -> tuple[AnyArray, Shape] | None:
    """The indices of the elements of lists for all axes, a row for each, and the shape of the answer; None of another
    selection."""
    if len(selection) != len(shape) or any(isinstance(one, slice) or np.asarray(one).dtype == bool for one in selection):
        return None
    places = np.broadcast_arrays(*selection)
    return np.stack([one.reshape(-1) for one in places], axis=-1), places[0].shape


def _room(coding: Coding) -> AnyArray:
    """An array for a decoded chunk that is copied at once: each thread keeps one."""
    room: AnyArray | None = getattr(_rooms, "array", None)
    if room is None or room.shape != coding.shape or room.dtype != coding.dtype:
        room = _rooms.array = np.empty(coding.shape, coding.dtype)
    return room


class Part:
    """A chunk's elements that a selection of zarr-python's has."""

    __slots__ = ("coding", "selection", "is_whole", "count", "chosen", "shape")

    def __init__(self, coding: Coding, selection: Any) -> None:
        self.coding = coding
        self.selection = selection if isinstance(selection, tuple) else (selection,)
        self.is_whole = _is_whole(self.selection, coding.shape)
        self.count = coding.size
        # the selection as the library takes it, and the shape of the answer where the library answers elements in a row
        self.chosen: Selection | None = None
        self.shape: Shape | None = None
        if self.is_whole:
            return
        if is_basic(self.selection):
            self.chosen = select(self.selection, coding.shape)
            self.count = math.prod(self.chosen.shape)
        else:
            self._take_list(_FEW)

    def _take_list(self, times: int) -> None:
        """Takes lists of elements, where one in so many of the chunk's is in them, or fewer."""
        found = _listed(self.selection, self.coding.shape)
        if found is not None and len(found[0]) * times <= self.coding.size:
            self.chosen, self.shape = select(found[0], self.coding.shape), found[1]
            self.count = len(found[0])

    @property
    def work(self) -> int:
        """How many bytes of elements are gone through, more or less."""
        elements = self.count if self.chosen is not None else self.coding.size
        return elements * self.coding.dtype.itemsize + self.coding.least_bytes

    @property
    def is_ranged(self) -> bool:
        """Whether ranges of a value at hand, or in a file, are read, and not all of it."""
        coding = self.coding
        if self.chosen is None or coding.is_read_whole or coding.is_small:
            return False
        return self.count * (_WHOLE_FROM if coding.inner_shape is None else _WHOLE_FROM_OF_SHARDS) <= coding.size

    def is_ranged_far(self) -> bool:
        """The same of a value that is far away: of a shard all inner chunks are read at once, or ranges."""
        coding = self.coding
        if coding.is_read_whole or coding.is_small:
            return False
        if coding.inner_shape is None:
            return self.chosen is not None and self.count * _WHOLE_FROM_OF_FAR <= coding.size
        if self.chosen is None and not self.is_whole:
            self._take_list(_WHOLE_FROM_OF_FAR)
        return self.chosen is not None and touched_chunks(self.chosen, coding.inner_shape) < coding.inner_count

    def of_value(self, value: Any, target: AnyArray | None = None) -> AnyArray | None:
        """The part's elements, of a value; None where they were put into a target, an array of the chunk's shape."""
        coding = self.coding
        if self.is_whole:
            return self._decoded(value, target)
        if self.chosen is None:
            found: AnyArray = coding.chain.decode(value)[self.selection]
            return found
        return self._shaped(coding.chain.read(value, self.chosen))

    def of_source(self, source: Source) -> AnyArray:
        """The same, where ranges of a value are read."""
        return self._shaped(self.coding.chain.read_from(source, self.chosen))

    def _decoded(self, value: Any, target: AnyArray | None) -> AnyArray | None:
        coding = self.coding
        if target is None or not coding.decodes_into:
            return coding.chain.decode(value)
        if target.shape == coding.shape and target.dtype == coding.dtype and target.flags.carray:
            coding.chain.decode(value, out=target)
            return None
        is_kept = coding.size * coding.dtype.itemsize <= _MOST_KEPT
        return coding.chain.decode(value, out=_room(coding) if is_kept else None)

    def _shaped(self, found: AnyArray) -> AnyArray:
        return found if self.shape is None else found.reshape(self.shape)

    def written(self, value: Any, new: AnyArray, fill: Any) -> Bytes | None:
        """The value that is left of a value, or of None, where nothing is stored, where new elements are written at the
        part's places. Where a fill value is given, None is answered for a chunk that has it everywhere."""
        coding = self.coding
        drops = fill is not None and is_filled(new, fill)
        if self.is_whole:
            whole = new if new.shape == coding.shape else np.broadcast_to(new, coding.shape)
            return None if drops else coding.chain.encode(whole)
        if self.chosen is not None and not drops:
            # of a shard the other inner chunks are kept as they are
            flat = new if self.shape is None else np.broadcast_to(new, self.shape).reshape(-1)
            written: Bytes = coding.chain.write(value, self.chosen, flat)
            return written
        elements = np.array(coding.chain.read(None, ...) if value is None else coding.chain.decode(value))
        elements[self.selection] = new if new.ndim else new[()]
        return None if fill is not None and is_filled(elements, fill) else coding.chain.encode(elements)


def is_filled(elements: AnyArray, fill: Any) -> bool:
    """Whether all elements are a fill value, to the last bit: -0.0 isn't 0.0."""
    if elements.size == 0:
        return False
    if elements.dtype == object:
        return bool((elements == fill).all())
    bits = np.array(fill, elements.dtype).tobytes()
    # an array of no axes: a scalar would lose zeros at the end of a text
    first: Any = (*(0,) * elements.ndim, ...)
    if elements[first].tobytes() != bits:
        return False
    words = words_of(elements)
    return bool((words == np.frombuffer(bits, words.dtype)).all())
