"""Reads of so many inner chunks of a shard that the shard is decoded whole: one by one they would take longer."""

import math
from typing import Any

import numpy as np

from ._layout import Layout
from ._selections import Rows, Selection
from ._types import AnyArray, Shape

# A shard of so many inner chunks is read in no time, one by one or whole.
_MANY = 1 << 10
# A read of as many inner chunks as there are, divided by this, takes as long as decoding all: of a value that is at hand,
# and of one in a file; and the same where shards are inside.
_AT_HAND, _IN_FILE = 3, 16
_SHARDS_AT_HAND, _SHARDS_IN_FILE = 6, 64
# What one range takes: as long as so many bytes of a file.
_RANGE_BYTES = 1 << 14


def touched_chunks(chosen: Selection, sizes: Shape) -> int:
    """How many inner chunks of these sizes have elements of a selection."""
    if isinstance(chosen, Rows):
        if len(chosen.rows) <= _MANY:
            return len(chosen.rows)
        return len(np.unique(chosen.rows // np.array(sizes, np.uint64), axis=0))
    counts = (
        len(one) if one.step > size or not one else one[-1] // size - one.start // size + 1
        for one, size in zip(chosen.on_axes, sizes, strict=True)
    )
    return math.prod(counts)


def is_dense(layout: Layout, chosen: Selection, length: int, is_at_hand: bool = False) -> bool:
    """Whether a read of a value of so many bytes takes less time when all of it is decoded."""
    finest = layout.finest
    if finest is None or finest[1] <= _MANY:
        return False
    sizes, whole = finest
    touched = touched_chunks(chosen, sizes)
    has_shards = layout.has_shards_inside
    if is_at_hand:
        return touched * (_SHARDS_AT_HAND if has_shards else _AT_HAND) >= whole
    times = _SHARDS_IN_FILE if has_shards else _IN_FILE
    return touched > _MANY and touched * times >= whole and touched * _RANGE_BYTES >= length


def taken(elements: AnyArray, chosen: Selection) -> AnyArray:
    """The elements of a selection of a whole chunk, in its shape."""
    index: Any = tuple(chosen.rows.T) if isinstance(chosen, Rows) else tuple(
        slice(one.start, one.stop, one.step) for one in chosen.on_axes
    )
    found: AnyArray = elements[index]
    return found if found.shape == elements.shape else found.copy()
