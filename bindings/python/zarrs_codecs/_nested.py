"""What a read of a shard with shards inside lacks of all of them at once."""

from collections.abc import Iterator
from typing import Any

import numpy as np

from ._coder import Coder, Cut
from ._rounds import Fetched, Ranges
from ._selections import Selection, select
from ._types import listed


def lacking_inside(cut: Cut, chosen: Selection, fetched: Fetched) -> Ranges:
    """The ranges of the next round: the index, then those of the shards inside, then what their inner chunks are read
    by. Raises errors where an index is damaged."""
    asked = sorted(_asked(cut, chosen, 0, fetched.length, fetched))
    return fetched.without(np.array(asked, np.uint64).reshape(-1, 2))


def _asked(cut: Cut, chosen: Selection, begin: int, length: int, fetched: Fetched) -> Iterator[tuple[int, int]]:
    """What a shard that begins at this byte of the value is asked for: its index where that isn't there, else what its
    inner chunks are."""
    order, shard = cut
    first, last = (begin + place for place in shard.index_range(length))
    index = fetched.bytes_of(first, last)
    if index is None:
        yield first, last
        return
    entries = shard.entries(index)
    for piece in shard.pieces(chosen.moved(order)):
        where = shard.place_of(entries, piece.number, length)
        if where is not None:
            yield from _asked_inside(shard.chunk, piece.inside, begin + where[0], where[1] - where[0], fetched)


def _asked_inside(
    chunk: Coder, inside: Any, begin: int, length: int, fetched: Fetched
) -> Iterator[tuple[int, int]]:
    """The same of an inner chunk: of a shard what a shard is asked for, of others what is planned, or all of it."""
    if chunk.cut is not None and not chunk.has_outer:
        yield from _asked(chunk.cut, select(inside, chunk.form.shape), begin, length, fetched)
        return
    planned = chunk.planned_ranges(inside) if chunk.is_planned else None
    ranges = [(0, length)] if planned is None else listed(planned)
    for first, last in ranges:
        # that one ends behind the inner chunk, the library says
        if last <= length:
            yield begin + first, begin + last
