"""Which inner chunk of a shard an error is of: found by reading parts of the value again."""

import math
from collections.abc import Callable
from typing import Any

from ._coder import Cut
from ._layout import SHARDS
from ._rounds import Fetched
from ._selections import Selection, select
from ._types import Shape
from .refusals import InvalidByteRange, Refused

# Of so many elements all inner chunks are read where one of them is damaged.
_FEW_ELEMENTS = 256


def locate_inner_chunk(
    error: Refused, cut: Cut, place: int, fetched: Fetched, selection: Any, read: Callable[[Selection], Any], shape: Shape
) -> None:
    """Puts into the library's error of a read which inner chunk it is of, where the value is a shard, whose codec stands at
    this place: Python looks at the index, and then reads a part of the same, inner chunk by inner chunk. The library reads
    parts by the call that is given."""
    order, shard = cut
    try:
        chosen = select(selection, shape)
        if type(error) is InvalidByteRange:
            shard.check_index(fetched.anew(), chosen.moved(order))
        shard.read_fetched(fetched.anew(), _narrowed(error, chosen, read).moved(order))
    except Refused as found:
        if type(found) is type(error):
            error.args, error.codec, error.inner = found.args, (place, SHARDS), found.inner


def _narrowed(error: Refused, chosen: Selection, read: Callable[[Selection], Any]) -> Selection:
    """A part of a selection whose read fails alike, found by halves: one of few elements, where there is one. The last
    half is the one where the others don't fail."""
    while (count := math.prod(chosen.shape)) > _FEW_ELEMENTS:
        *others, chosen = chosen.parts(-(-count // 2))
        for part in others:
            try:
                read(part)
            except Refused as found:
                if type(found) is type(error):
                    chosen = part
                    break
    return chosen
