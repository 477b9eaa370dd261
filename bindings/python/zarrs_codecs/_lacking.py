"""What a round of a read in rounds fetches."""

import contextlib
import itertools
from functools import cached_property, partial
from typing import Any

import numpy as np

from ._coder import Coder
from ._header import Header, json_of
from ._kept import Kept
from ._layout import Layout, with_whole_inside
from ._library import library
from ._nested import lacking_inside
from ._rounds import Fetched, Ranges, returned_ranges
from ._selections import Selection
from ._types import listed
from .refusals import Refused

# So many rounds fetch what they lack alone, and one more all that isn't there, of a shard the inner chunks that are
# needed: each round reads again what those before it have read.
_MOST_ROUNDS = 8
# Behind so many the inner chunks of a shard are fetched whole that are needed.
_FEW_ROUNDS = 2
# Of so many ranges the library returns all, however short they are.
_RETURNED_AT_ONCE = 1 << 10
# So many times it is asked where Python doesn't know in which inner chunks elements are.
_MOST_PARTS = 1 << 4


class Lacking:
    """What reads of a coder's values lack, whose codecs, header, kept chain and layout these are."""

    def __init__(self, coder: Coder, codecs: list[Any], header: Header, kept: Kept, layout: Layout) -> None:
        self._coder, self._codecs, self._header, self._kept, self._layout = coder, codecs, header, kept, layout

    @cached_property
    def _whole_inside(self) -> Kept | None:
        """The chain of such chunks whose inner chunks are read whole; None where they are no shards."""
        codecs = with_whole_inside(self._codecs)
        return None if codecs is None else Kept(self._header.text(json_of(codecs)))

    def ranges(self, pieces: tuple[Any, ...], numbers: tuple[Any, ...], kept: Kept | None = None) -> Ranges:
        """The ranges that a read of these pieces lacks; through another chain, where one is given."""
        call = partial((kept or self._kept).call, library.zarrs_chain_lacking, *pieces, *numbers)
        return returned_ranges(call, 64)

    def in_round(self, rounds: int, fetched: Fetched, chosen: Selection) -> Ranges:
        """What a round fetches, behind so many: what the read lacks, of all inner chunks that it lacks something of."""
        lacking = self.ranges(fetched.arguments(), chosen.arguments())
        if not lacking.size:
            return lacking
        # so many rounds fetch what they lack, before one that fetches the inner chunks that are needed, or all
        layout = self._layout
        most = _MOST_ROUNDS if not layout.has_shards or layout.has_shards_inside else _FEW_ROUNDS
        # what fails so may be read by itself
        with contextlib.suppress(Refused):
            together = self._together(rounds < most, fetched, chosen)
            if together is not None and together.size:
                return together
        return fetched.missing() if rounds >= most else lacking

    def _together(self, is_early: bool, fetched: Fetched, chosen: Selection) -> Ranges | None:
        """What the read lacks of all inner chunks at once; None where the library returns that by itself. It returns one inner
        chunk after the other where these hold shards or texts, or so many short ranges are needed of them: then
        what the shards inside are asked for, or what it lacks if inner chunks are read whole."""
        cut = self._coder.cut
        if self._layout.has_shards_inside and cut is not None and is_early:
            return lacking_inside(cut, chosen, fetched)
        if self._whole_inside is None or self._coder.form.kind.is_plain and is_early:
            return None
        if is_early:
            return self.ranges(fetched.arguments(), chosen.arguments(), self._whole_inside)
        # over a thousand inner chunks of a few bytes each lack one after the other
        if cut is not None:
            return fetched.without(cut.shard.whole_ranges(fetched, chosen.moved(cut.order)))
        asked = [part.arguments() for part in itertools.islice(chosen.parts(_RETURNED_AT_ONCE), _MOST_PARTS + 1)]
        if len(asked) > _MOST_PARTS:
            return None
        each = [listed(self.ranges(fetched.arguments(), part, self._whole_inside)) for part in asked]
        return fetched.without(np.array(sorted(itertools.chain(*each)), np.uint64).reshape(-1, 2))
