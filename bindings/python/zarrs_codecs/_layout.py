"""How a list of codecs lays out a chunk's elements: the order of the axes, and the inner chunks of shards."""

import math
from collections.abc import Sequence
from typing import Any

from ._header import copied, json_of
from ._locating import name_of
from ._types import Shape

SHARDS = "sharding_indexed"


def is_sharded(codecs: Sequence[Any]) -> bool:
    """Whether these codecs are `sharding_indexed` alone."""
    return len(codecs) == 1 and isinstance(codecs[0], dict) and codecs[0].get("name") == SHARDS


def behind_transpositions(codecs: list[Any], axes: int) -> tuple[tuple[int, ...], list[Any]]:
    """The axes in the order that the transpositions before other codecs give them, and the other codecs."""
    order = tuple(range(axes))
    for place, codec in enumerate(codecs):
        if name_of(codec) != "transpose":
            return order, codecs[place:]
        order = tuple(order[axis] for axis in codec["configuration"]["order"])
    return order, []


def layout_of(codecs: list[Any], axes: int) -> tuple[tuple[int, ...], Shape | None]:
    """The axes in the order of the stored elements, the slowest first, and the sizes of the innermost inner chunks; None
    where these aren't known, or there are none. Codecs of other forms leave the order of the elements as it is."""
    order, rest = behind_transpositions(codecs, axes)
    sizes: Shape | None = None
    while rest and name_of(rest[0]) == SHARDS:
        declared = rest[0]["configuration"]
        on_axes = dict(zip(order, declared["chunk_shape"], strict=True))
        sizes = tuple(on_axes[axis] for axis in range(axes))
        moved, rest = behind_transpositions(declared["codecs"], axes)
        order = tuple(order[axis] for axis in moved)
    return order, sizes


def _inside_shard(codecs: list[Any]) -> list[Any] | None:
    """The codecs of a shard's inner chunks, as they stand in these; None where there is no shard."""
    for codec in codecs:
        if name_of(codec) == SHARDS:
            declared = codec.get("configuration") if isinstance(codec, dict) else None
            inner = declared.get("codecs") if isinstance(declared, dict) else None
            # one that is skipped may have none
            return inner if isinstance(inner, list) else None
    return None


def with_whole_inside(codecs: list[Any]) -> list[Any] | None:
    """These codecs with a checksum behind those of a shard's inner chunks, by which a read of them lacks all of their
    bytes; None where there is no shard."""
    found = copied(json_of(codecs))
    inner = _inside_shard(found)
    if inner is None:
        return None
    inner.append("crc32c")
    return found


class Layout:
    """Where a chunk's elements are in a value of a list of codecs that the library takes: `order` has the axes, the slowest
    first, and `inner` the sizes of the innermost inner chunks, where transpositions alone stand before a shard."""

    def __init__(self, codecs: list[Any], shape: Shape) -> None:
        self.order, self.inner = layout_of(codecs, len(shape))
        inside = _inside_shard(codecs)
        self.has_shards = inside is not None
        self.has_shards_inside = inside is not None and any(name_of(one) == SHARDS for one in inside)
        self._shape = shape

    @property
    def finest(self) -> tuple[Shape, int] | None:
        """The sizes of the innermost inner chunks and how many there are; None where these aren't known, or there are
        none."""
        if not self.has_shards or self.inner is None:
            return None
        counts = (-(-one // size) for one, size in zip(self._shape, self.inner, strict=True))
        return self.inner, math.prod(counts)
