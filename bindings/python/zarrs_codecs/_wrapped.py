"""Shards that Python cuts, behind transpositions and before codecs of bytes. Nothing about that is proved."""

import contextlib
from collections.abc import Iterator
from typing import Any

import numpy as np

from ._coder import Coder, Cut, Form, Maker, Representation
from ._elements import picked, put, spread
from ._header import json_of
from ._layout import SHARDS, is_sharded
from ._locating import name_of
from ._outer_codecs import OuterCodec, all_outer, most_of_each
from ._rounds import Fetched
from ._selections import Rows, Selection, select
from ._sharding import ShardCoder, has_pythons
from ._types import AnyArray, Bytes
from .refusals import NotInPlace, Refused


def shard_place(codecs: list[Any], axes: int) -> int | None:
    """Where a shard that Python cuts stands behind transpositions of so many axes; None where there is none. What stands
    behind it isn't looked at."""
    for place, codec in enumerate(codecs):
        if is_sharded([codec]):
            return place if has_pythons([codec]) else None
        keys = codec.get("configuration") if isinstance(codec, dict) and name_of(codec) == "transpose" else None
        order = keys.get("order") if isinstance(keys, dict) else None
        if not isinstance(order, list) or any(type(axis) is not int for axis in order) or sorted(order) != list(range(axes)):
            return None
    return None


class WrappedShard(Coder):
    """A shard that Python cuts, which stands at this place of a list of codecs, behind transpositions alone."""

    is_composed = True

    def __init__(self, codecs: list[Any], form: Form, place: int, make: Maker) -> None:
        self.text, self.form, self._place = json_of(codecs), form, place
        order = tuple(range(len(form.shape)))
        for codec in codecs[:place]:
            order = tuple(order[axis] for axis in codec["configuration"]["order"])
        self._order, self._back = order, np.argsort(order).tolist()
        self._outer: list[OuterCodec] = all_outer(codecs, place + 1)
        self.has_outer = bool(self._outer)
        with self._placed():
            self._shard = ShardCoder(codecs[place : place + 1], form.of_shape(tuple(form.shape[axis] for axis in order)), make)
        self._most = most_of_each(self._outer, *self.representation)

    @contextlib.contextmanager
    def _placed(self) -> Iterator[None]:
        """An error of the shard says where it stands."""
        try:
            yield
        except Refused as error:
            self.locate(error)
            raise

    def locate(self, error: Refused) -> None:
        if error.codec == (0, SHARDS):
            error.codec = self._place, SHARDS

    @property
    def unproved(self) -> tuple[str, ...]:
        return *self._shard.unproved, *(codec.name for codec in self._outer if not codec.is_proved)

    @property
    def representation(self) -> Representation:
        return self._shard.representation

    @property
    def is_planned(self) -> bool:
        return False

    @property
    def is_read_whole(self) -> bool:
        return self.has_outer

    @property
    def rests_on_length(self) -> bool:
        return not self.has_outer

    @property
    def cut(self) -> Cut:
        return Cut(self._order, self._shard)

    def check(self) -> None:
        with self._placed():
            self._shard.check()

    def _run(self, number: int, way: str, value: Any) -> Bytes:
        """What one of the codecs behind the shard makes of a value; an error says that it is this one's."""
        codec = self._outer[number]
        try:
            return codec.decode(value, self._most[number]) if way == "decode" else codec.encode(value)
        except Refused as error:
            error.codec = self._place + 1 + number, codec.name
            raise

    def inner(self, stored: Any) -> Any:
        if stored is None:
            return None
        for number in reversed(range(len(self._outer))):
            stored = self._run(number, "decode", stored)
        return stored

    def _stored(self, value: Bytes) -> Bytes:
        for number in range(len(self._outer)):
            value = self._run(number, "encode", value)
        return value

    def _moved(self, elements: AnyArray, chosen: Selection) -> AnyArray:
        """Elements of a selection in the shard's order of the axes, as the chunk has them."""
        return elements if isinstance(chosen, Rows) else elements.transpose(self._back)

    def encode(self, elements: AnyArray) -> Bytes:
        with self._placed():
            return self._stored(self._shard.encode(elements.transpose(self._order)))

    def decode(self, value: Any, out: AnyArray | None = None) -> AnyArray:
        inner = self.inner(value)
        with self._placed():
            return put(self._shard.decode(inner).transpose(self._back), out)

    def read(self, inner: Any, selection: Any, out: AnyArray | None = None) -> AnyArray:
        chosen = select(selection, self.form.shape)
        with self._placed():
            elements = self._moved(self._shard.read(inner, chosen.moved(self._order)), chosen)
        return put(picked(elements, chosen.after), out)

    def read_many(self, inner: Any, selections: list[Selection]) -> list[AnyArray]:
        return [self.read(inner, one) for one in selections]

    def read_fetched(self, fetched: Fetched, selection: Any, out: AnyArray | None = None) -> AnyArray:
        if self.has_outer:
            return self.read(self.inner(fetched.source.whole()), selection, out)
        chosen = select(selection, self.form.shape)
        with self._placed():
            elements = self._moved(self._shard.read_fetched(fetched, chosen.moved(self._order)), chosen)
        return put(picked(elements, chosen.after), out)

    def planned_ranges(self, selection: Any) -> None:
        """None: which bytes a read needs is known once it has the index."""
        select(selection, self.form.shape)

    def write(self, inner: Any, chosen: Selection, elements: AnyArray) -> Bytes:
        new = spread(self.form.kind, elements, chosen.shape, chosen.after)
        new = new if isinstance(chosen, Rows) else new.transpose(self._order)
        with self._placed():
            return self._stored(self._shard.write(inner, chosen.moved(self._order), new))

    def _not_in_place(self) -> NotInPlace:
        error = NotInPlace("NotInPlace")
        error.codec = self._place, SHARDS
        return error

    def edit(self, value: Any, chosen: Selection, elements: AnyArray) -> None:
        raise self._not_in_place()

    def edit_many(self, value: Any, edits: list[tuple[Selection, AnyArray]]) -> None:
        raise self._not_in_place()

    def reencode(self, value: Any, other: Coder) -> Bytes:
        return other.encode(self.decode(value))
