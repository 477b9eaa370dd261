"""Shards that Python cuts, those with codecs of Python inside most of all. Nothing about that is proved."""

from collections.abc import Iterable, Iterator
from functools import cached_property
from typing import Any, NamedTuple

import numpy as np

from ._outer_codecs import split, wrong
from ._coder import Coder, Cut, Form, Maker, Piece, Representation, Shard
from ._elements import empty, mask_of, picked, put, spread, words_of
from ._files import Held
from ._grid import Grid
from ._header import copied, json_of
from ._layout import SHARDS, is_sharded
from ._locating import OF_CODECS
from ._nested import lacking_inside
from ._rounds import Fetched, Window
from ._selections import Rows, Selection, check_inside, select
from ._types import AnyArray, Bytes, Shape
from .refusals import (
    IncompatibleDimensionality,
    IndexNotFixed,
    IndivisibleShape,
    InvalidByteRange,
    InvalidBytesLength,
    InvalidFillValue,
    NotInPlace,
    Refused,
    Syntax,
    ZeroSize,
)

# What the index has for an inner chunk that isn't stored.
_ABSENT = (1 << 64) - 1


class _Configuration(NamedTuple):
    """What a configuration declares."""

    chunk_shape: Shape
    codecs: list[Any]
    index_codecs: list[Any]
    index_is_last: bool


def has_pythons(codecs: Any) -> bool:
    """Whether these codecs are `sharding_indexed` alone, and its inner chunks have codecs that Python runs. Raises `Syntax`
    where they are nested too deeply."""
    try:
        return _has_pythons(codecs)
    except RecursionError as error:
        raise Syntax("codecs are nested too deeply") from error


def _has_pythons(codecs: Any) -> bool:
    if not isinstance(codecs, (list, tuple)) or not is_sharded(codecs):
        return False
    declared = codecs[0].get("configuration")
    inner = declared.get("codecs") if isinstance(declared, dict) else None
    try:
        return isinstance(inner, (list, tuple)) and (
            bool(split(list(inner))[1]) or any(_has_pythons([codec]) for codec in inner)
        )
    except Refused:
        # one of them, with a key that is wrong
        return True


def _put_inside(error: Refused, key: str) -> None:
    """Puts into an error of a codec in a list that the list is this key's."""
    if error.codec is not None:
        error.inner, error.codec = ((key, *error.codec), *error.inner), (0, SHARDS)


def _error(kind: type[Refused], text: str) -> Refused:
    """An error of a value by this codec."""
    error = kind(text)
    error.codec = 0, SHARDS
    return error


def _configuration(codec: dict[str, Any]) -> _Configuration:
    """What a metadata of the codec declares. Raises `InvalidConfiguration`, and `ZeroSize` of a size."""
    declared = codec.get("configuration", {})
    if not isinstance(declared, dict):
        wrong("configuration", declared)
    sizes = declared.get("chunk_shape")
    if not isinstance(sizes, list) or any(type(size) is not int or not 0 <= size < 1 << 64 for size in sizes):
        wrong("chunk_shape", sizes)
    for key in ("codecs", "index_codecs"):
        if not isinstance(declared.get(key), list):
            wrong(key, declared.get(key))
    location = declared.get("index_location", "end")
    if location not in ("start", "end"):
        wrong("index_location", location)
    if 0 in sizes:
        error = ZeroSize("ZeroSize")
        error.key = "chunk_shape"
        raise error
    return _Configuration(tuple(sizes), declared["codecs"], declared["index_codecs"], location == "end")


def _counts(shape: Shape, sizes: Shape) -> Shape:
    """How many inner chunks of these sizes there are on each axis."""
    if len(sizes) != len(shape):
        raise IncompatibleDimensionality("IncompatibleDimensionality")
    if any(whole % size for whole, size in zip(shape, sizes, strict=True)):
        raise IndivisibleShape("IndivisibleShape")
    return tuple(whole // size for whole, size in zip(shape, sizes, strict=True))


class ShardCoder(Shard):
    """A chunk that is a shard: it is cut into inner chunks, each encoded by a coder of its own, and an index says
    where each of them is in the value. `make` makes these coders.

    What a read needs of a value is the index and the inner chunks with elements of the answer. A write makes a value of the
    inner chunks as they are afterwards, in the order of their numbers, and leaves the bytes of those that it doesn't touch.
    """

    def __init__(self, codecs: list[Any], form: Form, make: Maker) -> None:
        self.text, self.form, self._make = json_of(codecs), form, make
        try:
            declared = _configuration(copied(self.text)[0])
            self._is_last = declared.index_is_last
            self._grid = Grid(_counts(form.shape, declared.chunk_shape), declared.chunk_shape)
            self._make_coders(declared)
        except Refused as error:
            self.locate(error)
            raise
        self._fill: Any = self.chunk.read(None, form.first)

    def _make_coders(self, declared: _Configuration) -> None:
        """Makes the coder of each inner chunk, and that of the index."""
        inner = self.form.of_shape(declared.chunk_shape)
        self.chunk = self._inside("codecs", declared.codecs, inner)
        # a codec that keeps some bits alone has a normal form
        self._keeps_all = "packbits" not in json_of(declared.codecs)
        if not self._keeps_all:
            fill = self._full(self.chunk.read(None, inner.first))
            if not self._is_same(self.chunk.decode(self.chunk.encode(fill)), fill):
                raise InvalidFillValue("InvalidFillValue")
        self._index = self._inside("index_codecs", declared.index_codecs, Form((*self._grid.counts, 2), "uint64", 0))
        kind, size = self._index.representation
        if kind != "fixed" or size is None or self._index.unproved:
            raise IndexNotFixed("IndexNotFixed")
        self._index_size = size

    def _inside(self, key: str, codecs: list[Any], form: Form) -> Coder:
        """The coder of a key; an error says where it stands."""
        try:
            return self._make(codecs, form)
        except Refused as error:
            if error.codec is None and error.key is None:
                error.key = key
            _put_inside(error, key)
            error.codec = 0, SHARDS
            raise

    def locate(self, error: Refused) -> None:
        if error.codec is None and type(error).__name__ in OF_CODECS:
            error.codec = 0, SHARDS

    def check(self) -> None:
        self.chunk.check()
        self._index.check()

    @cached_property
    def representation(self) -> Representation:
        # at most the bytes of all inner chunks and the index, where these are bounded
        size = self.chunk.representation.size
        if size is None or self.chunk.unproved:
            return Representation("unbounded", None)
        return Representation("bounded", size * self._grid.count + self._index_size)

    @property
    def cut(self) -> Cut:
        return Cut(tuple(range(len(self.form.shape))), self)

    @property
    def is_planned(self) -> bool:
        return False

    @property
    def is_read_whole(self) -> bool:
        return False

    @property
    def rests_on_length(self) -> bool:
        return True

    @property
    def unproved(self) -> tuple[str, ...]:
        """The codec's name, since Python cuts the chunk, and those of the codecs that it runs on inner chunks."""
        return SHARDS, *self.chunk.unproved

    def inner(self, stored: Any) -> Any:
        return stored

    # -- the index, and the inner chunks of a value

    def index_range(self, length: int) -> tuple[int, int]:
        if length < self._index_size:
            raise _error(InvalidBytesLength, f"{length} bytes, where the index has {self._index_size}")
        return (length - self._index_size, length) if self._is_last else (0, self._index_size)

    def entries(self, index: Any) -> AnyArray:
        try:
            entries: AnyArray = self._index.decode(index).reshape(-1, 2)
        except Refused as error:
            _put_inside(error, "index_codecs")
            raise
        return entries

    def place_of(self, entries: AnyArray, number: int, length: int) -> tuple[int, int] | None:
        begin, size = map(int, entries[number])
        if begin == size == _ABSENT:
            return None
        if begin + size > length:
            raise _error(InvalidByteRange, f"inner chunk {number} ends at {begin + size}, behind {length} bytes")
        return begin, begin + size

    def pieces(self, chosen: Selection) -> list[Piece]:
        return self._grid.pieces(chosen)

    def check_index(self, fetched: Fetched, chosen: Selection) -> None:
        numbers, length = self._grid.numbers(chosen), fetched.length
        entries = self.entries(fetched.index(*self.index_range(length)))
        for place in np.flatnonzero(self._ranges(entries, numbers, length)[1])[:1]:
            self.place_of(entries, int(numbers[place]), length)

    def _ranges(self, entries: AnyArray, numbers: AnyArray, length: int) -> tuple[AnyArray, AnyArray]:
        """The bytes of those of these inner chunks that are stored, rows of a start and an end, and which of all are behind
        the end of a value of so many bytes."""
        begins, sizes = entries[numbers].T
        is_there = (begins != np.uint64(_ABSENT)) | (sizes != np.uint64(_ABSENT))
        is_behind = is_there & ((sizes > length) | (begins > np.uint64(length) - np.minimum(sizes, np.uint64(length))))
        is_right = is_there & ~is_behind
        rows = np.column_stack((begins[is_right], begins[is_right] + sizes[is_right]))
        return rows, is_behind

    def whole_ranges(self, fetched: Fetched, chosen: Selection) -> AnyArray:
        entries = self.entries(fetched.there(*self.index_range(fetched.length)))
        rows, _ = self._ranges(entries, self._grid.numbers(chosen), fetched.length)
        rows = rows[rows[:, 0] < rows[:, 1]]
        in_order: AnyArray = rows[np.argsort(rows[:, 0], kind="stable")]
        return in_order

    def _stored(self, value: Any) -> list[Any]:
        """The stored bytes of each inner chunk of a value, None of those that aren't there."""
        view = memoryview(value).cast("B")
        begin, end = self.index_range(len(view))
        entries = self.entries(view[begin:end])
        ranges = (self.place_of(entries, number, len(view)) for number in range(len(entries)))
        return [None if one is None else view[one[0] : one[1]] for one in ranges]

    def _joined(self, stored: Iterable[Any]) -> Bytes:
        """The value of stored inner chunks, in the order of their numbers."""
        entries = np.full((self._grid.count, 2), _ABSENT, np.uint64)
        at, parts = 0 if self._is_last else self._index_size, []
        for number, part in enumerate(stored):
            if part is not None:
                entries[number] = at, len(part)
                parts.append(np.frombuffer(part, np.uint8))
                at += len(part)
        index = self._index.encode(entries.reshape(*self._grid.counts, 2))
        return np.concatenate([*parts, index] if self._is_last else [index, *parts])

    def _full(self, element: Any) -> AnyArray:
        """An inner chunk that has one element everywhere."""
        elements = empty(self.form.kind, self._grid.sizes)
        elements[...] = element
        return elements

    def _is_same(self, one: AnyArray, other: AnyArray) -> bool:
        """Whether two inner chunks have the same elements, bit by bit."""
        absent: AnyArray | None = mask_of(one) if self.form.kind.is_optional else None
        if absent is not None and (absent != mask_of(other)).any():
            return False
        one, other = (np.asarray(each) for each in (one, other))
        if self.form.dtype == object:
            same: AnyArray = np.asarray(one == other)
            return bool((same if absent is None else absent | same).all())
        words, others = words_of(one), words_of(other)
        if absent is not None:
            return bool((absent.reshape(-1) | (words == others).all(axis=1)).all())
        # mostly the first element differs
        return bool((words[0] == others[0]).all() and (words == others).all())

    def _part(self, elements: AnyArray) -> Bytes | None:
        """What is stored of an inner chunk; None where it has fill values alone."""
        full = self._full(self._fill)
        if self._is_same(elements, full):
            return None
        value = self.chunk.encode(elements)
        if not self._keeps_all and self._is_same(self.chunk.decode(value), full):
            return None
        return value

    # -- whole chunks

    def encode(self, elements: AnyArray) -> Bytes:
        parts: Iterator[Any] = ((*place, ...) for place in self._grid.places())
        return self._joined([self._part(elements[part]) for part in parts])

    def decode(self, value: Any, out: AnyArray | None = None) -> AnyArray:
        elements = empty(self.form.kind, self.form.shape)
        places: Iterator[Any] = self._grid.places()
        for number, (place, part) in enumerate(zip(places, self._stored(value), strict=True)):
            elements[(*place, ...)] = self._fill if part is None else self._opened(number, part)
        return put(elements, out)

    def _opened(self, number: int, part: Any, inside: Any = None) -> AnyArray:
        """The elements of a stored inner chunk, or those of a selection; an error says which it is."""
        try:
            if isinstance(part, Window):
                return self.chunk.read_fetched(Fetched(part), inside)
            return self.chunk.decode(part) if inside is None else self.chunk.read(self.chunk.inner(part), inside)
        except Refused as error:
            if error.args:
                error.args = (f"{error.args[0]}, of inner chunk {number}", *error.args[1:])
            _put_inside(error, "codecs")
            raise

    def reencode(self, value: Any, other: Coder) -> Bytes:
        return other.encode(self.decode(value))

    # -- parts of chunks

    def read_fetched(self, fetched: Fetched, selection: Any, out: AnyArray | None = None) -> AnyArray:
        chosen = select(selection, self.form.shape)
        self._check_rows(chosen)
        pieces, length = self.pieces(chosen), fetched.length
        elements = empty(self.form.kind, chosen.shape)
        entries = self.entries(fetched.index(*self.index_range(length)))
        stored, failure = [], None
        for piece in pieces:
            try:
                where = self.place_of(entries, piece.number, length)
            except InvalidByteRange as error:
                failure = error
                break
            if where is None:
                elements[piece.there] = self._fill
            else:
                stored.append((piece, where))
        # those that touch are fetched together
        stored.sort(key=lambda one: one[1])
        parts = self._stored_parts(fetched, chosen, [where for _, where in stored])
        for (piece, _), part in zip(stored, parts, strict=True):
            elements[piece.there] = self._opened(piece.number, part, piece.inside)
        if failure is not None:
            raise failure
        return put(picked(elements, chosen.after), out)

    def _stored_parts(
        self, fetched: Fetched, chosen: Selection, ranges: list[tuple[int, int]]
    ) -> Iterator[Any]:
        """What is at these ranges of inner chunks; where these are shards that Python cuts, what is read of them, which is
        fetched for all of them together."""
        if not self.chunk.is_composed or isinstance(fetched.source, Held):
            return fetched.source.each(ranges)
        try:
            while (lacking := lacking_inside(self.cut, chosen, fetched)).size:
                fetched.fetch(lacking)
        except Refused:
            # the inner chunk that is damaged raises it
            return fetched.source.each(ranges)
        return (Window(fetched, *one) for one in ranges)

    def _check_rows(self, chosen: Selection) -> None:
        """Raises `OutOfBounds` where a list has an index outside."""
        if isinstance(chosen, Rows):
            check_inside(chosen.rows, self.form.shape)

    def read(self, inner: Any, selection: Any, out: AnyArray | None = None) -> AnyArray:
        if inner is not None:
            return self.read_fetched(Fetched(Held(inner)), selection, out)
        chosen = select(selection, self.form.shape)
        self._check_rows(chosen)
        elements = empty(self.form.kind, chosen.shape)
        elements[...] = self._fill
        return put(picked(elements, chosen.after), out)

    def read_many(self, inner: Any, selections: list[Selection]) -> list[AnyArray]:
        return [self.read(inner, selection) for selection in selections]

    def planned_ranges(self, selection: Any) -> None:
        """None: which bytes a read needs is known once it has the index."""
        select(selection, self.form.shape)

    def edit(self, value: Any, chosen: Selection, elements: AnyArray) -> None:
        raise _error(NotInPlace, "NotInPlace")

    def edit_many(self, value: Any, edits: list[tuple[Selection, AnyArray]]) -> None:
        raise _error(NotInPlace, "NotInPlace")

    def write(self, inner: Any, chosen: Selection, elements: AnyArray) -> Bytes:
        self._check_rows(chosen)
        new = spread(self.form.kind, elements, chosen.shape, chosen.after)
        stored: list[Any] = [None] * self._grid.count if inner is None else self._stored(inner)
        for number, inside, there in self.pieces(chosen):
            part = stored[number]
            old = self._full(self._fill) if part is None else self._opened(number, part)
            if isinstance(chosen, Rows):
                # without axes the last element stands; an array of it numpy would put into an array of objects as it is
                old[tuple(inside.T)] = new[there] if old.ndim else new[there][-1]
            else:
                old[inside] = new[there]
            stored[number] = self._part(old)
        return self._joined(stored)
