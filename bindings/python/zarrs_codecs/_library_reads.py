"""Chunks that the library codes: what their values are, and reads of them."""

import contextlib
import ctypes
import math
from collections.abc import Callable, Iterator
from functools import cached_property, partial
from typing import Any

import numpy as np
import numpy.typing as npt

from ._buffers import counted, lent, overlaps, start
from ._outer_codecs import hint, most_of_each, split
from ._coder import Coder, Cut, Form, Representation, Shard, located
from ._dense import is_dense, taken
from ._elements import picked, put, returned, returned_into, returned_many, takes
from ._files import PART_BYTES, Source
from ._header import Header, copied, json_of
from ._inner_chunks import locate_inner_chunk
from ._kept import Kept
from ._lacking import Lacking
from ._layout import Layout, behind_transpositions, is_sharded
from ._library import SHORT, checked, library
from ._locating import OF_CODECS, OF_VALUES, locate, locate_stored
from ._rounds import Fetched, at_hand, returned_ranges
from ._selections import MOST_APART, SPARSE, Rows, Selection, select
from ._types import AnyArray, Bytes, Shape
from .refusals import OutOfBounds, Refused, Storage, UnknownName

# How many bytes of an answer are read from a file at a time: a quarter of it, between these. Some three
# times as many are held beside it.
_LEAST_PART_BYTES = 1 << 14
_PART_BYTES = PART_BYTES
# How many bytes there are between two elements where these aren't read as well.
_GAP_BYTES = 1 << 14
# Of so many elements also a list is made that lie near, where it isn't known in which inner chunks they are.
_FEW_APART = 1 << 12
# The numbers that a first try at a plan has room for.
_PLAN_NUMBERS = 1 << 17
# How many bytes a value has of which is asked what a read takes of it.
_LONG = 1 << 40
_REPRESENTATIONS = ("fixed", "bounded", "unbounded")
# The errors that a value of another length may give.
_OF_LENGTHS = ("InvalidBytesLength", "InvalidByteRange", "BytesCodec", "NotInPlace")


class LibraryReader(Coder):
    """Chunks whose values the library reads, behind the codecs that Python runs. `make_shard` makes shards that Python cuts:
    by one of them is found of which inner chunk an error is, and what a round lacks of all of them."""

    def __init__(self, codecs: list[Any], form: Form, make_shard: Callable[[list[Any], Form], Shard]) -> None:
        self.form, self.text, self._make_shard = form, json_of(codecs), make_shard
        # the codecs that the library runs, and those behind them
        self._codecs, self._outer = split(copied(self.text))
        self.has_outer = bool(self._outer)
        self._declared = Header(form.shape, form.kind, form.fill_value)
        text = json_of(self._codecs)
        self.codecs_text, self._header = text.encode(), self._declared.text(text)
        self._keep()

    @located
    def _keep(self) -> None:
        """Has the library keep the chain; raises what `check` does."""
        self._kept = Kept(self._header)
        checked(self._kept.keep())

    @located
    def check(self) -> None:
        checked(library.zarrs_check(self._header, len(self._header)))

    # -- errors

    def _locate_stored(self, error: Refused, value: Any, length: int | None = None) -> None:
        """Puts into an error of the library's value which codec it is of; of one of another length, which is due. The
        length is given where the value, or a part of it, isn't at hand."""
        if error.codec is not None or type(error).__name__ not in OF_VALUES:
            return
        locate_stored(error, self._declared.checked, self._codecs, value)
        kind, size = self.representation
        length = length if value is None else memoryview(value).nbytes
        if kind == "fixed" and length not in (None, size) and type(error).__name__ in _OF_LENGTHS:
            error.args = (f"{length} bytes, where {size} are due",)

    def locate(self, error: Refused) -> None:
        if error.codec is not None or type(error).__name__ not in OF_CODECS:
            return
        is_checked = self._declared.checked(self._codecs) == type(error).__name__
        ask = self._declared.checked if is_checked else self._declared.written
        locate(error, ask, self._codecs)
        if type(error) is UnknownName and error.codec is not None and error.hint is None:
            last = error.inner[-1][2] if error.inner else error.codec[1]
            error.hint = hint(last)

    @contextlib.contextmanager
    def _locating_inner_chunk(
        self, fetched: Fetched, selection: Any, read: Callable[[Selection], Any]
    ) -> Iterator[None]:
        """An error of a read of this value says which inner chunk of a shard it is of, but for one of the selection. The
        call reads parts of it."""
        try:
            yield
        except (Storage, OutOfBounds):
            raise
        except Refused as error:
            if self.cut is not None:
                locate_inner_chunk(error, self.cut, len(self._codecs) - 1, fetched, selection, read, self.form.shape)
            raise

    # -- what values are

    @cached_property
    @located
    def representation(self) -> Representation:
        kind, size = ctypes.c_uint32(), ctypes.c_uint64()
        at = ctypes.byref
        checked(self._kept.call(library.zarrs_chain_representation, at(kind), at(size)))
        return Representation(_REPRESENTATIONS[kind.value], None if kind.value == 2 else size.value)

    @cached_property
    def is_planned(self) -> bool:
        return self.form.kind.is_plain and self.planned_ranges(self.form.first) is not None

    @cached_property
    def is_read_whole(self) -> bool:
        # as its first round lacks of a long one
        if self._outer:
            return True
        first = select(self.form.first, self.form.shape)
        nothing_of = (_LONG, None, 0, None, 0)
        return bool(self.lacking.ranges(nothing_of, first.arguments()).tolist() == [[0, _LONG]])

    @cached_property
    def rests_on_length(self) -> bool:
        # All else is at a place that is counted from the first byte, and fails where it is cut; so does what codecs of
        # Python have made. A shard has its index behind where nothing else is declared, also one in the data of texts; other
        # codecs have it there where they declare "end".
        return not self._outer and ('"sharding_indexed"' in self.text or '"end"' in self.text)

    @property
    def unproved(self) -> tuple[str, ...]:
        return tuple(codec.name for codec in self._outer if not codec.is_proved)

    def inner(self, stored: Any) -> Any:
        if stored is None or not self._outer:
            return stored
        for number in reversed(range(len(self._outer))):
            stored = self._run(number, "decode", stored)
        return stored

    @cached_property
    def _most(self) -> list[int | None]:
        """How many bytes each of the codecs that Python runs opens to at most."""
        return most_of_each(self._outer, *self.representation)

    def _run(self, number: int, way: str, value: Any) -> Bytes:
        """What one of the codecs that Python runs makes of a value; an error says that it is this one's."""
        codec = self._outer[number]
        try:
            return codec.decode(value, self._most[number]) if way == "decode" else codec.encode(value)
        except Refused as error:
            error.codec = len(self._codecs) + number, codec.name
            raise

    @cached_property
    def layout(self) -> Layout:
        """Where the elements are in a value."""
        return Layout(self._codecs, self.form.shape)

    @cached_property
    def lacking(self) -> Lacking:
        """What reads lack of a value."""
        return Lacking(self, self._codecs, self._declared, self._kept, self.layout)

    @cached_property
    def cut(self) -> Cut | None:
        order, rest = behind_transpositions(self._codecs, len(self.form.shape))
        if not is_sharded(rest):
            return None
        return Cut(order, self._make_shard(rest, self.form.of_shape(tuple(self.form.shape[axis] for axis in order))))

    # -- reads of values at hand

    @located
    def decode(self, value: Any, out: AnyArray | None = None) -> AnyArray:
        inner = self.inner(value)
        call, length = self._decoding(inner)
        kind, size = self.representation
        # for a value of another length than is due, which fails, no memory is taken
        shape = self.form.shape if kind != "fixed" or length == size else (0,)
        with self._locating_inner_chunk(at_hand(inner), ..., partial(self._read, inner)):
            return self._returned(call, shape, inner, length, out)

    def _decoding(self, inner: Any) -> tuple[Callable[..., int], int]:
        """C's call that decodes the library's value, and how many bytes that has."""
        at, length = lent(inner)
        return partial(self._kept.call, library.zarrs_chain_decode, at, length), length

    def _returned(
        self, call: Callable[..., Any], shape: Shape, value: Any, length: int, out: AnyArray | None
    ) -> AnyArray:
        """The elements that a call returns, which reads a value of this length; in `out` where it is given."""
        is_into = out is not None and takes(self.form.kind, out, shape) and not overlaps(out, value)
        try:
            if out is not None and is_into:
                returned_into(out, call)
                return out
            elements = returned(self.form.kind, call, shape, length + 64)
        except Refused as error:
            self._locate_stored(error, value)
            raise
        return put(elements, out)

    def _near(self, selected: Selection, is_at_hand: bool = False) -> Selection:
        """A selection with what lies between its places, where that is near, in the inner chunks of a shard that have some of
        them; where rows of those that are apart would be too many, with all that does."""
        if not selected.has_gaps:
            return selected
        layout, whole = self.layout, selected.closed()
        is_exact = layout.inner is None and layout.has_shards and math.prod(selected.shape) <= _FEW_APART
        # what is at hand is copied, and so taken together where it is so in the chunk
        stored = None if is_at_hand else layout.order
        chosen = selected if is_exact else selected.closed(self.form.dtype.itemsize, _GAP_BYTES, stored, layout.inner)
        count = math.prod(chosen.shape)
        is_copied = is_at_hand and layout.inner is None and count * SPARSE > math.prod(whole.shape)
        return whole if is_copied or count > MOST_APART else chosen

    def _read(self, inner: Any, chosen: Selection, out: AnyArray | None = None) -> AnyArray:
        """C's answer of a selection, of the library's value or of None."""
        value = b"" if inner is None else inner
        at, length = lent(value)
        arguments = (inner is not None, at, length, *chosen.without_gaps().arguments())
        call = partial(self._kept.call, library.zarrs_chain_read, *arguments)
        return self._returned(call, chosen.shape, value, length, out)

    def _read_dense(self, inner: Any, selected: Selection, out: AnyArray | None) -> AnyArray:
        """The elements of a selection of a value that is decoded whole."""
        call, length = self._decoding(inner)
        elements = taken(returned(self.form.kind, call, self.form.shape, length + 64), selected)
        return put(picked(elements, selected.after), out)

    @located
    def read(self, inner: Any, selection: Any, out: AnyArray | None = None) -> AnyArray:
        selected = select(selection, self.form.shape)
        if inner is not None and is_dense(self.layout, selected, memoryview(inner).nbytes, is_at_hand=True):
            # of what fails so another part may be what is damaged
            with contextlib.suppress(Refused):
                return self._read_dense(inner, selected, out)
        chosen = self._near(selected, is_at_hand=True)
        with self._locating_inner_chunk(at_hand(inner), selection, partial(self._read, inner)):
            if chosen.after is None:
                return self._read(inner, chosen, out)
            return put(picked(self._read(inner, chosen), chosen.after), out)

    @located
    def read_many(self, inner: Any, selections: list[Selection]) -> list[AnyArray]:
        chosen = [one.closed() for one in selections]
        given_numbers = [one.numbers() for one in chosen]
        sizes = np.array([(tuples, many.size) for tuples, many in given_numbers], np.uint64).reshape(-1, 2)
        numbers = np.concatenate([many for _, many in given_numbers] or [np.empty(0, np.uint64)])
        at, length = lent(b"" if inner is None else inner)
        arguments = (inner is not None, at, length, *counted(sizes, len(sizes)), *counted(numbers, numbers.size))
        call = partial(self._kept.call, library.zarrs_chain_read_many, *arguments)
        answers: list[AnyArray] | None = None
        with contextlib.suppress(Refused):
            answers = returned_many(self.form.kind, call, [one.shape for one in chosen], length + 64)
        if answers is None:
            # what fails does so by itself too, and says why; what lies between places that are selected isn't read then
            return [self.read(inner, one) for one in selections]
        return [picked(answer, one.after) for one, answer in zip(chosen, answers, strict=True)]

    # -- reads of values elsewhere

    def _planned(self, chosen: Selection) -> npt.NDArray[np.uint64] | None:
        is_planned = ctypes.c_bool()
        call = partial(self._kept.call, library.zarrs_chain_planned_ranges, *chosen.arguments())
        ranges = returned_ranges(
            lambda at, count, needed: call(at, count, ctypes.byref(is_planned), needed),
            min(2 * math.prod(chosen.shape), _PLAN_NUMBERS),
        )
        return ranges if is_planned.value else None

    @located
    def planned_ranges(self, selection: Any) -> npt.NDArray[np.uint64] | None:
        chosen = select(selection, self.form.shape).closed()
        return None if self._outer else self._planned(chosen)

    @located
    def read_fetched(self, fetched: Fetched, selection: Any, out: AnyArray | None = None) -> AnyArray:
        if self._outer:
            return self.read(self.inner(fetched.source.whole()), selection, out)
        try:
            return self._read_source(fetched, selection, out)
        except Refused as error:
            self._locate_stored(error, fetched.bytes_of(0, fetched.length), fetched.length)
            raise

    def _read_source(self, fetched: Fetched, selection: Any, out: AnyArray | None) -> AnyArray:
        """The same of a chain that the library runs alone."""
        source, kind, shape = fetched.source, self.form.kind, self.form.shape
        if not self.is_planned:
            return self._read_in_rounds(fetched, selection, out)
        chosen = select(selection, shape)
        # as the elements are stored, and as the chunk has them, in whose order the parts are made
        for order in (self.layout.order, None):
            chosen = chosen.closed(kind.dtype.itemsize, _GAP_BYTES, order, shape)
        if out is not None and chosen.after is None and takes(kind, out, chosen.shape):
            self._read_parts(source, chosen, out.reshape(-1))
            return out
        elements: AnyArray = np.empty(chosen.shape, kind.dtype)
        self._read_parts(source, chosen, elements.reshape(-1))
        return put(picked(elements, chosen.after), out)

    def _read_in_rounds(self, fetched: Fetched, selection: Any, out: AnyArray | None) -> AnyArray:
        """The elements of a selection, by as many rounds as it takes, up to a number."""
        selected = select(selection, self.form.shape)
        if is_dense(self.layout, selected, fetched.length):
            missing = fetched.missing()
            if missing.size:
                fetched.fetch(missing)
            with contextlib.suppress(Refused):
                return self._read_dense(fetched.there(0, fetched.length), selected, out)
        chosen = self._near(selected)
        read = partial(self._read_round_by_round, fetched)
        with self._locating_inner_chunk(fetched, selection, read):
            elements = read(chosen)
        return put(picked(elements, chosen.after), out)

    def _read_round_by_round(self, fetched: Fetched, chosen: Selection) -> AnyArray:
        """The elements of a selection without its gaps, in its shape."""
        asked, rounds = chosen.without_gaps(), 0
        back: AnyArray | None = None
        if isinstance(asked, Rows) and self.layout.has_shards and self.form.shape:
            # the ranges of rows that stand together are one
            asked, back = asked.in_order(self.layout.order)
        while True:
            lacking = self.lacking.in_round(rounds, fetched, asked)
            if lacking.size:
                fetched.fetch(lacking)
            arguments = *fetched.arguments(), *asked.arguments()
            call = partial(self._kept.call, library.zarrs_chain_read_pieces, *arguments)
            try:
                elements = returned(self.form.kind, call, asked.shape, fetched.size + 64)
                break
            except Storage:
                if not lacking.size:
                    raise
                rounds += 1
        return (elements if back is None else elements[back]).reshape(chosen.shape)

    def _read_parts(self, source: Source, chosen: Selection, elements: AnyArray) -> None:
        """Reads a selection that is planned, part by part; at once where the source has no parts."""
        length, at = source.length(), 0
        part_bytes = elements.nbytes
        if source.part_bytes is not None:
            part_bytes = min(max(part_bytes // 4, _LEAST_PART_BYTES), _PART_BYTES)
        together = () if source.part_bytes is not None else (MOST_APART,)
        for part in chosen.parts(max(part_bytes // self.form.dtype.itemsize, 1), *together):
            ranges: Any = self._planned(part)
            # that some end behind the value, the library says, once it has what there is of them
            ranges = np.minimum(ranges[ranges[:, 0] < length], np.uint64(length))
            fetched = source.pieces(ranges)
            pieces = (length, start(ranges), ranges.size, start(fetched), fetched.size)
            call = partial(self._kept.call, library.zarrs_chain_read_pieces, *pieces, *part.arguments())
            count = math.prod(part.shape)
            returned_into(elements[at : at + count], call)
            at += count

    # -- what is stored

    def stored(self, call: Callable[..., Any], guess: int) -> Bytes:
        """What is stored for the value that a call returns, which takes a buffer and its size last."""
        needed = ctypes.c_size_t()
        size = self.representation.size
        value: Bytes = np.empty(guess if size is None else size, np.uint8)
        code = call(start(value), value.size, ctypes.byref(needed))
        if code == SHORT:
            value = np.empty(needed.value, np.uint8)
            code = call(start(value), value.size, ctypes.byref(needed))
        checked(code)
        value = value[: needed.value]
        for number in range(len(self._outer)):
            value = self._run(number, "encode", value)
        return value
