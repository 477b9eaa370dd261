"""Chunks that the library codes: what is written of them."""

import ctypes
from functools import partial
from typing import Any

import numpy as np

from ._buffers import counted, lent, overlaps
from ._coder import Coder, located
from ._elements import given, spread
from ._library import EditSize, checked, library
from ._library_reads import LibraryReader
from ._rounds import at_hand
from ._selections import Selection
from ._types import AnyArray, Bytes
from .refusals import NotInPlace, Refused


class LibraryCoder(LibraryReader):
    """Chunks whose values the library reads and writes, before the codecs that Python runs."""

    @located
    def encode(self, elements: AnyArray) -> Bytes:
        parts = given(self.form.kind, elements)
        call = partial(self._kept.call, library.zarrs_chain_encode, *parts)
        try:
            return self.stored(call, 2 * parts[-1] + 16 * parts[3] + parts[1] + 64)
        except Refused as error:
            self._locate_stored(error, None)
            raise

    def reencode(self, value: Any, other: Coder) -> Bytes:
        if not isinstance(other, LibraryCoder):
            return other.encode(self.decode(value))
        own = self.inner(value)
        try:
            at, length = lent(own)
            inner = other.codecs_text
            call = partial(self._kept.call, library.zarrs_chain_reencode, at, length, inner, len(inner))
            with self._locating_inner_chunk(at_hand(own), ..., partial(self._read, own)):
                return other.stored(call, length + 64)
        except Refused as error:
            self.locate(error)
            other.locate(error)
            self._locate_stored(error, own)
            raise

    def _check_in_place(self, value: Any) -> None:
        """Raises `NotInPlace` where codecs of Python stand behind the others, and `ValueError` of another buffer than may
        be written."""
        if self._outer:
            error = NotInPlace("NotInPlace")
            error.codec = len(self._codecs), self._outer[0].name
            raise error
        view = memoryview(value)
        if view.readonly or not view.c_contiguous:
            raise ValueError("out is a buffer in one piece that may be written")

    def _call_edit(self, value: Any, *arguments: Any) -> None:
        """Has the library edit a value."""
        try:
            checked(self._kept.call(library.zarrs_chain_edit, *lent(value), *arguments))
        except Refused as error:
            self._locate_stored(error, value)
            raise

    @located
    def edit_many(self, value: Any, edits: list[tuple[Selection, AnyArray]]) -> None:
        self._check_in_place(value)
        kind = self.form.kind
        if not kind.is_plain:
            error = NotInPlace("NotInPlace")
            self._locate_stored(error, value)
            raise error
        arrays = [spread(kind, elements, selected.shape, selected.after).reshape(-1) for selected, elements in edits]
        given_numbers = [selected.without_gaps().numbers() for selected, _ in edits]
        each = zip(given_numbers, arrays, strict=True)
        sizes = np.array([(tuples, many.size, array.nbytes) for (tuples, many), array in each], np.uint64)
        numbers = np.concatenate([many for _, many in given_numbers] or [np.empty(0, np.uint64)])
        joined = np.concatenate(arrays or [np.empty(0, kind.dtype)])
        done = ctypes.c_size_t()
        lists = *counted(sizes, len(sizes)), *counted(numbers, numbers.size), *lent(joined)
        self._call_edit(value, *lists, ctypes.byref(done))

    @located
    def edit(self, value: Any, chosen: Selection, elements: AnyArray) -> None:
        self._check_in_place(value)
        closed = chosen.closed()
        new = self._read(value, closed) if chosen.has_gaps else None
        spread_out = spread(self.form.kind, elements, closed.shape, closed.after, new)
        if overlaps(spread_out, value):
            spread_out = spread_out.copy()
        *_, bytes_at, count = given(self.form.kind, spread_out)
        tuples, numbers, many = closed.arguments()
        size, done = EditSize(tuples, many, count), ctypes.c_size_t()
        self._call_edit(value, ctypes.byref(size), 1, numbers, many, bytes_at, count, ctypes.byref(done))

    @located
    def write(self, inner: Any, chosen: Selection, elements: AnyArray) -> Bytes:
        closed = chosen.closed()
        new = self._read(inner, closed) if chosen.has_gaps else None
        parts = given(self.form.kind, spread(self.form.kind, elements, closed.shape, closed.after, new))
        at, length = lent(b"" if inner is None else inner)
        arguments = (inner is not None, at, length, *closed.arguments(), *parts)
        call = partial(self._kept.call, library.zarrs_chain_write, *arguments)
        with self._locating_inner_chunk(at_hand(inner), ..., partial(self._read, inner)):
            try:
                return self.stored(call, length + 2 * parts[-1] + 64)
            except Refused as error:
                self._locate_stored(error, inner)
                raise
