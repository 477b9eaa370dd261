"""Texts and byte strings as numpy's object arrays, and as C's offsets with joined bytes."""

from itertools import pairwise
from typing import Any

import numpy as np

from ._types import AnyArray, listed
from .refusals import InvalidText


def _unused_byte(whole: bytes, is_text: bool) -> int | None:
    """A byte that can stand between elements: it is none of theirs, and of texts a character of its own."""
    return next((byte for byte in range(128 if is_text else 256) if byte not in whole), None)


def _text_lengths(elements: list[Any], whole: bytes) -> AnyArray:
    """How many bytes each text has."""
    byte = _unused_byte(whole, True)
    if byte is None or not elements:
        return np.fromiter(map(len, map(str.encode, elements)), np.int64, len(elements))
    separated = chr(byte).join(elements).encode()
    ends = np.flatnonzero(np.frombuffer(separated, np.uint8) == byte)
    lengths: AnyArray = np.diff(ends, prepend=-1, append=len(separated)) - 1
    return lengths


def joined(elements: list[Any], is_text: bool) -> tuple[AnyArray, bytes]:
    """The offsets of the elements' bytes, and these bytes, joined. Raises `InvalidText` where a text has none,
    and `TypeError` where an element is no text or no byte string."""
    try:
        return _joined(elements, is_text)
    except UnicodeEncodeError as error:
        raise InvalidText(f"an element is no text: {error}") from error
    except TypeError as error:
        raise TypeError(f"an element is no {'text' if is_text else 'byte string'}: {error}") from error


def _joined(elements: list[Any], is_text: bool) -> tuple[AnyArray, bytes]:
    if is_text:
        whole = "".join(elements).encode()
        lengths = _text_lengths(elements, whole)
    else:
        whole = b"".join(elements)
        lengths = np.fromiter(map(len, elements), np.int64, len(elements))
    offsets = np.zeros(len(elements) + 1, np.int64)
    np.cumsum(lengths, out=offsets[1:])
    return offsets.view(np.uint64), whole


def _separated(offsets: AnyArray, whole: bytes, byte: int) -> bytes:
    """The elements' bytes with one byte between each and the next."""
    count = len(offsets) - 1
    is_element = np.ones(len(whole) + count - 1, bool)
    is_element[offsets[1:-1].astype(np.int64) + np.arange(count - 1)] = False
    separated = np.full(len(is_element), byte, np.uint8)
    separated[is_element] = np.frombuffer(whole, np.uint8)
    return separated.tobytes()


def parted(offsets: AnyArray, whole: bytes, is_text: bool) -> AnyArray:
    """The elements whose joined bytes begin at these offsets. Raises `InvalidText` where bytes are no text."""
    try:
        return _parted(offsets, whole, is_text)
    except UnicodeDecodeError as error:
        raise InvalidText(f"an element's bytes are no text: {error}") from error


def _parted(offsets: AnyArray, whole: bytes, is_text: bool) -> AnyArray:
    elements = np.empty(len(offsets) - 1, object)
    if len(elements) == 0:
        return elements
    byte = _unused_byte(whole, is_text)
    if byte is not None:
        separated = _separated(offsets, whole, byte)
        mark = bytes([byte])
        elements[:] = separated.decode().split(mark.decode()) if is_text else separated.split(mark)
        return elements
    parts = [whole[begin:end] for begin, end in pairwise(listed(offsets))]
    elements[:] = [part.decode() for part in parts] if is_text else parts
    return elements
