"""The library's checksum, over bytes alone."""

from ctypes import byref, c_size_t
from functools import partial
from typing import Any

import numpy as np

from ._buffers import lent, start
from ._data_types import data_type
from ._elements import given, returned_into
from ._header import Header, json_of
from ._library import checked, library
from ._types import AnyArray, Bytes

NAME = "crc32c"
# How many bytes it makes a value longer.
LENGTH = 4
_BYTE = data_type("uint8")


def header_of(size: int) -> Header:
    """What a header says of so many bytes."""
    return Header((size,), _BYTE, 0)


def _text(codec: Any, size: int) -> bytes:
    return header_of(size).text(json_of(["bytes", codec]))


def with_checksum(codec: Any, value: AnyArray) -> Bytes:
    """Bytes with their checksum behind them, as a metadata of the codec has it."""
    header, made, needed = _text(codec, value.size), np.empty(value.size + LENGTH, np.uint8), c_size_t()
    elements = given(_BYTE, value)
    checked(library.zarrs_encode(header, len(header), *elements, start(made), made.size, byref(needed)))
    return made


def without_checksum(codec: Any, value: Any) -> Bytes:
    """The bytes before a checksum, which a value has behind it. Raises `BytesCodec` where it is another one."""
    found = np.empty(memoryview(value).nbytes - LENGTH, np.uint8)
    header = _text(codec, found.size)
    returned_into(found, partial(library.zarrs_decode, header, len(header), *lent(value)))
    return found
