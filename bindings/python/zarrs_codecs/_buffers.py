"""Memory that C is lent for a call."""

import ctypes
from typing import Any

import numpy as np

from ._types import AnyArray

# an array of no bytes begins where a buffer does, and keeps it
_Start = ctypes.c_char * 0


def lent(buffer: Any) -> tuple[Any, int]:
    """What C is given of a buffer's bytes, and how many they are."""
    if type(buffer) is bytes:
        return buffer, len(buffer)
    if isinstance(buffer, np.ndarray):
        buffer = _plain(buffer)
    try:
        return _Start.from_buffer(buffer), memoryview(buffer).nbytes
    except TypeError:  # it can't be written
        array = np.frombuffer(buffer, np.uint8)
        return array.ctypes, array.nbytes


def overlaps(array: AnyArray, buffer: Any) -> bool:
    """Whether an array may share memory with a buffer."""
    return type(buffer) is not bytes and np.may_share_memory(array, np.frombuffer(buffer, np.uint8))


def start(array: AnyArray) -> Any:
    """What C is given of an array in one piece that may be written."""
    return _Start.from_buffer(_plain(array).data)


def counted(array: AnyArray, count: int) -> tuple[Any, int]:
    """What C is given of an array in one piece, and how many items that is; of none, no address."""
    return (start(array), count) if count else (None, 0)


def _plain(array: AnyArray) -> AnyArray:
    """The same memory, which numpy lends of moments only as whole numbers."""
    return array.view(np.int64) if array.dtype.kind in "mM" else array
