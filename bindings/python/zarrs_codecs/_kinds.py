"""Elements of one length and moments, from whatever numpy or Python holds them in."""

import numbers
import reprlib
from typing import Any

import numpy as np

from ._data_types import DataType
from ._types import AnyArray, listed
from .refusals import InvalidElement

# The kinds of numpy's whose elements are taken for those of a kind: of others numpy would take as many digits or bytes as
# there is room for.
_TAKEN = {"U": "US", "S": "S", "V": "VS", "M": "M", "m": "mi"}
_PYTHONS: dict[str, Any] = {"U": str, "S": bytes, "V": (bytes, np.void)}


def of_kind(kind: DataType, array: AnyArray) -> AnyArray:
    """Elements in a kind of numpy's that is cast to the type's. Raises `TypeError` where they are of another kind, and
    `InvalidElement` where one isn't of the type."""
    letter = kind.dtype.kind
    if letter not in _TAKEN:
        return array
    if letter in "mM" and array.dtype.kind in ("O" if letter == "m" else "OUS"):
        array = _moments(kind, array)
    elif array.dtype == object:
        array = _of_python(kind, array)
    if letter == "m" and array.dtype.kind in "bu" and np.can_cast(array.dtype, np.int64):
        array = array.astype(np.int64)
    if array.dtype.kind not in _TAKEN[letter]:
        raise TypeError(f"elements of {array.dtype} aren't of {kind.name}")
    return array


def _moments(kind: DataType, array: AnyArray) -> AnyArray:
    """Python's moments, and those in texts, in the unit that they need. Numbers beside them are none, which numpy would
    take for days or years."""
    elements = listed(array.ravel()) if array.dtype == object else []
    wrong = [one for one in elements if kind.dtype.kind == "M" and isinstance(one, numbers.Number)]
    if wrong:
        raise TypeError(f"an element isn't of {kind.name}: {reprlib.repr(wrong[0])}")
    try:
        return array.astype(f"{kind.dtype.kind}8")
    except ValueError as error:
        is_texts = all(isinstance(one, str) for one in elements)
        error_type: type[Exception] = InvalidElement if is_texts else TypeError
        raise error_type(f"an element isn't of {kind.name}: {error}") from error


def _of_python(kind: DataType, array: AnyArray) -> AnyArray:
    """Python's texts, byte strings or bytes."""
    letter, elements = kind.dtype.kind, listed(array.ravel())
    if letter == "U" and all(isinstance(one, bytes) for one in elements):
        # numpy has byte strings for texts
        letter = "S"
    for one in elements:
        if not isinstance(one, _PYTHONS[letter]):
            raise TypeError(f"an element isn't of {kind.name}: {reprlib.repr(one)}")
    if letter != "V":
        return np.array(elements, letter).reshape(array.shape)
    parts = [bytes(one) for one in elements]
    for part in parts:
        if len(part) != kind.dtype.itemsize:
            raise InvalidElement(f"an element of {len(part)} bytes isn't of {kind.name}")
    return np.frombuffer(b"".join(parts), kind.dtype).reshape(array.shape)
