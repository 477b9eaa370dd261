"""Elements in Python's own lists, tuples, texts and byte strings, as numpy holds them with nothing lost."""

from typing import Any

import numpy as np

from ._types import AnyArray

_ma: Any = np.ma  # numpy says no types of it
# What numpy holds another way where it finds it in a list, or is no whole number there: absent elements, and its own
# texts, byte strings and truth values.
_NUMPYS = (_ma.MaskedArray, np.str_, np.bytes_, np.bool_)


def is_pythons(given: Any) -> bool:
    """Whether it is no array of numpy's and none is made of it but by looking at its elements."""
    return isinstance(given, (str, bytes)) or not hasattr(given, "__array__")


def plain(given: Any) -> Any:
    """The same, in lists and tuples that numpy takes as they are: with None where an element is absent, and Python's
    truth values, texts and byte strings where numpy's stood, of which it would leave out ending zeros."""
    return _plain(given) if _has_numpys(given) else given


def as_objects(given: Any) -> AnyArray:
    """Lists, or one element, in an array of Python's objects."""
    if not isinstance(given, (str, bytes)):
        return np.asarray(given, object)
    alone = np.empty((), object)
    alone[()] = given
    return alone


def _has_numpys(given: Any) -> bool:
    """Whether something stands in nested lists that numpy holds another way, or is it."""
    if not isinstance(given, (list, tuple)):
        return isinstance(given, _NUMPYS)
    kinds = set(map(type, given))
    if any(issubclass(kind, _NUMPYS) for kind in kinds):
        return True
    return any(issubclass(kind, (list, tuple)) for kind in kinds) and any(map(_has_numpys, given))


def _plain(given: Any) -> Any:
    """What `plain` makes, element by element."""
    if isinstance(given, np.str_):
        return "".join([given])
    if isinstance(given, np.bytes_):
        return b"".join([given])
    if isinstance(given, np.bool_):
        return bool(given)
    if isinstance(given, (list, tuple)) or isinstance(given, _ma.MaskedArray) and given.ndim:
        return [_plain(one) for one in given]
    if isinstance(given, _ma.MaskedArray):
        return None if _ma.getmaskarray(given)[()] else given.data[()]
    return given
