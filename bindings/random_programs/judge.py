"""What the package's answers are held to, and the errors that it may raise."""

import contextlib
import reprlib

import numpy as np
from formats import same
from kinds import Chunk
from zarrs_codecs.refusals import OutOfMemory, Refused

# What the pages say that is raised of values, of elements, and of indices.
OF_VALUES = (Refused, EOFError)
OF_ELEMENTS = (ValueError, TypeError)
OF_INDICES = (IndexError, TypeError)
# What no answer is, and no error of the documented kinds.
NEVER = (AssertionError, RecursionError, AttributeError, KeyError, UnboundLocalError, NameError, ZeroDivisionError)


class Wrong(Exception):
    """The package did what it may not do."""


def require(holds, text):
    """Raises `Wrong` where it doesn't hold."""
    if not holds:
        raise Wrong(text)


def as_chunk(kind, found):
    """What the package answered, as elements of the type."""
    absent = np.ma.getmaskarray(found) if kind.is_optional else None
    if kind.is_optional and absent.dtype != bool:
        # numpy's mask of one void element
        absent = np.array(any(absent.tobytes()))
    if kind.is_optional and absent.shape != np.shape(found):
        absent = np.broadcast_to(absent, np.shape(found))
    if not kind.is_optional:
        require(not np.ma.isMaskedArray(found), "a masked array, of a type whose elements are all there")
    data = np.ma.getdata(found) if isinstance(found, np.ndarray) else found
    if not isinstance(data, np.ndarray) or kind.is_variable and data.dtype != object:
        one = np.empty((), kind.dtype)
        one[()] = data
        data = one
    require(data.dtype == kind.dtype or absent is not None and bool(np.all(absent)), f"elements of {data.dtype}, where {kind.dtype} is due")
    if data.dtype == bool:
        # of a foreign value each byte but 0 is true
        data = np.asarray(data).view(np.uint8) != 0
    return Chunk(kind, data, absent)


def told(chunk):
    """A chunk in a few words."""
    data = chunk.data
    if chunk.absent is not None:
        data = data.astype(object)
        data[chunk.absent] = None
    bits = "" if chunk.kind.is_variable else f", in bytes {reprlib.repr(chunk.data.tobytes().hex())}"
    return f"{reprlib.repr(data.tolist())} of shape {chunk.shape}{bits}"


def check(kind, found, due, text):
    """Raises `Wrong` where an answer isn't what is due."""
    answer = as_chunk(kind, found)
    require(answer.shape == due.shape, f"{text}: an answer of shape {answer.shape}, where {due.shape} is due")
    if not same(answer, due):
        raise Wrong(f"{text}: {told(answer)}, where {told(due)} is due")


@contextlib.contextmanager
def refusing(kinds, text):
    """What is done here has to be refused, by an error of these kinds."""
    try:
        yield
    except OutOfMemory:
        raise
    except kinds:
        return
    raise Wrong(f"{text}: no error, where one of {', '.join(kind.__name__ for kind in kinds)} is due")


def attempt(kinds, call, *arguments, **more):
    """What a call answers, and the error of these kinds where it raises one."""
    try:
        return call(*arguments, **more), None
    except NEVER:
        raise
    except kinds as error:
        return None, error
