"""Arrays of elements, as they cross: three buffers of masks, offsets and bytes."""

import math
import numbers
import operator
import reprlib
from collections.abc import Callable, Sequence
from ctypes import byref
from typing import Any, cast

import numpy as np

from ._buffers import counted, lent, start
from ._data_types import DataType
from ._kinds import of_kind
from ._library import SHORT, Sizes, checked
from ._pythons import as_objects, is_pythons, plain
from ._texts import joined, parted
from ._types import AnyArray
from .refusals import InvalidElement, InvalidText, OutOfMemory

_ma: Any = np.ma  # numpy says no types of it
_NONE: tuple[Any, int] = (None, 0)
# The kinds of numpy's whose elements are no numbers: texts, byte strings, bytes and moments.
_NO_NUMBERS = "USVM"
# Python's numbers that floats and complex numbers are made of.
_NUMBERS: dict[str, type] = {"f": numbers.Real, "c": numbers.Complex}


def masked(data: AnyArray, absent: Any) -> AnyArray:
    """An array whose elements are absent where this is true."""
    array: AnyArray = _ma.MaskedArray(data, absent)
    return array


def mask_of(array: AnyArray) -> AnyArray:
    """Which elements are absent."""
    mask: AnyArray = _ma.getmaskarray(array)
    return mask


def _all_there(array: Any) -> Any:
    """The same, where no element is absent; of Python's own, as numpy takes it."""
    found = plain(array) if is_pythons(array) else np.asanyarray(array)
    has_none = is_pythons(array) and found is not array and np.equal(as_objects(found), cast(Any, None)).any()
    if has_none or _ma.is_masked(found):
        raise InvalidElement("an element is absent, and the data type isn't an optional one")
    return found


def _blank(kind: DataType, dtype: np.dtype[Any]) -> Any:
    """What stands under an absent element, as numpy holds it in this type."""
    if dtype == object and kind.is_variable:
        return "" if kind.is_text else b""
    # among objects only what isn't a number has a known kind
    return np.zeros((), kind.dtype if dtype == object and kind.dtype.kind in _NO_NUMBERS else dtype)[()]


def _whole_numbers(kind: DataType, array: AnyArray) -> AnyArray:
    """Whole numbers as the type holds them. Raises `InvalidElement` where it can't hold one."""
    low, high = kind.limits
    if array.size:
        least, most = int(array.min()), int(array.max())
        if least < low or most > high:
            wrong = least if least < low else most
            raise InvalidElement(f"{reprlib.repr(wrong)} isn't of {kind.name}, which has {low} to {high}")
    return array.astype(kind.dtype)


def _check_size(kind: DataType, array: AnyArray) -> None:
    """Raises `InvalidElement` where numpy would cut elements of a fixed length, or make them longer by zeros."""
    itemsize = kind.dtype.itemsize
    if kind.dtype.kind == "V" and array.dtype.itemsize != itemsize:
        raise InvalidElement(f"elements of {array.dtype.itemsize} bytes aren't of {kind.name}")
    # of byte strings for texts each byte is a character
    each = 4 if array.dtype.kind == "S" and kind.dtype.kind == "U" else 1
    if kind.dtype.kind in "US" and array.dtype.itemsize > itemsize // each:
        longest = int(np.char.str_len(array).max())
        if longest > itemsize // (4 if kind.dtype.kind == "U" else 1):
            raise InvalidElement(f"an element of length {longest} isn't of {kind.name}")


def _cast(kind: DataType, array: AnyArray) -> AnyArray:
    """Elements in numpy's type, by its casting within a kind; `InvalidElement` is raised where one isn't there as it was,
    but for what is rounded off."""
    numbers_of = _NUMBERS.get(kind.dtype.kind)
    is_numbers = array.dtype == object and numbers_of and all(isinstance(one, numbers_of) for one in array.flat)
    try:
        with np.errstate(over="raise"):
            made = array.astype(kind.dtype, casting="unsafe" if is_numbers else "same_kind")
    except (OverflowError, FloatingPointError) as error:
        raise InvalidElement(f"an element isn't of {kind.name}: {error}") from error
    except UnicodeError as error:
        raise InvalidText(f"an element isn't of {kind.name}: {error}") from error
    # of moments that are too far away numpy says nothing
    if array.dtype.kind in "mM" and np.can_cast(array.dtype, kind.dtype, "safe"):
        differs = ~np.isnat(array) & (made.astype(array.dtype) != array)
        if differs.any():
            raise InvalidElement(f"{array[differs][0]} isn't of {kind.name}")
    return made


def _whole_objects(kind: DataType, array: AnyArray) -> AnyArray:
    """Python's objects as whole numbers; `TypeError` names the type where one isn't a whole number."""
    try:
        return np.asarray(np.frompyfunc(operator.index, 1, 1)(array), object)
    except TypeError as error:
        raise TypeError(f"an element isn't of {kind.name}: {error}") from error


def _truths(array: AnyArray) -> AnyArray:
    """Truth values as the bytes 0 and 1: numpy takes every other byte for true as well."""
    bytes_of: AnyArray = array.view(np.uint8)
    if array.size == 0 or bytes_of.max() <= 1:
        return array
    truths: AnyArray = bytes_of != 0
    return truths


def _held(kind: DataType, array: AnyArray) -> AnyArray:
    """Elements as the type holds them, where none is absent."""
    if kind.is_variable:
        return np.asarray(array, object)
    if array.dtype == kind.dtype and kind.has_all:
        return _truths(array) if kind.dtype == bool else array
    if array.size == 0:
        return np.empty(array.shape, kind.dtype)
    if kind.bounds is not None:
        if array.dtype == object:
            array = _whole_objects(kind, array)
        if array.dtype.kind in "biuO":
            if kind.has_all and np.can_cast(array.dtype, kind.dtype):
                return array.astype(kind.dtype)
            return _whole_numbers(kind, array)
    array = of_kind(kind, array)
    _check_size(kind, array)
    return _cast(kind, array)


def shape_of(array: Any) -> tuple[int, ...]:
    """The shape of elements, as `held` has it."""
    return np.shape(plain(array) if is_pythons(array) else array)


def _as_array(kind: DataType, array: Any) -> AnyArray:
    """Elements as numpy has them. Python's own go by objects where numpy would make other ones of them: texts of numbers
    beside texts, floats of whole numbers, which have no bounds, and byte strings all as long as the longest, without the
    zeros at their ends."""
    if not is_pythons(array):
        return np.asarray(array)
    if kind.is_variable or kind.dtype.kind in _NO_NUMBERS:
        return as_objects(array)
    made = np.asarray(array)
    return made if kind.bounds is None or made.dtype.kind in "biu" else np.asarray(array, object)


def _absent_too(kind: DataType, array: Any) -> tuple[AnyArray, AnyArray]:
    """Elements as numpy has them, and which of them are absent: those that are masked, and None."""
    array = _as_array(kind, plain(array)) if is_pythons(array) else _ma.asarray(np.asanyarray(array))
    data, absent = _ma.getdata(array), mask_of(array)
    if data.dtype == object:
        absent = absent | np.equal(data, cast(Any, None)).astype(bool)
    return data, absent


def words_of(array: AnyArray) -> AnyArray:
    """The bits of elements of one size, a row of whole numbers for each."""
    size = array.dtype.itemsize
    word = f"u{size}" if size in (1, 2, 4, 8) else "u1"
    words: AnyArray = np.ascontiguousarray(array).reshape(-1).view(word).reshape(-1, size // np.dtype(word).itemsize)
    return words


def held(kind: DataType, array: Any) -> AnyArray:
    """Elements as the type holds them; whatever stands under absent ones, it is of the type.

    Whole numbers are of the type where it can hold them; else numpy's casting within a kind is allowed, which may
    round. None among objects is absent where the type is an optional one. Raises `InvalidElement` where the type can't
    hold an element or one is absent, and `TypeError` where the kinds differ.
    """
    if not kind.is_optional:
        return _held(kind, _as_array(kind, _all_there(array)))
    data, absent = _absent_too(kind, array)
    if data.dtype == kind.dtype and kind.has_all and not kind.is_variable:
        return masked(_held(kind, data), absent)
    if absent.all():
        data = np.full(data.shape, _blank(kind, kind.dtype), kind.dtype)
    elif absent.any():
        data = data.copy()
        data[absent] = _blank(kind, data.dtype)
    return masked(_held(kind, data), absent)


def given(kind: DataType, array: AnyArray) -> tuple[Any, ...]:
    """What C is given of elements that the type holds: masks, offsets and bytes, and how many each are."""
    masks = _NONE
    if kind.is_optional:
        masks = lent(np.ascontiguousarray(~mask_of(array)))
        array = np.asarray(array.data)
    if not kind.is_variable:
        return *masks, *_NONE, *lent(np.ascontiguousarray(array))
    offsets, whole = joined(array.ravel().tolist(), kind.is_text)
    return *masks, start(offsets), offsets.size, *lent(whole)


def _returned_texts(kind: DataType, call: Callable[..., Any], masks: tuple[Any, ...], count: int, size: int) -> AnyArray:
    """The texts that a call returns, whose bytes are as many as `size` or not."""
    offsets, whole, sizes = room((count + 1,), np.dtype(np.uint64)), np.empty(size, np.uint8), Sizes()
    code = call(*masks, start(offsets), offsets.size, start(whole), whole.size, byref(sizes))
    if code == SHORT:
        whole = np.empty(sizes.bytes, np.uint8)
        code = call(*masks, start(offsets), offsets.size, start(whole), whole.size, byref(sizes))
    checked(code)
    return parted(offsets, whole[: sizes.bytes].tobytes(), kind.is_text)


def returned_into(array: AnyArray, call: Callable[..., Any]) -> None:
    """Writes the elements that a call returns, of one size and all there, into an array in one piece."""
    checked(call(None, 0, None, 0, start(array), array.nbytes, byref(Sizes())))


def room(shape: tuple[int, ...], dtype: np.dtype[Any]) -> AnyArray:
    """An array whose elements are still to be written. Raises `OutOfMemory` where there is none of this size, and numpy's
    `ValueError` of more axes than it has."""
    try:
        return np.empty(shape, dtype)
    except (MemoryError, OverflowError) as error:
        raise OutOfMemory(str(error)) from error
    except ValueError as error:
        if math.prod(max(size, 1) for size in shape) * max(dtype.itemsize, 1) < 1 << 63:
            raise
        raise OutOfMemory(str(error)) from error


def returned(kind: DataType, call: Callable[..., Any], shape: tuple[int, ...], size: int = 0) -> AnyArray:
    """The elements that a call returns, which takes three buffers and their sizes last."""
    if kind.is_plain:
        array = room(shape, kind.dtype)
        returned_into(array, call)
        return array
    count = math.prod(shape)
    present = room((count if kind.is_optional else 0,), np.dtype(bool))
    masks = (start(present), present.size)
    if kind.is_variable:
        array = _returned_texts(kind, call, masks, count, size).reshape(shape)
    else:
        array = room(shape, kind.dtype)
        checked(call(*masks, None, 0, start(array), array.nbytes, byref(Sizes())))
    if not kind.is_optional:
        return array
    return masked(array, np.logical_not(present, out=present).reshape(shape))


def returned_many(kind: DataType, call: Callable[..., Any], shapes: Sequence[tuple[int, ...]], room: int = 0) -> list[AnyArray]:
    """The elements that a call returns of several selections, of these shapes, each behind the one before it."""
    counts = [math.prod(shape) for shape in shapes]
    count = sum(counts)
    present = np.empty(count if kind.is_optional else 0, bool)
    offsets = np.empty(count + len(counts) if kind.is_variable else 0, np.uint64)
    size = room if kind.is_variable else count * kind.dtype.itemsize
    whole, sizes = np.empty(size, np.uint8), Sizes()
    code = call(*counted(present, present.size), *counted(offsets, offsets.size), *counted(whole, whole.size), byref(sizes))
    if code == SHORT:
        whole = np.empty(sizes.bytes, np.uint8)
        code = call(*counted(present, present.size), *counted(offsets, offsets.size), *counted(whole, whole.size), byref(sizes))
    checked(code)
    answers, first, at = [], 0, 0
    for number, (shape, many) in enumerate(zip(shapes, counts, strict=True)):
        if kind.is_variable:
            own = offsets[first + number : first + number + many + 1]
            end = at + int(own[-1])
            array = parted(own, whole[at:end].tobytes(), kind.is_text).reshape(shape)
        else:
            end = at + many * kind.dtype.itemsize
            array = whole[at:end].view(kind.dtype).reshape(shape)
        if kind.is_optional:
            array = masked(array, ~present[first : first + many].reshape(shape))
        answers.append(array)
        first, at = first + many, end
    return answers


def empty(kind: DataType, shape: tuple[int, ...]) -> AnyArray:
    """An array of such elements, whose values are still to be written; absent ones, over blanks, where the
    type is an optional one."""
    if not kind.is_optional:
        return room(shape, kind.dtype)
    return masked(np.full(shape, _blank(kind, kind.dtype), kind.dtype), True)


def takes(kind: DataType, out: AnyArray, shape: tuple[int, ...]) -> bool:
    """Whether C can write elements into an array as it stands. Raises `TypeError` where it is none."""
    if not isinstance(out, np.ndarray):
        raise TypeError(f"out is a {type(out).__name__}, where an array is due")
    return kind.is_plain and out.dtype == kind.dtype and out.shape == shape and out.flags.carray


def picked(elements: AnyArray, after: Any) -> AnyArray:
    """What of an answer stands at an index, or all of it where that is None. Raises `InvalidText` where it is one text of
    numbers that are no characters, of which Python makes none."""
    if after is None:
        return elements
    try:
        found: AnyArray = elements[after]
    except SystemError as error:
        raise InvalidText(f"an element is no text: {error}") from error
    return found


def put(elements: Any, out: AnyArray | None) -> AnyArray:
    """The elements; in `out` where it is given, an array of their shape."""
    if out is None:
        answer: AnyArray = elements
        return answer
    if not isinstance(out, np.ndarray):
        raise TypeError(f"out is a {type(out).__name__}, where an array is due")
    if out.shape != np.shape(elements):
        raise ValueError(f"out of shape {out.shape}, where {np.shape(elements)} is due")
    if not isinstance(out, _ma.MaskedArray):
        elements = _all_there(elements)
    out[...] = elements
    return out


def spread(
    kind: DataType,
    array: AnyArray,
    shape: tuple[int, ...],
    after: tuple[Any, ...] | None,
    whole: AnyArray | None = None,
) -> AnyArray:
    """An array of this shape whose elements at numpy's index `after`, all where it is None, are the given
    ones, which the type holds, broadcast; the others are those of `whole`, which is changed."""
    if after is None and array.shape == shape:
        return array
    if after is None and not kind.is_optional:
        # numpy passes over leading axes of one element
        while array.ndim > len(shape) and array.shape[0] == 1:
            array = array[0]
        return np.broadcast_to(array, shape)
    whole = empty(kind, shape) if whole is None else whole
    # the place of one element is a view of it here, so that an array never stands for a text
    there = whole if after is None else whole[after if Ellipsis in after else (*after, ...)]
    there[...] = array
    return whole
