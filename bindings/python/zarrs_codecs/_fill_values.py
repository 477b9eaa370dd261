"""Fill values: as `zarr.json` has them, as Python does, and in the hex of the header."""

import base64
import math
import operator
import reprlib
from typing import Any

import numpy as np

from ._data_types import DataType
from ._elements import held
from .refusals import InvalidFillValue

_ma: Any = np.ma  # numpy says no types of it
_ABSENT = "00"
_PRESENT = "01"
_NOT_A_TIME = -(1 << 63)
_FLOATS = ("NaN", "Infinity", "-Infinity", "nan", "inf", "-inf")


def _integer_bytes(kind: DataType, fill: Any) -> bytes:
    value = operator.index(fill)
    low, high = kind.limits
    if not low <= value <= high:
        raise InvalidFillValue(f"{reprlib.repr(value)} isn't of {kind.name}")
    return value.to_bytes(kind.dtype.itemsize, "little", signed=low < 0)


def _float_bytes(size: int, fill: Any) -> bytes:
    if isinstance(fill, str) and fill.startswith("0x"):
        whole = bytes.fromhex(fill[2:])[::-1]
        if len(whole) != size:
            raise InvalidFillValue(f"{reprlib.repr(fill)} isn't of float{8 * size}")
        return whole
    if isinstance(fill, str) and fill not in _FLOATS:
        raise InvalidFillValue(f"{reprlib.repr(fill)} isn't of float{8 * size}")
    try:
        with np.errstate(over="raise"):
            return np.array(float(fill), f"<f{size}").tobytes()
    except (OverflowError, FloatingPointError) as error:
        raise InvalidFillValue(f"{reprlib.repr(fill)} isn't of float{8 * size}") from error


def _raw_bytes(fill: Any) -> bytes:
    """The bytes that a list of numbers or a buffer has, or a text in base64; a number alone is no such list."""
    if isinstance(fill, str):
        return base64.b64decode(fill, validate=True)
    if not isinstance(fill, (list, tuple, bytes, bytearray, memoryview, np.ndarray, np.void)):
        raise InvalidFillValue(f"{reprlib.repr(fill)} is no list of bytes and no text in base64")
    return bytes(fill)


def _fixed_bytes(kind: DataType, fill: Any) -> bytes:
    size = kind.dtype.itemsize
    match kind.dtype.kind:
        case "b":
            if fill not in (False, True):
                raise InvalidFillValue(f"{reprlib.repr(fill)} isn't of bool")
            return bytes([bool(fill)])
        case "f":
            return _float_bytes(size, fill)
        case "c":
            if not isinstance(fill, (list, tuple)):
                fill = complex(fill).real, complex(fill).imag
            if len(fill) != 2:
                raise InvalidFillValue(f"{reprlib.repr(fill)} isn't of complex{8 * size}")
            return b"".join(_float_bytes(size // 2, part) for part in fill)
        case "V":
            whole = _raw_bytes(fill)
            if len(whole) != size:
                raise InvalidFillValue(f"{reprlib.repr(fill)} isn't of {kind.name}")
            return whole
        case "m" | "M":
            return _moment(kind, fill).to_bytes(8, "little", signed=True)
        case "U" | "S":
            return _sized_bytes(kind, fill)
    return _integer_bytes(kind, fill)


def _moment(kind: DataType, fill: Any) -> int:
    """The number of a moment or of a length of time."""
    if isinstance(fill, (np.datetime64, np.timedelta64)):
        return int(held(kind, fill).astype(np.int64))
    return _NOT_A_TIME if fill == "NaT" else operator.index(fill)


def _sized_bytes(kind: DataType, fill: Any) -> bytes:
    """The bytes of a text, or of a byte string, which may be one in base64, of one length at most."""
    if kind.dtype.kind == "U":
        whole = str.encode(fill, "utf-32-le")
    else:
        whole = _raw_bytes(fill)
    if len(whole) > kind.dtype.itemsize:
        raise InvalidFillValue(f"{reprlib.repr(fill)} isn't of {kind.name}")
    return whole.ljust(kind.dtype.itemsize, b"\0")


def _variable_bytes(kind: DataType, fill: Any) -> bytes:
    if kind.is_text:
        return str.encode(fill)
    return _raw_bytes(fill)


def fill_hex(kind: DataType, fill: Any) -> str:
    """The header's text of a fill value, which is as `zarr.json` has it or as Python does.

    None is absent of an optional type, and of others zero or empty. Of an optional type, a list of one
    value is this value. Raises `InvalidFillValue` where it isn't of the type.
    """
    try:
        return _fill_hex(kind, fill)
    except InvalidFillValue:
        raise
    except (TypeError, ValueError, OverflowError, RecursionError) as error:
        raise InvalidFillValue(f"{reprlib.repr(fill)} isn't of {kind.name}: {error}") from error


def _fill_hex(kind: DataType, fill: Any) -> str:
    end = ""
    if kind.is_optional:
        if fill is None:
            return _ABSENT
        end = _PRESENT
        if isinstance(fill, list) and len(fill) == 1:
            fill = fill[0]
    if fill is None:
        return bytes(kind.dtype.itemsize if not kind.is_variable else 0).hex() + end
    if kind.is_variable:
        return _variable_bytes(kind, fill).hex() + end
    return _fixed_bytes(kind, fill).hex() + end


def _float_json(value: Any) -> Any:
    """A float of numpy's as `zarr.json` has it: of one that is no number all bits are kept."""
    if math.isinf(value):
        return "Infinity" if value > 0 else "-Infinity"
    if not math.isnan(value):
        return float(value)
    bits = value.tobytes()[::-1].hex()
    return "NaN" if value.tobytes() == np.array(np.nan, value.dtype).tobytes() else f"0x{bits}"


def is_absent(element: Any) -> bool:
    """Whether an element, as numpy holds it, is an absent one: of raw bytes it is a void that has a mask of its own."""
    return element is _ma.masked or (isinstance(element, _ma.mvoid) and bool(np.all(_ma.getmask(element))))


def fill_json(kind: DataType, element: Any) -> Any:
    """An element, as numpy holds it, in the form of `zarr.json`."""
    if kind.is_optional:
        return None if is_absent(element) else [_plain_json(kind, element)]
    return _plain_json(kind, element)


def _plain_json(kind: DataType, element: Any) -> Any:
    if kind.is_variable:
        return element if kind.is_text else base64.b64encode(element).decode()
    element = np.asarray(element, kind.dtype)[()]
    match kind.dtype.kind:
        case "b":
            return bool(element)
        case "f":
            return _float_json(element)
        case "c":
            return [_float_json(element.real), _float_json(element.imag)]
        case "V":
            return base64.b64encode(bytes(element)).decode() if kind.is_base64 else list(bytes(element))
        case "m" | "M":
            return "NaT" if np.isnat(element) else int(element.astype(np.int64))
        case "U":
            return str(element)
        case "S":
            return base64.b64encode(element).decode()
    return int(element)
