"""Data types: Zarr's names, the header's, and what numpy holds elements in."""

import re
import reprlib
from collections.abc import Callable
from dataclasses import dataclass, replace
from functools import cached_property, partial
from typing import Any

import numpy as np

from .refusals import UnsupportedDataType


# An element of one size has no more bytes: a `zarr.json` of some hundred would have memory taken for what it claims.
_MOST_BYTES = 1 << 20


@dataclass(frozen=True)
class DataType:
    """A type of elements: of one size where `dtype` isn't `object`, and else texts or byte strings. `is_base64` says that
    bytes of one size are written in base64 in `zarr.json`, as zarr-python has them."""

    header: Any
    dtype: np.dtype[Any]
    bits: int = 0
    is_text: bool = False
    is_optional: bool = False
    is_base64: bool = False

    @cached_property
    def is_variable(self) -> bool:
        """Whether elements have lengths of their own."""
        return self.dtype == object

    @cached_property
    def bounds(self) -> tuple[int, int] | None:
        """The lowest and the highest whole number of an integer type; of `bool` 0 and 1; None of others."""
        if self.dtype.kind == "b":
            return 0, 1
        if self.dtype.kind not in "iu":
            return None
        if self.dtype.kind == "u":
            return 0, (1 << self.bits) - 1
        return -(1 << (self.bits - 1)), (1 << (self.bits - 1)) - 1

    @property
    def limits(self) -> tuple[int, int]:
        """The bounds of a type that has some."""
        assert self.bounds is not None
        return self.bounds

    @cached_property
    def has_all(self) -> bool:
        """Whether each element of numpy's type is one of this type."""
        return self.dtype.kind not in "iu" or self.bits == 8 * self.dtype.itemsize

    @cached_property
    def name(self) -> str:
        """The type as a message names it."""
        named = {"f": f"float{self.bits}", "c": f"complex{self.bits}", "V": f"r{self.bits}"}
        header = self.header["optional"] if self.is_optional else self.header
        return named.get(self.dtype.kind, self.dtype.str if self.dtype.kind in "mMUS" else str(header))

    @cached_property
    def is_plain(self) -> bool:
        """Whether elements are of one size, and all are there."""
        return not self.is_variable and not self.is_optional


def _components(bits: int, count: int, signed: bool = False) -> dict[str, Any]:
    return {"components": {"bits": bits, "count": count, "signed": signed}}


def _numeric(name: str) -> DataType | None:
    parts = re.fullmatch(r"(int|uint|float|complex|r)([1-9][0-9]{0,8})", name)
    if parts is None:
        return None
    kind, bits = parts[1], int(parts[2])
    if kind in ("int", "uint") and bits in (2, 4, 8, 16, 32, 64):
        return DataType(name, np.dtype(f"<{kind[0]}{max(bits // 8, 1)}"), bits)
    if kind == "float" and bits in (16, 32, 64):
        return DataType(f"uint{bits}", np.dtype(f"<f{bits // 8}"), bits)
    if kind == "complex" and bits in (64, 128):
        return DataType(_components(bits // 2, 2), np.dtype(f"<c{bits // 8}"), bits)
    if kind == "r" and bits % 8 == 0 and bits <= 8 * _MOST_BYTES:
        return DataType(_components(8, bits // 8), np.dtype(f"V{bits // 8}"), bits)
    return None


# The kinds of numpy's short names, "f4" or "<u2".
_KINDS = {"i": "int", "u": "uint", "f": "float", "c": "complex"}


def _unknown(name: str) -> UnsupportedDataType:
    """The error of a name; of a short one of numpy's it says the long one."""
    error = UnsupportedDataType(f"no data type is named {name!r}")
    short = re.fullmatch(r"[<>=|]?([iufc])([1248]|16)", name)
    if short is not None:
        error.hint = f"there is '{_KINDS[short[1]]}{8 * int(short[2])}'"
    return error


def _named(name: str) -> DataType:
    if name == "bool":
        return DataType("bool", np.dtype(bool))
    if name == "string":
        return DataType("string", np.dtype(object), is_text=True)
    if name in ("bytes", "variable_length_bytes"):
        return DataType("bytes", np.dtype(object))
    found = _numeric(name)
    if found is None:
        raise _unknown(name)
    return found


_UNITS = ("Y", "M", "W", "D", "h", "m", "s", "ms", "us", "ns", "ps", "fs", "as", "generic")


def _moments(letter: str, configuration: dict[str, Any]) -> DataType:
    """Moments or lengths of time, as whole numbers of a unit."""
    unit, factor = configuration["unit"], configuration["scale_factor"]
    unit = "us" if unit in ("μs", "\u00b5s") else unit
    if unit not in _UNITS or type(factor) is not int or not 1 <= factor < 1 << 31:
        raise UnsupportedDataType(f"no data type has {reprlib.repr(configuration)}")
    each = "" if unit == "generic" else f"[{factor}{unit}]"
    return DataType("int64", np.dtype(f"<{letter}8{each}"), 64)


def _sized(letter: str, configuration: dict[str, Any]) -> DataType:
    """Texts, byte strings and bytes of one length."""
    size, each = configuration["length_bytes"], 4 if letter == "U" else 1
    if type(size) is not int or not 0 < size <= _MOST_BYTES or size % each:
        raise UnsupportedDataType(f"no data type has {reprlib.repr(configuration)}")
    dtype = np.dtype(f"<{letter}{size // each}")
    return DataType(_components(8 * each, size // each), dtype, 8 * size, is_base64=letter == "V")


# Types of zarr-python's that have a configuration.
_CONFIGURED: dict[str, Callable[[dict[str, Any]], DataType]] = {
    "numpy.datetime64": partial(_moments, "M"),
    "numpy.timedelta64": partial(_moments, "m"),
    "fixed_length_utf32": partial(_sized, "U"),
    "null_terminated_bytes": partial(_sized, "S"),
    "raw_bytes": partial(_sized, "V"),
}


def _configured(name: str, configuration: dict[str, Any]) -> DataType:
    try:
        return _CONFIGURED[name](configuration)
    except KeyError as error:
        raise UnsupportedDataType(f"the data type {name} has no key {error}") from error


def _optional(inner: DataType) -> DataType:
    if inner.is_optional:
        raise UnsupportedDataType("an optional type of an optional type has no masked arrays")
    return replace(inner, header={"optional": inner.header}, is_optional=True)


def zarrs_own(declared: Any) -> Any:
    """A type of numpy's, or one of Python's numbers, as `zarr.json` has it; anything else as it is."""
    if isinstance(declared, dict) and declared.keys() == {"optional"} and not isinstance(declared["optional"], dict):
        return {"optional": zarrs_own(declared["optional"])}
    of_python = isinstance(declared, type) and issubclass(declared, (np.generic, bool, int, float, complex))
    if not isinstance(declared, np.dtype) and not of_python:
        return declared
    kind = np.dtype(declared)
    if kind.kind in "mM":
        unit, factor = np.datetime_data(kind)
        name = "numpy.datetime64" if kind.kind == "M" else "numpy.timedelta64"
        return {"name": name, "configuration": {"unit": unit, "scale_factor": factor}}
    sized = {"U": "fixed_length_utf32", "S": "null_terminated_bytes", "V": "raw_bytes"}
    if kind.kind not in sized or kind.fields is not None:
        return kind.name
    return {"name": sized[kind.kind], "configuration": {"length_bytes": kind.itemsize}}


def data_type(declared: Any) -> DataType:
    """The type of a Zarr name, or of an object with a name; `{"optional": TYPE}` is a type too.

    Raises `UnsupportedDataType` where there is no such type.
    """
    try:
        return _data_type(declared)
    except RecursionError as error:
        raise UnsupportedDataType("a data type is nested too deeply") from error


def _data_type(declared: Any) -> DataType:
    match declared:
        case str(name):
            return _named(name)
        case {"optional": inner, **rest} if not rest:
            return _optional(_data_type(inner))
        case {"name": "optional" | "zarrs.optional", "configuration": dict(inner)}:
            return _optional(_data_type(inner))
        case {"name": str(name), "configuration": dict(configuration)} if name in _CONFIGURED:
            return _configured(name, configuration)
        case {"name": str(name), **rest} if not rest.get("configuration"):
            return _named(name)
    raise UnsupportedDataType(f"no data type is {reprlib.repr(declared)}")
