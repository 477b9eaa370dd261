"""The shared library: its calls, as `include/zarrs_codecs.h` declares them, and what they answer."""

import ctypes
import os
from pathlib import Path
from typing import Any

from . import refusals

SHORT = 1
BOX = 2**64 - 1

_AT, _LENGTH, _NUMBER = ctypes.c_void_p, ctypes.c_size_t, ctypes.c_uint64
_BUFFER = [_AT, _LENGTH]
_ELEMENTS = [*_BUFFER, *_BUFFER, *_BUFFER]
_SELECTION = [_NUMBER, *_BUFFER]
_STORED = [ctypes.c_bool, *_BUFFER]
_CALLS: dict[str, list[Any]] = {
    "zarrs_check": [*_BUFFER],
    "zarrs_representation": [*_BUFFER, _AT, _AT],
    "zarrs_encode": [*_BUFFER, *_ELEMENTS, *_BUFFER, _AT],
    "zarrs_decode": [*_BUFFER, *_BUFFER, *_ELEMENTS, _AT],
    "zarrs_read": [*_BUFFER, *_STORED, *_SELECTION, *_ELEMENTS, _AT],
    "zarrs_read_many": [*_BUFFER, *_STORED, *_BUFFER, *_BUFFER, *_ELEMENTS, _AT],
    "zarrs_edit": [*_BUFFER, *_BUFFER, *_BUFFER, *_BUFFER, *_BUFFER, _AT],
    "zarrs_write": [*_BUFFER, *_STORED, *_SELECTION, *_ELEMENTS, *_BUFFER, _AT],
    "zarrs_planned_ranges": [*_BUFFER, *_SELECTION, *_BUFFER, _AT, _AT],
    "zarrs_read_pieces": [*_BUFFER, _NUMBER, *_BUFFER, *_BUFFER, *_SELECTION, *_ELEMENTS, _AT],
    "zarrs_lacking": [*_BUFFER, _NUMBER, *_BUFFER, *_BUFFER, *_SELECTION, *_BUFFER, _AT],
    "zarrs_reencode": [*_BUFFER, *_BUFFER, *_BUFFER, *_BUFFER, _AT],
    "zarrs_error_name": [ctypes.c_uint32, *_BUFFER, _AT],
}
# those that begin with a header, over a chain that is kept, and those that keep one
_CALLS |= {
    name.replace("zarrs_", "zarrs_chain_"): [_AT, *arguments[2:]]
    for name, arguments in _CALLS.items()
    if name not in ("zarrs_check", "zarrs_error_name")
}
_CALLS |= {"zarrs_chain_new": [*_BUFFER, _AT], "zarrs_chain_share": [_AT, _AT], "zarrs_chain_free": [_AT]}


class Sizes(ctypes.Structure):
    """How many items the three buffers of elements have, or need."""

    _fields_ = [("masks", _LENGTH), ("offsets", _LENGTH), ("bytes", _LENGTH)]


class EditSize(ctypes.Structure):
    """How many tuples an edit's selection has, and how many numbers and bytes the edit takes."""

    _fields_ = [("tuples", _NUMBER), ("numbers", _LENGTH), ("bytes", _LENGTH)]


def _loaded() -> ctypes.CDLL:
    name = "libzarrs_codecs.so"
    installed, built = Path(__file__).with_name(name), Path(__file__).parents[2] / "out" / name
    path = os.environ.get("ZARRS_CODECS_LIBRARY") or str(installed if installed.is_file() else built)
    try:
        library = ctypes.CDLL(path)
    except OSError as error:
        raise ImportError(
            f"{error}: bindings/build makes the library, and ZARRS_CODECS_LIBRARY may name another"
        ) from error
    for name, arguments in _CALLS.items():
        call = getattr(library, name)
        call.argtypes = arguments
        call.restype = None if name == "zarrs_chain_free" else ctypes.c_uint32
    return library


library = _loaded()


def _is_proved() -> bool:
    """Whether the library is one that was proved: one that wasn't has a word that says so."""
    try:
        ctypes.c_int8.in_dll(library, "zarrs_unproved")
    except ValueError:
        return True
    return False


proved = _is_proved()


def version() -> str | None:
    """What the library says of its version; None of one that says nothing."""
    try:
        return ctypes.string_at(ctypes.addressof(ctypes.c_char.in_dll(library, "zarrs_version"))).decode()
    except ValueError:
        return None


def name_of(code: int) -> str:
    """The library's name of a code; empty where no call answers it."""
    name, needed = ctypes.create_string_buffer(64), _LENGTH()
    library.zarrs_error_name(code, name, len(name), ctypes.byref(needed))
    return name.raw[: needed.value].decode()


def checked_name(name: str) -> None:
    """Raises the error of a name, if it is one's."""
    if name != "Done":
        raise getattr(refusals, name, refusals.Refused)(name)


def checked(code: int) -> None:
    """Raises the error of a code, if it is one's."""
    if code:
        checked_name(name_of(code))
