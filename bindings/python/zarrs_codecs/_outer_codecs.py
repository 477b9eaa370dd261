"""Bytes-to-bytes codecs that Python runs behind a chain, on whole values. Nothing about them is proved."""

import ctypes
import ctypes.util
import gzip
import importlib
import lzma
import reprlib
import zlib
from collections.abc import Callable
from dataclasses import dataclass
from functools import partial
from typing import Any, NoReturn

import numpy as np

from ._checksum import LENGTH as CHECKSUM_LENGTH
from ._checksum import NAME as CHECKSUM
from ._checksum import header_of, with_checksum, without_checksum
from ._library import checked_name
from ._locating import locate
from ._locating import name_of as codec_name
from ._numcodecs import NAMES, functions_of
from ._opening import TooLong, blosc_part, check_size, gunzipped, zstd_size
from ._types import AnyArray, Bytes
from .refusals import BytesCodec, InvalidBytesLength, InvalidConfiguration, OutOfMemory, Refused

_SHUFFLES = {"noshuffle": 0, "shuffle": 1, "bitshuffle": 2}
_MISSING = object()
# The parameters of libzstd.
_ZSTD_LEVEL, _ZSTD_CHECKSUM = 100, 201
# No compressor makes a value more than twice as long and so many bytes more.
_LONGER_BYTES = 1 << 16
# How many times as long as what is written here another writer's value may be, and how many bytes more.
_TIMES_WRITTEN, _GAP_BYTES = 4, 1 << 20
# What Python's and numcodecs' codecs raise of what they can't decode; the last one of too few bytes for a checksum.
_FAILURES = (
    *(OSError, EOFError, ValueError, RuntimeError, OverflowError, SystemError, zlib.error, lzma.LZMAError, IndexError),
)


@dataclass(frozen=True)
class OuterCodec:
    """A bytes-to-bytes codec's name, what it makes of bytes and back, and how many bytes it makes of so many at most.

    What makes a value of bytes is given how many that has at most, where that is known, and opens no more."""

    name: str
    compress: Callable[[AnyArray], Any]
    decompress: Callable[[Any, int | None], Any]
    is_proved: bool = False

    def encode(self, value: Bytes) -> Bytes:
        """What is stored of a value."""
        return np.frombuffer(self.compress(value), np.uint8)

    def decode(self, stored: Any, most: int | None = None) -> Bytes:
        """The value of what is stored, of so many bytes at most. Raises `BytesCodec` where there is none, and
        `InvalidBytesLength` where it is longer, before it is there as a whole."""
        try:
            return np.frombuffer(self.decompress(stored, most), np.uint8)
        except MemoryError as error:
            raise OutOfMemory(f"{self.name}: {error}") from error
        except TooLong as error:
            raise InvalidBytesLength(f"{self.name}: more than {most} bytes, where no more are due") from error
        except _FAILURES as error:
            raise BytesCodec(f"{self.name}: {error}") from error

    def longest(self, size: int) -> int:
        """How many bytes are stored at most of a value of so many."""
        return size + CHECKSUM_LENGTH if self.name == CHECKSUM else 2 * size + _LONGER_BYTES


def most_of_each(codecs: list[OuterCodec], kind: str, size: int | None) -> list[int | None]:
    """How many bytes each of these codecs opens to at most, where the value before the first one has so many.

    Where that is a bound, it is of what is written here: other writers may leave gaps in a shard, or store an inner chunk
    twice, so there is room for several times as many."""
    if kind != "fixed" and size is not None:
        size = _TIMES_WRITTEN * size + _GAP_BYTES
    found = []
    for codec in codecs:
        found.append(size)
        size = None if size is None else codec.longest(size)
    return found


def wrong(key: str, value: Any) -> NoReturn:
    """Raises the error of a key that has this value, or of one that is missing."""
    state = "is missing" if value is _MISSING else f"is {reprlib.repr(value)}"
    error = InvalidConfiguration(f"{key} {state}")
    error.key = key
    raise error


def _integer(configuration: dict[str, Any], key: str, low: int, high: int, default: Any = _MISSING) -> int:
    """The whole number of a key, between two."""
    value = configuration.get(key, default)
    if type(value) is not int or not low <= value <= high:
        wrong(key, value)
    return value


def _one_of(configuration: dict[str, Any], key: str, values: Any, default: Any = _MISSING) -> Any:
    """The value of a key, which is one of these."""
    value = configuration.get(key, default)
    if not any(value is one or (type(value) is type(one) and value == one) for one in values):
        wrong(key, value)
    return value


def _gzip(configuration: dict[str, Any]) -> OuterCodec:
    level = _integer(configuration, "level", 0, 9)
    return OuterCodec("gzip", lambda value: gzip.compress(value.data, level, mtime=0), gunzipped)


def _zstd(configuration: dict[str, Any]) -> OuterCodec:
    Zstd = importlib.import_module("numcodecs.zstd").Zstd
    level = _integer(configuration, "level", -(1 << 17), 22)
    has_checksum = _one_of(configuration, "checksum", (False, True), False)
    plain = Zstd(level)
    compress = plain.encode
    if has_checksum:
        try:
            compress = Zstd(level, checksum=True).encode
        except TypeError:
            # an older numcodecs reads checksums and writes none
            compress = partial(_with_checksum, level=level)

    def decompress(stored: Any, most: int | None) -> Any:
        check_size(zstd_size(stored), most)
        return plain.decode(stored)

    return OuterCodec("zstd", compress, decompress)


def _with_checksum(value: AnyArray, level: int) -> Any:
    """What the system's own library writes, with a checksum."""
    name = ctypes.util.find_library("zstd")
    if name is None:
        raise BytesCodec("zstd: this numcodecs writes no checksums, and libzstd isn't installed")
    zstd = ctypes.CDLL(name)
    zstd.ZSTD_createCCtx.restype = ctypes.c_void_p
    zstd.ZSTD_compressBound.restype = zstd.ZSTD_compress2.restype = ctypes.c_size_t
    context = ctypes.c_void_p(zstd.ZSTD_createCCtx())
    try:
        zstd.ZSTD_CCtx_setParameter(context, _ZSTD_LEVEL, ctypes.c_int(level))
        zstd.ZSTD_CCtx_setParameter(context, _ZSTD_CHECKSUM, ctypes.c_int(1))
        room = np.empty(zstd.ZSTD_compressBound(ctypes.c_size_t(value.size)), np.uint8)
        at, size = ctypes.c_void_p(room.ctypes.data), ctypes.c_size_t(room.size)
        given = ctypes.c_void_p(value.ctypes.data), ctypes.c_size_t(value.size)
        made = zstd.ZSTD_compress2(context, at, size, *given)
        if zstd.ZSTD_isError(ctypes.c_size_t(made)):
            raise BytesCodec(f"zstd: error {made}")
        return room[:made].copy()
    finally:
        zstd.ZSTD_freeCCtx(context)


def _blosc(configuration: dict[str, Any]) -> OuterCodec:
    blosc = importlib.import_module("numcodecs.blosc")
    name = _one_of(configuration, "cname", blosc.list_compressors())
    level = _integer(configuration, "clevel", 0, 9)
    size = _integer(configuration, "typesize", 1, 255, 1)
    shuffle = _SHUFFLES[_one_of(configuration, "shuffle", _SHUFFLES)]
    codec = blosc.Blosc(name, level, shuffle, _integer(configuration, "blocksize", 0, (1 << 31) - 1, 0))

    def compress(value: AnyArray) -> Any:
        # the size of what is shuffled is known by the array's type
        has_whole_items = size > 1 and value.size % size == 0
        return codec.encode(value.view(f"V{size}") if has_whole_items else value)

    return OuterCodec("blosc", compress, lambda stored, most: codec.decode(blosc_part(stored, most)))


def _checksum(codecs: list[Any], place: int) -> OuterCodec:
    """The library's own codec, behind those of Python. An error says that it is of this one."""
    codec = codecs[place]

    def decompress(stored: Any, most: int | None) -> Any:
        size = memoryview(stored).nbytes
        if size <= CHECKSUM_LENGTH:
            raise ValueError(f"{size} bytes, where there are more behind another codec")
        try:
            return without_checksum(codec, stored)
        except BytesCodec as error:
            raise ValueError("the checksum is another one") from error

    ask = header_of(1).checked
    try:
        checked_name(ask(["bytes", codec]))
    except Refused as error:
        locate(error, ask, ["bytes", codec])
        error.codec = place, CHECKSUM
        raise
    return OuterCodec(CHECKSUM, partial(with_checksum, codec), decompress, True)


def _numcodecs(name: str, configuration: dict[str, Any]) -> OuterCodec | None:
    """One of numcodecs' own, where it has it."""
    try:
        functions = functions_of(name, configuration)
    except (TypeError, ValueError) as error:
        raise InvalidConfiguration(f"numcodecs doesn't take {reprlib.repr(configuration)}: {error}") from error
    return None if functions is None else OuterCodec(name, *functions)


_MAKERS: dict[str, Callable[[dict[str, Any]], OuterCodec | None]] = {
    "gzip": _gzip,
    "zstd": _zstd,
    "blosc": _blosc,
    **{name: partial(_numcodecs, name) for name in NAMES},
}
# Names that the library has in another form.
_OTHER_NAMES = {"squeeze": "zarrs.squeeze", "vlen": "zarrs.vlen"}


def hint(name: str) -> str | None:
    """What could help where no codec has this name."""
    if name in _MAKERS:
        needs = "" if name == "gzip" else ", where numcodecs is installed"
        return f"Python runs {name} at the end of a list of codecs alone, with crc32c or without{needs}"
    if name in _OTHER_NAMES:
        return f"there is {_OTHER_NAMES[name]!r}"
    return None


def _made(codecs: list[Any], place: int) -> OuterCodec | None:
    """The codec at a place, where it is one of those that Python runs and what it needs is installed. An error says that
    it is of this one."""
    try:
        return _made_of(codecs[place])
    except InvalidConfiguration as error:
        error.codec = place, codec_name(codecs[place])
        raise


def _made_of(metadata: Any) -> OuterCodec | None:
    name = metadata.get("name") if isinstance(metadata, dict) else metadata
    make = _MAKERS.get(name) if isinstance(name, str) else None
    if make is None:
        return None
    configuration = metadata.get("configuration", {}) if isinstance(metadata, dict) else {}
    if not isinstance(configuration, dict):
        wrong("configuration", configuration)
    try:
        return make(configuration)
    except ImportError:
        return None


def _first_of_pythons(codecs: list[Any]) -> int:
    """The place of the first codec from which on each is one that Python runs, or a checksum behind such a one."""
    first = len(codecs)
    for place in reversed(range(len(codecs))):
        if _made(codecs, place) is not None:
            first = place
        elif codec_name(codecs[place]) != CHECKSUM:
            break
    return first


def split(codecs: list[Any]) -> tuple[list[Any], list[OuterCodec]]:
    """The codecs that the library runs, and those behind them that Python runs, the first one first."""
    first = _first_of_pythons(codecs)
    return codecs[:first], all_outer(codecs, first)


def are_outer(codecs: list[Any], first: int) -> bool:
    """Whether each codec from this place on is one that Python runs, or a checksum."""
    return all(codec_name(codecs[at]) == CHECKSUM or _made(codecs, at) is not None for at in range(first, len(codecs)))


def all_outer(codecs: list[Any], first: int) -> list[OuterCodec]:
    """The codecs from this place on, which are such."""
    return [_made(codecs, place) or _checksum(codecs, place) for place in range(first, len(codecs))]
