"""numcodecs' bytes-to-bytes codecs, by the names that zarr-python has for them: `numcodecs.zlib` and the like."""

import bz2
import importlib
import lzma
import zlib
from collections.abc import Callable
from typing import Any

from ._opening import blosc_part, check_size, gunzipped, opened, zstd_size
from ._types import AnyArray

PREFIX = "numcodecs."
_COMPRESSORS = ("blosc", "lz4", "zstd", "zlib", "gzip", "bz2", "lzma")
# Those that make no value of another length, or of a few bytes more.
_OTHERS = ("shuffle", "crc32", "crc32c", "adler32", "fletcher32", "jenkins_lookup3")
NAMES = frozenset(PREFIX + name for name in (*_COMPRESSORS, *_OTHERS))
# What makes a value of what is stored, of so many bytes at most.
_Decompress = Callable[[Any, int | None], Any]


def functions_of(name: str, configuration: dict[str, Any]) -> tuple[Callable[[AnyArray], Any], _Decompress] | None:
    """What encodes and decodes by a codec of numcodecs; None where this numcodecs hasn't it. Raises `ImportError` where there
    is no numcodecs, and `TypeError` or `ValueError` of a configuration that it doesn't take."""
    registry = importlib.import_module("numcodecs.registry")
    own_name = name.removeprefix(PREFIX)
    # it finds some of its codecs when it is asked for them
    if own_name not in registry.codec_registry and own_name not in registry.entries:
        return None
    codec = registry.get_codec({**configuration, "id": own_name})
    return codec.encode, _decompress(own_name, codec)


def _decompress(name: str, codec: Any) -> _Decompress:
    """What opens a value, and no more of it than is due."""
    match name:
        case "zlib":
            return lambda stored, most: opened(zlib.decompressobj(), stored, most, 0)
        case "gzip":
            return gunzipped
        case "bz2":
            return lambda stored, most: opened(bz2.BZ2Decompressor(), stored, most, -1)
        case "lzma":
            return lambda stored, most: opened(lzma.LZMADecompressor(codec.format, filters=codec.filters), stored, most, -1)
        case "blosc":
            return lambda stored, most: codec.decode(blosc_part(stored, most))
        case "zstd" | "lz4":
            size_of = zstd_size if name == "zstd" else _lz4_size
            return lambda stored, most: _of_known_size(codec, size_of(stored), stored, most)
    return lambda stored, most: codec.decode(stored)


def _of_known_size(codec: Any, size: int | None, stored: Any, most: int | None) -> Any:
    check_size(size, most)
    return codec.decode(stored)


def _lz4_size(stored: Any) -> int:
    """How many bytes numcodecs has written before what it compressed."""
    return int.from_bytes(memoryview(stored).cast("B")[:4], "little")
