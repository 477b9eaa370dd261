"""What compressors have made, which is opened up to so many bytes and no more."""

import zlib
from typing import Any

# zlib's word for a gzip header and trailer, and how a frame of zstd begins.
_GZIP_BITS, _ZSTD_FRAME = 31, b"\x28\xb5\x2f\xfd"


class TooLong(Exception):
    """A value has more bytes than are due."""


def check_size(size: int | None, most: int | None) -> None:
    """Raises `TooLong` where a size is known that is more than are due."""
    if most is not None and size is not None and size > most:
        raise TooLong


def opened(decompressor: Any, stored: Any, most: int | None, unlimited: int) -> bytes:
    """What one stream holds, as Python's own modules open it: `unlimited` is their word for as many bytes as there are."""
    found: bytes = decompressor.decompress(stored, unlimited if most is None else most + 1)
    check_size(len(found), most)
    if not decompressor.eof:
        raise EOFError("it ends before its end-of-stream marker")
    return found


def gunzipped(stored: Any, most: int | None) -> bytes:
    """What gzip's members hold, one behind another, and zeros behind them."""
    parts, left, size = [], memoryview(stored).cast("B"), 0
    while len(left):
        member = zlib.decompressobj(_GZIP_BITS)
        # 0 is as many as there are
        parts.append(member.decompress(left, 0 if most is None else most - size + 1))
        size += len(parts[-1])
        if most is not None and size > most:
            raise TooLong
        if not member.eof:
            raise EOFError("it ends before its end-of-stream marker")
        left = memoryview(member.unused_data.lstrip(b"\0"))
    return parts[0] if len(parts) == 1 else b"".join(parts)


def zstd_size(stored: Any) -> int | None:
    """How many bytes a frame's header says that it opens to; None where it doesn't, or is no frame's."""
    head = bytes(memoryview(stored).cast("B")[:18])
    if len(head) < 6 or head[:4] != _ZSTD_FRAME:
        return None
    flags = head[4]
    is_single = bool(flags & 32)
    size = (1 if is_single else 0, 2, 4, 8)[flags >> 6]
    begin = 5 + (not is_single) + (0, 1, 2, 4)[flags & 3]
    if not size or len(head) < begin + size:
        return None
    return int.from_bytes(head[begin : begin + size], "little") + (256 if size == 2 else 0)


def blosc_part(stored: Any, most: int | None) -> memoryview:
    """What is stored, which has as many bytes as its header says, and opens to as many as are due: numcodecs looks at
    neither."""
    part = memoryview(stored).cast("B")
    if len(part) < 16 or len(part) != int.from_bytes(part[12:16], "little"):
        raise ValueError(f"{len(part)} bytes, where its header says another number")
    check_size(int.from_bytes(part[4:8], "little"), most)
    return part
