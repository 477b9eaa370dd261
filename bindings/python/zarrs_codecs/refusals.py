"""The library's errors, as exceptions of the same names."""

from ._codec_errors import (
    BitOrder,
    BitRange,
    EndiannessMissing,
    IncompatibleDimensionality,
    IndexNotFixed,
    IndivisibleShape,
    InvalidConfiguration,
    InvalidFillValue,
    MissingArrayToBytes,
    MultipleArrayToBytes,
    MultipleAuto,
    NotAPermutation,
    Overflow,
    ReshapeDimension,
    ReshapeElements,
    Syntax,
    UnknownName,
    UnsupportedDataType,
    ZeroSize,
)
from ._base_errors import Refused, Wrong

__all__ = [
    "Argument",
    "ArrayBytesKind",
    "BitOrder",
    "BitRange",
    "BytesCodec",
    "DataMismatch",
    "ElementCount",
    "EndiannessMissing",
    "HeaderOverflow",
    "IncompatibleDimensionality",
    "IndexLength",
    "IndexNotFixed",
    "IndivisibleShape",
    "InvalidByteRange",
    "InvalidBytesLength",
    "InvalidConfiguration",
    "InvalidElement",
    "InvalidFillValue",
    "InvalidMetadata",
    "InvalidOffsets",
    "InvalidText",
    "MaskValue",
    "MissingArrayToBytes",
    "MultipleArrayToBytes",
    "MultipleAuto",
    "NotAPermutation",
    "NotInPlace",
    "OffsetNotKept",
    "OffsetTooLarge",
    "OutOfBounds",
    "OutOfMemory",
    "Overflow",
    "PaddingByte",
    "Refused",
    "ReshapeDimension",
    "ReshapeElements",
    "ReversedRange",
    "Storage",
    "Syntax",
    "TargetMismatch",
    "UnknownName",
    "UnsupportedDataType",
    "UnsupportedTarget",
    "ZeroSize",
]


class Argument(Wrong):
    """Masks aren't of one length, numbers are no selection, or pieces have other bytes than were fetched.
    No call of Python's gives such numbers."""


class NotInPlace(Wrong):
    """A value can't be edited where it stands: not all codecs write a part of it, or it is too short.

    Examples
    --------
    >>> from zarrs_codecs import Chain
    >>> value = bytearray(1)
    >>> Chain(["packbits"], (8,), "bool").write(value, 0, True, out=value)
    Traceback (most recent call last):
    zarrs_codecs.refusals.NotInPlace: NotInPlace, by codec 0, 'packbits'
    """


class InvalidMetadata(Wrong):
    """A `zarr.json` isn't one of an array that is read here. Python's own error, not the library's.

    Examples
    --------
    >>> from zarrs_codecs import Array
    >>> Array.create("nowhere", [4, 4], [2], "uint8")
    Traceback (most recent call last):
    zarrs_codecs.refusals.InvalidMetadata: chunks of 1 axes, where the array has 2
    """


class InvalidElement(Wrong):
    """The data type can't hold an element, or one is absent and the type isn't an optional one. Python's own error,
    not the library's.

    Examples
    --------
    >>> from zarrs_codecs import Chain
    >>> Chain(["bytes"], (2,), "uint8").encode([1, 256])
    Traceback (most recent call last):
    zarrs_codecs.refusals.InvalidElement: 256 isn't of uint8, which has 0 to 255
    """


class InvalidText(Wrong, UnicodeError):
    """Bytes are no UTF-8, or a text has no bytes in it, or the numbers of one element are no characters. Python's own
    error, not the library's.

    Examples
    --------
    >>> from zarrs_codecs import Chain
    >>> Chain(["vlen-utf8"], (1,), "string").decode(b"\\1\\0\\0\\0\\1\\0\\0\\0\\xff")  # doctest: +ELLIPSIS
    Traceback (most recent call last):
    zarrs_codecs.refusals.InvalidText: an element's bytes are no text: 'utf-8' codec can't decode byte 0xff in position 0...
    """


class OutOfMemory(Refused, MemoryError):
    """Memory is lacking. It may come in place of any other answer. It has no example: any call may raise it."""


class Storage(Refused, OSError):
    """A byte is needed that isn't among the pieces that were fetched.
    Python asks for all bytes that are needed, and raises `EOFError` where a file ends meanwhile."""


class ArrayBytesKind(Wrong):
    """Fixed, variable or optional elements don't match the data type. No call of Python's gives such elements."""


class InvalidBytesLength(Wrong):
    """A length or count isn't the one that is due.

    Examples
    --------
    >>> from zarrs_codecs import Chain
    >>> Chain(["bytes"], (2,), "uint8").decode(b"abc")
    Traceback (most recent call last):
    zarrs_codecs.refusals.InvalidBytesLength: 3 bytes, where 2 are due, by codec 0, 'bytes'
    """


class OutOfBounds(Refused, IndexError):
    """A selection lies outside the shape.

    Examples
    --------
    >>> from zarrs_codecs import Chain
    >>> Chain(["bytes"], (2,), "uint8").read(b"ab", [2])
    Traceback (most recent call last):
    zarrs_codecs.refusals.OutOfBounds: row 0 of the list is outside of (2,)
    """


class PaddingByte(Wrong):
    """The padding byte isn't the number of spare bits.

    Examples
    --------
    >>> from zarrs_codecs import Chain
    >>> packbits = {"name": "packbits", "configuration": {"padding_encoding": "first_byte"}}
    >>> Chain([packbits], (4,), "bool").decode(b"\\1\\0")
    Traceback (most recent call last):
    zarrs_codecs.refusals.PaddingByte: PaddingByte, by codec 0, 'packbits'
    """


class IndexLength(Wrong):
    """The length of a `vlen` index passes the bytes that are left beside it.

    Examples
    --------
    >>> from zarrs_codecs import Chain
    >>> little = {"name": "bytes", "configuration": {"endian": "little"}}
    >>> keys = {"index_codecs": [little], "data_codecs": ["bytes"], "index_location": "start", "index_data_type": "uint64"}
    >>> Chain([{"name": "zarrs.vlen", "configuration": keys}], (1,), "string").decode(b"\\x09" + bytes(7))
    Traceback (most recent call last):
    zarrs_codecs.refusals.IndexLength: IndexLength, by codec 0, 'zarrs.vlen'
    """


class InvalidOffsets(Wrong):
    """Offsets are missing, fall, or don't end at the bytes' end.

    Examples
    --------
    >>> from zarrs_codecs import Chain
    >>> little = {"name": "bytes", "configuration": {"endian": "little"}}
    >>> keys = {"index_codecs": [little], "data_codecs": ["bytes"], "index_location": "start", "index_data_type": "uint64"}
    >>> value = b"\\x10" + bytes(7) + b"\\1" + bytes(15)
    >>> Chain([{"name": "zarrs.vlen", "configuration": keys}], (1,), "string").decode(value)
    Traceback (most recent call last):
    zarrs_codecs.refusals.InvalidOffsets: InvalidOffsets, by codec 0, 'zarrs.vlen'
    """


class OffsetTooLarge(Wrong):
    """An offset doesn't fit 32 bits.
    It comes where texts of 4 GiB together are encoded by a `zarrs.vlen` of 32-bit offsets."""


class OffsetNotKept(Wrong):
    """The index codecs don't give back an offset or a size unchanged.

    Examples
    --------
    >>> from zarrs_codecs import Chain
    >>> bit = {"name": "packbits", "configuration": {"first_bit": 0, "last_bit": 0}}
    >>> keys = {"index_codecs": [bit], "data_codecs": ["bytes"], "index_location": "start", "index_data_type": "uint64"}
    >>> Chain([{"name": "zarrs.vlen", "configuration": keys}], (1,), "string").encode(["ab"])
    Traceback (most recent call last):
    zarrs_codecs.refusals.OffsetNotKept: OffsetNotKept, by codec 0, 'zarrs.vlen'
    """


class MaskValue(Wrong):
    """A mask byte is neither 0 nor 1.

    Examples
    --------
    >>> from zarrs_codecs import Chain
    >>> optional = {"name": "optional", "configuration": {"mask_codecs": ["bytes"], "data_codecs": ["bytes"]}}
    >>> Chain([optional], (1,), {"optional": "uint8"}).decode(b"\\1" + bytes(15) + b"\\2")
    Traceback (most recent call last):
    zarrs_codecs.refusals.MaskValue: MaskValue, by codec 0, 'optional'
    """


class HeaderOverflow(Wrong):
    """The two lengths of an `optional` value pass 2^64 - 1 with their 16 bytes.

    Examples
    --------
    >>> from zarrs_codecs import Chain
    >>> optional = {"name": "optional", "configuration": {"mask_codecs": ["bytes"], "data_codecs": ["bytes"]}}
    >>> Chain([optional], (1,), {"optional": "uint8"}).decode(b"\\xff" * 16)
    Traceback (most recent call last):
    zarrs_codecs.refusals.HeaderOverflow: HeaderOverflow, by codec 0, 'optional'
    """


class InvalidByteRange(Wrong):
    """A range ends past the bytes that it is one of: a stored value is too short.

    Examples
    --------
    >>> from zarrs_codecs import Chain
    >>> Chain(["bytes"], (2,), "uint8").read(b"a", 1)
    Traceback (most recent call last):
    zarrs_codecs.refusals.InvalidByteRange: 1 bytes, where 2 are due, by codec 0, 'bytes'
    """


class BytesCodec(Wrong):
    """A bytes-to-bytes codec fails: one of those that Python runs can't decode a value.

    Examples
    --------
    >>> from zarrs_codecs import Chain
    >>> Chain(["bytes", "crc32c"], (1,), "uint8").decode(b"a1234")
    Traceback (most recent call last):
    zarrs_codecs.refusals.BytesCodec: BytesCodec, by codec 1, 'crc32c'
    """


class DataMismatch(Wrong):
    """There isn't one element of data for each place. Python broadcasts them to the places."""


class UnsupportedTarget(Wrong):
    """Elements of a variable length can't be decoded into a target. It comes from Rust alone."""


class TargetMismatch(Wrong):
    """A target's levels, counts or sizes differ from the chunk's. It comes from Rust alone."""


class ReversedRange(Wrong):
    """A range ends before it starts. It comes from Rust alone."""


class ElementCount(Wrong):
    """A value's count of elements isn't the chunk's.

    Examples
    --------
    >>> from zarrs_codecs import Chain
    >>> Chain(["vlen-utf8"], (1,), "string").decode(bytes(4))
    Traceback (most recent call last):
    zarrs_codecs.refusals.ElementCount: ElementCount, by codec 0, 'vlen-utf8'
    """


# each is of this module, as messages and pickles have it
for _name in __all__:
    globals()[_name].__module__ = __name__
