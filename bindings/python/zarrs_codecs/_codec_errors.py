"""The errors that rest on codecs and on what they are given, and not on what is stored."""

from ._base_errors import Wrong


class Syntax(Wrong):
    """A header, or a list of codecs, isn't of its form.

    Examples
    --------
    >>> from zarrs_codecs import Chain
    >>> Chain(["bytes"], (0,), "uint8")
    Traceback (most recent call last):
    zarrs_codecs.refusals.Syntax: a chunk of shape (0,), where each size is from 1 to 2^64 - 1
    """


class UnknownName(Wrong):
    """No codec has this name.

    Examples
    --------
    >>> from zarrs_codecs import Chain
    >>> Chain(["bytes", "adler32"], (2,), "uint8")
    Traceback (most recent call last):
    zarrs_codecs.refusals.UnknownName: UnknownName, by codec 1, 'adler32'
    """


class InvalidConfiguration(Wrong):
    """A key of a codec is missing, or a value is of another kind than its key asks for.

    Examples
    --------
    >>> from zarrs_codecs import Chain
    >>> Chain([{"name": "bytes", "configuration": {"endian": "middle"}}], (2,), "int16")
    Traceback (most recent call last):
    zarrs_codecs.refusals.InvalidConfiguration: InvalidConfiguration, by codec 0, 'bytes', for its key 'endian'
    """


class MissingArrayToBytes(Wrong):
    """A list of codecs has none from arrays to bytes.

    Examples
    --------
    >>> from zarrs_codecs import Chain
    >>> Chain([], (2,), "uint8")
    Traceback (most recent call last):
    zarrs_codecs.refusals.MissingArrayToBytes: MissingArrayToBytes
    """


class MultipleArrayToBytes(Wrong):
    """A list of codecs has more than one from arrays to bytes.

    Examples
    --------
    >>> from zarrs_codecs import Chain
    >>> Chain(["bytes", "packbits"], (2,), "bool")
    Traceback (most recent call last):
    zarrs_codecs.refusals.MultipleArrayToBytes: MultipleArrayToBytes, by codec 1, 'packbits'
    """


class BitOrder(Wrong):
    """A bit range ends before it starts.

    Examples
    --------
    >>> from zarrs_codecs import Chain
    >>> packbits = {"name": "packbits", "configuration": {"first_bit": 2, "last_bit": 1}}
    >>> Chain([packbits], (2,), "uint8")
    Traceback (most recent call last):
    zarrs_codecs.refusals.BitOrder: BitOrder, by codec 0, 'packbits', for its key 'first_bit'
    """


class MultipleAuto(Wrong):
    """More than one size of a reshape is automatic.

    Examples
    --------
    >>> from zarrs_codecs import Chain
    >>> reshape = {"name": "reshape", "configuration": {"shape": [-1, -1]}}
    >>> Chain([reshape, "bytes"], (2,), "uint8")
    Traceback (most recent call last):
    zarrs_codecs.refusals.MultipleAuto: MultipleAuto, by codec 0, 'reshape', for its key 'shape'
    """


class ZeroSize(Wrong):
    """A size of a reshape or of an inner chunk is zero.

    Examples
    --------
    >>> from zarrs_codecs import Chain
    >>> reshape = {"name": "reshape", "configuration": {"shape": [0]}}
    >>> Chain([reshape, "bytes"], (2,), "uint8")
    Traceback (most recent call last):
    zarrs_codecs.refusals.ZeroSize: ZeroSize, by codec 0, 'reshape', for its key 'shape'
    """


class NotAPermutation(Wrong):
    """An order of axes doesn't name each axis once.

    Examples
    --------
    >>> from zarrs_codecs import Chain
    >>> transpose = {"name": "transpose", "configuration": {"order": [0, 0]}}
    >>> Chain([transpose, "bytes"], (2, 2), "uint8")
    Traceback (most recent call last):
    zarrs_codecs.refusals.NotAPermutation: NotAPermutation, by codec 0, 'transpose', for its key 'order'
    """


class UnsupportedDataType(Wrong):
    """A codec doesn't take this data type.

    Examples
    --------
    >>> from zarrs_codecs import Chain
    >>> Chain(["vlen-utf8"], (2,), "uint8")
    Traceback (most recent call last):
    zarrs_codecs.refusals.UnsupportedDataType: UnsupportedDataType, by codec 0, 'vlen-utf8'
    """


class EndiannessMissing(Wrong):
    """No byte order is given, and a component has more than one byte.

    Examples
    --------
    >>> from zarrs_codecs import Chain
    >>> Chain(["bytes"], (2,), "int16")
    Traceback (most recent call last):
    zarrs_codecs.refusals.EndiannessMissing: EndiannessMissing, by codec 0, 'bytes', for its key 'endian'
    """


class InvalidFillValue(Wrong):
    """The fill value doesn't fit the data type, or the codecs of inner chunks change it.

    Examples
    --------
    >>> from zarrs_codecs import Chain
    >>> Chain(["bytes"], (2,), "uint8", 256)
    Traceback (most recent call last):
    zarrs_codecs.refusals.InvalidFillValue: 256 isn't of uint8
    """


class IncompatibleDimensionality(Wrong):
    """The axes of a selection or an order differ from those of the shape.

    Examples
    --------
    >>> from zarrs_codecs import Chain
    >>> transpose = {"name": "transpose", "configuration": {"order": [1, 0]}}
    >>> Chain([transpose, "bytes"], (2,), "uint8")
    Traceback (most recent call last):
    zarrs_codecs.refusals.IncompatibleDimensionality: IncompatibleDimensionality, by codec 0, 'transpose', for its key 'order'
    """


class Overflow(Wrong):
    """A product or a sum passes 2^64 - 1.

    Examples
    --------
    >>> from zarrs_codecs import Chain
    >>> Chain(["bytes"], (2**32, 2**32), "uint8")
    Traceback (most recent call last):
    zarrs_codecs.refusals.Overflow: Overflow
    """


class ReshapeDimension(Wrong):
    """A reshape names an input axis that isn't there.

    Examples
    --------
    >>> from zarrs_codecs import Chain
    >>> reshape = {"name": "reshape", "configuration": {"shape": [[1]]}}
    >>> Chain([reshape, "bytes"], (2,), "uint8")
    Traceback (most recent call last):
    zarrs_codecs.refusals.ReshapeDimension: ReshapeDimension, by codec 0, 'reshape', for its key 'shape'
    """


class ReshapeElements(Wrong):
    """A reshape changes the number of elements, or its automatic size leaves a rest.

    Examples
    --------
    >>> from zarrs_codecs import Chain
    >>> reshape = {"name": "reshape", "configuration": {"shape": [3]}}
    >>> Chain([reshape, "bytes"], (2,), "uint8")
    Traceback (most recent call last):
    zarrs_codecs.refusals.ReshapeElements: ReshapeElements, by codec 0, 'reshape', for its key 'shape'
    """


class BitRange(Wrong):
    """Bits outside the component, or a width or count of zero.

    Examples
    --------
    >>> from zarrs_codecs import Chain
    >>> packbits = {"name": "packbits", "configuration": {"first_bit": 0, "last_bit": 8}}
    >>> Chain([packbits], (2,), "uint8")
    Traceback (most recent call last):
    zarrs_codecs.refusals.BitRange: BitRange, by codec 0, 'packbits', for its key 'last_bit'
    """


class IndivisibleShape(Wrong):
    """An inner chunk's size doesn't divide the chunk's.

    Examples
    --------
    >>> from zarrs_codecs import Chain
    >>> little = {"name": "bytes", "configuration": {"endian": "little"}}
    >>> shards = {"chunk_shape": [3], "codecs": ["bytes"], "index_codecs": [little]}
    >>> Chain([{"name": "sharding_indexed", "configuration": shards}], (4,), "uint8")
    Traceback (most recent call last):
    zarrs_codecs.refusals.IndivisibleShape: IndivisibleShape, by codec 0, 'sharding_indexed', for its key 'chunk_shape'
    """


class IndexNotFixed(Wrong):
    """The encoded index isn't of a fixed size.

    Examples
    --------
    >>> from zarrs_codecs import Chain
    >>> little = {"name": "bytes", "configuration": {"endian": "little"}}
    >>> inner = {"chunk_shape": [1, 1], "codecs": [little], "index_codecs": [little]}
    >>> shards = {"chunk_shape": [2], "codecs": ["bytes"], "index_codecs": [{"name": "sharding_indexed", "configuration": inner}]}
    >>> Chain([{"name": "sharding_indexed", "configuration": shards}], (4,), "uint8")
    Traceback (most recent call last):
    zarrs_codecs.refusals.IndexNotFixed: IndexNotFixed, by codec 0, 'sharding_indexed', in its index_codecs[0], 'sharding_indexed'
    """
