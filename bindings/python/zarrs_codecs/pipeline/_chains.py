"""How the library codes an array's chunks: the chain of zarr-python's codecs."""

import json
import math
from functools import cached_property, lru_cache
from typing import Any

import numpy as np
from zarr.codecs._v2 import V2Codec
from zarr.core.codec_pipeline import fill_value_or_default

from .._data_types import zarrs_own
from .._layout import SHARDS, behind_transpositions
from .._numcodecs import NAMES as NUMCODECS
from .._types import Shape
from ..chain import Chain, coder_in
from ..refusals import Refused
from ._zarr2 import codecs_of

# The codecs that are the same there and here, and where zarr-python has the classes of its own.
_CODECS = NUMCODECS | {
    *("bytes", "endian", "transpose", "crc32c", "vlen-utf8", "vlen-bytes", "sharding_indexed", "gzip", "zstd", "blosc")
}
_THEIR_MODULES = ("zarr.codecs.", "numcodecs.zarr3")
# A value of so many bytes, or fewer, is read at once.
_SMALL = 1 << 16
# Chains of so many forms of chunks are kept.
_MOST_CHAINS = 1 << 10


class NotTaken(Exception):
    """The library doesn't code such chunks, and zarr-python does; the message says why."""


class Coding:
    """How chunks of one shape, type and fill value are coded."""

    def __init__(self, chain: Chain) -> None:
        self.chain = chain
        self.shape, self.dtype = chain.shape, chain.dtype
        self.size = math.prod(self.shape)

    @cached_property
    def is_read_whole(self) -> bool:
        """Whether a read of any element takes all of a value's bytes."""
        return coder_in(self.chain).is_read_whole

    @cached_property
    def inner_shape(self) -> Shape | None:
        """The sizes of a shard's inner chunks, behind transpositions too; None of other chunks."""
        order, rest = behind_transpositions(self.chain.codecs, len(self.shape))
        if not rest or rest[0]["name"] != SHARDS:
            return None
        sizes = dict(zip(order, rest[0]["configuration"]["chunk_shape"], strict=True))
        return tuple(sizes[axis] for axis in range(len(order)))

    @cached_property
    def inner_count(self) -> int:
        """How many inner chunks a shard has."""
        sizes = zip(self.shape, self.inner_shape or self.shape, strict=True)
        return math.prod(-(-size // inner) for size, inner in sizes)

    @cached_property
    def is_small(self) -> bool:
        """Whether a value is so short that it is read at once."""
        size = self.chain.representation.size
        return size is not None and size <= _SMALL

    @cached_property
    def decodes_into(self) -> bool:
        """Whether a chunk may be decoded straight into an array."""
        return self.dtype != object and SHARDS not in self.chain.unproved

    @cached_property
    def least_bytes(self) -> int:
        """How many bytes of elements are decoded for one of them."""
        if self.is_read_whole:
            return self.size * self.dtype.itemsize
        return math.prod(self.inner_shape or ()) * self.dtype.itemsize


def _check_codec(codec: Any) -> None:
    """Raises `NotTaken` of a codec that isn't zarr-python's own: of one that somebody has registered in its place another
    meaning is taken."""
    if not type(codec).__module__.startswith(_THEIR_MODULES):
        raise NotTaken(f"the codec {type(codec).__qualname__} isn't zarr-python's own")
    for inner in (*getattr(codec, "codecs", ()), *getattr(codec, "index_codecs", ())):
        _check_codec(inner)


def _check_name(declared: Any) -> None:
    """Raises `NotTaken` of the metadata of a codec that the library may read otherwise, or not at all."""
    if declared.get("name") not in _CODECS:
        raise NotTaken(f"the library has no codec {declared.get('name')!r}")


def declared_by(codecs: tuple[Any, ...]) -> "str | V2Codec":
    """A list of zarr-python's codecs as JSON; the codec of a Zarr v2 array itself, which rests on the elements' type. Raises
    `NotTaken` where the library hasn't all of them."""
    if len(codecs) == 1 and type(codecs[0]) is V2Codec:
        return codecs[0]
    found = []
    for codec in codecs:
        _check_codec(codec)
        try:
            declared = codec.to_dict()
            _check_name(declared)
            found.append(declared)
        except (TypeError, ValueError, NotImplementedError, AttributeError) as error:
            raise NotTaken(f"the codec {type(codec).__qualname__} has no metadata: {error}") from error
    return json.dumps(found)


def native(dtype: Any) -> np.dtype[Any]:
    """numpy's type of elements, which zarr-python 3.0 has itself, and later versions have a type of."""
    found: np.dtype[Any] = dtype if isinstance(dtype, np.dtype) else dtype.to_native_dtype()
    return found


def coding_of(codecs: "str | V2Codec", spec: Any) -> Coding:
    """How the library codes chunks, whose form zarr-python declares so. Raises `NotTaken` where it doesn't."""
    dtype = native(spec.dtype)
    if dtype.fields is not None:
        raise NotTaken(f"elements are a struct of {', '.join(dtype.fields)}")
    fill = fill_value_or_default(spec)
    if isinstance(codecs, V2Codec):
        declared = codecs_of(codecs, dtype, spec.order, len(spec.shape))
        if declared is None:
            raise NotTaken(f"Zarr v2 with filters {codecs.filters} and compressor {codecs.compressor}")
        codecs = json.dumps(declared)
    try:
        if dtype.kind in "TO":
            if not isinstance(fill, (str, bytes)):
                raise TypeError("texts and byte strings have such")
            found = _coding(codecs, spec.shape, dtype, fill if isinstance(fill, bytes) else str(fill))
        else:
            little = dtype.newbyteorder("<")
            found = _coding(codecs, spec.shape, little, np.array(fill, little).tobytes())
    except (TypeError, ValueError, OverflowError) as error:
        raise NotTaken(f"the fill value {fill!r} isn't of {dtype}: {error}") from error
    if isinstance(found, str):
        raise NotTaken(found)
    return found


@lru_cache(_MOST_CHAINS)
def _coding(codecs: str, shape: Shape, dtype: np.dtype[Any], fill: bytes | str) -> Coding | str:
    """The same of a fill value by its bits; the reason, where the library doesn't."""
    declared = json.loads(codecs)
    try:
        if dtype.kind in "TO":
            is_text = any(codec["name"] == "vlen-utf8" for codec in _flat(declared))
            return Coding(Chain(declared, shape, "string" if is_text else "bytes", fill))
        return Coding(Chain(declared, shape, zarrs_own(dtype), _fill_value(dtype, fill)))
    except (Refused, TypeError, ValueError, NotImplementedError) as error:
        return f"{type(error).__name__}: {error}"


def _flat(declared: list[Any]) -> list[Any]:
    """The codecs of a list, and those inside them."""
    inside = [one for codec in declared for one in (codec.get("configuration") or {}).get("codecs", ())]
    return [*declared, *_flat(inside)] if inside else declared


def _fill_value(dtype: np.dtype[Any], bits: Any) -> Any:
    """A fill value of one size as `Chain` takes it, with all of its bits: also those of what is no number."""
    match dtype.kind:
        case "f":
            return f"0x{bits[::-1].hex()}"
        case "c":
            half = len(bits) // 2
            return [f"0x{part[::-1].hex()}" for part in (bits[:half], bits[half:])]
        case "b" | "i" | "m" | "M":
            return int.from_bytes(bits, "little", signed=True)
        case "u":
            return int.from_bytes(bits, "little")
        case "U":
            return str(np.frombuffer(bits, dtype)[0])
    return bits
