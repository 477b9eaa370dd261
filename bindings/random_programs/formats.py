"""The codecs, written from the standards alone: the Zarr v3 core specification with `bytes`, `transpose`, `crc32c`, `gzip` and
`sharding_indexed` (ZEP 2), zarr-extensions for `reshape`, `packbits`, `vlen-utf8`, `vlen-bytes` and `zstd`, and codec.zarrs.dev
for `squeeze`, `vlen` and `optional`. Slow, and with no code of the package."""

import gzip
import itertools
import math
import struct
import zlib

import numpy as np
from kinds import MASK, UINT8, UINT32, UINT64, Chunk, full

ABSENT = (1 << 64) - 1
_TABLE = []
for _byte in range(256):
    for _ in range(8):
        _byte = _byte >> 1 ^ (0x82F63B78 if _byte & 1 else 0)
    _TABLE.append(_byte)


class Damaged(Exception):
    """A value isn't one of its format."""


def named(codec):
    """A codec's name, and its configuration."""
    return (codec, {}) if isinstance(codec, str) else (codec["name"], codec.get("configuration") or {})


def require(holds, text):
    if not holds:
        raise Damaged(text)


def untouched(value, _):
    """The value, as it is."""
    return value


# -- array to array --------------------------------------------------------------------------------------------------


def reshaped(said, shape):
    """The sizes that a reshape gives."""
    sizes = [one if isinstance(one, int) else math.prod(shape[axis] for axis in one) for one in said]
    others = math.prod(size for size in sizes if size != -1)
    return tuple(math.prod(shape) // others if size == -1 else size for size in sizes)


def moved(codec, array):
    """An array behind an array-to-array codec."""
    name, keys = named(codec)
    if name == "transpose":
        return np.transpose(array, keys["order"])
    if name == "reshape":
        return array.reshape(reshaped(keys["shape"], array.shape))
    return array.reshape(tuple(size for size in array.shape if size != 1) or (1,))


def moved_back(codec, array, shape):
    """The array of this shape that is so behind the codec."""
    name, keys = named(codec)
    if name == "transpose":
        return np.transpose(array, np.argsort(keys["order"]))
    return array.reshape(shape)


TO_ARRAY = ("transpose", "reshape", "zarrs.squeeze")


# -- elements of one size --------------------------------------------------------------------------------------------


def _parts(chunk):
    kind = chunk.kind
    whole = np.frombuffer(np.ascontiguousarray(chunk.data).tobytes(), np.uint8)
    return whole.reshape(-1, kind.count, kind.component)


def _joined(kind, parts, shape):
    data = np.frombuffer(np.ascontiguousarray(parts).tobytes(), kind.dtype.str if kind.dtype != bool else np.uint8)
    data = data.reshape(shape)
    return Chunk(kind, data != 0 if kind.dtype == bool else data.copy())


def _is_big(keys):
    return keys.get("endian") == "big"


def bytes_encoded(keys, chunk, fill, touch):
    parts = _parts(chunk)
    return (parts[..., ::-1] if _is_big(keys) else parts).tobytes()


def bytes_decoded(keys, value, kind, shape, fill):
    count = math.prod(shape)
    require(len(value) == count * kind.dtype.itemsize, "length")
    parts = np.frombuffer(value, np.uint8).reshape(count, kind.count, kind.component)
    return _joined(kind, parts[..., ::-1] if _is_big(keys) else parts, shape)


def _kept_bits(keys, kind):
    """The first bit that is kept, the last one, and where the padding byte stands, if there is one."""
    first, last = keys.get("first_bit"), keys.get("last_bit")
    first, last = 0 if first is None else first, kind.bits - 1 if last is None else last
    padding = keys.get("padding_encoding") or "none"
    is_whole = kind.bits % 8 == 0 and last - first + 1 == kind.bits
    return first, last, "none" if is_whole else padding


def packbits_encoded(keys, chunk, fill, touch):
    first, last, padding = _kept_bits(keys, chunk.kind)
    bits = np.unpackbits(_parts(chunk), axis=-1, bitorder="little")[..., first : last + 1].reshape(-1)
    value, spare = np.packbits(bits, bitorder="little").tobytes(), bytes([-bits.size % 8])
    return spare + value if padding == "first_byte" else value + spare if padding == "last_byte" else value


def packbits_decoded(keys, value, kind, shape, fill):
    first, last, padding = _kept_bits(keys, kind)
    kept = last - first + 1
    count = math.prod(shape) * kind.count * kept
    require(len(value) == -(-count // 8) + (padding != "none"), "length")
    if padding != "none":
        spare = value[0] if padding == "first_byte" else value[-1]
        require(spare == -count % 8, "padding")
        value = value[1:] if padding == "first_byte" else value[:-1]
    bits = np.unpackbits(np.frombuffer(value, np.uint8), bitorder="little")[:count].reshape(-1, kind.count, kept)
    whole = np.zeros((len(bits), kind.count, 8 * kind.component), np.uint8)
    whole[..., first : last + 1] = bits
    if kind.signed:
        whole[..., last + 1 :] = bits[..., -1:]
    return _joined(kind, np.packbits(whole, axis=-1, bitorder="little"), shape)


# -- texts and byte strings ------------------------------------------------------------------------------------------


def _stored(kind, one):
    return one.encode() if kind.is_text else one


def _element(kind, stored):
    try:
        return stored.decode() if kind.is_text else stored
    except UnicodeDecodeError as error:
        raise Damaged("text") from error


def _elements(kind, parts, shape):
    data = np.empty(len(parts), object)
    for place, part in enumerate(parts):
        data[place] = _element(kind, part)
    return Chunk(kind, data.reshape(shape))


def plain_vlen_encoded(keys, chunk, fill, touch):
    stored = [_stored(chunk.kind, one) for one in chunk.data.ravel().tolist()]
    return b"".join([struct.pack("<I", len(stored)), *(struct.pack("<I", len(one)) + one for one in stored)])


def plain_vlen_decoded(keys, value, kind, shape, fill):
    require(len(value) >= 4, "length")
    count, at, parts = struct.unpack_from("<I", value)[0], 4, []
    require(count == math.prod(shape), "count")
    for _ in range(count):
        require(len(value) >= at + 4, "length")
        size = struct.unpack_from("<I", value, at)[0]
        require(len(value) >= at + 4 + size, "length")
        parts.append(value[at + 4 : at + 4 + size])
        at += 4 + size
    require(at == len(value), "bytes behind")
    return _elements(kind, parts, shape)


def _index_kind(keys):
    return UINT32 if keys["index_data_type"] == "uint32" else UINT64


def vlen_encoded(keys, chunk, fill, touch):
    stored = [_stored(chunk.kind, one) for one in chunk.data.ravel().tolist()]
    kind = _index_kind(keys)
    offsets = Chunk(kind, np.cumsum([0, *map(len, stored)]).astype(kind.dtype))
    joined = Chunk(UINT8, np.frombuffer(b"".join(stored), np.uint8))
    index = encoded(keys["index_codecs"], offsets, zero(kind), touch)
    data = encoded(keys["data_codecs"], joined, zero(UINT8), touch) if joined.data.size else b""
    length = struct.pack("<Q", len(index))
    return data + index + length if keys.get("index_location") == "end" else length + index + data


def vlen_decoded(keys, value, kind, shape, fill):
    require(len(value) >= 8, "length")
    is_end = keys.get("index_location") == "end"
    size = struct.unpack("<Q", value[-8:] if is_end else value[:8])[0]
    require(size <= len(value) - 8, "length of the index")
    begin = len(value) - 8 - size if is_end else 8
    index, data = value[begin : begin + size], value[:begin] if is_end else value[8 + size :]
    count, index_kind = math.prod(shape), _index_kind(keys)
    offsets = [int(one) for one in decoded(keys["index_codecs"], index, index_kind, (count + 1,), zero(index_kind)).data]
    require(offsets == sorted(offsets), "offsets")
    joined = b""
    if offsets[-1]:
        joined = decoded(keys["data_codecs"], data, UINT8, (offsets[-1],), zero(UINT8)).data.tobytes()
    return _elements(kind, [joined[first:last] for first, last in itertools.pairwise(offsets)], shape)


# -- elements that may be absent -------------------------------------------------------------------------------------


def optional_encoded(keys, chunk, fill, touch):
    inside = chunk.kind.inside
    present = ~chunk.absent
    mask = encoded(keys["mask_codecs"], Chunk(MASK, present.astype(np.uint8)), zero(MASK), touch)
    elements = Chunk(inside, chunk.data[present])
    data = encoded(keys["data_codecs"], elements, zero(inside), touch) if present.any() else b""
    return struct.pack("<QQ", len(mask), len(data)) + mask + data


def optional_decoded(keys, value, kind, shape, fill):
    require(len(value) >= 16, "length")
    first, second = struct.unpack_from("<QQ", value)
    require(len(value) == 16 + first + second, "lengths")
    mask = decoded(keys["mask_codecs"], value[16 : 16 + first], MASK, shape, zero(MASK)).data
    require(mask.max(initial=0) <= 1, "mask")
    chunk = full(kind, shape, Chunk(kind, zero(kind.inside).data, np.array(True)))
    count = int(mask.sum())
    if count:
        elements = decoded(keys["data_codecs"], value[16 + first :], kind.inside, (count,), zero(kind.inside))
        chunk.data[mask == 1] = elements.data
    chunk.absent = mask == 0
    return chunk


def zero(kind):
    """The fill value of what stands inside."""
    data = np.empty((), kind.dtype)
    data[()] = (("" if kind.is_text else b"") if kind.is_variable else np.zeros((), kind.dtype)[()])
    return Chunk(kind, data)


# -- shards ----------------------------------------------------------------------------------------------------------


def same(one, other):
    """Whether chunks have the same elements, to the last bit."""
    if one.shape != other.shape:
        return False
    if one.absent is not None and not np.array_equal(one.absent, other.absent):
        return False
    first, second = (it.data if it.absent is None else it.data[~it.absent] for it in (one, other))
    if one.kind.is_variable:
        return [*map(repr, first.ravel().tolist())] == [*map(repr, second.ravel().tolist())]
    return np.ascontiguousarray(first).tobytes() == np.ascontiguousarray(second).tobytes()


def _inner_places(shape, inner):
    """Where the inner chunks are, row by row."""
    for numbers in itertools.product(*(range(size // part) for size, part in zip(shape, inner))):
        yield tuple(slice(number * part, (number + 1) * part) for number, part in zip(numbers, inner))


def _index_shape(shape, inner):
    return (*(size // part for size, part in zip(shape, inner)), 2)


def index_length(keys, shape):
    """How many bytes the index has."""
    grid = _index_shape(shape, keys["chunk_shape"])
    return len(encoded(keys["index_codecs"], Chunk(UINT64, np.zeros(grid, "<u8")), zero(UINT64)))


def sharding_encoded(keys, chunk, fill, touch):
    inner, is_start = tuple(keys["chunk_shape"]), keys.get("index_location") == "start"
    places = [*_inner_places(chunk.shape, inner)]
    index, joined = [(ABSENT, ABSENT)] * len(places), b""
    before = index_length(keys, chunk.shape) if is_start else 0
    # a writer may store them in any order, and leave gaps
    for number in getattr(touch, "order", list)(range(len(places))):
        part = chunk.at((*places[number], ...))
        if not same(part, full(chunk.kind, inner, fill)):
            joined += getattr(touch, "gap", bytes)()
            value = encoded(keys["codecs"], part, fill, touch)
            index[number] = before + len(joined), len(value)
            joined += value
    numbers = np.array(index, "<u8").reshape(_index_shape(chunk.shape, inner))
    numbers = np.frombuffer(touch(numbers.tobytes(), "numbers of an index"), "<u8").reshape(numbers.shape)
    stored = encoded(keys["index_codecs"], Chunk(UINT64, numbers), zero(UINT64), touch)
    return stored + joined if is_start else joined + stored


def index_of(keys, value, shape):
    """The begin and the end of the index in a value, and where each inner chunk is: its place, its first byte, and how many."""
    inner, size = tuple(keys["chunk_shape"]), index_length(keys, shape)
    require(len(value) >= size, "length of the index")
    begin = 0 if keys.get("index_location") == "start" else len(value) - size
    grid = _index_shape(shape, inner)
    numbers = decoded(keys["index_codecs"], value[begin : begin + size], UINT64, grid, zero(UINT64)).data.reshape(-1, 2)
    rows = [(place, int(at), int(many)) for place, (at, many) in zip(_inner_places(shape, inner), numbers)]
    return (begin, begin + size), rows


def sharding_decoded(keys, value, kind, shape, fill):
    chunk, inner = full(kind, shape, fill), tuple(keys["chunk_shape"])
    for place, at, many in index_of(keys, value, shape)[1]:
        if (at, many) == (ABSENT, ABSENT):
            continue
        require(at + many <= len(value), "range of an inner chunk")
        chunk.put((*place, ...), decoded(keys["codecs"], value[at : at + many], kind, inner, fill))
    return chunk


TO_BYTES = {
    "bytes": (bytes_encoded, bytes_decoded),
    "packbits": (packbits_encoded, packbits_decoded),
    "vlen-utf8": (plain_vlen_encoded, plain_vlen_decoded),
    "vlen-bytes": (plain_vlen_encoded, plain_vlen_decoded),
    "zarrs.vlen": (vlen_encoded, vlen_decoded),
    "zarrs.optional": (optional_encoded, optional_decoded),
    "optional": (optional_encoded, optional_decoded),
    "sharding_indexed": (sharding_encoded, sharding_decoded),
}


# -- bytes to bytes --------------------------------------------------------------------------------------------------


def crc32c(value):
    """The checksum of Castagnoli."""
    crc = 0xFFFFFFFF
    for byte in value:
        crc = crc >> 8 ^ _TABLE[(crc ^ byte) & 255]
    return struct.pack("<I", crc ^ 0xFFFFFFFF)


def _checked(value):
    require(len(value) >= 4 and crc32c(value[:-4]) == value[-4:], "checksum")
    return value[:-4]


def _opened(value):
    try:
        return gzip.decompress(value)
    except (OSError, EOFError, zlib.error, struct.error) as error:
        raise Damaged("gzip") from error


def _numcodecs(name, keys):
    import numcodecs

    if name == "zstd":
        return numcodecs.Zstd(keys["level"])
    shuffle = {"noshuffle": 0, "shuffle": 1, "bitshuffle": 2}[keys["shuffle"]]
    return numcodecs.Blosc(keys["cname"], keys["clevel"], shuffle, keys["blocksize"])


def _packed(codec, value):
    name, keys = named(codec)
    if name == "crc32c":
        return value + crc32c(value)
    if name == "gzip":
        return gzip.compress(value, keys["level"], mtime=0)
    return bytes(_numcodecs(name, keys).encode(value))


def _unpacked(codec, value):
    name, keys = named(codec)
    if name == "crc32c":
        return _checked(value)
    if name == "gzip":
        return _opened(value)
    try:
        return bytes(_numcodecs(name, keys).decode(value))
    except (RuntimeError, ValueError) as error:
        raise Damaged(name) from error


# -- chains ----------------------------------------------------------------------------------------------------------


def parted(codecs):
    """The array-to-array codecs of a list, the array-to-bytes codec, and those behind it."""
    first = next(place for place, codec in enumerate(codecs) if named(codec)[0] in TO_BYTES)
    return codecs[:first], codecs[first], codecs[first + 1 :]


def encoded(codecs, chunk, fill, touch=untouched):
    """The value of a chunk. Each value on the way is given to a call, which may damage it, with what it is."""
    before, codec, behind = parted(codecs)
    for one in before:
        chunk = chunk.mapped(lambda array, one=one: moved(one, array))
    name, keys = named(codec)
    value = touch(TO_BYTES[name][0](keys, chunk, fill, touch), name)
    for one in behind:
        value = touch(_packed(one, value), named(one)[0])
    return value


def decoded(codecs, value, kind, shape, fill):
    """The chunk of a value. Raises `Damaged` where it is none of the format."""
    before, codec, behind = parted(codecs)
    value = bytes(value)
    for one in reversed(behind):
        value = _unpacked(one, value)
    shapes = [tuple(shape)]
    for one in before:
        shapes.append(moved(one, np.empty(shapes[-1], np.uint8)).shape if math.prod(shape) < 1 << 20 else shapes[-1])
    name, keys = named(codec)
    chunk = TO_BYTES[name][1](keys, value, kind, shapes[-1], fill)
    for one, size in zip(reversed(before), reversed(shapes[:-1])):
        chunk = chunk.mapped(lambda array, one=one, size=size: moved_back(one, array, size))
    return chunk
