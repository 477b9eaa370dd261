"""Random codecs, one inside another, that take a chunk."""

import importlib.util
import math

import numpy as np
from draws import Draws
from formats import TO_ARRAY, moved, named, parted

LITTLE = {"name": "bytes", "configuration": {"endian": "little"}}
BIG = {"name": "bytes", "configuration": {"endian": "big"}}
HAS_NUMCODECS = importlib.util.find_spec("numcodecs") is not None


def transpose(order):
    """The codec of an order."""
    return {"name": "transpose", "configuration": {"order": list(order)}}


def _reshape(draws: Draws, shape):
    """A reshape that takes such a chunk."""
    axes = len(shape)
    forms = [[-1], [1, -1], [-1, 1]]
    if axes:
        forms += [[*([axis] for axis in range(axes - 1)), -1], [list(range(axes))], [-1, shape[-1]]]
        forms += [[-1, [axes - 1]], [[axes - 1, *range(axes - 1)]]]
    return {"name": "reshape", "configuration": {"shape": draws.one_of(forms)}}


def _to_array(draws, kind, shape):
    """Array-to-array codecs, few or none, and the shape behind them."""
    codecs = []
    for _ in range(max(draws.below(5) - 2, 0)):
        sort = draws.below(4)
        if sort in (0, 1) and not kind.is_optional:
            codecs.append(transpose(draws.order(range(len(shape)))))
        elif sort == 2:
            codecs.append(_reshape(draws, shape))
        elif sort == 3:
            codecs.append(draws.one_of(["zarrs.squeeze", {"name": "zarrs.squeeze"}]))
        else:
            continue
        shape = moved(codecs[-1], np.empty(shape, np.uint8)).shape
    return codecs, shape


def _bytes(draws, kind):
    if kind.component == 1 and draws.chance(2):
        return draws.one_of(["bytes", {"name": "bytes"}])
    return draws.one_of([LITTLE, BIG])


def _packbits(draws, kind, is_lossy):
    keys = {}
    if draws.chance(2):
        keys["padding_encoding"] = draws.one_of(["none", "first_byte", "last_byte"])
    if is_lossy and draws.chance(3):
        first = draws.below(kind.bits)
        keys |= {"first_bit": first, "last_bit": draws.between(first, kind.bits - 1)}
    return {"name": "packbits", "configuration": keys} if keys else "packbits"


def _checksums(draws):
    return ["crc32c"] * max(draws.below(5) - 2, 0)


def _flat(draws, kind, is_lossy=False):
    """A codec of elements of one size."""
    return _packbits(draws, kind, is_lossy) if draws.chance(3) else _bytes(draws, kind)


def _texts(draws, kind):
    """A codec of texts or byte strings."""
    if draws.chance(2):
        return "vlen-utf8" if kind.is_text else "vlen-bytes"
    endian = draws.one_of([LITTLE, BIG])
    keys = {
        "index_codecs": [endian, *_checksums(draws)],
        "data_codecs": [draws.one_of(["bytes", "packbits"]), *_checksums(draws)],
        "index_data_type": draws.one_of(["uint64", "uint32"]),
        "index_location": draws.one_of(["start", "end"]),
    }
    return {"name": "zarrs.vlen", "configuration": keys}


def _optional(draws, kind, shape):
    """A codec of elements that may be absent."""
    mask = [draws.one_of(["packbits", "bytes"]), *_checksums(draws)]
    if shape and draws.chance(3):
        mask = [transpose(draws.order(range(len(shape)))), *mask]
    inside = _texts(draws, kind) if kind.is_variable else _flat(draws, kind)
    keys = {"mask_codecs": mask, "data_codecs": [inside, *_checksums(draws)]}
    return {"name": draws.one_of(["zarrs.optional", "optional"]), "configuration": keys}


def _shard(draws, kind, shape, depth, pythons):
    """A shard of inner chunks whose sizes divide those of the chunk."""
    inner = [draws.one_of([part for part in range(1, size + 1) if size % part == 0]) for size in shape]
    index = []
    if draws.chance(4):
        index.append(draws.one_of([transpose(draws.order(range(len(shape) + 1))), _reshape(draws, (*shape, 2))]))
    index += [draws.one_of([LITTLE, BIG]), *_checksums(draws)]
    keys = {
        "chunk_shape": inner,
        "codecs": some_codecs(draws, kind, tuple(inner), depth + 1, pythons),
        "index_codecs": index,
    }
    if draws.chance(2):
        keys["index_location"] = draws.one_of(["end", "start"])
    return {"name": "sharding_indexed", "configuration": keys}


def _pythons(draws):
    """Codecs that Python runs, with checksums or without."""
    choices = [{"name": "gzip", "configuration": {"level": draws.between(0, 9)}}]
    if HAS_NUMCODECS:
        blosc = {"cname": draws.one_of(["lz4", "zstd"]), "clevel": 5, "shuffle": "noshuffle", "blocksize": 0, "typesize": 1}
        choices.append({"name": "zstd", "configuration": {"level": draws.between(1, 5), "checksum": False}})
        choices.append({"name": "blosc", "configuration": blosc})
    return [draws.one_of(choices), *_checksums(draws)]


def some_codecs(draws, kind, shape, depth=0, pythons=True):
    """Codecs that take a chunk of this type and shape."""
    if pythons and draws.chance(10) and depth < 2:
        return [_shard(draws, kind, shape, depth, True)]
    before, shape = _to_array(draws, kind, shape)
    is_sharded = depth < 2 and math.prod(shape) > 1 and draws.chance(3 if depth == 0 else 4)
    if is_sharded:
        codec = _shard(draws, kind, shape, depth, False)
    elif kind.is_optional:
        codec = _optional(draws, kind, shape)
    elif kind.is_variable:
        codec = _texts(draws, kind)
    else:
        codec = _flat(draws, kind, depth == 0)
    behind = _checksums(draws)
    if pythons and draws.chance(5):
        behind += _pythons(draws)
    return [*before, codec, *behind]


def names_in(codecs):
    """The names of codecs, those inside others too."""
    for codec in codecs:
        name, keys = named(codec)
        yield name
        for key, inner in keys.items():
            if key.endswith("codecs"):
                yield from names_in(inner)


def edits_in_place(codecs):
    """Whether a value is edited where it stands: array-to-array codecs and `bytes` alone."""
    before, codec, behind = parted(codecs)
    return not behind and named(codec)[0] == "bytes" and all(named(one)[0] in TO_ARRAY for one in before)


class Loose:
    """Has shards encoded as another writer may: inner chunks in any order, with gaps between them."""

    def __init__(self, draws):
        self._draws = draws

    def __call__(self, value, what):
        return value

    def order(self, numbers):
        """The numbers of inner chunks, as they are stored."""
        return self._draws.order(numbers)

    def gap(self):
        """Bytes that are of no inner chunk."""
        return bytes(self._draws.below(3))
