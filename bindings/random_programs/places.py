"""Reads in part: which bytes of a value the elements at some places rest on, and what they are where these bytes alone are
looked at."""

import math

import numpy as np
from formats import ABSENT, decoded, index_of, moved, moved_back, named, parted, require
from kinds import full


def _through(before, array):
    for codec in before:
        array = moved(codec, array)
    return array


def _bits_of(name, keys, kind):
    """How many bits an element takes in a value, and how many bytes stand before all."""
    if name == "bytes":
        return 8 * kind.dtype.itemsize, 0
    first, last = keys.get("first_bit") or 0, keys.get("last_bit")
    kept = (kind.bits - 1 if last is None else last) - first + 1
    is_whole = kind.bits % 8 == 0 and kept == kind.bits
    return kept * kind.count, int(keys.get("padding_encoding") == "first_byte" and not is_whole)


def _spans(name, keys, kind, count):
    """The first byte of each element, and the one behind its last."""
    bits, before = _bits_of(name, keys, kind)
    at = np.arange(count, dtype=np.int64) * bits
    return before + at // 8, before + -(-(at + bits) // 8)


def rests_on(codecs, value, kind, shape, wanted, closed=None, is_inside=False):
    """Which bytes of a value a read rests on whose places are wanted, true in an array of the shape; those of the closed
    places may be read as well, but for inner chunks with none that is wanted. None where it is the whole value, as of shards
    inside that stand behind a change of axes."""
    before, codec, behind = parted(codecs)
    name, keys = named(codec)
    if behind or name not in ("bytes", "packbits", "sharding_indexed"):
        return None
    is_reshaped = any(named(one)[0] != "transpose" for one in before)
    if is_inside and is_reshaped and name == "sharding_indexed":
        return None
    wanted = _through(before, wanted)
    closed = wanted if closed is None else _through(before, closed)
    seen = np.zeros(len(value), bool)
    if name != "sharding_indexed":
        begins, ends = _spans(name, keys, kind, wanted.size)
        for place in np.flatnonzero(closed.reshape(-1)):
            seen[begins[place] : ends[place]] = True
        return seen
    (begin, end), rows = index_of(keys, value, wanted.shape)
    seen[begin:end] = True
    for place, at, many in rows:
        if at == ABSENT or not wanted[place].any():
            continue
        part, sizes, has_axes = value[at : at + many], keys["chunk_shape"], (wanted[place], closed[place])
        has_shard = named(parted(keys["codecs"])[1])[0] == "sharding_indexed"
        inner = None if is_reshaped and has_shard else rests_on(keys["codecs"], part, kind, sizes, *has_axes, True)
        seen[at : at + many] |= True if inner is None else inner
    return seen


def _read_elements(name, keys, value, kind, wanted):
    """The elements of `bytes` or `packbits` at places, by their bytes alone."""
    begins, ends = _spans(name, keys, kind, wanted.size)
    places = np.flatnonzero(wanted.reshape(-1))
    require(not places.size or ends[places].max() <= len(value), "a place behind the value")
    if not wanted.size:
        return decoded([{"name": name, "configuration": keys}], value, kind, wanted.shape, None)
    bits, before = _bits_of(name, keys, kind)
    due = before + -(-(wanted.size * bits) // 8)
    value = (value + bytes(due))[before:due]
    alone = {**keys, "padding_encoding": "none"} if name == "packbits" else keys
    return decoded([{"name": name, "configuration": alone}], value, kind, wanted.shape, None)


def read(codecs, value, kind, shape, fill, wanted):
    """A chunk whose elements at the wanted places are those of a value, where a read in part looks at no more than it has to.
    Raises `Damaged`."""
    before, codec, behind = parted(codecs)
    name, keys = named(codec)
    if behind or name not in ("bytes", "packbits", "sharding_indexed"):
        return decoded(codecs, value, kind, shape, fill)
    shapes = [tuple(shape)]
    for one in before:
        shapes.append(moved(one, np.empty(shapes[-1], np.uint8)).shape)
    wanted = _through(before, wanted)
    if name != "sharding_indexed":
        chunk = _read_elements(name, keys, value, kind, wanted)
    else:
        chunk = _read_shard(keys, value, kind, fill, wanted)
    for one, size in zip(reversed(before), reversed(shapes[:-1])):
        chunk = chunk.mapped(lambda array, one=one, size=size: moved_back(one, array, size))
    return chunk


def _read_shard(keys, value, kind, fill, wanted):
    chunk, inner = full(kind, wanted.shape, fill), tuple(keys["chunk_shape"])
    for place, at, many in index_of(keys, value, wanted.shape)[1]:
        if (at, many) == (ABSENT, ABSENT) or not wanted[place].any():
            continue
        require(at + many <= len(value), "range of an inner chunk")
        chunk.put((*place, ...), read(keys["codecs"], value[at : at + many], kind, inner, fill, wanted[place]))
    return chunk


def is_partial(codecs):
    """Whether a read looks at the bytes of its places alone, at every depth."""
    _, codec, behind = parted(codecs)
    name, keys = named(codec)
    if behind:
        return False
    return name in ("bytes", "packbits") or name == "sharding_indexed" and is_partial(keys["codecs"])


def wanted_of(shape, index):
    """Which places an index of numpy's selects."""
    wanted = np.zeros(shape, bool)
    wanted[index] = True
    return wanted


def closed_of(shape, index):
    """The same places and those between them on each axis, of a basic index."""
    numbers = np.arange(math.prod(shape)).reshape(shape)
    chosen = np.unravel_index(np.asarray(numbers[index]).reshape(-1), shape) if shape else ()
    closed = np.zeros(shape, bool)
    if not shape or not chosen[0].size:
        return wanted_of(shape, index)
    closed[tuple(slice(int(axis.min()), int(axis.max()) + 1) for axis in chosen)] = True
    return closed


