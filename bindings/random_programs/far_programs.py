"""Programs of chunks that are longer than memory, and of files that others write while an array is open."""

import json
import math
import os

import numpy as np
from array_programs import Access
from built import metadata_of
from chains import some_codecs
from formats import decoded, encoded
from judge import attempt, check, require
from kinds import UINT8, Chunk, fill_json, some_chunk, some_kind
from zarrs_codecs import Array, Chain
from zarrs_codecs.refusals import Refused


def _byte(place):
    """The byte at a place of a file without an end."""
    return (place ^ place >> 8 ^ place >> 31 ^ place >> 60) & 255


class Endless:
    """A file of as many bytes as are said, each made of its place."""

    def __init__(self, length):
        self._length, self._place, self.asked = length, 0, 0

    def seek(self, place, whence=os.SEEK_SET):
        self._place = place + (self._length if whence == os.SEEK_END else 0)
        return self._place

    def readinto(self, buffer):
        count = max(min(len(buffer), self._length - self._place), 0)
        self.asked += count
        require(self.asked < 1 << 22, f"{self.asked} bytes are asked for")
        buffer[:count] = bytes(_byte(self._place + n) for n in range(count))
        self._place += count
        return count


def _near_ends(draws, size):
    """A place on a long axis, counted from an end."""
    place = draws.one_of([0, 1, size - 1, size - 2, size // 2, size // 3]) % size
    return place - size * draws.below(2)


def _far_entry(draws, size):
    """An entry of an index, and the places that it means."""
    first = _near_ends(draws, size)
    if draws.below(2) == 0:
        return first, [first % size], True
    step = draws.one_of([1, -1, 2, size // 3 + 1, -(size // 3) - 1])
    last = first % size + step * draws.between(1, 4)
    one = slice(first, last if 0 <= last < size else None, step) if abs(step) > 2 else slice(*_few(first % size, step, size), step)
    return one, [*range(*one.indices(size))], False


def _few(first, step, size):
    last = first + 4 * step
    return first, None if last < 0 else min(last, size)


def far(draws, say, room):
    """Elements of a chunk that is longer than any memory are read by their places."""
    shape = draws.one_of([((1 << 40) + 3,), (1 << 33, 3), (3, 1 << 62), ((1 << 62) + 1,), ((1 << 63) + 10,), (2, (1 << 62) + 7)])
    chain, file = Chain(["bytes"], shape, "uint8"), Endless(math.prod(shape))
    strides = [math.prod(shape[axis + 1 :]) for axis in range(len(shape))]
    if draws.chance(2):
        rows = [[_near_ends(draws, size) for size in shape] for _ in range(draws.between(1, 4))]
        index, sizes = rows, (len(rows),)
        places = [sum(one % size * stride for one, size, stride in zip(row, shape, strides)) for row in rows]
    else:
        entries = [_far_entry(draws, size) for size in shape]
        index = tuple(entry for entry, _, _ in entries)
        sizes = tuple(len(found) for _, found, is_place in entries if not is_place)
        places = [0]
        for (_, found, _), stride in zip(entries, strides):
            places = [before + one * stride for before in places for one in found]
    say(f"a chunk of {shape} bytes, read_from of {index!r}")
    due = np.array([_byte(place) for place in places], np.uint8).reshape(sizes)
    found, error = attempt((Refused, MemoryError, EOFError, IndexError), chain.read_from, file, index)
    if isinstance(error, IndexError) and isinstance(index, list) and np.asarray(index).dtype.kind not in "iu":
        # numpy has other numbers for them
        return
    require(error is None, f"{error!r}")
    check(UINT8, found, Chunk(UINT8, due), "read_from")


def rewritten(draws, say, room):
    """A chunk that others write while an array is open is read as it is."""
    kind = some_kind(draws)
    sizes = tuple(draws.one_of([1, 4, 6]) for _ in range(draws.between(1, 2)))
    fill = some_chunk(draws, kind, ())
    codecs = some_codecs(draws, kind, sizes)
    folder = room / "array"
    folder.mkdir()
    said = metadata_of(sizes, sizes, kind.name, fill_json(kind, fill), codecs, {"name": "default", "configuration": {"separator": "."}})
    say(f"zarr.json: {json.dumps(said)}")
    (folder / "zarr.json").write_text(json.dumps(said))
    array, path = Array(folder), folder / ".".join(["c", *("0" for _ in sizes)])
    for number in range(draws.between(2, 4)):
        value = encoded(codecs, some_chunk(draws, kind, sizes), fill)
        way = draws.one_of(["in place", "replaced", "with the old time"])
        before = path.stat() if path.exists() else None
        made = path if way == "in place" else folder / "other"
        made.write_bytes(value)
        os.replace(made, path)
        if way == "with the old time" and before is not None:
            os.utime(path, ns=(before.st_atime_ns, before.st_mtime_ns))
        access = Access(draws, sizes)
        say(f"value {number} is written {way}, {access!r}")
        check(kind, access.read(array), access.due(decoded(codecs, value, kind, sizes, fill)), "a read behind a write")
