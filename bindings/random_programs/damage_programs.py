"""Programs of values that are damaged, at any depth, with checksums that are right around it."""

import sys

import numpy as np
from files import CountingFile, LyingFile, Raised
from formats import Damaged, decoded, encoded, same
from judge import OF_VALUES, attempt, check, require
from places import is_partial, read, wanted_of
from whole_programs import Made, some_index

# Values of codecs whose own readers are no judges of them.
_OTHERS = ("zstd", "blosc", "gzip")


def _damage(draws, value):
    """A value that is another one, mostly."""
    sort, value = draws.below(7), bytearray(value)
    if sort == 0 or not value:
        return bytes(value) + bytes(draws.between(1, 9))
    at = draws.below(len(value))
    if sort == 1:
        return bytes(value[:at])
    if sort == 2:
        value[at] ^= 1 << draws.below(8)
    elif sort == 3:
        value[at] = draws.one_of([0, 255, 1, 128])
    elif sort == 4:
        return bytes(value[1:])
    elif sort == 5:
        value[at : at + 8] = bytes([draws.one_of([0, 255])]) * len(value[at : at + 8])
    else:
        value[at:at] = bytes(draws.between(1, 8))
    return bytes(value)


class Damager:
    """Damages the value of this number among those that are made on the way."""

    def __init__(self, draws, number):
        self._draws, self._number = draws, number
        self.count, self.what = 0, ""

    def __call__(self, value, what):
        self.count += 1
        if self.count - 1 != self._number or what in _OTHERS:
            return value
        self.what = what
        damaged = _damage(self._draws, value)
        # the numbers of an index stay as many
        return damaged[: len(value)].ljust(len(value), b"\0") if what == "numbers of an index" else damaged


def _damaged(draws, made):
    """A damaged value, and what was damaged."""
    before = Damager(draws, -1)
    encoded(made.codecs, made.chunk, made.fill, before)
    damager = Damager(draws, draws.below(before.count))
    return encoded(made.codecs, made.chunk, made.fill, damager), damager.what


def _judged(call, *arguments):
    """What the formats make of a value, and whether it is one."""
    try:
        return call(*arguments), True
    except Damaged:
        return None, False


def damaged(draws, say, room):
    """A damaged value is refused just where the format has no chunk for it; reads of parts answer what they rest on."""
    made = Made(draws, say)
    value, what = _damaged(draws, made)
    say(f"damaged {what}: value = bytes.fromhex({value.hex()!r})")
    due, is_one = _judged(decoded, made.codecs, value, made.kind, made.shape, made.fill)
    found, error = attempt(OF_VALUES, made.chain.decode, value)
    require(is_one or error is not None, "decode: no error, of a value that stands for no chunk")
    require(not is_one or error is None, f"decode: {error!r}, of a value that stands for a chunk")
    if is_one:
        check(made.kind, found, due, "decode")
    for index, numpys in [some_index(made) for _ in range(2)]:
        _read_parts(made, value, due, index, numpys)


def _are_texts(chunk):
    """Whether numpy can make a text of each element: it can't of numbers that are no characters."""
    if chunk is None or chunk.data.dtype.kind != "U":
        return True
    return bool((np.ascontiguousarray(chunk.data).reshape(-1).view(np.uint32) <= sys.maxunicode).all())


def _read_parts(made, value, whole, index, numpys):
    """Reads in all ways, of a value of which the whole chunk is given where it is one."""
    due, is_one = None, False
    if whole is not None or is_partial(made.codecs):
        wanted = wanted_of(made.shape, numpys)
        due, is_one = _judged(read, made.codecs, value, made.kind, made.shape, made.fill, wanted)
    if not all(_are_texts(chunk) for chunk in (whole, due)):
        return
    if whole is not None and due is not None:
        require(same(due.at(numpys), whole.at(numpys)), "the formats differ by themselves")
    made.say(f"read, read_many and read_from of {index!r}")
    ways = {
        "read": lambda: made.chain.read(value, index),
        "read_many": lambda: made.chain.read_many(value, [index])[0],
        "read_from": lambda: made.chain.read_from(CountingFile(value, made.draws), index),
    }
    for name, way in ways.items():
        found, error = attempt(OF_VALUES, way)
        if error is not None:
            require(whole is None, f"{name}: {error!r}, of a value that stands for a chunk")
            continue
        if is_partial(made.codecs):
            require(is_one, f"{name}: no error, of a value whose bytes there aren't right")
        if due is not None:
            check(made.kind, found, due.at(numpys), name)


def broken_files(draws, say, room):
    """A file that raises, or that says other counts than it fills, gives its error or the right answer."""
    made = Made(draws, say, pythons=False)
    index, numpys = some_index(made)
    due = made.kept.at(numpys)
    if draws.chance(3):
        lie = draws.one_of([-1, 0, -5, len(made.value) + 1, 1 << 40])
        say(f"read_from a file that says {lie} once, {index!r}")
        found, error = attempt((OSError, EOFError, ValueError, TypeError), made.chain.read_from, LyingFile(made.value, lie), index)
    else:
        at = draws.between(1, 8)
        say(f"read_from a file that raises at call {at}, {index!r}")
        found, error = attempt((Raised,), made.chain.read_from, CountingFile(made.value, draws, at), index)
    if error is None:
        check(made.kind, found, due, "read_from")
