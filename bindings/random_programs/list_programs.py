"""Programs of lists of Python's own, and of elements that aren't of the type."""

import math

import numpy as np
from formats import decoded
from judge import OF_ELEMENTS, check, refusing, require
from kinds import BYTES, LETTERS, TEXT, Chunk
from whole_programs import Made
from zarrs_codecs import Array, Chain


def _some_texts(draws, kind, count):
    """Texts or byte strings, with zeros anywhere."""
    parts = [draws.one_of(LETTERS) + draws.one_of(["", "\0", "\0\0", "x"]) for _ in range(count)]
    return parts if kind.is_text else [part.encode() for part in parts]


def _nested(parts, shape, form):
    """A list of lists, or a tuple of tuples."""
    if not shape:
        return parts[0]
    size = math.prod(shape[1:])
    return form(_nested(parts[n * size : (n + 1) * size], shape[1:], form) for n in range(shape[0]))


def _codecs(draws, kind):
    if draws.chance(2):
        return ["vlen-utf8" if kind.is_text else "vlen-bytes"]
    keys = {"index_codecs": [{"name": "bytes", "configuration": {"endian": "little"}}], "data_codecs": ["bytes"]}
    return [{"name": "zarrs.vlen", "configuration": {**keys, "index_data_type": "uint32", "index_location": "end"}}]


def lists(draws, say, room):
    """Texts and byte strings of a list, a tuple or alone are stored with all their zeros, by each call."""
    kind = draws.one_of([BYTES, TEXT])
    shape = draws.one_of([(1,), (), (2,), (3, 2)])
    parts = _some_texts(draws, kind, math.prod(shape))
    given = _nested(parts, shape, draws.one_of([list, tuple]))
    codecs = _codecs(draws, kind)
    fill = Chunk(kind, np.array("" if kind.is_text else b"", object))
    due = np.empty(len(parts), object)
    due[:] = parts
    due = Chunk(kind, due.reshape(shape))
    chain = Chain(codecs, shape, kind.name)
    say(f"chain = Chain({codecs}, {shape}, {kind.name!r})")
    ways = {
        "encode": lambda: chain.encode(given),
        "write": lambda: chain.write(None, ..., given),
        "write_many": lambda: chain.write_many(None, [(..., given)]),
    }
    way = draws.one_of([*ways, "array"])
    say(f"{way} of {given!r}")
    if way == "array":
        array = Array.create(room / "array", shape, shape, kind.name, codecs=codecs)
        array[...] = given
        value = array.chunk_path((0,) * len(shape)).read_bytes()
    else:
        value = bytes(ways[way]())
    check(kind, decoded(codecs, value, kind, shape, fill).data, due, way)


def mixed(draws, say, room):
    """A list with something else than texts, or than byte strings, is refused, and nothing is stored of it."""
    kind = draws.one_of([TEXT, BYTES])
    parts = _some_texts(draws, kind, draws.below(3))
    strange = draws.one_of([1, True, 1.5, b"b" if kind.is_text else "b", 2j, np.int8(3), None, [1]])
    parts.insert(draws.below(len(parts) + 1), strange)
    chain = Chain(_codecs(draws, kind), (len(parts),), kind.name)
    given = draws.one_of([list, tuple])(parts)
    say(f"{kind.name}: {given!r}")
    calls = {
        "encode": lambda: chain.encode(given),
        "write": lambda: chain.write(None, ..., given),
        "write_many": lambda: chain.write_many(None, [(..., given)]),
        "write of one": lambda: chain.write(None, 0, strange),
    }
    way = draws.one_of(calls)
    with refusing(OF_ELEMENTS, way):
        calls[way]()


def wrong_elements(draws, say, room):
    """Elements of other kinds are refused, and change nothing."""
    made = Made(draws, say)
    wrong = _wrong(draws, made.kind)
    say(f"elements {wrong!r}")
    array = np.empty(made.shape, object)
    array[...] = wrong
    with refusing(OF_ELEMENTS, f"encode of {wrong!r}"):
        made.chain.encode(array.tolist())
    with refusing(OF_ELEMENTS, f"write of {wrong!r}"):
        made.chain.write(made.value, ..., wrong)
    mine = bytearray(made.value)
    with refusing(OF_ELEMENTS, f"write of {wrong!r} in place"):
        made.chain.write(mine, ..., wrong, out=mine)
    require(bytes(mine) == made.value, "a write that is refused leaves another value")


def _wrong(draws, kind):
    """An element that isn't of a type."""
    letter = kind.dtype.kind
    if letter == "O":
        return draws.one_of([1, True, 1.5, b"a" if kind.is_text else "a", 2 + 1j])
    if letter in "iu":
        return draws.one_of(["a", 1 << 70, -(1 << 70), 1j, b"a"])
    if letter in "fc":
        return draws.one_of(["a", b"a", "nothing"])
    if letter == "b":
        return draws.one_of(["a", 2, -1, b"a"])
    if letter == "S":
        return draws.one_of([1, 1.5, b"abcdefgh"])
    if letter == "U":
        return draws.one_of([1, 1.5, "abcdefgh"])
    return draws.one_of(["a", "x" * 40])
