"""Data types, chunks of elements, and random ones: as the Zarr v3 standard and zarr-extensions have them, and numpy."""

import base64
import math
from dataclasses import dataclass, replace
from typing import Any

import numpy as np

LETTERS = ["a", "\0", "b", "", "é", "\U0001f600", "\x7f", "\0\0", "zz"]


@dataclass(frozen=True)
class Kind:
    """A data type: its name as `zarr.json` has it, numpy's type, and of a type of one size the bits of a component, how many
    of them an element has, and whether they have a sign."""

    name: Any
    dtype: Any
    bits: int = 0
    count: int = 1
    signed: bool = False
    is_text: bool = False
    is_optional: bool = False

    @property
    def is_variable(self):
        """Whether elements are texts or byte strings."""
        return self.dtype == object

    @property
    def is_plain(self):
        """Whether elements have one size, and all are there."""
        return not self.is_variable and not self.is_optional

    @property
    def component(self):
        """How many bytes a component has."""
        return -(-self.bits // 8)

    @property
    def inside(self):
        """The type of the elements that are there."""
        return replace(self, is_optional=False)


def _plain_kinds():
    yield Kind("uint8", np.dtype("u1"), 8)
    yield Kind("bool", np.dtype(bool), 1)
    for bits in (2, 4, 8, 16, 32, 64):
        size = max(bits // 8, 1)
        yield Kind(f"int{bits}", np.dtype(f"<i{size}"), bits, signed=True)
        yield Kind(f"uint{bits}", np.dtype(f"<u{size}"), bits)
    for bits in (16, 32, 64):
        yield Kind(f"float{bits}", np.dtype(f"<f{bits // 8}"), bits)
    for bits in (64, 128):
        yield Kind(f"complex{bits}", np.dtype(f"<c{bits // 8}"), bits // 2, 2)
    for size in (1, 3, 16):
        yield Kind(f"r{8 * size}", np.dtype(f"V{size}"), 8, size)
    for name, letter in (("numpy.datetime64", "M"), ("numpy.timedelta64", "m")):
        said = {"name": name, "configuration": {"unit": "s", "scale_factor": 10}}
        yield Kind(said, np.dtype(f"<{letter}8[10s]"), 64, signed=True)
    yield Kind({"name": "fixed_length_utf32", "configuration": {"length_bytes": 12}}, np.dtype("<U3"), 32, 3)
    yield Kind({"name": "null_terminated_bytes", "configuration": {"length_bytes": 5}}, np.dtype("S5"), 8, 5)
    yield Kind({"name": "raw_bytes", "configuration": {"length_bytes": 5}}, np.dtype("V5"), 8, 5)


PLAIN = list(_plain_kinds())
TEXT = Kind("string", np.dtype(object), is_text=True)
BYTES = Kind("bytes", np.dtype(object))
MASK = Kind("bool", np.dtype("u1"), 1)
UINT8 = PLAIN[0]
UINT32 = Kind("uint32", np.dtype("<u4"), 32)
UINT64 = Kind("uint64", np.dtype("<u8"), 64)


def some_kind(draws):
    """A data type of any sort."""
    sort = draws.below(8)
    kind = draws.one_of([TEXT, BYTES]) if sort in (5, 6) else draws.one_of(PLAIN)
    if sort == 7:
        kind = draws.one_of([*PLAIN, TEXT, BYTES, TEXT, BYTES])
    if draws.chance(4):
        name = {"name": "zarrs.optional", "configuration": {"name": kind.name}}
        if isinstance(kind.name, dict):
            name = {"name": "zarrs.optional", "configuration": kind.name}
        return replace(kind, name=name, is_optional=True)
    return kind


@dataclass
class Chunk:
    """Elements of a type, and of an optional one which are absent."""

    kind: Kind
    data: Any
    absent: Any = None

    @property
    def shape(self):
        """Its sizes."""
        return self.data.shape

    def at(self, index):
        """The elements at an index of numpy's."""
        return Chunk(self.kind, array_at(self.data, index), None if self.absent is None else np.asarray(self.absent[index]))

    def put(self, index, other):
        """Puts elements at an index of numpy's, broadcast."""
        self.data[index] = other.data if other.data.ndim else other.data[()]
        if self.absent is not None:
            self.absent[index] = other.absent

    def mapped(self, change):
        """The chunk whose arrays are changed in this way."""
        return Chunk(self.kind, change(self.data), None if self.absent is None else change(self.absent))

    def copy(self):
        """The same, of its own."""
        return self.mapped(np.copy)


def array_at(data, index):
    """What numpy has at an index, an array of the same type also of one element."""
    found = data[index]
    if isinstance(found, np.ndarray):
        return found
    one = np.empty((), data.dtype)
    one[()] = found
    return one


def blank(kind):
    """What stands under an element that is absent."""
    if kind.is_variable:
        return "" if kind.is_text else b""
    return np.zeros((), kind.dtype)[()]


def full(kind, shape, fill):
    """A chunk of fill values."""
    data = np.empty(shape, kind.dtype)
    data[...] = fill.data[()]
    return Chunk(kind, data, np.full(shape, bool(fill.absent)) if kind.is_optional else None)


def _fixed(rng, kind, count):
    raw = rng.integers(0, 256, count * kind.dtype.itemsize, np.uint8).tobytes()
    letter = kind.dtype.kind
    if kind.bits in (1, 2, 4):
        low, high = (-(1 << kind.bits - 1), 1 << kind.bits - 1) if kind.signed else (0, 1 << kind.bits)
        return rng.integers(low, high, count).astype(kind.dtype)
    if letter == "U":
        return np.array(["".join(LETTERS[n] for n in rng.integers(0, 7, rng.integers(0, 4)))[:3] for _ in range(count)], kind.dtype)
    if letter in "SV" and count:
        whole = np.frombuffer(raw, np.uint8) * (rng.integers(0, 3, len(raw)) > 0)
        return np.frombuffer(whole.astype(np.uint8).tobytes(), kind.dtype).copy()
    return np.frombuffer(raw, kind.dtype).copy()


def _texts(rng, kind, count):
    data = np.empty(count, object)
    for place in range(count):
        text = "".join(LETTERS[n] for n in rng.integers(0, len(LETTERS), rng.integers(0, 5)))
        data[place] = text if kind.is_text else text.encode() + bytes(int(rng.integers(0, 3)))
    return data


def some_chunk(draws, kind, shape, fill=None):
    """A chunk of random elements, some of which are fill values."""
    rng, count = draws.numbers(), math.prod(shape)
    make = _texts if kind.is_variable else _fixed
    data = make(rng, kind, count)
    absent = rng.integers(0, 3, count) == 0 if kind.is_optional else None
    if absent is not None and draws.chance(4):
        absent[...] = draws.chance(2)
    chunk = Chunk(kind, data.reshape(shape), None if absent is None else absent.reshape(shape))
    if fill is not None:
        is_fill = np.zeros(shape, bool)
        for _ in range(draws.below(4)):
            is_fill[tuple(slice(*sorted(rng.integers(0, size + 1, 2).tolist())) for size in shape)] = True
        chunk.put(is_fill, full(kind, (int(is_fill.sum()),), fill))
    if absent is not None:
        chunk.data[chunk.absent] = blank(kind)
    return chunk


def _float_json(value):
    bits = value.tobytes()[::-1].hex()
    if np.isfinite(value) and value == int(value) and abs(value) < 1000 and not np.signbit(value):
        return float(value)
    return f"0x{bits}"


def fill_json(kind, fill):
    """A fill value, a chunk of no axes, as `zarr.json` has it."""
    if kind.is_optional:
        return None if fill.absent else [fill_json(kind.inside, Chunk(kind.inside, fill.data))]
    one = fill.data[()]
    match kind.dtype.kind:
        case "O":
            return one if kind.is_text else base64.b64encode(one).decode()
        case "b":
            return bool(one)
        case "f":
            return _float_json(one)
        case "c":
            return [_float_json(one.real), _float_json(one.imag)]
        case "V" if isinstance(kind.name, str):
            return list(fill.data.tobytes())
        case "V" | "S":
            return base64.b64encode(fill.data.tobytes()).decode()
        case "U":
            return str(one)
        case "m" | "M":
            return int(fill.data.astype(np.int64))
    return int(one)


