"""Codecs, and random chunks, regions and files for the tests."""

import io
import json
import math

import numpy as np

from zarrs_codecs import Array

LITTLE = {"name": "bytes", "configuration": {"endian": "little"}}
BIG = {"name": "bytes", "configuration": {"endian": "big"}}
VLEN = {
    "name": "zarrs.vlen",
    "configuration": {
        "index_codecs": [LITTLE],
        "data_codecs": ["bytes"],
        "index_data_type": "uint64",
        "index_location": "start",
    },
}
NUMERIC = [
    "bool",
    *(f"{kind}int{bits}" for kind in ("", "u") for bits in (8, 16, 32, 64)),
    *("float16", "float32", "float64", "complex64", "complex128"),
]
NARROW = ["int2", "int4", "uint2", "uint4"]
RAW = ["r8", "r24", "r128"]


def transpose(order):
    return {"name": "transpose", "configuration": {"order": [int(axis) for axis in order]}}


def optional(data, mask="packbits"):
    return {"name": "optional", "configuration": {"mask_codecs": [mask], "data_codecs": [data]}}


def loose_values(offsets, data):
    """A codec of each form of `vlen`, and the value of it that has these offsets and data, made by hand."""
    for data_type, size in (("uint32", 4), ("uint64", 8)):
        index = b"".join(offset.to_bytes(size, "little") for offset in offsets)
        length = len(index).to_bytes(8, "little")
        for place, value in (("start", length + index + data), ("end", data + index + length)):
            form = {"index_data_type": data_type, "index_location": place}
            yield {**VLEN, "configuration": {**VLEN["configuration"], **form}}, value


def some_shape(rng, axes=None):
    axes = int(rng.integers(0, 5)) if axes is None else axes
    return tuple(int(size) for size in rng.integers(1, 7, axes))


def some(rng, name, dtype, shape):
    """Random elements of a data type of one size."""
    if name == "bool":
        return rng.integers(0, 2, shape).astype(bool)
    if name in NARROW:
        bits = int(name[-1])
        low, high = (0, 1 << bits) if name[0] == "u" else (-1 << (bits - 1), 1 << (bits - 1))
        return rng.integers(low, high, shape).astype(dtype)
    return np.frombuffer(rng.bytes(math.prod(shape) * dtype.itemsize), dtype).reshape(shape)


def some_texts(rng, shape, empty=""):
    """Random texts, or byte strings."""
    array = np.empty(math.prod(shape), object)
    for place in range(array.size):
        text = "".join(map(chr, rng.integers(32, 1000, rng.integers(0, 6))))
        array[place] = text if isinstance(empty, str) else text.encode()
    return array.reshape(shape)


def some_region(rng, shape):
    return tuple(slice(*sorted(rng.integers(0, size + 1, 2).tolist())) for size in shape)


def some_index(rng, shape):
    """A basic index of numpy of any kind."""
    entries = []
    for size in shape:
        kind = rng.integers(0, 6)
        if kind == 0:
            entries.append(int(rng.integers(-size, size)))
        elif kind == 1:
            entries.append(slice(None))
        else:
            first, last = (
                None if rng.integers(4) == 0 else int(n) for n in rng.integers(-size, size + 2, 2)
            )
            step = int(rng.choice([-3, -2, -1, 1, 1, 2, 3]))
            entries.append(slice(first, last, step))
    entries = entries[: int(rng.integers(0, len(entries) + 1))] if rng.integers(3) == 0 else entries
    if rng.integers(3) == 0:
        first = int(rng.integers(0, len(entries) + 1))
        last = int(rng.integers(first, len(entries) + 1))
        if len(entries) == len(shape):
            entries[first:last] = [Ellipsis]
        else:
            entries.append(Ellipsis)
    if rng.integers(4) == 0:
        entries.insert(int(rng.integers(0, len(entries) + 1)), None)
    return tuple(entries)


def some_rows(rng, shape, count=5):
    """Elements' indices, some of them counted from the end."""
    return np.stack([rng.integers(-size, size, count) for size in shape], axis=1)


def same(found, expected):
    """Whether arrays or scalars are the same, to the last bit."""
    found, expected = np.asarray(found), np.asarray(expected)
    assert found.shape == expected.shape
    assert found.dtype == expected.dtype
    if found.dtype == object:
        assert found.tolist() == expected.tolist()
    else:
        assert found.tobytes() == expected.tobytes()


def same_masked(found, expected):
    """Whether masked arrays have the same elements present, and these are the same."""
    same(np.ma.getmaskarray(found), np.ma.getmaskarray(expected))
    same(np.ma.compressed(found), np.ma.compressed(expected))


class RecordingFile(io.BytesIO):
    """A file that knows which bytes were read."""

    def __init__(self, value):
        super().__init__(bytes(value))
        self.seen = set()

    def readinto(self, buffer):
        place = self.tell()
        self.seen.update(range(place, place + len(buffer)))
        return super().readinto(buffer)


def make_array(folder, shape, chunks, name, codecs, fill, keys="default", **more):
    """An array in a folder, of which no chunk is there."""
    folder.mkdir(parents=True)
    metadata = {
        "zarr_format": 3,
        "node_type": "array",
        "shape": list(shape),
        "data_type": name,
        "chunk_grid": {"name": "regular", "configuration": {"chunk_shape": list(chunks)}},
        "chunk_key_encoding": keys,
        "fill_value": fill,
        "codecs": codecs,
        **more,
    }
    (folder / "zarr.json").write_text(json.dumps(metadata))
    return Array(folder)
