"""A chunk encoded, decoded, read and written in part by the library, beside the same by numpy."""

import numpy as np
from zarrs_codecs import Chain, Refused

TRANSPOSE = {"name": "transpose", "configuration": {"order": [1, 0]}}
BIG_ENDIAN = {"name": "bytes", "configuration": {"endian": "big"}}


def beside(what, ours, numpys):
    """Prints what the library and numpy say, and stops where they differ."""
    print(f"{what}\n    zarrs  {ours}\n    numpy  {numpys}")
    assert ours == numpys


numbers = np.arange(12, dtype="int16").reshape(3, 4)
chain = Chain([TRANSPOSE, BIG_ENDIAN], numbers.shape, "int16", 0)

value = chain.encode(numbers)
beside("the value of a chunk", bytes(value).hex(), numbers.T.astype(">i2").tobytes().hex())
beside("the chunk of a value", chain.decode(value).tolist(), numbers.tolist())

window = np.s_[1:, 2:]
beside("a window", chain.read(value, window).tolist(), numbers[window].tolist())
beside("places", chain.read(value, [[0, 3], [2, 0]]).tolist(), numbers[[0, 2], [3, 0]].tolist())
print(f"bytes that the window needs\n    zarrs  {chain.planned_ranges(window).tolist()}")

edited = numbers.copy()
edited[window] = -1
written = chain.write(value, window, np.full((2, 2), -1, "int16"))
beside("an edited window", chain.decode(written).tolist(), edited.tolist())

flags = np.arange(12).reshape(3, 4) % 3 == 0
bits = Chain(["packbits"], flags.shape, "bool", False).encode(flags)
beside("flags as bits", bytes(bits).hex(), np.packbits(flags, bitorder="little").tobytes().hex())

try:
    chain.decode(value[:-1])
except Refused as refused:
    print(f"a value that lacks a byte\n    zarrs  {type(refused).__name__}")
