"""The calls themselves, at the corners of what C may give them."""

import ctypes
import json
import os
import re
import subprocess
import sys
from ctypes import byref
from functools import partial
from pathlib import Path

import pytest
from samples import LITTLE, VLEN, loose_values, optional

import zarrs_codecs
from zarrs_codecs._library import BOX, SHORT, Sizes, library


HEADER = Path(__file__).parents[3] / "include" / "zarrs_codecs.h"
TYPES = {
    "size_t": ctypes.c_size_t,
    "uint64_t": ctypes.c_uint64,
    "uint32_t": ctypes.c_uint32,
    "bool": ctypes.c_bool,
}


def test_calls_are_those_of_the_header():
    declared = re.findall(r"^uint32_t (zarrs_\w+)\(([^)]*)\);", HEADER.read_text(), re.MULTILINE)
    assert len(declared) >= 6
    for name, parameters in declared:
        words = [
            parameter.split()[0] if "*" not in parameter else "*"
            for parameter in parameters.split(",")
        ]
        call = getattr(library, name)
        assert call.argtypes == [TYPES.get(word, ctypes.c_void_p) for word in words], name
        assert call.restype is ctypes.c_uint32


def header(shape, data_type, fill, codecs):
    return json.dumps(
        {"shape": shape, "data_type": data_type, "fill_value": fill, "codecs": codecs}
    ).encode()


BYTES = header([4], "uint8", "09", ["bytes"])
TEXTS = header([2], "string", "", [VLEN])
MASKED = header([2], {"optional": "uint16"}, "00", [optional(LITTLE)])
NO_BUFFER = (None, 0)


def test_null_where_nothing_is():
    sizes, needed = Sizes(), ctypes.c_size_t()
    text = header([2], "string", "", [VLEN])
    offsets = (ctypes.c_uint64 * 3)()
    value = ctypes.create_string_buffer(64)
    assert (
        library.zarrs_encode(
            text, len(text), *NO_BUFFER, offsets, 3, *NO_BUFFER, value, 64, byref(needed)
        )
        == 0
    )
    offsets[2] = 7
    assert (
        library.zarrs_decode(
            text, len(text), value, needed.value, *NO_BUFFER, offsets, 3, *NO_BUFFER, byref(sizes)
        )
        == 0
    )
    assert list(offsets) == [0, 0, 0] and (sizes.masks, sizes.offsets, sizes.bytes) == (0, 3, 0)
    out = ctypes.create_string_buffer(4)
    assert (
        library.zarrs_read(
            BYTES,
            len(BYTES),
            False,
            *NO_BUFFER,
            0,
            *NO_BUFFER,
            *NO_BUFFER,
            *NO_BUFFER,
            *NO_BUFFER,
            byref(sizes),
        )
        == 0
    )
    assert (
        library.zarrs_read(
            BYTES,
            len(BYTES),
            True,
            *NO_BUFFER,
            0,
            *NO_BUFFER,
            *NO_BUFFER,
            *NO_BUFFER,
            out,
            4,
            byref(sizes),
        )
        == 0
    )
    assert sizes.bytes == 0 and out.raw == bytes(4)
    assert library.zarrs_check(*NO_BUFFER) == 2
    assert library.zarrs_error_name(200, *NO_BUFFER, byref(needed)) == 0 and needed.value == 0


def test_short_buffers_are_left_and_sizes_told():
    needed, sizes = ctypes.c_size_t(), Sizes()
    value = ctypes.create_string_buffer(b"....", 4)
    assert (
        library.zarrs_encode(
            BYTES, len(BYTES), *NO_BUFFER, *NO_BUFFER, b"abcd", 4, value, 3, byref(needed)
        )
        == SHORT
    )
    assert needed.value == 4 and value.raw == b"...."
    assert (
        library.zarrs_decode(
            BYTES, len(BYTES), b"abcd", 4, *NO_BUFFER, *NO_BUFFER, value, 3, byref(sizes)
        )
        == SHORT
    )
    assert sizes.bytes == 4 and value.raw == b"...."
    name = ctypes.create_string_buffer(b"....", 4)
    assert library.zarrs_error_name(17, name, 4, byref(needed)) == SHORT
    assert needed.value == len("OutOfBounds") and name.raw == b"...."


def test_refusals_leave_buffers_and_counts():
    sizes = Sizes(7, 7, 7)
    out = ctypes.create_string_buffer(b"....", 4)
    assert (
        library.zarrs_decode(
            BYTES, len(BYTES), b"abc", 3, *NO_BUFFER, *NO_BUFFER, out, 4, byref(sizes)
        )
        == 15
    )
    assert (sizes.masks, sizes.offsets, sizes.bytes) == (7, 7, 7) and out.raw == b"...."


def test_masks_cross():
    needed, sizes = ctypes.c_size_t(), Sizes()
    value, masks, out = (ctypes.create_string_buffer(64) for _ in range(3))
    assert (
        library.zarrs_encode(
            MASKED, len(MASKED), b"\0\1", 2, *NO_BUFFER, b"ab\1\2", 4, value, 64, byref(needed)
        )
        == 0
    )
    assert (
        library.zarrs_decode(
            MASKED, len(MASKED), value, needed.value, masks, 64, *NO_BUFFER, out, 64, byref(sizes)
        )
        == 0
    )
    assert (
        masks.raw[:2] == b"\0\1"
        and out.raw[:4] == b"\0\0\1\2"
        and (sizes.masks, sizes.bytes) == (2, 4)
    )
    assert (
        library.zarrs_encode(
            MASKED, len(MASKED), b"\0\2", 2, *NO_BUFFER, bytes(4), 4, value, 64, byref(needed)
        )
        == 28
    )


def test_bytes_that_begin_anywhere():
    sizes = Sizes()
    words = header([2], "uint64", "0000000000000000", [LITTLE])
    stored = bytes(range(16))
    for shift in range(8):
        value = ctypes.create_string_buffer(bytes(shift) + stored, 32)
        out = ctypes.create_string_buffer(32)
        at = (ctypes.addressof(value) + shift, 16)
        to = (ctypes.addressof(out) + (shift + 3) % 8, 16)
        assert (
            library.zarrs_decode(words, len(words), *at, *NO_BUFFER, *NO_BUFFER, *to, byref(sizes))
            == 0
        )
        assert ctypes.string_at(*to) == stored


@pytest.mark.parametrize(
    "rows, numbers, code",
    [(BOX, [0, 5], 17), (BOX, [0], 3), (BOX, [1, 2**64 - 1], 18), (2, [0], 3), (1, [4], 17)],
)
def test_selections_that_are_none(rows, numbers, code):
    sizes = Sizes()
    given = (ctypes.c_uint64 * len(numbers))(*numbers)
    arguments = (rows, given, len(numbers), *NO_BUFFER, *NO_BUFFER, *NO_BUFFER, byref(sizes))
    assert library.zarrs_read(BYTES, len(BYTES), True, b"abcd", 4, *arguments) == code


@pytest.mark.parametrize(
    "ranges, fetched, code",
    [
        ([0, 2], b"ab", 0),
        ([0], b"", 3),
        ([0, 2], b"a", 3),
        ([1, 2], b"b", 11),
        ([0, 5], b"abcde", 30),
        ([0, 1, 1, 2], b"ab", 30),
    ],
)
def test_pieces(ranges, fetched, code):
    sizes, out = Sizes(), ctypes.create_string_buffer(2)
    given = (ctypes.c_uint64 * len(ranges))(*ranges)
    box = (ctypes.c_uint64 * 2)(0, 2)
    arguments = (
        4,
        given,
        len(ranges),
        fetched,
        len(fetched),
        BOX,
        box,
        2,
        *NO_BUFFER,
        *NO_BUFFER,
        out,
        2,
        byref(sizes),
    )
    assert library.zarrs_read_pieces(BYTES, len(BYTES), *arguments) == code
    assert out.raw == (b"ab" if code == 0 else bytes(2))


def test_deep_headers_are_refused():
    deep = b"[" * 20_000
    assert library.zarrs_check(deep, len(deep)) == 2


def test_want_of_memory():
    """Where the system refuses memory, the refusal comes, and the process goes on; one move needs hardly any."""
    code = """
import resource
import numpy as np
import zarrs_codecs as z
move, stored = {"name": "transpose", "configuration": {"order": [1, 0]}}, {"name": "bytes", "configuration": {"endian": "big"}}
shape = (1 << 12, 1 << 12)
once, twice = (z.Chain([*moves, stored], shape, "int32") for moves in ([move], [move, move]))
value, out = np.arange(1 << 24, dtype=">i4").view(np.uint8), np.zeros(shape, "<i4")
held = int(open("/proc/self/statm").read().split()[0]) * resource.getpagesize()
resource.setrlimit(resource.RLIMIT_AS, (held + (16 << 20), resource.RLIM_INFINITY))
once.decode(value, out)
assert out[2, 1] == (1 << 12) + 2
try:
    twice.decode(value, out)
except z.OutOfMemory as refused:
    assert isinstance(refused, MemoryError)
else:
    raise SystemExit("no refusal")
small = z.Chain(["bytes"], (4,), "uint8")
assert small.decode(b"abcd").tobytes() == b"abcd"
"""
    subprocess.run([sys.executable, "-c", code], check=True, timeout=600)


def test_a_library_that_is_not_there():
    environment = {**os.environ, "ZARRS_CODECS_LIBRARY": "/nowhere/libzarrs_codecs.so"}
    run = subprocess.run(
        [sys.executable, "-c", "import zarrs_codecs"],
        env=environment,
        capture_output=True,
        text=True,
    )
    assert run.returncode != 0 and "bindings/build" in run.stderr


@pytest.mark.parametrize("offsets, data, due", [([2, 3, 4], b"xxab", b"ab"), ([1, 1, 2, 2], b"xa", b"a")])
def test_offsets_begin_at_zero(offsets, data, due):
    """Whatever offsets are stored, a call gives those of the elements that it gives."""
    expected = [offset - offsets[0] for offset in offsets]
    for codec, value in loose_values(offsets, data):
        text = header([len(offsets) - 1], "bytes", "", [codec])
        everything = (ctypes.c_uint64 * 2)(0, len(offsets) - 1)
        arguments = (text, len(text)), (value, len(value))
        for call in (
            partial(library.zarrs_decode, *arguments[0], *arguments[1]),
            partial(library.zarrs_read, *arguments[0], True, *arguments[1], BOX, everything, 2),
        ):
            found, whole, sizes = (ctypes.c_uint64 * len(offsets))(), ctypes.create_string_buffer(8), Sizes()
            assert call(*NO_BUFFER, found, len(offsets), whole, 8, byref(sizes)) == 0
            assert list(found) == expected
            assert (sizes.masks, sizes.offsets, sizes.bytes) == (0, len(offsets), len(due))
            assert whole.raw == due + bytes(8 - len(due))


def test_a_library_without_a_proof_says_so():
    has_word = b"zarrs_unproved" in Path(library._name).read_bytes()
    assert zarrs_codecs.proved is not has_word


def test_a_zero_stands_behind_a_name():
    """Where there is room, as the header says."""
    name, needed = ctypes.create_string_buffer(b"x" * 64, 64), ctypes.c_size_t()
    assert library.zarrs_error_name(0, name, 64, ctypes.byref(needed)) == 0
    assert name.raw == b"Done\0" + b"x" * 59 and needed.value == 4
    assert library.zarrs_error_name(0, name, 4, ctypes.byref(needed)) == 0 and name.raw[:6] == b"Done\0x"
