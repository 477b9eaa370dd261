"""Values in any buffer, arrays that take answers, chains in threads and processes."""

import mmap
import pickle
import sys
import threading
import time
import tracemalloc
from concurrent.futures import ThreadPoolExecutor

import numpy as np
import pytest
from samples import LITTLE, VLEN, same, transpose

from zarrs_codecs import Chain, _library_reads

CHAIN = Chain([LITTLE], (2, 3), "int32")
ARRAY = np.arange(6, dtype="<i4").reshape(2, 3)
VALUE = ARRAY.tobytes()


def test_values_in_any_buffer():
    read_only = np.frombuffer(VALUE, np.uint8)
    for value in (VALUE, bytearray(VALUE), memoryview(VALUE), read_only, read_only.copy(), ARRAY):
        same(CHAIN.decode(value), ARRAY)
        same(CHAIN.read(value, 1), ARRAY[1])
    with mmap.mmap(-1, len(VALUE)) as mapped:
        mapped[:] = VALUE
        same(CHAIN.decode(mapped), ARRAY)


def test_values_that_begin_anywhere():
    for first in range(8):
        same(CHAIN.decode(memoryview(bytes(first) + VALUE)[first:]), ARRAY)
        same(CHAIN.decode(memoryview(bytearray(first) + VALUE)[first:]), ARRAY)


@pytest.mark.parametrize("value", [None, "text", 5, [1, 2], np.zeros(48, np.uint8)[::2]])
def test_no_value(value):
    with pytest.raises((TypeError, ValueError)):
        CHAIN.decode(value)


def test_empty_values():
    for value in (b"", bytearray(), np.empty(0, np.uint8)):
        with pytest.raises(ValueError):
            CHAIN.decode(value)


def test_out_is_written_in_place():
    out = np.full((2, 3), 9, "<i4")
    assert CHAIN.decode(VALUE, out) is out
    same(out, ARRAY)
    whole = np.zeros((3, 2, 3), "<i4")
    CHAIN.decode(VALUE, out=whole[1])
    same(whole, np.stack([ARRAY * 0, ARRAY, ARRAY * 0]))
    row = np.empty(3, "<i4")
    same(CHAIN.read(VALUE, 1, row), ARRAY[1])


@pytest.mark.parametrize(
    "out", [np.zeros((3, 2), "<i4").T, np.zeros((2, 3), ">i4"), np.zeros((2, 3))]
)
def test_out_of_another_form_is_filled(out):
    assert CHAIN.decode(VALUE, out) is out
    assert out.tolist() == ARRAY.tolist()


def test_out_of_another_shape_or_read_only():
    for out in (np.zeros((3, 3), "<i4"), np.broadcast_to(np.int32(0), (2, 3))):
        with pytest.raises(ValueError):
            CHAIN.decode(VALUE, out)


def test_out_is_left_where_a_value_is_refused():
    out = np.full((2, 3), 9, "<i4")
    with pytest.raises(ValueError):
        CHAIN.decode(VALUE[1:], out)
    assert (out == 9).all()


def test_a_large_chunk_is_decoded_without_a_copy():
    chain = Chain([LITTLE], (1 << 20,), "int32")
    value, out = bytes(4 << 20), np.ones(1 << 20, "<i4")
    tracemalloc.start()
    chain.decode(value, out)
    _, peak = tracemalloc.get_traced_memory()
    tracemalloc.stop()
    assert peak < 1 << 16 and not out.any()


def test_arrays_of_another_shape():
    for array in (np.zeros((3, 2)), np.zeros(6), 0):
        with pytest.raises(ValueError, match="shape"):
            CHAIN.encode(array)
    with pytest.raises(ValueError):
        CHAIN.write(VALUE, 0, np.zeros(2, int))
    with pytest.raises(TypeError, match="list"):
        CHAIN.decode(VALUE, [[0] * 3] * 2)


def test_leading_axes_of_one_element_are_passed_over():
    expected = ARRAY.copy()
    expected[1:] = new = np.arange(3).reshape(1, 1, 1, 3)
    same(CHAIN.decode(CHAIN.write(VALUE, np.s_[1:], new)), expected)


def test_a_list_of_codecs_is_the_callers_own():
    codecs = [transpose([1, 0]), {"name": "bytes", "configuration": {"endian": "little"}}]
    chain = Chain(codecs, (2, 3), "int32")
    codecs[1]["configuration"]["endian"] = "big"
    chain.codecs.append("gzip")
    chain.codecs[0]["configuration"]["order"].reverse()
    assert chain.codecs == [transpose([1, 0]), LITTLE]
    same(pickle.loads(pickle.dumps(chain)).encode(ARRAY), chain.encode(ARRAY))


def test_a_type_and_a_fill_value_are_the_callers_own():
    codec = {"name": "optional", "configuration": {"mask_codecs": ["packbits"], "data_codecs": ["bytes"]}}
    kind, fill = {"optional": "r16"}, [[1, 2]]
    chain = Chain([codec], (2,), kind, fill)
    kind["optional"], fill[0][0] = "r24", 9
    chain.data_type["optional"], chain.fill_value[0][1] = "r24", 9
    assert chain.data_type == {"optional": "r16"} and chain.fill_value == [[1, 2]]
    assert pickle.loads(pickle.dumps(chain)).read(None, 0) == np.void(b"\1\2")


@pytest.mark.parametrize("codecs", ["bytes", b"bytes", {"bytes": 1}])
def test_codecs_that_are_no_list(codecs):
    with pytest.raises(ValueError, match="list"):
        Chain(codecs, (2, 3), "int32")


def test_chains_are_pickled():
    chain = Chain([transpose([1, 0]), LITTLE], (2, 3), "float32", "NaN")
    other = pickle.loads(pickle.dumps(chain))
    assert repr(other) == repr(chain)
    same(other.decode(chain.encode(ARRAY)), ARRAY.astype("f4"))


def test_threads_share_a_chain(rng):
    chain = Chain([VLEN], (1000,), "string", "")
    arrays = [np.array([str(n) for n in rng.integers(0, 10**9, 1000)], object) for _ in range(16)]
    with ThreadPoolExecutor(8) as threads:
        values = list(threads.map(chain.encode, arrays))
        for found, array in zip(threads.map(chain.decode, values), arrays):
            same(found, array)


def test_calls_let_other_threads_run(monkeypatch):
    """While one is in a call, another goes on, though Python gives none of them up by itself."""
    chain = Chain(["packbits"], (1 << 25,), "bool")
    value, out = np.zeros(1 << 22, np.uint8), np.empty(1 << 25, bool)
    turns, is_done = 0, threading.Event()

    def count():
        nonlocal turns
        while not is_done.is_set():
            turns += 1
            time.sleep(0.0001)

    other = threading.Thread(target=count)
    other.start()
    seen = []
    call = _library_reads.library.zarrs_chain_decode

    def counted(*arguments):
        before = turns
        code = call(*arguments)
        seen.append(turns - before)
        return code

    monkeypatch.setattr(_library_reads.library, "zarrs_chain_decode", counted)
    usual = sys.getswitchinterval()
    sys.setswitchinterval(100)
    try:
        for _ in range(20):
            chain.decode(value, out)
    finally:
        sys.setswitchinterval(usual)
        is_done.set()
        other.join()
    assert max(seen) > 0


def test_representations():
    assert CHAIN.representation == ("fixed", 24)
    assert CHAIN.representation.kind == "fixed" and CHAIN.representation.size == 24
    assert Chain([VLEN], (2,), "string", "").representation == ("unbounded", None)
    codecs = [
        {"name": "optional", "configuration": {"mask_codecs": ["bytes"], "data_codecs": ["bytes"]}}
    ]
    assert Chain(codecs, (2,), {"optional": "uint8"}).representation == ("bounded", 16 + 2 + 2)
    CHAIN.check()


def test_out_that_lies_over_the_value():
    """The value is read as it was."""
    chain = Chain([{"name": "bytes", "configuration": {"endian": "big"}}], (4,), "int32")
    for first in (0, 1, 4, 8):
        memory = np.zeros(32, np.uint8)
        memory[first : first + 16] = np.arange(4, dtype=">i4").view(np.uint8)
        out = memory[8:24].view("<i4")
        assert chain.decode(memory[first : first + 16], out).tolist() == [0, 1, 2, 3]
        memory[first : first + 16] = np.arange(4, dtype=">i4").view(np.uint8)
        assert chain.read(memory[first : first + 16], ..., out).tolist() == [0, 1, 2, 3]


def test_c_writes_no_array_that_lies_over_the_value(monkeypatch):
    monkeypatch.delattr(_library_reads, "returned_into")
    memory = np.arange(8, dtype=np.uint8)
    chain = Chain(["bytes"], (4,), "uint8")
    assert chain.decode(memory[:4], memory[2:6]).tolist() == [0, 1, 2, 3]
    with pytest.raises(NameError):
        chain.decode(memory[:4], memory[4:])


def test_out_of_more_axes_is_not_filled():
    out = np.zeros((4, 2, 3), "<i4")
    for fill in (lambda: CHAIN.decode(VALUE, out), lambda: CHAIN.read(VALUE, np.s_[::-1], out)):
        with pytest.raises(ValueError, match="shape"):
            fill()
    assert not out.any()
