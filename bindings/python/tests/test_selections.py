"""Selections that aren't as they are due, and corners of those that are."""

import numpy as np
import pytest
from samples import LITTLE, same

import zarrs_codecs
from zarrs_codecs import Chain, _selections

CHAIN = Chain([LITTLE], (3, 4), "int32")
ARRAY = np.arange(12, dtype="<i4").reshape(3, 4)
VALUE = CHAIN.encode(ARRAY)


@pytest.mark.parametrize(
    "index",
    [
        3,
        -4,
        (0, 4),
        (0, 0, 0),
        (..., ...),
        True,
        (0, np.True_),
        [[0, 1.5]],
        [0, 1],
        [[0]],
        np.zeros((2, 3), int),
    ],
)
def test_no_index(index):
    with pytest.raises(IndexError):
        CHAIN.read(VALUE, index)


@pytest.mark.parametrize("index", ["a", 1.5, {}, (0, "a")])
def test_no_index_at_all(index):
    with pytest.raises(IndexError, match="an index is an integer"):
        CHAIN.read(VALUE, index)


def test_ends_of_slices_are_integers():
    with pytest.raises(TypeError):
        CHAIN.read(VALUE, np.s_[0:1.5])


@pytest.mark.parametrize(
    "rows", [[[3, 0]], [[0, 4]], [[-4, 0]], np.array([[2**64 - 1, 0]], np.uint64)]
)
def test_rows_outside_are_refused(rows):
    with pytest.raises(zarrs_codecs.OutOfBounds):
        CHAIN.read(VALUE, rows)


def test_an_element_is_a_scalar():
    assert CHAIN.read(VALUE, (1, -1)) == 7 and isinstance(CHAIN.read(VALUE, (1, -1)), np.int32)
    assert CHAIN.read(VALUE, (1, -1, ...)).shape == ()


def test_empty_selections():
    same(CHAIN.read(VALUE, np.s_[2:1, ::-1]), ARRAY[2:1, ::-1])
    same(CHAIN.read(VALUE, np.s_[5:9:2, 1]), ARRAY[5:9:2, 1])
    same(CHAIN.read(VALUE, []), np.empty(0, "<i4"))
    same(CHAIN.read(VALUE, np.empty((0, 2), int)), np.empty(0, "<i4"))
    assert CHAIN.planned_ranges([]).shape == (0, 2)
    assert CHAIN.write(VALUE, np.s_[1:1], 5).tobytes() == VALUE.tobytes()


def test_chunks_without_axes():
    chain = Chain(["bytes"], (), "uint8", 7)
    value = chain.encode(np.array(9, "u1"))
    assert value.tolist() == [9]
    assert chain.decode(value).shape == () and chain.decode(value) == 9
    assert chain.read(value, ()) == 9 and isinstance(chain.read(value, ()), np.uint8)
    assert chain.read(value, ...).shape == ()
    assert chain.read(value, None).tolist() == [9]
    assert chain.read(value, [(), ()]).tolist() == [9, 9]
    assert chain.write(value, (), 8).tolist() == [8]


def test_rows_of_one_axis_may_be_numbers():
    chain = Chain(["bytes"], (5,), "uint8")
    assert chain.read(b"abcde", [4, 0, -1]).tobytes() == b"eae"
    assert chain.read(b"abcde", np.array([1, 1], np.uint8)).tobytes() == b"bb"


def test_rows_that_cannot_be_written():
    rows = np.array([[0, 1], [2, 3]], np.uint64)
    rows.flags.writeable = False
    assert CHAIN.read(VALUE, rows).tolist() == [1, 11]
    assert CHAIN.read(VALUE, rows[::-1]).tolist() == [11, 1]


def test_many_rows(rng):
    rows = rng.integers(0, [3, 4], (100_000, 2))
    same(CHAIN.read(VALUE, rows), ARRAY[tuple(rows.T)])


def test_rows_that_begin_anywhere():
    numbers = np.array([[0, 1], [2, 3]], np.uint64).tobytes()
    for first in range(8):
        rows = np.frombuffer(bytes(first) + numbers, np.uint64, 4, first).reshape(2, 2)
        assert _selections.select(rows, (3, 4)).rows.flags.aligned
        assert CHAIN.read(VALUE, rows).tolist() == [1, 11]
