"""Chunks of every type of one size, beside numpy."""

import numpy as np
import pytest
from samples import (
    BIG,
    LITTLE,
    NARROW,
    NUMERIC,
    RAW,
    same,
    some,
    some_index,
    some_region,
    some_rows,
    some_shape,
    transpose,
)

from zarrs_codecs import Chain, InvalidElement


def fitting(name, rng):
    """A codec to bytes of a type, and whether it turns the bytes of each component round."""
    if name in ("bool", "int8", "uint8", *NARROW, *RAW):
        return "bytes", False
    is_big = bool(rng.integers(2))
    return (BIG if is_big else LITTLE), is_big


def turned(array, name):
    """The elements with the bytes of each component turned round."""
    if name.startswith("complex"):
        return array.view(f"<f{array.dtype.itemsize // 2}").byteswap().view(array.dtype)
    return array.byteswap()


def samples(name, rng, times=20):
    """Chains of random shapes and orders, each with a random chunk and its value."""
    for _ in range(times):
        shape = some_shape(rng)
        order = rng.permutation(len(shape))
        codec, is_big = fitting(name, rng)
        chain = Chain([transpose(order), codec], shape, name)
        array = some(rng, name, chain.dtype, shape)
        stored = np.ascontiguousarray(array.transpose(order))
        yield chain, array, (turned(stored, name) if is_big else stored).tobytes()


@pytest.mark.parametrize("name", NUMERIC + NARROW + RAW)
def test_chunks_are_numpys_bytes(name, rng):
    for chain, array, stored in samples(name, rng):
        value = chain.encode(array)
        assert value.dtype == np.uint8 and value.tobytes() == stored
        same(chain.decode(value), array)
        assert chain.representation == ("fixed", len(stored))


@pytest.mark.parametrize("name", NUMERIC + NARROW + RAW)
def test_parts_are_read_as_numpy_does(name, rng):
    for chain, array, stored in samples(name, rng, times=10):
        for _ in range(5):
            index = some_index(rng, array.shape)
            same(chain.read(stored, index), array[index])
            region = some_region(rng, array.shape)
            same(chain.read(stored, region), array[region])
        if array.ndim:
            rows = some_rows(rng, array.shape)
            for given in (rows, rows.tolist()):
                same(chain.read(stored, given), array[tuple(rows.T)])


@pytest.mark.parametrize("name", NUMERIC + NARROW + RAW)
def test_parts_are_written_as_numpy_does(name, rng):
    for chain, array, stored in samples(name, rng, times=10):
        index = some_index(rng, array.shape)
        new = some(rng, name, chain.dtype, np.shape(array[index]))
        expected = array.copy()
        expected[index] = new
        same(chain.decode(chain.write(stored, index, new)), expected)
        same(chain.decode(stored), array)


@pytest.mark.parametrize("name", ["bool", "uint8", "uint16", *NARROW])
def test_bits_are_packed(name, rng):
    for _ in range(15):
        chain = Chain(["packbits"], some_shape(rng), name)
        array = some(rng, name, chain.dtype, chain.shape)
        value = chain.encode(array)
        same(chain.decode(value), array)
        index = some_index(rng, chain.shape)
        same(chain.read(value, index), array[index])
        if name == "bool":
            assert value.tobytes() == np.packbits(array.ravel(), bitorder="little").tobytes()


def test_array_codecs_together(rng):
    squeeze = {"name": "zarrs.squeeze", "configuration": {}}
    reshape = {"name": "reshape", "configuration": {"shape": [-1, 4]}}
    chain = Chain([transpose([2, 0, 1]), squeeze, reshape, BIG], (4, 1, 6), "float32")
    array = some(rng, "float32", chain.dtype, chain.shape)
    value = chain.encode(array)
    assert value.tobytes() == np.ascontiguousarray(array.transpose(2, 0, 1)).byteswap().tobytes()
    same(chain.decode(value), array)
    for _ in range(20):
        index = some_index(rng, chain.shape)
        same(chain.read(value, index), array[index])


def test_reencoding(rng):
    chain = Chain([transpose([1, 0]), BIG], (3, 5), "int16")
    array = some(rng, "int16", chain.dtype, chain.shape)
    value = chain.encode(array)
    for codecs in ([LITTLE], ["packbits"], [transpose([0, 1]), BIG]):
        other = chain.reencode(value, codecs)
        same(Chain(codecs, (3, 5), "int16").decode(other), array)


def test_lists_and_other_types_are_converted():
    chain = Chain([LITTLE], (2, 2), "int32")
    assert chain.encode([[1, 2], [3, 4]]).tobytes() == np.arange(1, 5, dtype="<i4").tobytes()
    assert chain.encode(np.ones((2, 2), ">i8")).tobytes() == np.ones(4, "<i4").tobytes()
    assert chain.encode(np.ones((2, 2), bool)).tobytes() == np.ones(4, "<i4").tobytes()
    floats = Chain([LITTLE], (2, 2), "float32")
    assert floats.encode(np.ones((2, 2), ">f8")).tobytes() == np.ones(4, "<f4").tobytes()
    assert floats.encode([[1, 2], [3, 4]]).tobytes() == np.arange(1, 5, dtype="<f4").tobytes()
    assert (
        chain.encode(np.arange(4).reshape(2, 2).T).tobytes()
        == np.array([0, 2, 1, 3], "<i4").tobytes()
    )


@pytest.mark.parametrize(
    "name, wrong",
    [
        ("int2", 2),
        ("int2", -3),
        ("uint2", 4),
        ("int4", 8),
        ("uint4", 16),
        ("bool", 2),
        ("uint8", 300),
        ("uint8", -1),
        ("int8", 128),
        ("int64", 2**63),
        ("uint64", 2**64),
        ("uint64", 10**400),
    ],
)
def test_numbers_that_a_type_cannot_hold(name, wrong):
    chain = Chain([LITTLE], (2,), name)
    value = chain.encode([0, 1])
    for call in (lambda: chain.encode([0, wrong]), lambda: chain.write(value, 1, wrong)):
        with pytest.raises(InvalidElement, match="isn't of"):
            call()


@pytest.mark.parametrize(
    "name, wrong",
    [
        ("float16", 70000),
        ("float16", 1e5),
        ("float16", np.float32(1e5)),
        ("float32", 1e39),
        ("float32", np.array([1e39, 0])),
        ("float32", np.array([10**50, 0], object)),
        ("float64", 10**400),
        ("complex64", 1e39j),
        ("complex64", np.complex128(1e39)),
    ],
)
def test_finite_numbers_do_not_become_infinite(name, wrong):
    chain = Chain([LITTLE], (2,), name)
    with pytest.raises(InvalidElement, match="isn't of"):
        chain.write(None, ..., wrong)
    assert np.isinf(chain.decode(chain.encode([np.inf, -np.inf]))).all()


@pytest.mark.parametrize("codec", ["bytes", "packbits"])
def test_truth_values_are_zero_and_one(codec):
    """numpy takes each byte but 0 for true."""
    of_bytes = np.array([2, 0, 255], np.uint8).view(bool)
    mask = {"name": "optional", "configuration": {"mask_codecs": ["packbits"], "data_codecs": [codec]}}
    for codecs, name in (([codec], "bool"), ([mask], {"optional": "bool"})):
        chain = Chain(codecs, (3,), name)
        for array in (of_bytes, np.repeat(of_bytes, 2)[::2]):
            same(chain.encode(array), chain.encode([True, False, True]))
            same(chain.write(None, ..., array), chain.encode([True, False, True]))


@pytest.mark.parametrize("length", [1, 3])
def test_elements_of_bytes_are_neither_cut_nor_made_longer(length):
    chain = Chain(["bytes"], (2,), "r16")
    with pytest.raises(InvalidElement, match="isn't of|aren't of"):
        chain.encode(np.zeros(2, f"V{length}"))


@pytest.mark.parametrize("name", ["int2", "uint2", "int4", "uint4", "bool", "int8", "int64", "uint64"])
def test_the_least_and_the_greatest_number(name):
    chain = Chain([LITTLE], (2,), name)
    kind, bits = ("u", 1) if name == "bool" else (name[0], int(name.strip("uint")))
    ends = [0, 2**bits - 1] if kind == "u" else [-(2 ** (bits - 1)), 2 ** (bits - 1) - 1]
    assert chain.decode(chain.encode(ends)).tolist() == ends


@pytest.mark.parametrize(
    "name, wrong", [("uint8", 0.5), ("int32", np.nan), ("bool", 1.0), ("float32", 1j), ("uint8", "1")]
)
def test_elements_of_another_kind(name, wrong):
    chain = Chain([LITTLE], (2,), name)
    with pytest.raises(TypeError, match=name):
        chain.encode(np.array([wrong, wrong]))
    with pytest.raises(TypeError, match=name):
        chain.write(None, 0, wrong)


def test_a_scalar_is_written_everywhere():
    chain = Chain(["bytes"], (2, 3), "uint8", 9)
    assert chain.write(None, ..., 7).tolist() == [7] * 6
    assert chain.write(None, (1, slice(None, None, 2)), 7).tolist() == [9, 9, 9, 7, 9, 7]
    assert chain.write(bytes(6), [[0, 1], [-1, -1]], [5, 6]).tolist() == [0, 5, 0, 0, 0, 6]


def test_fill_values_are_read_where_nothing_is_stored():
    chain = Chain([LITTLE], (2, 3), "float32", 2.5)
    same(chain.read(None, np.s_[:, 1:]), np.full((2, 2), 2.5, "f4"))
    same(chain.read(None, []), np.empty(0, "f4"))
