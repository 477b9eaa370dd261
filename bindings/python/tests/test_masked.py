"""Elements that may be absent, as masked arrays."""

import numpy as np
import pytest
from samples import (
    BIG,
    LITTLE,
    VLEN,
    optional,
    same_masked,
    some,
    some_index,
    some_rows,
    some_shape,
    some_texts,
)

from zarrs_codecs import Chain

KINDS = [
    ("int32", LITTLE),
    ("uint8", "bytes"),
    ("float64", BIG),
    ("bool", "packbits"),
    ("string", VLEN),
]


def some_masked(rng, name, dtype, shape):
    data = some_texts(rng, shape) if name == "string" else some(rng, name, dtype, shape)
    return np.ma.MaskedArray(data, rng.integers(0, 2, shape).astype(bool))


@pytest.mark.parametrize("mask", ["bytes", "packbits"])
@pytest.mark.parametrize("name, data", KINDS)
def test_masked_arrays_beside_numpy(name, data, mask, rng):
    for _ in range(12):
        shape = some_shape(rng, int(rng.integers(1, 4)))
        chain = Chain([optional(data, mask)], shape, {"optional": name})
        array = some_masked(rng, name, chain.dtype, shape)
        value = chain.encode(array)
        assert isinstance(chain.decode(value), np.ma.MaskedArray)
        same_masked(chain.decode(value), array)
        index = some_index(rng, shape)
        same_masked(chain.read(value, index), array[index])
        rows = some_rows(rng, shape)
        same_masked(chain.read(value, rows), array[tuple(rows.T)])
        assert chain.planned_ranges(index) is None


@pytest.mark.parametrize("name, data", KINDS)
def test_parts_are_written(name, data, rng):
    for _ in range(12):
        shape = some_shape(rng, int(rng.integers(1, 4)))
        chain = Chain([optional(data)], shape, {"optional": name})
        array = some_masked(rng, name, chain.dtype, shape)
        index = some_index(rng, shape)
        new = some_masked(rng, name, chain.dtype, np.shape(array[index]))
        if new.ndim == 0:
            continue
        expected = array.copy()
        expected[index] = new
        same_masked(chain.decode(chain.write(chain.encode(array), index, new)), expected)


def test_one_element_is_written():
    chain = Chain([optional("bytes")], (3,), {"optional": "uint8"})
    value = chain.write(None, 1, 7)
    assert chain.decode(value).tolist() == [None, 7, None]
    value = chain.write(value, slice(0, 2), np.ma.MaskedArray([5, 6], [False, True]))
    assert chain.decode(value).tolist() == [5, None, None]
    assert chain.read(value, 1) is np.ma.masked
    assert chain.read(value, 0) == 5
    value = chain.write(value, ..., np.ma.masked)
    assert chain.decode(value).tolist() == [None] * 3


def test_arrays_without_masks_are_all_there():
    chain = Chain([optional(LITTLE)], (3,), {"optional": "int32"})
    found = chain.decode(chain.encode(np.arange(3)))
    assert found.tolist() == [0, 1, 2] and not found.mask.any()


def test_what_is_absent_may_be_anything():
    chain = Chain([optional(VLEN)], (3,), {"optional": "string"})
    array = np.ma.MaskedArray(np.array([None, "a", 5], object), [True, False, True])
    found = chain.decode(chain.encode(array))
    assert found.tolist() == [None, "a", None]
    assert found.data.tolist() == ["", "a", ""]


def test_none_is_absent():
    chain = Chain([optional(LITTLE)], (3,), {"optional": "int32"})
    expected = np.ma.MaskedArray([1, 0, 3], [False, True, False], "<i4")
    same_masked(chain.decode(chain.encode([1, None, 3])), expected)
    same_masked(chain.decode(chain.write(chain.encode([1, 2, 3]), 1, None)), expected)
    both = np.ma.MaskedArray(np.array([1, None, 3], object), [False, False, True])
    same_masked(chain.decode(chain.encode(both)), np.ma.MaskedArray([1, 0, 0], [False, True, True], "<i4"))
    texts = Chain([optional(VLEN)], (3,), {"optional": "string"})
    found = texts.decode(texts.encode(np.array(["a", None, ""], object)))
    assert found.data.tolist() == ["a", "", ""] and found.mask.tolist() == [False, True, False]


def test_masks_in_any_order_of_memory():
    chain = Chain([optional(LITTLE)], (2, 3), {"optional": "int16"})
    mask = np.asfortranarray([[False, True, False], [True, False, False]])
    array = np.ma.MaskedArray(np.arange(6, dtype="i2").reshape(3, 2).T, mask)
    same_masked(chain.decode(chain.encode(array)), array)


def test_fill_values():
    codecs = [optional(LITTLE)]
    assert Chain(codecs, (2,), {"optional": "int16"}).read(None, ...).tolist() == [None, None]
    for fill in (7, [7]):
        assert Chain(codecs, (2,), {"optional": "int16"}, fill).read(None, ...).tolist() == [7, 7]


def test_out_takes_masks():
    chain = Chain([optional(LITTLE)], (3,), {"optional": "int16"})
    array = np.ma.MaskedArray([1, 2, 3], [False, True, False], "i2")
    out = np.ma.MaskedArray(np.zeros(3, "i2"), False)
    assert chain.decode(chain.encode(array), out) is out
    same_masked(out, array)


def test_an_optional_type_of_an_optional_type():
    with pytest.raises(ValueError, match="optional"):
        Chain([optional(optional("bytes"))], (2,), {"optional": {"optional": "uint8"}})


def test_absent_elements_of_a_type_that_is_not_optional():
    chain = Chain([LITTLE], (2,), "int32")
    absent = np.ma.MaskedArray([1, 2], [False, True])
    value = chain.encode(np.ma.MaskedArray([1, 2]))
    for call in (
        lambda: chain.encode(absent),
        lambda: chain.write(value, ..., absent),
        lambda: chain.write(value, slice(None, None, -1), absent),
        lambda: chain.write(value, 0, np.ma.masked),
    ):
        with pytest.raises(ValueError, match="absent"):
            call()


def test_out_without_a_mask():
    chain = Chain([optional(LITTLE)], (2,), {"optional": "int32"})
    out = np.zeros(2, "<i4")
    with pytest.raises(ValueError, match="absent"):
        chain.decode(chain.encode(np.ma.MaskedArray([1, 2], [False, True])), out)
    assert chain.decode(chain.encode([1, 2]), out).tolist() == [1, 2]
