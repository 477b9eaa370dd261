"""Elements given in Python's own lists, tuples, texts and byte strings: none is lost, and none is taken for another."""

import warnings

import numpy as np
import pytest
from samples import LITTLE, VLEN, optional, same_masked

from zarrs_codecs import Array, Chain, InvalidElement

ENDED = {"string": ["ab\0\0", "\0", "", "c"], "bytes": [b"ab\0\0", b"\0", b"", b"c"]}
SIZED = {"name": "fixed_length_utf32", "configuration": {"length_bytes": 16}}
STRINGS = {"name": "null_terminated_bytes", "configuration": {"length_bytes": 4}}
SECONDS = {"name": "numpy.datetime64", "configuration": {"unit": "s", "scale_factor": 1}}


def chains(name, shape):
    """Those of a type of texts or byte strings, and of the optional one."""
    yield Chain([VLEN], shape, name)
    yield Chain([optional(VLEN)], shape, {"optional": name})


@pytest.mark.parametrize("name", ENDED)
def test_zeros_at_the_end_stay(name):
    elements = ENDED[name]
    for chain in chains(name, (2, 2)):
        for given in ([elements[:2], elements[2:]], (tuple(elements[:2]), tuple(elements[2:]))):
            assert chain.decode(chain.encode(given)).ravel().tolist() == elements
        for one in elements:
            assert chain.decode(chain.write(None, (0, 1), one))[0, 1] == one
            assert chain.decode(chain.write(None, ..., one)).ravel().tolist() == [one] * 4
            assert chain.decode(chain.write_many(None, [((1, 0), one)]))[1, 0] == one
        value = chain.write_many(None, [([[0, 1], [1, 1]], elements[:2]), (np.s_[:, 0], tuple(elements[2:]))])
        assert chain.decode(value).tolist() == [[elements[2], elements[0]], [elements[3], elements[1]]]


@pytest.mark.parametrize("name", ENDED)
def test_zeros_at_the_end_stay_in_arrays(name, tmp_path):
    elements = ENDED[name]
    array = Array.create(tmp_path, [5], [2], name)
    array[:4] = elements
    array[4] = elements[0]
    assert array[...].tolist() == [*elements, elements[0]]
    array.oindex[[3, 0]] = elements[:2]
    array.vindex[[1, 2]] = tuple(elements[:2])
    assert array[...].tolist() == [elements[1], elements[0], elements[1], elements[0], elements[0]]


def test_numpys_own_keep_theirs():
    byte_strings = Chain([VLEN], (2,), "bytes")
    for given in ([np.bytes_(b"ab\0\0"), b"c\0"], (np.bytes_(b"ab\0\0"), np.bytes_(b"c\0"))):
        assert byte_strings.decode(byte_strings.encode(given)).tolist() == [b"ab\0\0", b"c\0"]
    assert byte_strings.read(byte_strings.write(None, 0, np.bytes_(b"ab\0\0")), 0) == b"ab\0\0"
    texts = Chain([VLEN], (1,), "string")
    assert texts.decode(texts.encode([np.str_("ab\0\0")])).tolist() == ["ab\0\0"]


@pytest.mark.parametrize(
    "name, wrong",
    [
        *(("string", ["a", wrong]) for wrong in (1, True, b"b", 1.5)),
        *(("bytes", [b"a", wrong]) for wrong in (1, True, "b", 1.5)),
        ("string", 1),
        ("bytes", 1.5),
    ],
)
def test_what_is_no_text_beside_texts(name, wrong):
    kind = "text" if name == "string" else "byte string"
    for chain in chains(name, (2,)):
        with pytest.raises(TypeError, match=f"an element is no {kind}"):
            chain.encode(wrong if isinstance(wrong, list) else [wrong, wrong])
        with pytest.raises(TypeError, match=f"an element is no {kind}"):
            chain.write(None, ..., wrong)


@pytest.mark.parametrize("data_type, right", [(SIZED, "a"), (STRINGS, b"a"), (SECONDS, "2020-01-01")])
def test_numbers_beside_elements_of_one_length(data_type, right):
    for codecs, kind in (([LITTLE], data_type), ([optional(LITTLE)], {"optional": data_type})):
        chain = Chain(codecs, (2,), kind)
        for wrong in (1, True, 1.5):
            with pytest.raises(TypeError, match="an element isn't of"):
                chain.encode([right, wrong])
        chain.encode([right, right])
    found = chain.decode(chain.encode([right, None]))
    assert found.mask.tolist() == [False, True]


def test_a_list_of_one_text_for_one_element(tmp_path):
    array = Array.create(tmp_path, [2], [2], "string")
    array[0] = ["x"]
    array[1] = np.array(["y"], object)
    assert array[...].tolist() == ["x", "y"]
    for chain in chains("string", (2,)):
        assert chain.read(chain.write(None, 0, ["x"]), 0) == "x"


@pytest.mark.parametrize("name, data", [("int32", LITTLE), ("bool", "packbits"), ("float64", LITTLE), ("string", VLEN)])
def test_masked_elements_in_lists(name, data):
    chain = Chain([optional(data)], (2, 2), {"optional": name})
    elements = np.array(["a", "b", "c", "d"] if name == "string" else [1, 0, 1, 1], chain.dtype).reshape(2, 2)
    expected = np.ma.MaskedArray(elements, [[False, True], [False, False]])
    with warnings.catch_warnings():
        warnings.simplefilter("error")
        for given in (
            [row.tolist() for row in expected],
            [expected[0], tuple(expected[1])],
            [[elements.tolist()[0][0], np.ma.masked], elements[1].tolist()],
            [[elements.tolist()[0][0], None], elements[1].tolist()],
        ):
            same_masked(chain.decode(chain.encode(given)), expected)
        plain = Chain([data], (2, 2), name)
        for given in (list(expected), [[elements.tolist()[0][0], np.ma.masked], elements[1].tolist()]):
            with pytest.raises(InvalidElement, match="absent"):
                plain.encode(given)


def test_masks_of_what_becomes_an_array():
    class Lends:
        def __array__(self, dtype=None):
            return np.ma.MaskedArray([1, 2], [False, True])

    chain = Chain([optional(LITTLE)], (2,), {"optional": "int32"})
    same_masked(chain.decode(chain.encode(Lends())), np.ma.MaskedArray([1, 2], [False, True], "<i4"))
    with pytest.raises(InvalidElement, match="absent"):
        Chain([LITTLE], (2,), "int32").encode(Lends())
