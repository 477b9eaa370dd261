"""Texts and byte strings, as object arrays."""

import numpy as np
import pytest
from samples import (
    VLEN,
    loose_values,
    optional,
    same,
    some_index,
    some_rows,
    some_shape,
    some_texts,
    transpose,
)

from zarrs_codecs import Chain, ElementCount, InvalidBytesLength, InvalidText, _texts

BYTES_OF_ALL = b"".join(bytes([byte]) for byte in range(256))


@pytest.mark.parametrize(
    "name, empty, codec",
    [("string", "", VLEN), ("bytes", b"", VLEN), ("string", "", "vlen-utf8"), ("bytes", b"", "vlen-bytes")],
)
def test_texts_beside_numpy(name, empty, codec, rng):
    for _ in range(20):
        shape = some_shape(rng, int(rng.integers(1, 4)))
        chain = Chain([transpose(rng.permutation(len(shape))), codec], shape, name, empty)
        array = some_texts(rng, shape, empty)
        value = chain.encode(array)
        same(chain.decode(value), array)
        index = some_index(rng, shape)
        same(chain.read(value, index), array[index])
        rows = some_rows(rng, shape)
        same(chain.read(value, rows), array[tuple(rows.T)])
        new = some_texts(rng, np.shape(array[index]), empty)
        expected = array.copy()
        expected[index] = new if new.ndim else new[()]
        same(chain.decode(chain.write(value, index, new)), expected)
        assert chain.planned_ranges(index) is None


@pytest.mark.parametrize("name, empty, codec", [("string", "", "vlen-utf8"), ("bytes", b"", "vlen-bytes")])
def test_values_are_those_of_numcodecs(name, empty, codec, rng):
    """zarr-python writes texts by these codecs of numcodecs."""
    numcodecs = pytest.importorskip("numcodecs")
    other = numcodecs.VLenUTF8() if codec == "vlen-utf8" else numcodecs.VLenBytes()
    for _ in range(20):
        array = some_texts(rng, some_shape(rng, 1), empty)
        chain = Chain([codec], array.shape, name, empty)
        value = chain.encode(array)
        assert value.tobytes() == bytes(other.encode(array))
        same(chain.decode(np.frombuffer(bytes(other.encode(array)), np.uint8)), array)


@pytest.mark.parametrize("name, wrong", [("string", b"a"), ("string", None), ("string", 5), ("bytes", "a"), ("bytes", 5)])
def test_elements_that_are_none(name, wrong):
    chain = Chain([VLEN], (2,), name)
    kind = "text" if name == "string" else "byte string"
    for call in (lambda: chain.encode(np.array([wrong, wrong], object)), lambda: chain.write(None, 0, wrong)):
        with pytest.raises(TypeError, match=f"an element is no {kind}"):
            call()


def test_damage_behind_lengths_is_refused():
    chain = Chain(["vlen-utf8"], (2,), "string")
    value = chain.encode(["ab", "c"]).tobytes()
    for end in range(len(value)):
        with pytest.raises(InvalidBytesLength):
            chain.decode(value[:end])
    with pytest.raises(InvalidBytesLength):
        chain.decode(value + b"\0")
    with pytest.raises(ElementCount):
        chain.decode(b"\3" + value[1:])


@pytest.mark.parametrize(
    "texts",
    [
        ["", "", ""],
        ["\0", "a\0b", "\0\0"],
        ["é", "日本", "🦀🦀"],
        ["".join(map(chr, range(128))), "", "".join(map(chr, range(127, -1, -1)))],
        ["".join(map(chr, range(128))) + "é", "a", ""],
    ],
)
def test_texts_of_any_characters(texts):
    chain = Chain([VLEN], (3,), "string", "?")
    array = np.array(texts, object)
    value = chain.encode(array)
    same(chain.decode(value), array)
    same(chain.read(value, np.s_[1:]), array[1:])
    same(chain.read(None, np.s_[1:]), np.array(["?", "?"], object))


@pytest.mark.parametrize(
    "texts", [[b"", b"\0\xff"], [BYTES_OF_ALL, b"\0"], [BYTES_OF_ALL, BYTES_OF_ALL]]
)
def test_byte_strings_of_any_bytes(texts):
    chain = Chain([VLEN], (2,), "bytes", b"")
    array = np.array(texts, object)
    same(chain.decode(chain.encode(array)), array)


def test_crossing_alone():
    for texts in ([], [""], ["a"], ["", "é", "\0"]):
        offsets, whole = _texts.joined(texts, True)
        assert offsets[0] == 0 and offsets[-1] == len(whole)
        assert _texts.parted(offsets, whole, True).tolist() == texts


def test_a_text_is_written_everywhere():
    chain = Chain([VLEN], (2, 2), "string", "")
    value = chain.write(None, np.s_[:, 1], "day")
    assert chain.decode(value).tolist() == [["", "day"], ["", "day"]]
    value = chain.write(value, (0, 0), "night")
    assert chain.decode(value).tolist() == [["night", "day"], ["", "day"]]


def test_arrays_of_numpys_own_texts():
    chain = Chain([VLEN], (2,), "string", "")
    assert chain.decode(chain.encode(np.array(["one", "three"]))).tolist() == ["one", "three"]
    chain = Chain([VLEN], (2,), "bytes", b"")
    assert chain.decode(chain.encode(np.array([b"one", b"three"]))).tolist() == [b"one", b"three"]


def test_elements_that_are_no_texts():
    chain = Chain([VLEN], (2,), "string", "")
    for wrong in ([1, 2], [b"a", b"b"], [None, "a"]):
        with pytest.raises(TypeError):
            chain.encode(np.array(wrong, object))
    with pytest.raises(InvalidText):
        chain.encode(np.array(["\ud800", ""], object))
    with pytest.raises(InvalidText):
        chain.decode(Chain([VLEN], (2,), "bytes", b"").encode(np.array([b"\xff", b""], object)))


def test_texts_cut_within_a_character():
    """Bytes that are a text together but not apart aren't read as one."""
    byte_strings = Chain([VLEN], (2,), "bytes", b"")
    value = byte_strings.encode(np.array([b"\xc3", b"\xa9"], object))
    with pytest.raises(InvalidText):
        Chain([VLEN], (2,), "string", "").decode(value)
    same(byte_strings.decode(value), np.array([b"\xc3", b"\xa9"], object))


def test_out_takes_texts():
    chain = Chain([VLEN], (2,), "string", "")
    out = np.empty(2, object)
    assert chain.decode(chain.encode(np.array(["a", "b"], object)), out) is out
    assert out.tolist() == ["a", "b"]


def test_answers_longer_than_the_value():
    chain = Chain([VLEN], (3,), "string", "fill" * 100)
    assert chain.read(None, ...).tolist() == ["fill" * 100] * 3
    value = chain.encode(np.array(["a" * 100, "b", ""], object))
    assert chain.read(value, [[0]] * 50).tolist() == ["a" * 100] * 50


def test_values_longer_than_the_other_one(rng):
    narrow = {**VLEN, "configuration": {**VLEN["configuration"], "index_data_type": "uint32"}}
    narrow, wide = Chain([narrow], (1000,), "string", ""), Chain([VLEN], (1000,), "string", "")
    array = some_texts(rng, (1000,))
    value = narrow.reencode(narrow.encode(array), wide.codecs)
    assert value.size > narrow.encode(array).size + 1000
    same(wide.decode(value), array)


@pytest.mark.parametrize("offsets, data, texts", [([2, 3, 4], "xxab", ["a", "b"]), ([1, 1, 2, 2], "xa", ["", "a", ""])])
def test_stored_offsets_that_begin_above_zero(offsets, data, texts):
    """Other writers store slices of longer lists so: their elements are the bytes between the offsets."""
    for codec, value in loose_values(offsets, data.encode()):
        chain = Chain([codec], (len(texts),), "string", "")
        expected = np.array(texts, object)
        same(chain.decode(value), expected)
        same(chain.read(value, ...), expected)
        same(chain.read(value, np.s_[1:]), expected[1:])
        same(chain.decode(chain.write(value, 0, "new")), np.array(["new", *texts[1:]], object))
        same(chain.reencode(value, [codec]), chain.encode(expected))
        byte_strings = Chain([codec], (len(texts),), "bytes", b"")
        assert byte_strings.decode(value).tolist() == [text.encode() for text in texts]


def test_stored_offsets_that_begin_above_zero_under_a_mask():
    for codec, inner in loose_values([2, 3, 4], b"xxab"):
        mask = bytes([0b101])
        value = len(mask).to_bytes(8, "little") + len(inner).to_bytes(8, "little") + mask + inner
        chain = Chain([optional(codec)], (3,), {"optional": "string"})
        for found in (chain.decode(value), chain.read(value, ...)):
            assert found.tolist() == ["a", None, "b"]
            assert found.data.tolist() == ["a", "", "b"]
