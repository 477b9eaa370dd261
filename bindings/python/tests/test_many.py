"""Values edited where they stand, and several selections by one call."""

import ctypes

import numpy as np
import pytest
from samples import BIG, LITTLE, VLEN, optional, same, transpose

import zarrs_codecs as z
from zarrs_codecs import Chain
from zarrs_codecs._library import BOX, EditSize, library

GZIP = {"name": "gzip", "configuration": {"level": 1}}
SELECTIONS = [0, np.s_[1:, ::2], np.s_[..., -1], [[3, 4], [0, 0], [3, 4]], np.s_[2, 2], np.s_[4:, :], np.s_[::-1]]


def chunk_of(dtype):
    return np.arange(20).reshape(4, 5).astype(dtype)


@pytest.mark.parametrize(
    "codecs, data_type",
    [
        ([LITTLE], "int16"),
        ([transpose([1, 0]), BIG], "float64"),
        (["packbits"], "uint4"),
        ([LITTLE, GZIP], "uint32"),
    ],
)
def test_many_selections_are_read_as_one_after_another(codecs, data_type):
    chain = Chain(codecs, (4, 5), data_type, 7)
    value = chain.encode(chunk_of(chain.dtype) % 16)
    for stored in (value, None):
        answers = chain.read_many(stored, SELECTIONS)
        assert len(answers) == len(SELECTIONS)
        for answer, selection in zip(answers, SELECTIONS, strict=True):
            same(answer, chain.read(stored, selection))
    assert chain.read_many(value, []) == []


def test_many_selections_of_texts_and_of_absent_elements():
    texts = Chain([VLEN], (5,), "string")
    value = texts.encode(np.array(["", "a", "bcd", "éé", "e"], object))
    for answer, selection in zip(
        texts.read_many(value, [np.s_[1:4], 2, np.s_[3:3], [[4], [0]]]), [np.s_[1:4], 2, np.s_[3:3], [[4], [0]]], strict=True
    ):
        same(answer, texts.read(value, selection))
    counts = Chain([optional(LITTLE)], (3,), {"optional": "int32"})
    value = counts.encode(np.ma.MaskedArray([1, 2, 3], [False, True, False]))
    first, second = counts.read_many(value, [np.s_[1:], 0])
    same(first, counts.read(value, np.s_[1:]))
    same(second, counts.read(value, 0))


def test_many_selections_of_which_one_is_refused():
    chain = Chain([LITTLE], (4, 5), "int16")
    value = chain.encode(chunk_of("int16"))
    with pytest.raises(z.OutOfBounds):
        chain.read_many(value, [0, [[4, 0]]])
    with pytest.raises(z.InvalidByteRange):
        chain.read_many(value[:-1], [0, -1])
    same(chain.read_many(value[:-1], [0])[0], chain.read(value, 0))


@pytest.mark.parametrize("codecs", [[LITTLE], [transpose([1, 0]), BIG]])
def test_a_value_is_edited_where_it_stands(codecs):
    chain = Chain(codecs, (4, 5), "int16")
    chunk = chunk_of("int16")
    value = chain.encode(chunk)
    for selection, new in [(0, [9, 8, 7, 6, 5]), (np.s_[1:3, ::2], -1), (np.s_[::-1, 4], [1, 2, 3, 4]), ((3, 3), 77)]:
        expected = chain.write(value, selection, new)
        chunk[selection] = new
        assert chain.write(value, selection, new, out=value) is value
        same(value, expected)
    same(chain.decode(value), chunk)
    held = bytearray(value)
    chain.write(held, [[0, 0], [3, 4]], [5, 6], out=held)
    assert held == bytes(chain.write(value, [[0, 0], [3, 4]], [5, 6]))


def test_elements_of_the_value_itself():
    chain = Chain([LITTLE], (4,), "uint16")
    value = chain.encode([1, 2, 3, 4])
    chain.write(value, np.s_[1:], value.view("<u2")[:3], out=value)
    same(chain.decode(value), np.array([1, 1, 2, 3], "uint16"))


@pytest.mark.parametrize(
    "codecs, data_type, codec",
    [
        (["packbits"], "bool", (0, "packbits")),
        ([LITTLE, GZIP], "int16", (1, "gzip")),
        ([LITTLE, "crc32c"], "int16", (1, "crc32c")),
        ([optional("bytes")], {"optional": "uint8"}, (0, "optional")),
    ],
)
def test_what_isnt_edited_in_place(codecs, data_type, codec):
    chain = Chain(codecs, (4,), data_type)
    value = chain.encode(np.ma.MaskedArray([1, 0, 1, 0], False))
    before = bytes(value)
    with pytest.raises(z.NotInPlace) as told:
        chain.write(value, 0, 0, out=value)
    assert told.value.codec == codec
    assert bytes(value) == before


def test_a_short_value_isnt_edited():
    chain = Chain([LITTLE], (4,), "int16")
    value = chain.encode([1, 2, 3, 4])[:7].copy()
    with pytest.raises(z.NotInPlace, match="^7 bytes, where 8 are due, by codec 0, 'bytes'$"):
        chain.write(value, 0, 9, out=value)
    assert value[0] == 1


def test_out_is_the_value_and_may_be_written():
    chain = Chain([LITTLE], (4,), "int16")
    value = chain.encode([1, 2, 3, 4])
    with pytest.raises(ValueError, match="the value itself"):
        chain.write(value, 0, 9, out=value.copy())
    with pytest.raises(ValueError, match="may be written"):
        held = bytes(value)
        chain.write(held, 0, 9, out=held)
    with pytest.raises(z.OutOfBounds):
        chain.write(value, [[4]], [9], out=value)
    same(chain.decode(value), np.array([1, 2, 3, 4], "int16"))


def test_edits_of_a_list_stand_up_to_the_one_that_is_refused():
    header = b'{"shape":[4],"data_type":"uint8","fill_value":"00","codecs":["bytes"]}'
    sizes = (EditSize * 3)(EditSize(BOX, 2, 2), EditSize(1, 1, 1), EditSize(BOX, 2, 1))
    numbers = (ctypes.c_uint64 * 5)(0, 2, 4, 3, 1)
    value, done = ctypes.create_string_buffer(b"....", 4), ctypes.c_size_t(9)
    call = (header, len(header), value, 4, sizes, 3, numbers)
    assert library.zarrs_edit(*call, 5, b"abcd", 4, ctypes.byref(done)) == 17
    assert value.raw == b"ab.." and done.value == 1
    numbers[2] = 1
    assert library.zarrs_edit(*call, 5, b"abcd", 4, ctypes.byref(done)) == 0
    assert value.raw == b"ac.d" and done.value == 3
    for count, length in ((4, 4), (5, 3), (5, 5)):
        assert library.zarrs_edit(*call, count, b"efghi", length, ctypes.byref(done)) == 3
        assert value.raw == b"ac.d" and done.value == 0


def test_names_end_with_a_zero_where_there_is_room():
    needed = ctypes.c_size_t()
    for room, code, text in ((8, 0, b"Overflow"), (9, 0, b"Overflow\0"), (12, 0, b"Overflow\0..."), (7, 1, b".......")):
        name = ctypes.create_string_buffer(b"." * room, room)
        assert library.zarrs_error_name(18, name, room, ctypes.byref(needed)) == code
        assert name.raw == text and needed.value == 8


TRANSPOSED = transpose([1, 0])
SHARD = {"name": "sharding_indexed", "configuration": {"chunk_shape": [2, 5], "codecs": [LITTLE], "index_codecs": [LITTLE]}}


@pytest.mark.parametrize(
    "codecs, is_in_place",
    [
        ([LITTLE], True),
        ([TRANSPOSED, BIG], True),
        ([LITTLE, "crc32c"], False),
        ([LITTLE, GZIP], False),
        ([SHARD], False),
        ([{**SHARD, "configuration": {**SHARD["configuration"], "codecs": [LITTLE, GZIP]}}], False),
    ],
)
def test_many_edits_leave_what_one_after_another_leaves(codecs, is_in_place, rng):
    chain = Chain(codecs, (4, 5), "int16", 7)
    value = chain.encode(chunk_of("int16"))
    for _ in range(20):
        picked = [SELECTIONS[at] for at in rng.integers(0, len(SELECTIONS), rng.integers(0, 6))]
        edits = [(one, rng.integers(0, 99, np.shape(chain.read(None, one))).astype("i2")) for one in picked] + [(1, 5)]
        for stored in (value, None):
            beside = stored
            for selection, elements in edits:
                beside = chain.write(beside, selection, elements)
            same(chain.write_many(stored, edits), beside)
        mine = value.copy()
        if is_in_place:
            beside = value
            for selection, elements in edits:
                beside = chain.write(beside, selection, elements)
            assert chain.write_many(mine, iter(edits), out=mine) is mine
            same(mine, beside)
        else:
            with pytest.raises(z.NotInPlace):
                chain.write_many(mine, edits, out=mine)
            same(mine, value)
    same(chain.write_many(value, []), value)
    same(chain.decode(chain.write_many(None, [])), np.full((4, 5), 7, "i2"))


def test_many_edits_of_texts_and_of_absent_elements():
    texts = Chain([VLEN], (5,), "string")
    value = texts.write_many(None, [(np.s_[1:3], ["a", "bc"]), ([[4], [1]], "é")])
    assert texts.decode(value).tolist() == ["", "é", "bc", "", "é"]
    with pytest.raises(z.NotInPlace, match="by codec 0, 'zarrs.vlen'"):
        texts.write_many(value, [(0, "a")], out=value)
    counts = Chain([optional(LITTLE)], (3,), {"optional": "int32"})
    value = counts.write_many(None, [(0, 1), (np.s_[1:], [2, None]), (0, None)])
    assert counts.decode(value).tolist() == [None, 2, None]
    with pytest.raises(z.NotInPlace):
        counts.write_many(value, [(0, 1)], out=value)


def test_many_edits_of_which_one_is_refused():
    """Before any is made."""
    chain = Chain([LITTLE], (4, 5), "int16")
    value = chain.encode(chunk_of("int16"))
    for refusal, edit in (
        (z.OutOfBounds, ([[4, 0]], 1)),
        (IndexError, ((4, 0), 1)),
        (ValueError, (0, [1, 2])),
        (z.InvalidElement, (0, 1 << 20)),
    ):
        mine = value.copy()
        with pytest.raises(refusal):
            chain.write_many(mine, [(0, 3), edit], out=mine)
        same(mine, value)
    with pytest.raises(ValueError, match="out is the value itself"):
        chain.write_many(value, [], out=value.copy())
    with pytest.raises(ValueError, match="may be written"):
        chain.write_many(b"", [], out=b"")
    with pytest.raises(z.NotInPlace, match="^39 bytes, where 40 are due, by codec 0, 'bytes'$"):
        chain.write_many(mine := bytearray(39), [(0, 1)], out=mine)


@pytest.mark.parametrize("length", [0, 30, 39, 41, 60])
def test_many_edits_of_values_of_another_length(length):
    """As one after another, or refused as the first."""
    chain = Chain([LITTLE], (4, 5), "int16", 7)
    value = np.arange(length, dtype="u1")
    edits = [(np.s_[1], 3), ([[3, 4], [0, 1]], [5, 6])]
    try:
        beside = value
        for selection, elements in edits:
            beside = chain.write(beside, selection, elements)
    except z.Refused as error:
        with pytest.raises(type(error)):
            chain.write_many(value, edits)
    else:
        same(chain.write_many(value, edits), beside)


def test_damage_between_places_is_passed():
    shard = {
        "name": "sharding_indexed",
        "configuration": {"chunk_shape": [2], "codecs": [LITTLE, "crc32c"], "index_codecs": [LITTLE], "index_location": "end"},
    }
    chain = Chain([shard], (6,), "uint8")
    value = bytearray(chain.encode([1, 2, 3, 4, 5, 6]))
    value[6] ^= 1  # the first byte of the second inner chunk
    same(chain.read(value, np.s_[::4]), np.uint8([1, 5]))
    first, second = chain.read_many(value, [np.s_[::4], 0])
    same(first, np.uint8([1, 5]))
    assert second == 1
    with pytest.raises(z.BytesCodec, match="of inner chunk 1"):
        chain.read_many(value, [np.s_[::4], np.s_[::3]])
