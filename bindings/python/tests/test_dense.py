"""Reads of many inner chunks of a shard: their calls and bytes, and what they answer."""

import io

import numpy as np
import pytest
from samples import LITTLE, VLEN, RecordingFile, optional, same, same_masked, some_texts, transpose
from test_sharding import sharded

from zarrs_codecs import Chain, InvalidByteRange, InvalidBytesLength, Refused
from zarrs_codecs._lacking import Lacking
from zarrs_codecs._library_reads import LibraryReader
from zarrs_codecs.chain import coder_in

SIDE = 128
SELECTIONS = [np.s_[:], np.s_[::3, ::-2], np.s_[1:, 5:-7], np.s_[:, 3], "points"]


def calls_of(monkeypatch):
    """The library's calls that say what is lacking: each reads an index as a whole."""
    calls, ranges = [], Lacking.ranges

    def counted(lacking, *arguments):
        calls.append(arguments)
        return ranges(lacking, *arguments)

    monkeypatch.setattr(Lacking, "ranges", counted)
    return calls


def selected(rng, selection, count=5000):
    return rng.integers(0, SIDE, (count, 2)) if isinstance(selection, str) else selection


@pytest.mark.parametrize("selection", SELECTIONS, ids=str)
@pytest.mark.parametrize(
    "codecs",
    [
        sharded([1, 1], ["bytes"], [LITTLE, "crc32c"]),
        [transpose([1, 0]), *sharded([1, 2], ["bytes"])],
        sharded([16, 16], sharded([1, 1], ["bytes"])),
        [{"name": "reshape", "configuration": {"shape": [-1]}}, *sharded([1], ["bytes"])],
    ],
    ids=["shard", "transposed", "shards inside", "reshaped"],
)
def test_few_calls_and_the_same_elements(codecs, selection, rng, monkeypatch):
    array = rng.integers(1, 200, (SIDE, SIDE)).astype("u1")
    chain = Chain(codecs, array.shape, "uint8", 0)
    value, index = chain.encode(array), selected(rng, selection)
    expected = array[tuple(index.T)] if isinstance(index, np.ndarray) else array[index]
    same(chain.read(value, index), expected)
    calls, file = calls_of(monkeypatch), RecordingFile(value)
    same(chain.read_from(file, index), expected)
    assert len(calls) <= (4 if coder_in(chain).cut else 20)
    out = np.empty(expected.shape, "u1")
    assert chain.read(value, index, out) is out and (out == expected).all()
    assert chain.read_from(file, index, out) is out and (out == expected).all()


def test_some_of_many_inner_chunks(rng, monkeypatch):
    """Few beside all of them: the index, a thousand, and then the others, and no other byte."""
    array = rng.integers(1, 200, (512, 512)).astype("u1")
    chain = Chain(sharded([1, 1], ["bytes"]), array.shape, "uint8", 0)
    value = chain.encode(array)
    rows = np.unique(rng.integers(0, 512, (6000, 2)), axis=0)
    calls, file = calls_of(monkeypatch), RecordingFile(value)
    same(chain.read_from(file, rows), array[tuple(rows.T)])
    assert len(calls) <= 4 and len(file.seen) == 512 * 512 * 16 + len(rows)


@pytest.mark.parametrize("kind, inside", [("string", [VLEN]), ("string", ["vlen-utf8"]), ("optional", [optional("bytes")])])
def test_texts_and_absent_elements(kind, inside, rng):
    chain = Chain(sharded([2, 1], inside), (64, 64), {"optional": "uint8"} if kind == "optional" else kind)
    array = some_texts(rng, (64, 64))
    if kind == "optional":
        array = np.ma.MaskedArray(rng.integers(0, 9, (64, 64)).astype("u1"), rng.integers(0, 2, (64, 64)).astype(bool))
    value, alike = chain.encode(array), same_masked if kind == "optional" else same
    for index in (np.s_[:], np.s_[::2, ::-1], np.s_[3:, 1:]):
        alike(chain.read(value, index), array[index])
        alike(chain.read_from(io.BytesIO(value), index), array[index])


def test_damage_elsewhere_and_there(rng):
    """What isn't read isn't refused, however many inner chunks are."""
    array = rng.integers(1, 200, (SIDE, SIDE)).astype("u1")
    chain = Chain(sharded([1, 1], ["bytes"]), array.shape, "uint8", 0)
    value = chain.encode(array)
    value[-8:] = 255
    index = np.s_[:-1]
    same(chain.read(value, index), array[index])
    same(chain.read_from(io.BytesIO(value), index), array[index])
    for read in (chain.read, lambda stored, index: chain.read_from(io.BytesIO(stored), index)):
        with pytest.raises((InvalidByteRange, InvalidBytesLength), match=f"inner chunk {SIDE * SIDE - 1}"):
            read(value, np.s_[:])


@pytest.mark.parametrize("place", [-1, 3])
def test_which_inner_chunk_is_damaged_is_found_soon(place, rng, monkeypatch):
    """The last entry of an index of 16,384 is seen in the index, the first inner chunk by reads of ever smaller parts."""
    array = rng.integers(1, 200, (SIDE, SIDE)).astype("u1")
    chain = Chain(sharded([1, 1], ["bytes", "crc32c"]), array.shape, "uint8", 0)
    value = chain.encode(array)
    value[place] ^= 255
    read_elements, read = [], LibraryReader._read

    def counted(self, inner, chosen, *more):
        read_elements.append(np.prod(chosen.shape))
        return read(self, inner, chosen, *more)

    monkeypatch.setattr(LibraryReader, "_read", counted)
    calls = calls_of(monkeypatch)
    named = f"inner chunk {0 if place == 3 else SIDE * SIDE - 1}\\b"
    for refused in (chain.decode, lambda stored: chain.read(stored, ...), lambda stored: chain.read(stored, np.s_[:, ::-1])):
        read_elements.clear()
        with pytest.raises(Refused, match=named):
            refused(value)
        assert sum(read_elements) <= (3 if place == 3 else 1) * array.size
    with pytest.raises(Refused, match=named):
        chain.read_from(io.BytesIO(value), ...)
    assert len(calls) <= 60
