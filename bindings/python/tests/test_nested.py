"""Shards in shards are read in rounds of all of them at once."""

import gzip
import io

import numpy as np
import pytest
from samples import LITTLE, VLEN, RecordingFile, same, some, some_region, some_rows, some_texts, transpose
from test_read_from import rounds_of
from test_sharding import GZIP, sharded

import zarrs_codecs
from zarrs_codecs import Array, Chain, _rounds


def shard_of(sizes, inside, **more):
    """Shards in shards, of inner chunks of these sizes, the outermost first."""
    for size in reversed(sizes):
        inside = sharded([size, size], inside, [LITTLE], **more)
    return inside


# Of 64 times 64 numbers. An index has 16 bytes for each inner chunk.
@pytest.mark.parametrize("more", [{}, {"index_location": "start"}])
@pytest.mark.parametrize(
    "sizes, inside, most", [([16, 4], [LITTLE], 3), ([16, 4], [LITTLE, "crc32c"], 3), ([32, 16, 4], [transpose([1, 0]), LITTLE], 4)]
)
def test_as_many_rounds_as_indexes_and_one_more(sizes, inside, most, more, rng, monkeypatch):
    rounds = rounds_of(monkeypatch)
    chain = Chain(shard_of(sizes, inside, **more), (64, 64), "int16", 0)
    array = some(rng, "int16", chain.dtype, (64, 64)).copy()
    array[8:24, 8:40] = 0
    value = chain.encode(array)
    for _ in range(10):
        for selection in (some_region(rng, (64, 64)), some_rows(rng, (64, 64), 40)):
            rounds.clear()
            found = chain.read_from(io.BytesIO(value), selection)
            same(found, chain.read(value, selection))
            assert len(rounds) <= most


def test_points_in_many_shards_take_no_more_bytes_than_they_need(rng):
    """A byte of each of 16 shards, each of which has 16 inner chunks: an index of 256 bytes, 16 such, and the bytes."""
    chain = Chain(shard_of([16, 4], ["bytes"]), (64, 64), "uint8", 0)
    array = rng.integers(1, 256, (64, 64), np.uint8)
    file = RecordingFile(chain.encode(array))
    same(chain.read_from(file, np.s_[::16, ::16]), array[::16, ::16])
    assert len(file.getvalue()) == 64 * 64 + 17 * 256
    rows = [[row, column] for row in range(0, 64, 16) for column in range(0, 64, 16)]
    file = RecordingFile(chain.encode(array))
    same(chain.read_from(file, rows), array[::16, ::16].reshape(-1))
    assert len(file.seen) == 17 * 256 + 16


def test_texts_in_shards_in_shards(rng, monkeypatch):
    """Inner chunks with texts come whole."""
    rounds = rounds_of(monkeypatch)
    for inside in ([VLEN], ["vlen-utf8"]):
        chain = Chain(shard_of([4, 2], inside), (8, 8), "string", "")
        value = chain.encode(some_texts(rng, (8, 8)))
        for _ in range(10):
            for selection in (some_region(rng, (8, 8)), some_rows(rng, (8, 8), 9)):
                rounds.clear()
                same(chain.read_from(io.BytesIO(value), selection), chain.read(value, selection))
                assert len(rounds) <= 3


# A window, and two points, of one inner chunk of four times four in a shard of 16 times 16, of which there are twelve.
@pytest.mark.parametrize("front", [[], [transpose([1, 0])]])
@pytest.mark.parametrize("inside", [[], [transpose([1, 0])]])
def test_transpositions_before_them_change_no_round(front, inside, rng, monkeypatch):
    rounds = rounds_of(monkeypatch)
    chain = Chain([*front, *sharded([16, 16], [*inside, *sharded([4, 4], ["bytes"], [LITTLE])], [LITTLE])], (64, 48), "uint8", 0)
    array = rng.integers(1, 256, (64, 48), np.uint8)
    value = chain.encode(array)
    for selection, expected in ((np.s_[20:22, 40:43], array[20:22, 40:43]), ([[20, 43], [23, 40]], array[[20, 23], [43, 40]])):
        rounds.clear()
        file = RecordingFile(value)
        same(chain.read_from(file, selection), expected)
        assert len(rounds) == 3 and len(file.seen) == 12 * 16 + 256 + expected.size
    value[len(value) - 12 * 16 + 9] = 255
    with pytest.raises(zarrs_codecs.Refused, match="inner chunk 0"):
        chain.read_from(io.BytesIO(value), ...)


def test_behind_other_codecs_they_go_one_after_the_other(rng, monkeypatch):
    """Behind eight rounds the shards that are needed come whole, and no others."""
    rounds = rounds_of(monkeypatch)
    reshape = {"name": "reshape", "configuration": {"shape": [[0], [1]]}}
    chain = Chain([reshape, *shard_of([16, 4], ["bytes"])], (64, 64), "uint8", 0)
    array = rng.integers(1, 256, (64, 64), np.uint8)
    rows = [[row, row] for row in range(0, 48)]
    file = RecordingFile(chain.encode(array))
    same(chain.read_from(file, np.s_[:48, :48]), array[:48, :48])
    assert len(rounds) == 9
    assert len(file.seen) <= 9 * 512 + 256
    same(chain.read_from(file, rows), array[np.arange(48), np.arange(48)])


def test_shards_inside_that_python_cuts_are_read_in_part(rng):
    """Of inner chunks of four times four: an index of 256 bytes, another one of each shard inside, and their own bytes."""
    chain = Chain(shard_of([16, 4], ["bytes", GZIP]), (64, 64), "uint8", 0)
    array = rng.integers(1, 256, (64, 64), np.uint8)
    file = RecordingFile(chain.encode(array))
    stored = [len(gzip.compress(array[20:24, column : column + 4].tobytes(), 1)) for column in (44, 48)]
    for selection, expected in ((np.s_[21:23, 45:50], array[21:23, 45:50]), ([[20, 45], [23, 48]], array[[20, 23], [45, 48]])):
        file.seen.clear()
        same(chain.read_from(file, selection), expected)
        assert len(file.seen) == 256 + 2 * 256 + sum(stored)


@pytest.mark.parametrize("inside", [[LITTLE, "crc32c"], [LITTLE, GZIP]])
def test_damaged_shards_are_refused_as_reads_refuse_them(inside, rng):
    """Wherever a byte is another one, or the value ends."""
    chain = Chain(shard_of([4, 2], inside), (8, 8), "int16", 0)
    value = chain.encode(some(rng, "int16", np.dtype("<i2"), (8, 8)))
    selection = np.s_[1:6, 3:7]
    damaged = [value[:length] for length in range(0, value.size, 5)]
    for place in rng.integers(0, value.size, 200):
        damaged.append(value.copy())
        damaged[-1][place] ^= 1 << rng.integers(0, 8)
    for each in damaged:
        refusal = None
        try:
            found = chain.read(each, selection)
        except zarrs_codecs.Refused as error:
            refusal = error
        if refusal is None:
            same(chain.read_from(io.BytesIO(each), selection), found)
        else:
            with pytest.raises(type(refusal)) as refused:
                chain.read_from(io.BytesIO(each), selection)
            assert str(refused.value) == str(refusal)


def test_an_array_of_them_is_the_library_s(tmp_path, rng, monkeypatch):
    """The indexes are kept, and nothing else."""
    monkeypatch.setattr("zarrs_codecs._chunks._SMALL", 0)
    rounds = rounds_of(monkeypatch)
    array = Array.create(tmp_path / "a", (64, 64), (64, 64), "uint8", codecs=shard_of([16, 4], ["bytes"]))
    numbers = rng.integers(1, 256, (64, 64), np.uint8)
    array[...] = numbers
    assert array.chain.unproved == ()
    monkeypatch.setattr("zarrs_codecs._cache._SETTLED_NANOSECONDS", -(1 << 62))
    for due in ([1, 2, 10], [10]):
        rounds.clear()
        same(array[10:20, 13:16], numbers[10:20, 13:16])
        assert [len(one) for one in rounds] == due
    same(array[:2, 40:50], numbers[:2, 40:50])


def test_ranges_without_those_that_are_there(rng):
    value = np.arange(40).astype(np.uint8)
    for _ in range(200):
        is_there, is_asked = rng.integers(0, 2, 40), np.zeros(40, bool)
        fetched = _rounds.Fetched(zarrs_codecs._files.Held(value))
        edges = np.flatnonzero(np.diff(np.concatenate(([0], is_there, [0]))))
        if edges.size:
            fetched.fetch(edges.astype(np.uint64).reshape(-1, 2))
        asked = sorted(sorted(rng.integers(0, 41, 2).tolist()) for _ in range(5))
        for begin, end in asked:
            is_asked[begin:end] = True
            found = fetched.bytes_of(begin, end)
            if begin < end:
                assert (found is not None) == is_there[begin:end].all()
            assert found is None or found.tolist() == value[begin:end].tolist()
        edges = np.flatnonzero(np.diff(np.concatenate(([0], is_asked & (is_there == 0), [0]))))
        assert fetched.without(np.array(asked, np.uint64)).tolist() == edges.reshape(-1, 2).tolist()
