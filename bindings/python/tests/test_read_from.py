"""Reads from files ask for the planned bytes, and no others."""

import io
import os
import tracemalloc

import numpy as np
import pytest
from samples import (
    BIG,
    LITTLE,
    VLEN,
    RecordingFile,
    optional,
    same,
    some,
    some_index,
    some_region,
    some_rows,
    some_texts,
    transpose,
)

import zarrs_codecs
from zarrs_codecs import Chain, _dense, _library_reads, _rounds, _selections
from zarrs_codecs.chain import coder_in


def planned(chain, selection):
    return {
        byte
        for start, end in chain.planned_ranges(selection).tolist()
        for byte in range(start, end)
    }


def some_chain(rng):
    axes = int(rng.integers(1, 4))
    shape = tuple(int(size) for size in rng.integers(1, 9, axes))
    if rng.integers(3) == 0:
        return Chain(["packbits"], shape, "bool"), "bool"
    return (
        Chain([transpose(rng.permutation(axes)), [LITTLE, BIG][rng.integers(2)]], shape, "int16"),
        "int16",
    )


def test_no_byte_outside_the_plan(rng):
    for _ in range(80):
        chain, name = some_chain(rng)
        array = some(rng, name, chain.dtype, chain.shape)
        value = chain.encode(array)
        region, rows = some_region(rng, chain.shape), some_rows(rng, chain.shape, 7)
        for selection, expected in ((region, array[region]), (rows, array[tuple(rows.T)])):
            file = RecordingFile(value)
            same(chain.read_from(file, selection), expected)
            assert file.seen == planned(chain, selection)
        if name == "int16":
            file = RecordingFile(value)
            chain.read_from(file, region)
            assert len(file.seen) == array[region].nbytes


@pytest.mark.parametrize("together, rows", [(1, 1), (4, 8), (8, 8), (256, 4096)])
@pytest.mark.parametrize("part, gap", [(1, 1), (8, 1), (32, 4), (64, 1 << 16)])
def test_selections_in_parts(part, gap, together, rows, rng, monkeypatch):
    """Parts and gaps of every size answer as numpy does, and read the planned bytes of what isn't skipped."""
    monkeypatch.setattr(_library_reads, "_PART_BYTES", part)
    monkeypatch.setattr(_library_reads, "_GAP_BYTES", gap)
    monkeypatch.setattr(_selections, "_FEW_TOGETHER", together)
    monkeypatch.setattr(_selections, "_MANY_ROWS", rows)
    for _ in range(40):
        chain, name = some_chain(rng)
        array = some(rng, name, chain.dtype, chain.shape)
        value = chain.encode(array)
        index, listed = some_index(rng, chain.shape), some_rows(rng, chain.shape, 9)
        for selection, expected in ((index, array[index]), (listed, array[tuple(listed.T)])):
            file = RecordingFile(value)
            same(chain.read_from(file, selection), expected)
            if expected.size:
                assert file.seen <= planned(chain, selection)
            if gap == 1 and name == "int16" and selection is index:
                assert len(file.seen) == expected.nbytes


def test_kinds_of_files(tmp_path, rng):
    chain = Chain([LITTLE], (30, 40), "float32")
    array = some(rng, "float32", chain.dtype, chain.shape)
    path = tmp_path / "value"
    path.write_bytes(chain.encode(array).tobytes())
    region = np.s_[3:17, 5:9]
    for arguments in ({"buffering": 0}, {}):
        with open(path, "rb", **arguments) as file:
            file.seek(7)
            same(chain.read_from(file, region), array[region])
            assert file.tell() == 7
            same(chain.read_from(file.fileno(), region), array[region])
    same(chain.read_from(io.BytesIO(path.read_bytes()), region), array[region])
    with open(tmp_path / "other", "w+b") as file:
        file.write(path.read_bytes()[:-10])
        file.flush()
        file.write(path.read_bytes()[-10:])
        same(chain.read_from(file, ...), array)


def test_out_takes_what_is_read(rng):
    chain = Chain([LITTLE], (4, 6), "int32")
    array = some(rng, "int32", chain.dtype, chain.shape)
    file = io.BytesIO(chain.encode(array))
    for index in (np.s_[1:3], np.s_[1:3, ::-1], np.s_[2, 1:5]):
        for out in (np.empty_like(array[index]), np.empty((*array[index].shape, 2), "<i4")[..., 0]):
            assert chain.read_from(file, index, out) is out
            same(np.ascontiguousarray(out), array[index])


def rounds_of(monkeypatch):
    """The ranges of each round that goes on from here, in a list that grows."""
    rounds, fetch = [], _rounds.Fetched.fetch

    def fetched(self, lacking):
        rounds.append(lacking.tolist())
        fetch(self, lacking)

    monkeypatch.setattr(_rounds.Fetched, "fetch", fetched)
    return rounds


def test_texts_in_rounds(rng, monkeypatch):
    """The length of the offsets, the offsets, and the texts."""
    rounds = rounds_of(monkeypatch)
    chain = Chain([VLEN], (5,), "string", "")
    array = np.array(["a", "bc", "", "def", "g"], object)
    file = RecordingFile(chain.encode(array))
    size = len(file.getvalue())
    begin = size - 7
    same(chain.read_from(file, np.s_[1:3]), array[1:3])
    assert chain.planned_ranges(np.s_[1:3]) is None
    assert rounds == [[[0, 8]], [[8, begin]], [[begin + 1, begin + 3]]]
    assert file.seen == {*range(begin), begin + 1, begin + 2}
    out = np.empty(2, object)
    assert chain.read_from(file, np.s_[::4], out) is out and out.tolist() == ["a", "g"]
    assert rounds[-1] == [[begin, size]]
    same(chain.read_from(file, [[4], [0]]), array[[4, 0]])
    assert rounds[-1] == [[begin, begin + 1], [size - 1, size]]


def test_rounds_of_other_chains(rng, monkeypatch):
    """What has no plan is fetched whole, by one round."""
    rounds = rounds_of(monkeypatch)
    absent = np.ma.masked_array([1, 2, 3, 4], [0, 1, 0, 0], "<i2")
    numbers = np.arange(4, dtype="<i2")
    for codecs, kind, fill, array in (
        ([optional(LITTLE)], {"optional": "int16"}, None, absent),
        ([LITTLE, "crc32c"], "int16", 7, numbers),
    ):
        chain = Chain(codecs, (4,), kind, fill)
        file = RecordingFile(chain.encode(array))
        found = chain.read_from(file, np.s_[1:3])
        assert found.tolist() == array[1:3].tolist()
        assert rounds.pop() == [[0, len(file.getvalue())]] and not rounds


def sharded(length, inside, **more):
    configuration = {"chunk_shape": [length], "codecs": inside, "index_codecs": [LITTLE], **more}
    return {"name": "sharding_indexed", "configuration": configuration}


# Of 32 numbers of two bytes: inner chunks of two are four bytes each, and the index is 16 bytes for each of them. A shard
# of eight numbers inside is four inner chunks and their index, 80 bytes.
ROUNDS_OF_SHARDS = [
    ("index behind", sharded(2, [LITTLE]), np.s_[1:3], [[[64, 320]], [[2, 6]]]),
    ("index behind, all", sharded(2, [LITTLE]), np.s_[:], [[[64, 320]], [[0, 64]]]),
    ("index in front", sharded(2, [LITTLE], index_location="start"), np.s_[1:3], [[[0, 256]], [[258, 262]]]),
    ("read whole inside", sharded(2, [LITTLE, "crc32c"]), np.s_[1:3], [[[128, 384]], [[0, 16]]]),
    ("a shard inside", sharded(8, [sharded(2, [LITTLE])]), np.s_[1:3], [[[320, 384]], [[16, 80]], [[2, 6]]]),
    (
        "two shards inside, at once",
        sharded(8, [sharded(2, [LITTLE])]),
        np.s_[7:9],
        [[[320, 384]], [[16, 80], [96, 160]], [[14, 16], [80, 82]]],
    ),
    (
        "shards inside, read whole",
        sharded(8, [sharded(2, [LITTLE]), "crc32c"]),
        np.s_[7:9],
        [[[336, 400]], [[0, 168]]],
    ),
]


@pytest.mark.parametrize("name, codec, selection, due", ROUNDS_OF_SHARDS)
def test_rounds_of_shards(name, codec, selection, due, monkeypatch):
    """The index, and then what all inner chunks are read by, at once; of shards inside their indexes come first."""
    rounds = rounds_of(monkeypatch)
    numbers = np.arange(1, 33, dtype="<i2")
    chain = Chain([codec], (32,), "int16", 0)
    file = RecordingFile(chain.encode(numbers))
    same(chain.read_from(file, selection), numbers[selection])
    assert rounds == due
    assert file.seen == {byte for ranges in due for begin, end in ranges for byte in range(begin, end)}


# Of four texts an inner chunk of two is 32 bytes and their own by `zarrs.vlen`, a length and three offsets of eight
# bytes, and 12 and their own by `vlen-utf8`. The index is 32 bytes.
ROUNDS_OF_TEXTS_IN_SHARDS = [
    ("one inner chunk", [VLEN], {}, np.s_[1:2], [[[71, 103]], [[0, 35]]]),
    ("two", [VLEN], {}, np.s_[1:3], [[[71, 103]], [[0, 71]]]),
    ("two, index in front", [VLEN], {"index_location": "start"}, np.s_[1:3], [[[0, 32]], [[32, 103]]]),
    ("the first and the last", [VLEN], {}, [[0], [3]], [[[71, 103]], [[0, 71]]]),
    ("read whole", ["vlen-utf8"], {}, np.s_[1:3], [[[31, 63]], [[0, 31]]]),
]


@pytest.mark.parametrize("name, inside, more, selection, due", ROUNDS_OF_TEXTS_IN_SHARDS)
def test_rounds_of_texts_in_shards(name, inside, more, selection, due, monkeypatch):
    """The index, and then all inner chunks that have the texts, whole."""
    rounds = rounds_of(monkeypatch)
    array = np.array(["a", "bc", "def", "g"], object)
    chain = Chain([sharded(2, inside, **more)], (4,), "string", "")
    found = chain.read_from(io.BytesIO(chain.encode(array)), selection)
    same(found, array[selection] if isinstance(selection, slice) else array[[0, 3]])
    assert rounds == due


def test_short_ranges_of_many_inner_chunks(monkeypatch):
    """Two of four bytes, 512 times of each inner chunk: what one inner chunk lacks, and then the others whole."""
    rounds = rounds_of(monkeypatch)
    shard = {"chunk_shape": [512, 4], "codecs": ["bytes"], "index_codecs": [LITTLE]}
    numbers = np.arange(1, 2048 * 4 + 1).astype("u1").reshape(2048, 4)
    chain = Chain([{"name": "sharding_indexed", "configuration": shard}], (2048, 4), "uint8", 0)
    same(chain.read_from(io.BytesIO(chain.encode(numbers)), np.s_[:, 1:2]), numbers[:, 1:2])
    assert len(rounds) == 3 and rounds[0] == [[8192, 8256]] and len(rounds[1]) == 512


def test_many_inner_chunks_of_a_few_bytes(monkeypatch):
    """More than a thousand, of nine bytes or five each: the index, one inner chunk, and then the rest; or all at once."""
    whole = Chain([sharded(1, ["vlen-utf8"])], (1100,), "string", "")
    assert rounds_of(monkeypatch) == [] and whole.read_from(io.BytesIO(whole.encode(["a"] * 1100)), np.s_[3:9]).size == 6
    monkeypatch.setattr(_dense, "_MANY", 1100)
    rounds = rounds_of(monkeypatch)
    array = np.array([chr(97 + at % 26) for at in range(1100)], object)
    chain = Chain([sharded(1, ["vlen-utf8"])], (1100,), "string", "")
    same(chain.read_from(io.BytesIO(chain.encode(array)), np.s_[:]), array)
    assert rounds == [[[9900, 27500]], [[0, 9]], [[9, 9900]]]
    rounds.clear()
    numbers = np.arange(1, 1101).astype("u1") | 1
    chain = Chain([sharded(1, ["bytes", "crc32c"])], (1100,), "uint8", 0)
    same(chain.read_from(io.BytesIO(chain.encode(numbers)), np.s_[:]), numbers)
    assert rounds == [[[5500, 23100]], [[0, 5]], [[5, 5500]]]


# Codecs of inner chunks with one element, its type, its fill value, and how many bytes each takes; texts have one letter.
OF_A_FEW_BYTES = [
    (["bytes"], "uint8", 0, 1),
    (["bytes", "crc32c"], "uint8", 0, 5),
    (["packbits"], "bool", False, 1),
    ([LITTLE], "int16", 0, 2),
    (["vlen-utf8"], "string", "", 9),
    ([VLEN], "string", "", 25),
    ([optional("bytes")], {"optional": "uint8"}, None, 18),
]
# Codecs in front of the shard, and how many axes are left; transpose takes no optional elements.
IN_FRONT = [([transpose([1, 0])], 2), ([{"name": "reshape", "configuration": {"shape": [-1]}}], 1), ([], 2)]


@pytest.mark.parametrize(
    "inside, kind, fill, size, in_front, axes",
    [(*inside, *front) for inside in OF_A_FEW_BYTES for front in (IN_FRONT[1:] if inside[2] is None else IN_FRONT)],
)
def test_three_rounds_and_no_inner_chunk_that_is_not_needed(
    inside, kind, fill, size, in_front, axes, rng, monkeypatch
):
    """Of 64 times 40 inner chunks, also behind codecs that move them, where not all are read at once."""
    monkeypatch.setattr(_dense, "_MANY", 64 * 40)
    rounds = rounds_of(monkeypatch)
    shard = {"chunk_shape": [1] * axes, "codecs": inside, "index_codecs": [LITTLE]}
    chain = Chain([*in_front, {"name": "sharding_indexed", "configuration": shard}], (64, 40), kind, fill)
    array = np.full((64, 40), "a" if kind == "string" else 1, chain.dtype)
    value = chain.encode(np.ma.masked_array(array) if fill is None else array)
    assert len(value) == 64 * 40 * (size + 16)
    rows = rng.permutation(64 * 40)[:1500]
    for selection, count in (
        (np.s_[:40, 4:34], 40 * 30),
        (np.s_[::2, ::-1], 32 * 40),
        (np.stack((rows // 40, rows % 40), 1), 1500),
    ):
        rounds.clear()
        file = RecordingFile(value)
        assert np.array_equal(chain.read_from(file, selection), chain.read(value, selection))
        assert len(rounds) <= 3 and len(file.seen) == 64 * 40 * 16 + size * count


@pytest.mark.parametrize("front", [[], [transpose([1, 0])]])
@pytest.mark.parametrize("inside, kind, size", [([LITTLE], "int16", 2), (["bytes", "crc32c"], "uint8", 5), ([VLEN], "string", 25)])
def test_steps_pass_inner_chunks(inside, kind, size, front, rng, monkeypatch):
    """Of 40 times 60 inner chunks of one element, and of 10 times 15 with 16: none that a step passes is fetched, and what
    lies between in those that have some is."""
    rounds = rounds_of(monkeypatch)
    array = np.full((40, 60), "a", object) if kind == "string" else rng.integers(1, 99, (40, 60)).astype(kind)
    for side in (1, 4):
        shard = {"chunk_shape": [side, side], "codecs": inside, "index_codecs": [LITTLE]}
        chain = Chain([*front, {"name": "sharding_indexed", "configuration": shard}], (40, 60), kind)
        value = chain.encode(array)
        for selection in (np.s_[::8, ::10], np.s_[39::-13, 5], np.s_[1::20, 3:50:7]):
            rounds.clear()
            file = RecordingFile(value)
            same(chain.read_from(file, selection), array[selection])
            same(chain.read(value, selection), array[selection])
            assert len(rounds) <= 3
            if side == 1:
                assert len(file.seen) == 40 * 60 * 16 + size * array[selection].size
            elif kind == "int16":
                touched = {(row // 4, column // 4) for row, column in np.argwhere(_marked(array.shape, selection)).tolist()}
                assert len(file.seen) <= 150 * 16 + 32 * len(touched)


@pytest.mark.parametrize("front", [[], [transpose([1, 0])]])
def test_steps_pass_inner_chunks_of_shards_in_shards(front):
    """Of four times three shards in a shard, with two times three inner chunks of two times one elements each, and indexes
    of 6 times 16 and 12 times 16 bytes: none that a step passes is fetched."""
    inside = sharded(1, [LITTLE], chunk_shape=[2, 1][:: -1 if front else 1])
    chain = Chain([*front, sharded(1, [inside], chunk_shape=[4, 3][:: -1 if front else 1])], (16, 9), "int16")
    array = np.arange(1, 145, dtype="i2").reshape(16, 9)
    value = chain.encode(array)
    for selection in (np.s_[::4, ::4], np.s_[15::-6, 2], np.s_[1::5, 8::-3]):
        file = RecordingFile(value)
        same(chain.read_from(file, selection), array[selection])
        touched = np.argwhere(_marked(array.shape, selection)) // (2, 1)
        shards = np.unique(touched // (2, 3), axis=0)
        assert len(file.seen) <= 12 * 16 + len(shards) * 6 * 16 + 4 * len(np.unique(touched, axis=0))


TURNED = transpose([1, 0])


# Of 16 times 1,024 numbers of eight bytes, each fourth row of three columns: a row is 8 KiB, a column 128 bytes. Between two
# rows there are 24 KiB where rows stand together, and 24 bytes where columns do: then what lies between is fetched.
@pytest.mark.parametrize(
    "codecs, rows_together",
    [
        ([LITTLE], True),
        ([TURNED, LITTLE], False),
        ([TURNED, TURNED, LITTLE], True),
        ([sharded(16, [LITTLE], chunk_shape=[16, 1024])], True),
        ([TURNED, sharded(16, [LITTLE], chunk_shape=[1024, 16])], False),
        ([sharded(16, [TURNED, LITTLE], chunk_shape=[16, 1024])], False),
        ([TURNED, sharded(16, [TURNED, LITTLE], chunk_shape=[1024, 16])], True),
    ],
)
def test_gaps_are_measured_as_elements_are_stored(codecs, rows_together):
    chain = Chain(codecs, (16, 1024), "uint64", 0)
    array = np.arange(1, 16 * 1024 + 1, dtype="<u8").reshape(16, 1024)
    value = chain.encode(array)
    file = RecordingFile(value)
    same(chain.read_from(file, np.s_[::4, :3]), array[::4, :3])
    ranges = [(row * 8192, 24) for row in (0, 4, 8, 12)] if rows_together else [(column * 128, 104) for column in (0, 1, 2)]
    due = {byte for begin, size in ranges for byte in range(begin, begin + size)}
    assert file.seen == due | set(range(16 * 1024 * 8, value.size))


@pytest.mark.parametrize(
    "codecs, kind",
    [([LITTLE, "crc32c"], "int32"), (["vlen-utf8"], "string"), ([optional(LITTLE)], {"optional": "int32"}), ([], "int32")],
)
def test_rows_that_are_far_apart_in_values_of_all_kinds(codecs, kind):
    """Of 32 KiB each, also in inner chunks of one shard."""
    array = np.arange(4 * 8192, dtype="<i4").reshape(4, 8192)
    array = array.astype(str).astype(object) if kind == "string" else array
    for each in (codecs or [LITTLE], [sharded(0, codecs or [LITTLE], chunk_shape=[4, 8192])]):
        chain = Chain(each, (4, 8192), kind)
        value = chain.encode(array)
        for index in (np.s_[::2], np.s_[::-3, 5:7], np.s_[1::2, ::4096]):
            for found in (chain.read_from(io.BytesIO(value), index), chain.read(value, index)):
                assert found.shape == array[index].shape and found.tolist() == array[index].tolist()


@pytest.mark.parametrize(
    "codecs",
    [
        [sharded(0, [LITTLE], chunk_shape=[64, 40])],
        [TURNED, sharded(0, [LITTLE], chunk_shape=[40, 64])],
        [sharded(0, [TURNED, LITTLE], chunk_shape=[64, 40])],
    ],
)
def test_points_in_any_order_are_asked_for_as_they_are_stored(codecs, rng, monkeypatch):
    """1,880 points of two bytes, in an inner chunk where they stand together: the index, and then these."""
    rounds = rounds_of(monkeypatch)
    chain = Chain(codecs, (64, 40), "uint16", 0)
    array = rng.integers(1, 999, (64, 40)).astype("u2")
    rows = rng.permutation(np.argwhere(array[3:50]) + [3, 0])
    file = RecordingFile(chain.encode(array))
    same(chain.read_from(file, rows), array[tuple(rows.T)])
    assert len(rounds) == 2 and len(rounds[1]) in (1, 40) and len(file.seen) == 16 + 47 * 40 * 2


def _marked(shape, selection):
    """Which places a selection means."""
    marked = np.zeros(shape, bool)
    marked[selection] = True
    return marked


@pytest.mark.parametrize("front", [[], [TURNED, TURNED]])
def test_damage_that_a_step_passes_is_not_refused(front):
    """The entry of an inner chunk that has no selected element."""
    shard = {"chunk_shape": [8, 8], "codecs": ["bytes"], "index_codecs": [LITTLE]}
    chain = Chain([*front, {"name": "sharding_indexed", "configuration": shard}], (64, 64), "uint8", 0)
    array = np.ones((64, 64), "u1")
    value = chain.encode(array)
    value[-64 * 16 + 16] ^= 255
    value[-64 * 16 + 23] ^= 255
    for selection in (np.s_[::16, ::16], np.s_[0, ::16], [[0, 0], [9, 9]]):
        expected = np.ones(2, "u1") if isinstance(selection, list) else array[selection]
        same(chain.read(value, selection), expected)
        same(chain.read_from(io.BytesIO(value), selection), expected)
    with pytest.raises(zarrs_codecs.InvalidByteRange, match="inner chunk 1"):
        chain.read(value, np.s_[0, ::4])


def test_texts_in_shards_answer_as_reads_do(rng):
    for more in ({}, {"index_location": "start"}):
        shard = {"chunk_shape": [2, 3], "codecs": [transpose([1, 0]), VLEN], "index_codecs": [LITTLE], **more}
        codecs = [transpose([1, 0]), {"name": "sharding_indexed", "configuration": shard}]
        chain = Chain(codecs, (6, 4), "string", "")
        for _ in range(20):
            value = chain.encode(some_texts(rng, (6, 4)))
            for selection in (some_region(rng, (6, 4)), some_rows(rng, (6, 4), 6)):
                file = RecordingFile(value)
                same(chain.read_from(file, selection), chain.read(value, selection))


def test_texts_in_rounds_answer_as_reads_do(rng):
    chain = Chain([VLEN], (3, 5), "string", "")
    for _ in range(40):
        array = some_texts(rng, (3, 5))
        value = chain.encode(array)
        for selection in (some_region(rng, (3, 5)), some_index(rng, (3, 5)), some_rows(rng, (3, 5), 6)):
            file = RecordingFile(value)
            same(chain.read_from(file, selection), chain.read(value, selection))
            assert len(file.seen) <= value.size


def test_texts_that_are_damaged_in_rounds(rng):
    chain = Chain([VLEN], (4,), "string", "")
    value = chain.encode(some_texts(rng, (4,)))
    for length in range(value.size):
        refusal = None
        try:
            chain.read(value[:length], np.s_[1:3])
        except zarrs_codecs.Refused as error:
            refusal = type(error)
        if refusal is None:
            chain.read_from(io.BytesIO(value[:length]), np.s_[1:3])
        else:
            with pytest.raises(refusal):
                chain.read_from(io.BytesIO(value[:length]), np.s_[1:3])


class ReadingFile:
    """A file that has `seek` and `read` alone, and reads a few bytes at a time."""

    def __init__(self, value):
        self._file = io.BytesIO(value)

    def seek(self, place, whence=0):
        self._file.seek(place, whence)

    def tell(self):
        return self._file.tell()

    def read(self, count):
        return self._file.read(min(count, 3))


def test_files_that_are_read_by_copies(rng):
    for codec, array in ((LITTLE, some(rng, "int16", np.dtype("<i2"), (3, 5))), (VLEN, some_texts(rng, (3, 5)))):
        kind, fill = ("string", "") if array.dtype == object else ("int16", 0)
        chain = Chain([codec], (3, 5), kind, fill)
        same(chain.read_from(ReadingFile(chain.encode(array)), np.s_[1:, ::2]), array[1:, ::2])
    with pytest.raises(TypeError):
        chain.read_from(object(), 0)
    with pytest.raises(EOFError):
        Chain(["bytes"], (4,), "uint8").read_from(Ending(b"abcd"), np.s_[1:3])


class Ending(ReadingFile):
    """One that has fewer bytes than its end says."""

    def read(self, count):
        return b""


def test_what_a_read_takes_of_a_file():
    """The whole value, where the first round asks for it."""
    inner = {"mask_codecs": ["packbits"], "data_codecs": [VLEN]}
    text = {"name": "zarrs.optional", "configuration": {"name": "string"}}
    shards = {"chunk_shape": [2, 3], "codecs": [LITTLE], "index_codecs": [LITTLE]}
    for codecs, kind, is_planned, is_whole in (
        ([transpose([1, 0]), BIG], "int32", True, False),
        (["packbits"], "int4", True, False),
        ([LITTLE, "crc32c"], "int32", False, True),
        ([LITTLE, {"name": "gzip", "configuration": {"level": 1}}], "int32", False, True),
        ([VLEN], "string", False, False),
        ([transpose([1, 0]), VLEN], "bytes", False, False),
        (["vlen-utf8"], "string", False, True),
        ([{"name": "optional", "configuration": inner}], text, False, True),
    ):
        chain = Chain(codecs, (4, 6), kind)
        assert (coder_in(chain).is_planned, coder_in(chain).is_read_whole) == (is_planned, is_whole)
    sharded = Chain([{"name": "sharding_indexed", "configuration": shards}], (4, 6), "int32")
    assert not coder_in(sharded).is_planned


def test_values_that_are_too_short(rng):
    chain = Chain([LITTLE], (4, 4), "int32")
    value = chain.encode(some(rng, "int32", chain.dtype, chain.shape))
    for length in (0, 16, 31, 43):
        with pytest.raises(zarrs_codecs.InvalidByteRange):
            chain.read_from(io.BytesIO(value[:length]), np.s_[:3, 1:3])
    chain.read_from(io.BytesIO(value[:44]), np.s_[:3, 1:3])


OPTIONAL = {"name": "zarrs.optional", "configuration": {"mask_codecs": ["packbits"], "data_codecs": [LITTLE]}}
NUMBERS = np.arange(1, 9, dtype="<i2")


@pytest.mark.parametrize(
    "codecs, kind, array",
    [
        ([LITTLE], "int16", NUMBERS),
        ([LITTLE, "crc32c"], "int16", NUMBERS),
        ([OPTIONAL], {"optional": "int16"}, np.ma.masked_array(NUMBERS, NUMBERS % 3 == 0)),
        ([VLEN], "string", np.array(list("abcdefgh"), object)),
        (["vlen-utf8"], "string", np.array(list("abcdefgh"), object)),
        ([sharded(2, [LITTLE])], "int16", NUMBERS),
        ([sharded(2, [LITTLE], index_location="start")], "int16", NUMBERS),
        ([sharded(4, [sharded(2, [LITTLE])])], "int16", NUMBERS),
    ],
)
def test_values_that_are_too_short_are_refused_as_reads_refuse_them(codecs, kind, array):
    """By the same exception, which says the same of the value's length, the codec and the inner chunk."""
    chain = Chain(codecs, (8,), kind)
    value = chain.encode(array)
    refused = 0
    for length in range(value.size):
        try:
            chain.read(value[:length], np.s_[1:6])
        except zarrs_codecs.Refused as error:
            with pytest.raises(type(error)) as found:
                chain.read_from(io.BytesIO(value[:length]), np.s_[1:6])
            assert str(found.value) == str(error) and found.value.codec == error.codec is not None
            refused += 1
    assert refused > 8


@pytest.mark.parametrize(
    "codecs, kind", [(["packbits"], "bool"), ([transpose([1, 0]), "packbits"], "int4"), ([transpose([1, 0]), LITTLE], "int16")]
)
def test_planned_reads_of_short_values_are_refused_as_reads_are(codecs, kind, rng):
    """Wherever the value ends among the planned bytes."""
    chain = Chain(codecs, (12, 10), kind)
    value = chain.encode(some(rng, kind, chain.dtype, (12, 10)))
    for _ in range(30):
        for selection in (some_region(rng, (12, 10)), some_rows(rng, (12, 10), 8)):
            short = value[: rng.integers(0, value.size)]
            try:
                found = chain.read(short, selection)
            except zarrs_codecs.Refused as error:
                with pytest.raises(type(error)) as refused:
                    chain.read_from(io.BytesIO(short), selection)
                assert str(refused.value) == str(error)
            else:
                same(chain.read_from(io.BytesIO(short), selection), found)


def test_places_outside_are_named():
    chain, shards = (Chain(codecs, (8,), "int16") for codecs in ([LITTLE], [sharded(2, [LITTLE])]))
    for each in (chain, shards):
        value = each.encode(NUMBERS)
        for call in (
            lambda: each.read_from(io.BytesIO(value), [[0], [8]]),
            lambda: each.read(value, [[7], [-9]]),
            lambda: each.read(None, [[7], [8]]),
            lambda: each.planned_ranges([[7], [8]]),
            lambda: each.write(value, [[7], [8]], 1),
        ):
            with pytest.raises(zarrs_codecs.OutOfBounds) as found:
                call()
            assert str(found.value) == "row 1 of the list is outside of (8,)" and found.value.codec is None


def test_a_file_that_fails_in_the_middle():
    """What it raises is raised, and nothing is kept of it."""

    class Failing(io.BytesIO):
        calls = 0

        def readinto(self, buffer):
            self.calls += 1
            if self.calls == self.turn:
                raise ConnectionResetError("the line is cut")
            return super().readinto(buffer)

    for codec in (LITTLE, sharded(2, [LITTLE]), sharded(4, [sharded(2, [LITTLE])])):
        chain = Chain([codec], (8,), "int16")
        file = Failing(chain.encode(NUMBERS))
        file.turn = 0
        chain.read_from(file, np.s_[1:6])
        for turn in range(1, file.calls + 1):
            file.calls, file.turn = 0, turn
            with pytest.raises(ConnectionResetError, match="the line is cut"):
                chain.read_from(file, np.s_[1:6])
            same(chain.read_from(file, np.s_[1:6]), NUMBERS[1:6])


def test_a_file_that_is_cut_while_it_is_read():
    class Cut(io.BytesIO):
        def readinto(self, buffer):
            return 0

    with pytest.raises(EOFError):
        Chain([LITTLE], (4,), "int32").read_from(Cut(bytes(16)), ...)


def test_a_file_that_answers_some_bytes_at_a_time(rng):
    class Slow(io.BytesIO):
        def readinto(self, buffer):
            return super().readinto(buffer[:3])

    chain = Chain([LITTLE], (4,), "int32")
    array = some(rng, "int32", chain.dtype, chain.shape)
    same(chain.read_from(Slow(chain.encode(array)), np.s_[1:]), array[1:])


def test_pieces_that_lack_a_byte(monkeypatch):
    chain = Chain([LITTLE], (4,), "int32")
    monkeypatch.setattr(_library_reads.LibraryReader, "_planned", lambda self, chosen: np.array([[0, 4]], np.uint64))
    with pytest.raises(zarrs_codecs.Storage):
        chain.read_from(io.BytesIO(bytes(16)), np.s_[:2])


def test_little_memory_beside_the_answer(tmp_path):
    chain = Chain([LITTLE], (64, 512, 512), "int32")
    path = tmp_path / "value"
    with open(path, "wb") as file:
        file.truncate(64 << 20)
    with open(path, "rb", buffering=0) as file:
        tracemalloc.start()
        answer = chain.read_from(file, np.s_[4:36])
        _, peak = tracemalloc.get_traced_memory()
        tracemalloc.stop()
    assert answer.nbytes == 32 << 20
    assert peak < answer.nbytes + (4 << 20)


def test_steps_skip_what_is_far_apart(tmp_path, monkeypatch):
    chain = Chain([LITTLE], (64, 512, 512), "int32")
    path = tmp_path / "value"
    with open(path, "wb") as file:
        file.truncate(64 << 20)
    counts, read = [], os.preadv
    monkeypatch.setattr(os, "preadv", lambda *given: counts.append(read(*given)) or counts[-1])
    with open(path, "rb", buffering=0) as file:
        assert chain.read_from(file, np.s_[::16, :100]).shape == (4, 100, 512)
    assert sum(counts) == 4 * 100 * 512 * 4


@pytest.mark.parametrize("before", [[], [transpose((1, 0))]], ids=["shard", "transposed"])
def test_what_is_in_pieces_between_two_places_is_skipped(before):
    inside = {"chunk_shape": [16, 16], "codecs": [LITTLE], "index_codecs": [LITTLE], "index_location": "end"}
    chain = Chain([*before, {"name": "sharding_indexed", "configuration": inside}], (32, 32), "uint8")
    array = np.arange(1024).astype("u1").reshape(32, 32)
    value = chain.encode(array)
    # along the axis that is stored slowest two elements each, along the other one all that is between
    for selection, is_apart in ((np.s_[::4, 5:7], not before), (np.s_[5:7, ::4], bool(before))):
        file = RecordingFile(value)
        same(chain.read_from(file, selection), array[selection])
        assert len(file.seen) == 4 * 2 * 8 + (8 * 2 if is_apart else 2 * 29)


def test_plans_of_many_ranges():
    chain = Chain(["bytes"], (100_000, 2), "uint8")
    ranges = chain.planned_ranges(np.s_[:, 1])
    assert ranges.tolist() == [[2 * row + 1, 2 * row + 2] for row in range(100_000)]
    value = np.arange(200_000).astype(np.uint8)
    same(chain.read_from(io.BytesIO(value), np.s_[:, 1]), value[1::2])
