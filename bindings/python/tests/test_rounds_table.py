"""The table of docs/IN_PART.md is what reads ask for, and of numbers what the formats say that they need."""

import io
from pathlib import Path

import numpy as np
from samples import LITTLE, VLEN, same, same_masked, transpose
from test_read_from import OPTIONAL, rounds_of

from zarrs_codecs import Chain, _files, _rounds, _selections
from zarrs_codecs.chain import coder_in

PAGE = Path(__file__).parents[3] / "docs" / "IN_PART.md"
SIZE = 256
WINDOW = np.s_[10:42, 100:164]
POINTS = [[at * 97 % SIZE, at * 41 % SIZE] for at in range(20)]
NUMBERS = (np.arange(SIZE * SIZE, dtype="<u2") | 1).reshape(SIZE, SIZE)
PRESENT = np.ma.masked_array(NUMBERS, np.arange(SIZE * SIZE).reshape(SIZE, SIZE) % 3 == 0)
TEXTS = np.array([f"t{at}" for at in range(SIZE * SIZE)], object).reshape(SIZE, SIZE)


def shard(size, codecs, where="end"):
    said = {"chunk_shape": [size, size], "codecs": codecs, "index_codecs": [LITTLE, "crc32c"], "index_location": where}
    return {"name": "sharding_indexed", "configuration": said}


# By the name of a row: the codecs, the chunk, and whether the library alone says what is lacking.
ROWS = {
    "`bytes`": ([LITTLE], NUMBERS, False),
    "`transpose`, `bytes`": ([transpose([1, 0]), LITTLE], NUMBERS, False),
    "`bytes`, `crc32c`": ([LITTLE, "crc32c"], NUMBERS, False),
    "`zarrs.optional`": ([OPTIONAL], PRESENT, False),
    "`zarrs.vlen`": ([VLEN], TEXTS, False),
    "`vlen-utf8`": (["vlen-utf8"], TEXTS, False),
    "shard of `bytes`": ([shard(32, [LITTLE])], NUMBERS, False),
    "the same, its index in front": ([shard(32, [LITTLE], "start")], NUMBERS, False),
    "shard of `transpose`, `bytes`": ([shard(32, [transpose([1, 0]), LITTLE])], NUMBERS, False),
    "shard of `bytes`, `crc32c`": ([shard(32, [LITTLE, "crc32c"])], NUMBERS, False),
    "shard of `zarrs.optional`": ([shard(32, [OPTIONAL])], PRESENT, False),
    "shard of `vlen-utf8`": ([shard(32, ["vlen-utf8"])], TEXTS, False),
    "shard of `zarrs.vlen`": ([shard(32, [VLEN])], TEXTS, True),
    "shard of `zarrs.vlen`, from Python": ([shard(32, [VLEN])], TEXTS, False),
    "shard in a shard": ([shard(64, [shard(16, [LITTLE])])], NUMBERS, True),
    "shard in a shard, from Python": ([shard(64, [shard(16, [LITTLE])])], NUMBERS, False),
}


def rows_of_the_page():
    cells = (line.strip("|\n ").split("|") for line in PAGE.read_text().splitlines() if line.startswith("| "))
    return {row[0].strip(): [cell.strip() for cell in row[1:]] for row in cells if len(row) == 4}


def asked_by_the_library(chain, value, selection):
    """The same of a caller who fetches what the library says."""
    rounds, fetched = [], _rounds.Fetched(_files.Held(value))
    numbers = _selections.select(selection, chain.shape).arguments()
    while (lacking := coder_in(chain).lacking.ranges(fetched.arguments(), numbers)).size:
        fetched.fetch(lacking)
        rounds.append(lacking.tolist())
    return told(rounds)


def told(rounds):
    ranges = [one for many in rounds for one in many]
    return f"{len(rounds)}, {len(ranges)}, {sum(end - begin for begin, end in ranges):,}"


def test_rows(monkeypatch):
    due = {}
    rounds = rounds_of(monkeypatch)
    for name, (codecs, array, is_alone) in ROWS.items():
        kind = "string" if array is TEXTS else {"optional": "uint16"} if array is PRESENT else "uint16"
        chain = Chain(codecs, (SIZE, SIZE), kind)
        value = chain.encode(array)
        due[name] = [f"{value.size:,}"]
        for selection in (WINDOW, POINTS):
            if is_alone:
                due[name].append(asked_by_the_library(chain, value, selection))
                continue
            expected = array[selection] if selection is WINDOW else array[tuple(np.transpose(selection))]
            rounds.clear()
            found = chain.read_from(io.BytesIO(value), selection)
            (same_masked if array is PRESENT else same)(found, expected)
            if not rounds:
                rounds.append(chain.planned_ranges(selection).tolist())
            due[name].append(told(rounds))
    said = rows_of_the_page()
    assert {name: said.get(name) for name in due} == due


def masks_of(places, size, codec, index=0, at_end=True):
    """The bytes that a shard's index takes, and those that numbers of two bytes at these places take behind it, of inner
    chunks of this size that are all stored, one behind the other; of a chunk that is no shard those of its numbers."""
    row, column = places
    length = size * size * 2 + (4 if codec == "crc32c" else 0)
    count = (SIZE // size) ** 2
    begin = (row // size * (SIZE // size) + column // size) * length + (0 if at_end else index)
    inside = (column % size * size + row % size) if codec == "transpose" else (row % size * size + column % size)
    first, needed = np.zeros(count * length + index, bool), np.zeros(count * length + index, bool)
    first[slice(count * length, None) if at_end else slice(index)] = True
    for at in range(length) if codec == "crc32c" else (inside * 2, inside * 2 + 1):
        needed[begin + at] = True
    return [first, needed] if index else [needed]


def masks_of_shards(places):
    """The same of shards of 64x64 with inner chunks of 16x16, each index of 16 entries and a checksum."""
    row, column = places
    inner = 16 * 512
    begin = (row // 64 * 4 + column // 64) * (inner + 260)
    number = row % 64 // 16 * 4 + column % 64 // 16
    masks = [np.zeros(16 * (inner + 260) + 260, bool) for _ in range(3)]
    masks[0][-260:] = True
    for at in range(260):
        masks[1][begin + inner + at] = True
    for at in range(2):
        masks[2][begin + number * 512 + (row % 16 * 16 + column % 16) * 2 + at] = True
    return masks


def told_of(masks):
    edges = [np.flatnonzero(np.diff(np.concatenate(([0], mask, [0])))).reshape(-1, 2).tolist() for mask in masks]
    return told(edges)


def test_rows_of_numbers_by_the_formats():
    index = 64 * 16 + 4
    due = {
        "`bytes`": lambda places: masks_of(places, SIZE, "bytes"),
        "`transpose`, `bytes`": lambda places: masks_of(places, SIZE, "transpose"),
        "`bytes`, `crc32c`": lambda places: masks_of(places, SIZE, "crc32c"),
        "shard of `bytes`": lambda places: masks_of(places, 32, "bytes", index),
        "the same, its index in front": lambda places: masks_of(places, 32, "bytes", index, False),
        "shard of `transpose`, `bytes`": lambda places: masks_of(places, 32, "transpose", index),
        "shard of `bytes`, `crc32c`": lambda places: masks_of(places, 32, "crc32c", index),
        "shard in a shard, from Python": masks_of_shards,
    }
    window = np.mgrid[WINDOW].reshape(2, -1)
    said = rows_of_the_page()
    for name, masks in due.items():
        both = masks(window), masks(np.transpose(POINTS))
        assert said[name] == [f"{both[0][0].size:,}", *(told_of(each) for each in both)], name
