"""Programs of whole chunks and their parts, of values that are right."""

import json

import numpy as np
from chains import Loose, edits_in_place, names_in, some_codecs
from files import CountingFile
from forms import some_form
from formats import decoded, encoded
from indices import some_basic, some_rows
from judge import check, refusing, require
from kinds import fill_json, full, some_chunk, some_kind
from places import closed_of, rests_on, wanted_of
from zarrs_codecs import Chain
from zarrs_codecs.refusals import NotInPlace


def some_shape(draws, most=6):
    """The sizes of a chunk."""
    sizes = [draws.between(1, most) for _ in range(draws.below(4))]
    if sizes and draws.chance(6):
        sizes[draws.below(len(sizes))] = draws.between(7, 40)
    return tuple(sizes)


class Made:
    """A chain of the package's, what it is of, and a value of it that the formats give."""

    def __init__(self, draws, say, pythons=True, is_loose=False):
        self.draws, self.say = draws, say
        self.kind = some_kind(draws)
        self.shape = some_shape(draws)
        self.fill = some_chunk(draws, self.kind, ())
        self.codecs = some_codecs(draws, self.kind, self.shape, pythons=pythons)
        self.json = fill_json(self.kind, self.fill)
        said = (self.codecs, self.shape, self.kind.name, self.json)
        say(f"chain = Chain({self.codecs!r}, {self.shape}, {self.kind.name!r}, {self.json!r})")
        self.chain = Chain(*json.loads(json.dumps(said)))
        self.chunk = some_chunk(draws, self.kind, self.shape, self.fill)
        self.value = encoded(self.codecs, self.chunk, self.fill, *[Loose(draws)] * is_loose)
        # as it is kept
        self.kept = decoded(self.codecs, self.value, self.kind, self.shape, self.fill)

    @property
    def is_canonical(self):
        """Whether a chunk has one value alone."""
        return not {"gzip", "zstd", "blosc"} & {*names_in(self.codecs)}

    def check_value(self, value, due, text):
        """Holds a value to a chunk."""
        value = bytes(value)
        if self.is_canonical:
            wanted = encoded(self.codecs, due, self.fill)
            require(value == wanted, f"{text}: the value {value.hex()}, where {wanted.hex()} is due")
        else:
            kept = decoded(self.codecs, encoded(self.codecs, due, self.fill), self.kind, self.shape, self.fill)
            check(self.kind, masked(decoded(self.codecs, value, self.kind, self.shape, self.fill)), kept, text)


def masked(chunk):
    """A chunk as the package has it."""
    return chunk.data if chunk.absent is None else np.ma.MaskedArray(chunk.data, chunk.absent)


def some_index(made):
    """An index of the chain's, and the one that is numpy's."""
    if made.shape and made.draws.chance(3):
        return some_rows(made.draws, made.shape)
    index = some_basic(made.draws, made.shape)
    return index, index


def whole(draws, say, room):
    """A chunk is encoded as the format has it, decoded, and encoded by other codecs."""
    made = Made(draws, say)
    form, words = some_form(draws, made.chunk)
    say(f"value = chain.encode({words})")
    value = made.chain.encode(form)
    made.check_value(value, made.chunk, "encode")
    say("chain.decode(value)")
    check(made.kind, made.chain.decode(made.value), made.kept, "decode")
    if made.kind.is_plain:
        out = np.empty(made.shape, made.kind.dtype)
        made.chain.decode(made.value, out)
        check(made.kind, out, made.kept, "decode into an array")
    other = some_codecs(draws, made.kind, made.shape)
    say(f"chain.reencode(value, {other!r})")
    came = made.chain.reencode(made.value, other)
    again = decoded(other, encoded(other, made.kept, made.fill), made.kind, made.shape, made.fill)
    check(made.kind, masked(decoded(other, bytes(came), made.kind, made.shape, made.fill)), again, "reencode")


def parts(draws, say, room):
    """Reads of parts agree with the whole, however they are made."""
    made = Made(draws, say, is_loose=draws.chance(3))
    indices = [some_index(made) for _ in range(draws.between(1, 3))]
    for index, numpys in indices:
        due = made.kept.at(numpys)
        say(f"chain.read(value, {index!r})")
        check(made.kind, made.chain.read(made.value, index), due, "read")
        check(made.kind, made.chain.read(None, index), _nothing(made).at(numpys), "read of nothing")
        _read_from(made, index, numpys, due)
        if draws.chance(3):
            _read_otherwise(made, index, due, room / "value")
    say(f"chain.read_many(value, {[index for index, _ in indices]!r})")
    for found, (_, numpys) in zip(made.chain.read_many(made.value, [index for index, _ in indices]), indices):
        check(made.kind, found, made.kept.at(numpys), "read_many")


def _read_otherwise(made, index, due, path):
    """The same of a file of the system's, and into an array."""
    path.write_bytes(made.value)
    made.say(f"read_from a file of the system's, and its number; into an array, {index!r}")
    with open(path, "rb") as file:
        check(made.kind, made.chain.read_from(file, index), due, "read_from a file")
        check(made.kind, made.chain.read_from(file.fileno(), index), due, "read_from a file's number")
        if made.kind.is_optional:
            return
        for name, read in (("read", made.chain.read), ("read_from", made.chain.read_from)):
            out = np.empty(due.shape, made.kind.dtype)
            require(read(made.value if name == "read" else file, index, out) is out, f"{name} returns another array")
            check(made.kind, out, due, f"{name} into an array")


def _nothing(made):
    """The chunk of which nothing is stored."""
    return full(made.kind, made.shape, made.fill)


def _read_from(made, index, numpys, due):
    """A read of a file, of which each byte is counted."""
    file = CountingFile(made.value, made.draws)
    made.say(f"chain.read_from({file.told}, {index!r})")
    check(made.kind, made.chain.read_from(file, index), due, "read_from")
    is_basic = not isinstance(index, (list, np.ndarray))
    wanted = wanted_of(made.shape, numpys)
    closed = closed_of(made.shape, numpys) if is_basic else wanted
    allowed = rests_on(made.codecs, made.value, made.kind, made.shape, wanted, closed)
    require(file.asked <= len(made.value), f"{file.asked} bytes are asked for, of a value of {len(made.value)}")
    if allowed is not None:
        too_many = file.seen & ~allowed
        require(not too_many.any(), f"byte {int(too_many.argmax())} of the value is asked for, and not needed")
    planned = made.chain.planned_ranges(index)
    if planned is not None and allowed is not None:
        ranges = np.zeros(len(made.value), bool)
        for begin, end in planned.tolist():
            ranges[begin:end] = True
        require(np.array_equal(ranges, allowed), f"planned_ranges are {planned.tolist()}")


def writes(draws, say, room):
    """Edits of a value agree with numpy's of the chunk, by one call or many, in the value itself or beside it."""
    made = Made(draws, say)
    due, edits, value = made.kept.copy(), [], made.value
    is_nothing = draws.chance(4)
    if is_nothing:
        value, due = None, _nothing(made)
    for _ in range(draws.between(1, 3)):
        index, numpys = some_index(made)
        new = some_chunk(draws, made.kind, due.at(numpys).shape if not draws.chance(4) else (), made.fill)
        form, words = some_form(draws, new)
        edits.append((index, form))
        say(f"edit {index!r}: {words}")
        due.put(numpys, new)
    first = value
    for index, form in edits:
        value = made.chain.write(value, index, form)
    say("write, one after another")
    made.check_value(value, due, "write")
    say("write_many")
    made.check_value(made.chain.write_many(first, edits), due, "write_many")
    _in_place(made, None if first is None else bytearray(first), edits, due)


def _in_place(made, mine, edits, due):
    """The same edits in the value itself, where the codecs write parts."""
    if mine is None:
        return
    made.say("write_many with out")
    if edits_in_place(made.codecs) and made.kind.is_plain:
        again = bytearray(mine)
        require(made.chain.write_many(mine, edits, out=mine) is mine, "write_many returns another value")
        made.check_value(mine, due, "write_many in place")
        for index, form in edits:
            require(made.chain.write(again, index, form, out=again) is again, "write returns another value")
        made.check_value(again, due, "write in place")
        return
    before = bytes(mine)
    with refusing((NotInPlace,), "write_many in place"):
        made.chain.write_many(mine, edits, out=mine)
    require(bytes(mine) == before, "a write that is refused leaves another value")
