"""Arrays that are made by hand: `zarr.json` and chunks as the standard has them, and what they mean."""

import itertools
import json

from chains import some_codecs
from formats import decoded, encoded
from kinds import fill_json, full, some_chunk, some_kind

KEYS = [
    {"name": "default", "configuration": {"separator": "/"}},
    {"name": "default", "configuration": {"separator": "."}},
    {"name": "v2", "configuration": {"separator": "."}},
    {"name": "v2", "configuration": {"separator": "/"}},
    {"name": "default"},
    "v2",
]


def key_of(keys, numbers):
    """Where the chunk of these numbers is."""
    name = keys if isinstance(keys, str) else keys["name"]
    said = {} if isinstance(keys, str) else keys.get("configuration", {})
    separator = said.get("separator", "." if name == "v2" else "/")
    if name == "v2":
        return separator.join(map(str, numbers)) or "0"
    return separator.join(["c", *map(str, numbers)])


def metadata_of(shape, chunks, kind, fill, codecs, keys, **more):
    """A `zarr.json`."""
    return {
        "zarr_format": 3,
        "node_type": "array",
        "shape": list(shape),
        "data_type": kind,
        "chunk_grid": {"name": "regular", "configuration": {"chunk_shape": list(chunks)}},
        "chunk_key_encoding": keys,
        "fill_value": fill,
        "codecs": codecs,
        **more,
    }


class Built:
    """An array in a folder, and its elements."""

    def __init__(self, draws, say, folder, most=9, some_kind=some_kind, some_codecs=some_codecs, some_fill=None, keys=KEYS, least=0):
        self.folder = folder
        self.kind = some_kind(draws)
        axes = draws.below(4)
        self.chunks = tuple(draws.between(1, 4) for _ in range(axes))
        self.shape = tuple(draws.between(1, most) if draws.below(12) else least for _ in range(axes))
        self.fill = some_fill(draws, self.kind) if some_fill else some_chunk(draws, self.kind, ())
        self.codecs = some_codecs(draws, self.kind, self.chunks)
        self.keys = draws.one_of(keys)
        self.stored = {}
        said = metadata_of(self.shape, self.chunks, self.kind.name, fill_json(self.kind, self.fill), self.codecs, self.keys)
        say(f"zarr.json: {json.dumps(said)}")
        folder.mkdir()
        (folder / "zarr.json").write_text(json.dumps(said))
        for numbers in self.grid():
            if draws.below(4):
                self._store(numbers, some_chunk(draws, self.kind, self.chunks, self.fill))

    def grid(self):
        """The numbers of all chunks."""
        return itertools.product(*(range(-(-size // part)) for size, part in zip(self.shape, self.chunks)))

    def path(self, numbers):
        """The file of a chunk."""
        return self.folder / key_of(self.keys, numbers)

    def value(self, chunk):
        """A chunk's value."""
        return encoded(self.codecs, chunk, self.fill)

    def kept(self, chunk):
        """A chunk as it is kept."""
        return decoded(self.codecs, self.value(chunk), self.kind, self.chunks, self.fill)

    def _store(self, numbers, chunk):
        path = self.path(numbers)
        path.parent.mkdir(parents=True, exist_ok=True)
        path.write_bytes(self.value(chunk))
        self.stored[numbers] = self.kept(chunk)

    def chunk(self, numbers):
        """The elements of a chunk."""
        return self.stored.get(numbers) or full(self.kind, self.chunks, self.fill)

    def places(self, numbers):
        """Where a chunk is in the array, and what of it is."""
        there = tuple(slice(n * part, min((n + 1) * part, size)) for n, part, size in zip(numbers, self.chunks, self.shape))
        return there, tuple(slice(0, one.stop - one.start) for one in there)

    def whole(self):
        """All elements."""
        whole = full(self.kind, self.shape, self.fill)
        for numbers in self.grid():
            there, inside = self.places(numbers)
            whole.put((*there, ...), self.chunk(numbers).at((*inside, ...)))
        return whole

    def region(self, numbers):
        """The sizes of what of a chunk is in the array."""
        return tuple(one.stop - one.start for one in self.places(numbers)[0])

    def write(self, whole, wanted):
        """Takes over elements that were written at places."""
        for numbers in self.grid():
            there, inside = self.places(numbers)
            if wanted[there].any():
                chunk = self.chunk(numbers).copy()
                chunk.put((*inside, ...), whole.at((*there, ...)))
                self.stored[numbers] = self.kept(chunk)

    def read_back(self, numbers):
        """The chunk that is in a file; None where none is."""
        path = self.path(numbers)
        if not path.exists():
            return None
        return decoded(self.codecs, path.read_bytes(), self.kind, self.chunks, self.fill)
