"""Programs of arrays that zarr-python 3 reads and writes by the package's codec pipeline, in folders and in a store that is taken
for one far away: beside numpy, and the files beside the formats. They are there where zarr-python 3 is."""

import math
import pickle

import numpy as np
import zarr
import zarrs_codecs
from built import Built, key_of
from chains import BIG, HAS_NUMCODECS, LITTLE, transpose
from formats import same
from indices import outer_of
from judge import check, require
from kinds import BYTES, PLAIN, TEXT, Chunk, Kind, full, some_chunk
from zarr.storage import LocalStore, WrapperStore

IS_3_0 = zarr.__version__.startswith("3.0.")
PATH = f"{zarrs_codecs.CodecPipeline.__module__}.CodecPipeline"
# zarr-python 3.0 has numbers and texts alone
KINDS = [kind for kind in PLAIN if isinstance(kind.name, str) and kind.name[0] in "buifc" and not kind.name.endswith(("int2", "int4"))]
CHECKSUM = {"name": "crc32c"}
GZIP = {"name": "gzip", "configuration": {"level": 1}}
ZSTD = {"name": "zstd", "configuration": {"level": 1, "checksum": False}}


def _kind(draws):
    kind = draws.one_of([*KINDS, TEXT, TEXT, BYTES, BYTES])
    # zarr-python 3.0 has another name of this type
    return kind if kind is not BYTES or IS_3_0 else Kind("variable_length_bytes", kind.dtype)


def _of_elements(draws, kind):
    """Codecs of a chunk whose codecs the library has, and a compressor of Python's or none."""
    if kind.is_variable:
        first = {"name": "vlen-utf8" if kind.is_text else "vlen-bytes"}
    else:
        first = draws.one_of([LITTLE, BIG])
    return [first, *[CHECKSUM] * draws.below(2)], [draws.one_of([GZIP, ZSTD] if HAS_NUMCODECS else [GZIP])] * draws.chance(3)


def _codecs(draws, kind, shape):
    """A list of zarr-python's codecs of which the library, and Python behind it, has all."""
    before = [transpose(draws.order(range(len(shape))))] if len(shape) > 1 and draws.chance(3) else []
    inside, behind = _of_elements(draws, kind)
    if not draws.chance(3):
        return [*before, *inside, *behind]
    sizes = [draws.one_of([part for part in range(1, size + 1) if size % part == 0]) for size in shape]
    if before:
        # zarr-python 3.0 holds the sizes to the chunk's own, in the order that it has before the transposition
        sizes = [draws.one_of([part for part in range(1, 5) if math.gcd(*shape) % part == 0])] * len(shape)
    index = [draws.one_of([LITTLE, BIG]), *[CHECKSUM] * draws.below(2)]
    keys = {"chunk_shape": sizes, "codecs": [*inside, *behind], "index_codecs": index, "index_location": draws.one_of(["end", "start"])}
    return [*before, {"name": "sharding_indexed", "configuration": keys}, *[CHECKSUM] * draws.chance(4)]


def _fill(draws, kind):
    """A fill value that each version reads."""
    if kind.is_variable:
        return Chunk(kind, np.array("" if kind.is_text else b"", object))
    return Chunk(kind, np.array(draws.below(2)).astype(kind.dtype))


class Far(WrapperStore):
    """A store of which the pipeline doesn't know that it is a folder."""


class Theirs(Built):
    """An array in a folder that zarr-python opens by the pipeline."""

    KEYS = [{"name": "default", "configuration": {"separator": "/"}}, {"name": "v2", "configuration": {"separator": "."}}]

    def __init__(self, draws, say, folder):
        super().__init__(draws, say, folder, some_kind=_kind, some_codecs=_codecs, some_fill=_fill, keys=self.KEYS, least=1)

    def opened(self, draws, say):
        """The array, by the pipeline."""
        store = LocalStore(str(self.folder))
        is_far = draws.chance(2)
        say("zarr.open_array" + (" of a far store" if is_far else ""))
        with zarr.config.set({"codec_pipeline.path": PATH}):
            return zarr.open_array(Far(store) if is_far else store, mode="r+", zarr_format=3)

    def check_files(self):
        """Holds what of each chunk's file is in the array to what was written; a chunk of fill values may have none."""
        for numbers in self.grid():
            inside = (*self.places(numbers)[1], ...)
            found = self.read_back(numbers)
            due = self.chunk(numbers).at(inside)
            if found is None:
                require(same(due, full(self.kind, due.shape, self.fill)), f"chunk {numbers} isn't stored")
            else:
                require(same(found.at(inside), due), f"chunk {numbers} has other elements in {key_of(self.keys, numbers)}")


def _entry(draws, size):
    """An entry of a basic index: zarr-python's steps rise."""
    if draws.chance(3):
        return draws.between(-size, size - 1)
    return slice(draws.one_of([None, draws.between(-size - 1, size)]), draws.one_of([None, draws.between(0, size + 1)]), draws.one_of([None, 1, 2, 3]))


def _list(draws, size):
    if draws.chance(3):
        mask = np.array([bool(draws.below(2)) for _ in range(size)], bool)
        return mask if mask.any() else _entry(draws, size)
    return np.array([draws.between(0, size - 1) for _ in range(draws.between(1, 5))], np.int64)


class Index:
    """An index of an array: how zarr-python is given it, and numpy."""

    def __init__(self, draws, shape):
        self.lens, self.form = "", None
        sort = draws.below(4) if shape else 0
        if sort == 1:
            self.lens, self.given = "oindex", tuple(_list(draws, size) if draws.chance(2) else _entry(draws, size) for size in shape)
            self.numpys, self.form = outer_of(self.given, shape)
        elif sort == 2:
            count = draws.between(1, 6)
            self.lens, self.given = "vindex", tuple(np.array([draws.between(0, size - 1) for _ in range(count)]) for size in shape)
            self.numpys = self.given
        else:
            self.given = self.numpys = tuple(_entry(draws, size) for size in shape)

    def __repr__(self):
        return f"array{'.' + self.lens if self.lens else ''}[{self.given!r}]"

    def _of(self, array):
        return getattr(array, self.lens) if self.lens else array

    def read(self, array, kind):
        """What zarr-python reads; texts as objects."""
        found = self._of(array)[self.given]
        if not kind.is_variable:
            return np.asarray(found)
        # a fill value is one of numpy's byte strings
        plain = str if kind.is_text else bytes
        return np.frompyfunc(plain, 1, 1)(found.astype(object)) if isinstance(found, np.ndarray) else plain(found)

    def due(self, whole):
        """What numpy reads."""
        found = whole.at(self.numpys)
        return found if self.form is None else found.mapped(lambda array: array.reshape(self.form))

    def write(self, array, new):
        """Has zarr-python write elements."""
        self._of(array)[self.given] = new

    def put(self, whole, new):
        """Has numpy write elements."""
        if self.form is not None:
            shape = np.empty(whole.shape, np.uint8)[self.numpys].shape
            new = new.mapped(lambda array: np.broadcast_to(array, self.form).reshape(shape))
        whole.put(self.numpys, new)


class _All(Index):
    """All elements."""

    def __init__(self):
        self.lens, self.form, self.given = "", None, ...


def pipeline(draws, say, room):
    """Reads and writes agree with numpy's, and so do the files; no chunk goes by zarr-python's own pipeline."""
    built = Theirs(draws, say, room / "array")
    array, whole = built.opened(draws, say), built.whole()
    stats = zarrs_codecs.CodecPipeline.stats
    stats.clear()
    for _ in range(draws.between(1, 6)):
        index = Index(draws, built.shape)
        sort = draws.below(7)
        if sort == 6:
            say("the array is pickled")
            array = pickle.loads(pickle.dumps(array))
        elif sort < 4 or not index.due(whole).data.size:
            say(f"{index!r}")
            check(built.kind, index.read(array, built.kind), index.due(whole), "read")
        else:
            new = some_chunk(draws, built.kind, index.due(whole).shape, built.fill)
            say(f"{index!r} = {new.data.tolist()!r}")
            index.write(array, new.data)
            wanted = np.zeros(built.shape, bool)
            wanted[index.numpys] = True
            index.put(whole, new)
            built.write(whole, wanted)
            whole = built.whole()
    check(built.kind, _All().read(array, built.kind), whole, "all of it")
    built.check_files()
    require(not stats.reasons, f"chunks went by zarr-python: {dict(stats.reasons)}")
