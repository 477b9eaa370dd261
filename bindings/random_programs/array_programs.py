"""Programs of arrays in folders: reads and writes by all indices, from threads, and of what stands in the files afterwards."""

import pickle
import threading

import numpy as np
from built import Built, metadata_of
from forms import some_array, some_form
from formats import same
from indices import is_wrong, outer_of, some_basic, some_mask, some_outer, some_points, some_with_list, some_wrong
from judge import OF_INDICES, check, refusing, require
from kinds import fill_json, full, some_chunk
from zarrs_codecs import Array


class Access:
    """An index of an array: how it is read and written by the package, and by numpy."""

    def __init__(self, draws, shape):
        sort = draws.below(6) if shape else draws.below(2) * 3
        self.lens, self.form = None, None
        if sort in (0, 1):
            self.index = self.numpys = some_basic(draws, shape)
        elif sort == 2:
            self.index = some_with_list(draws, shape)
            self.numpys = _in_arrays(self.index)
        elif sort == 3:
            self.lens = "vindex"
            self.index = some_points(draws, tuple(size or 1 for size in shape)) if 0 not in shape else tuple([] for _ in shape)
            self.numpys = tuple(np.asarray(one, np.int64) for one in self.index)
        elif sort == 4:
            self.lens, self.index = "oindex", some_outer(draws, shape)
            self.numpys, self.form = outer_of(self.index, shape)
        else:
            self.index = self.numpys = some_mask(draws, shape)
            if len(shape) == 1 and draws.chance(2):
                self.index = self.index.tolist()

    def __repr__(self):
        return f"array{'.' + self.lens if self.lens else ''}[{self.index!r}]"

    def read(self, array):
        """What the package reads."""
        return (getattr(array, self.lens) if self.lens else array)[self.index]

    def write(self, array, new):
        """Has the package write elements."""
        (getattr(array, self.lens) if self.lens else array)[self.index] = new

    def due(self, whole):
        """What numpy reads."""
        found = whole.at(self.numpys)
        return found if self.form is None else found.mapped(lambda array: array.reshape(self.form))

    def put(self, whole, new):
        """Has numpy write elements."""
        if self.form is not None:
            shape = np.empty(whole.shape, np.uint8)[self.numpys].shape
            new = new.mapped(lambda array: np.broadcast_to(array, self.form).reshape(shape))
        whole.put(self.numpys, new)


def _in_arrays(index):
    """The same, with lists as arrays of places."""
    entries = index if isinstance(index, tuple) else (index,)
    return tuple(np.asarray(one, np.int64) if isinstance(one, list) else one for one in entries)


def _settings(draws):
    return {"cache": draws.one_of([1 << 25, 0, 100]), "threads": draws.one_of([1, 1, 3])}


def arrays(draws, say, room):
    """Reads and writes of an array in a folder agree with numpy's, and so do its files."""
    built = Built(draws, say, room / "array")
    settings = _settings(draws)
    say(f"array = Array(folder, **{settings})")
    array, whole = Array(built.folder, **settings), built.whole()
    for _ in range(draws.between(1, 6)):
        sort = draws.below(9)
        if sort < 4:
            access = Access(draws, built.shape)
            say(f"{access!r}")
            check(built.kind, access.read(array), access.due(whole), "read")
        elif sort < 7:
            whole = _written(draws, say, built, array, whole)
        elif sort == 7:
            say("the array is pickled, or opened anew")
            array = pickle.loads(pickle.dumps(array)) if draws.chance(2) else Array(built.folder, **_settings(draws))
        else:
            say("np.asanyarray, iteration")
            check(built.kind, np.asanyarray(array), whole, "np.asanyarray")
            if built.shape:
                for place, row in enumerate(array):
                    check(built.kind, row, whole.at((place, ...)), "iteration")
    _check_files(built)


def _written(draws, say, built, array, whole):
    """All elements behind a write of some."""
    access = Access(draws, built.shape)
    shape = access.due(whole).shape
    new = some_chunk(draws, built.kind, shape if draws.below(4) else shape[1:], built.fill)
    form, words = some_form(draws, new)
    say(f"{access!r} = {words}")
    access.write(array, form)
    wanted = np.zeros(built.shape, bool)
    wanted[access.numpys] = True
    access.put(whole, new)
    built.write(whole, wanted)
    return built.whole()


def _check_files(built):
    """Holds each chunk's file to what was written."""
    for numbers in built.grid():
        found = built.read_back(numbers)
        if found is None:
            require(numbers not in built.stored, f"chunk {numbers} isn't stored")
        else:
            require(same(found, built.chunk(numbers)), f"chunk {numbers} has other elements in its file")


def threads(draws, say, room):
    """Threads read one array together, each what it would read alone."""
    built = Built(draws, say, room / "array")
    array, whole = Array(built.folder, **_settings(draws)), built.whole()
    accesses = [Access(draws, built.shape) for _ in range(draws.between(2, 12))]
    say(f"four threads read {accesses!r}")
    failed = []

    def read(first):
        try:
            for access in [*accesses[first:], *accesses[:first]]:
                check(built.kind, access.read(array), access.due(whole), f"{access!r} in a thread")
        except BaseException as error:
            failed.append(error)

    begun = [threading.Thread(target=read, args=(n * len(accesses) // 4,)) for n in range(4)]
    for one in begun:
        one.start()
    for one in begun:
        one.join()
    if failed:
        raise failed[0]


def writers(draws, say, room):
    """Threads that write chunks of their own through one array lose nothing of each other's."""
    built = Built(draws, say, room / "array")
    array, grid = Array(built.folder, **_settings(draws)), [*built.grid()]
    news = {numbers: some_chunk(draws, built.kind, built.region(numbers), built.fill) for numbers in grid}
    say(f"three threads write {len(grid)} chunks")
    due, failed = built.whole(), []
    for numbers in grid:
        due.put((*built.places(numbers)[0], ...), news[numbers])
    built.write(due, np.ones(built.shape, bool))
    # as it is kept
    due = built.whole()

    def write(first):
        try:
            for numbers in grid[first::3]:
                there, _ = built.places(numbers)
                array[(*there, ...)] = some_array(news[numbers])
                check(built.kind, array[(*there, ...)], due.at((*there, ...)), f"chunk {numbers} behind its write")
        except BaseException as error:
            failed.append(error)

    begun = [threading.Thread(target=write, args=(n,)) for n in range(3)]
    for one in begun:
        one.start()
    for one in begun:
        one.join()
    if failed:
        raise failed[0]
    check(built.kind, array[...], due, "all of it behind the writes")


def wrong_indices(draws, say, room):
    """An index with an entry that is none is refused, also beside a list without a place."""
    shape = tuple(draws.between(1, 5) for _ in range(draws.between(1, 3)))
    array = Array.create(room / "array", shape, shape, "int8")
    index = some_wrong(draws, shape)
    say(f"shape {shape}, {index!r}")
    if not is_wrong(index, shape):
        return
    lens = draws.one_of(["", "oindex"])
    say(lens or "array[..]")
    with refusing(OF_INDICES, f"{index!r}"):
        (getattr(array, lens) if lens else array)[index]
    with refusing(OF_INDICES, f"{index!r} written"):
        (getattr(array, lens) if lens else array)[index] = 1


def created(draws, say, room):
    """An array that the package makes has a `zarr.json` by which it is opened, with the fill value everywhere."""
    built = Built(draws, say, room / "other")
    name = built.kind.name
    say("Array.create of the same")
    said = {"codecs": built.codecs, "fill_value": fill_json(built.kind, built.fill), "attributes": {"a": [1]}}
    array = Array.create(room / "array", built.shape, built.chunks, name, **said)
    due = metadata_of(built.shape, built.chunks, name, None, built.codecs, None)
    for key in ("shape", "chunk_grid", "zarr_format", "node_type"):
        require(array.metadata[key] == due[key], f"{key} is {array.metadata[key]}")
    built.stored.clear()
    whole = full(built.kind, built.shape, built.fill)
    if draws.chance(2):
        new = some_chunk(draws, built.kind, built.shape, built.fill)
        array[...] = some_form(draws, new)[0]
        built.write(new, np.ones(built.shape, bool))
        whole = built.whole()
    check(built.kind, Array(room / "array")[...], whole, "read again")
    fill = Array(room / "array").fill_value
    require((fill is None) == (built.kind.is_optional and bool(built.fill.absent)), f"the fill value is {fill!r}")
    require(dict(array.attrs) == {"a": [1]}, f"attributes are {dict(array.attrs)}")
