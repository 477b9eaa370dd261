"""Random indices of numpy's kinds, right and wrong."""

import math

import numpy as np


def _end(draws, size):
    """An end of a slice: near, far, or none."""
    sort = draws.below(6)
    if sort == 0:
        return None
    if sort == 1:
        return draws.one_of([-(10**20), 10**20, -(1 << 63), 1 << 63])
    return draws.between(-size - 2, size + 2)


def some_slice(draws, size):
    """A slice of an axis, with a step of any sign."""
    step = draws.one_of([None, 1, 1, 2, -1, 3, -2, 5, -3, 1 << 40, -(1 << 40)])
    return slice(_end(draws, size), _end(draws, size), step)


def _place(draws, size):
    place = draws.between(-size, size - 1)
    return draws.one_of([place, np.int64(place), np.int8(place)]) if size < 100 else place


def some_basic(draws, shape):
    """A basic index: integers, slices, an ellipsis, new axes."""
    entries = []
    for size in shape:
        is_place = size and draws.chance(3)
        entries.append(_place(draws, size) if is_place else slice(None) if draws.chance(4) else some_slice(draws, size))
    if draws.chance(4):
        entries = [*entries[: draws.below(len(entries) + 1)], *[Ellipsis][: draws.below(2)]]
    elif draws.chance(3):
        at = draws.below(len(entries) + 1)
        entries[at : at + draws.below(3)] = [Ellipsis]
    if draws.chance(4):
        entries.insert(draws.below(len(entries) + 1), None)
    if len(entries) == 1 and draws.chance(2):
        return entries[0]
    return tuple(entries)


def some_rows(draws, shape):
    """A list of elements' indices, a row for each, and what numpy takes for them."""
    count = draws.one_of([0, 1, 3, 7, 40])
    rows = [[draws.between(-size, size - 1) for size in shape] for _ in range(count)]
    array = np.array(rows, np.int64).reshape(count, len(shape))
    numpys = tuple(array.T)
    if not count or draws.chance(2):
        return array, numpys
    return (array % np.array(shape)).astype(np.uint64) if draws.chance(3) else rows, numpys


def some_mask(draws, shape):
    """A mask of an axis, or of all."""
    count = math.prod(shape)
    if count > 100:
        return draws.numbers().integers(0, 2, shape) == 1
    return np.array([bool(draws.below(2)) for _ in range(count)], bool).reshape(shape)


def some_list(draws, size):
    """Places on an axis in a list, in an array, or by a mask."""
    if draws.chance(3):
        return some_mask(draws, (size,))
    count = draws.below(6) if size else 0
    places = [draws.between(-size, size - 1) for _ in range(count)]
    if draws.chance(2):
        return np.array(places, draws.one_of([np.int64, np.int32, np.int8]))
    return places


def some_with_list(draws, shape):
    """A basic index with a list or a mask for one axis."""
    axis = draws.below(len(shape))
    entries = [some_list(draws, size) if n == axis else _simple(draws, size) for n, size in enumerate(shape)]
    if axis < len(shape) - 1 and draws.chance(4):
        entries = entries[: axis + 1]
    if draws.chance(6):
        entries.insert(draws.below(len(entries) + 1), None)
    if len(entries) == 1 and draws.chance(2):
        return entries[0]
    return tuple(entries)


def _simple(draws, size):
    if size and draws.chance(4):
        return draws.between(-size, size - 1)
    return some_slice(draws, size)


def some_outer(draws, shape):
    """An entry for each axis, each with each."""
    return tuple(some_list(draws, size) if draws.chance(2) else _simple(draws, size) for size in shape)


def outer_of(index, shape):
    """What numpy takes for an outer index: all lists as of each with each; and the shape of the answer."""
    lists, kept = [], []
    for entry, size in zip(index, shape):
        places = np.arange(size)[np.asarray(entry, np.int64) if isinstance(entry, list) else entry]
        lists.append(np.atleast_1d(places))
        if np.ndim(places):
            kept.append(len(places))
    return np.ix_(*lists), tuple(kept)


def some_points(draws, shape):
    """Points: an index for each axis, which broadcast."""
    form = draws.one_of([(), (3,), (2, 3), (0,)])
    entries = []
    for size in shape:
        own = draws.one_of([form, form, (), tuple(1 for _ in form)])
        places = np.array([draws.between(-size, size - 1) for _ in range(int(np.prod(own)))], np.int64).reshape(own)
        entries.append(places.tolist() if draws.chance(2) else places)
    return tuple(entries)


WRONG = [99, -99, 1 << 63, -(1 << 63), {1}, "x", 1.5, np.float64(1), b"1", [99], [1.5], ["x"], [[0, 1], [1, 0]], True, np.bool_(True)]


def some_wrong(draws, shape):
    """An index with an entry that is none, beside others that may be lists without a place."""
    entries = [draws.one_of([slice(None), [], np.array([], np.int64), [0], 0]) for _ in shape]
    sort = draws.below(5)
    if sort == 0:
        return (*entries, 0)
    if sort == 1:
        return (Ellipsis, *entries[1:], Ellipsis)
    entries[draws.below(len(entries))] = draws.one_of(WRONG)
    return tuple(entries)


def is_wrong(index, shape):
    """Whether an entry of an index can be none, looked at by itself: numpy passes over some beside an empty list."""
    entries = list(index) if isinstance(index, tuple) else [index]
    axis = 0
    for entry in entries:
        if entry is None or entry is Ellipsis:
            continue
        if axis == len(shape) or _is_wrong_entry(entry, shape[axis]):
            return True
        axis += 1
    return sum(one is Ellipsis for one in entries) > 1


def _is_wrong_entry(entry, size):
    if isinstance(entry, (bool, np.bool_)) or isinstance(entry, list) and np.ndim(entry) > 1:
        return True
    try:
        np.empty(size, np.uint8)[entry]
    except (IndexError, TypeError, ValueError, OverflowError):
        return True
    return False
