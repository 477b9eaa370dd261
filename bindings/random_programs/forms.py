"""Elements in all the forms that the package takes them in: arrays of numpy's, and lists of Python's own."""

import numpy as np

_LISTED = {"O", "i", "u", "b", "U", "S", "V"}


def _listed(chunk):
    """Nested lists of Python's own, None where an element is absent."""
    data = chunk.data
    if data.dtype.kind == "V":
        data = np.array([bytes(one) for one in data.ravel().tolist()] + [None], object)[:-1].reshape(data.shape)
    if chunk.absent is None:
        return data.tolist()
    objects = data.astype(object)
    objects[chunk.absent] = None
    return objects.tolist()


def some_array(chunk):
    """The chunk as numpy has it."""
    return chunk.data if chunk.absent is None else np.ma.MaskedArray(chunk.data, chunk.absent)


def _swapped(chunk):
    return chunk.mapped(lambda array: array.astype(array.dtype.newbyteorder(">")) if array.dtype.kind in "iufcmMU" else array)


def _strided(chunk):
    """The same elements, which aren't in one piece."""

    def spread(array):
        wide = np.empty((*array.shape, 2), array.dtype)
        wide[..., 0] = array
        return wide[..., 0]

    return chunk.mapped(spread)


def some_form(draws, chunk):
    """A chunk as it is given to the package, and the words for it."""
    letter = chunk.data.dtype.kind
    sort = draws.below(6)
    # numpy has a number or a text for an object array of no axes
    # lists without elements have other shapes
    if sort in (0, 1) and letter in _LISTED and chunk.data.size:
        listed = _listed(chunk)
        if sort == 1 and isinstance(listed, list):
            listed = tuple(listed)
        return listed, repr(listed)
    if sort == 2 and letter in _LISTED - {"V"}:
        objects = chunk.data.astype(object)
        if chunk.absent is not None:
            objects[chunk.absent] = None
        return objects, f"the object array {objects.tolist()!r}"
    if sort == 3:
        return some_array(_swapped(chunk)), f"of the other byte order {some_array(chunk).tolist()!r}"
    if sort == 4:
        return some_array(_strided(chunk)), f"in pieces {some_array(chunk).tolist()!r}"
    return some_array(chunk), f"the array {some_array(chunk).tolist()!r}"


