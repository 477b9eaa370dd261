"""Programs of `zarr.json` and of lists of codecs that are damaged: each opens, or is refused by an error of the documented kinds."""

import copy
import json

import numpy as np
from built import Built
from judge import OF_VALUES, attempt, require
from zarrs_codecs import Array, Chain
from zarrs_codecs.refusals import Refused

DEEP = 1500
# What stands for something that is nested so deeply.
MARK = "nested"
SHARD = '{"name":"sharding_indexed","configuration":{"chunk_shape":[1],"codecs":['
# What stands in a place where something else is due.
STRANGE = [0, 1, -1, None, True, "", [], {}, 1.5, -0.0, 1 << 31, 1 << 63, (1 << 64) - 1, 1 << 64, 10**40, "NaN", "x", [0], {"name": "x"}]
NAMES = ["r16", "r0", "r7", "r" + "9" * 5000, "r\u0661\u0666", "int\u0668"]
NAMES += ["int128", "float8", "string", "bytes", "bool", "uint2", "\u00e9", "r-8", "complex0"]


def _places(tree, path=()):
    """The place of each part of a tree."""
    yield path
    inside = tree.items() if isinstance(tree, dict) else enumerate(tree) if isinstance(tree, list) else ()
    for key, part in inside:
        yield from _places(part, (*path, key))


def _nested():
    """A shard in a shard, more often than Python calls itself."""
    inner = "bytes"
    for _ in range(DEEP):
        inner = {"name": "sharding_indexed", "configuration": {"chunk_shape": [1], "codecs": [inner], "index_codecs": ["bytes"]}}
    return inner


def _nested_text(draws):
    """The text of something in itself as often."""
    before, behind = draws.one_of([("[", "]"), ('{"name":"optional","configuration":', "}"), (SHARD, '],"index_codecs":["bytes"]}}')])
    return before * DEEP + '"bytes"' + behind * DEEP


def _changed(draws, tree):
    """The tree with one part left out, or with something else in its place."""
    tree = copy.deepcopy(tree)
    path = draws.one_of([path for path in _places(tree) if path])
    whole = tree
    for key in path[:-1]:
        whole = whole[key]
    sort = draws.below(8)
    if sort == 0:
        del whole[path[-1]]
    elif sort == 1:
        is_type = isinstance(tree, dict) and draws.below(2) == 0
        (tree if is_type else whole)["data_type" if is_type else path[-1]] = draws.one_of(NAMES)
    elif sort == 2 and isinstance(whole, list):
        whole.insert(path[-1], copy.deepcopy(whole[path[-1]]))
    elif sort == 3:
        whole[path[-1]] = MARK
    else:
        whole[path[-1]] = copy.deepcopy(draws.one_of(STRANGE))
    return tree


def metadata(draws, say, room):
    """A damaged `zarr.json` opens, and is read then, or is refused."""
    built = Built(draws, say, room / "array", most=5)
    path = built.folder / "zarr.json"
    said = json.loads(path.read_text())
    for _ in range(draws.between(1, 2)):
        said = _changed(draws, said)
    text = json.dumps(said)
    if draws.chance(6):
        at = draws.below(len(text))
        text = draws.one_of([text[:at], text[:at] + "\x00" + text[at:], text.replace("1", "1e5", 1), "[" * 100_000, text + text])
    say(f"changed to {text}, where {MARK!r} stands for {DEEP} levels")
    path.write_text(text.replace(f'"{MARK}"', _nested_text(draws)))
    array, error = attempt((Refused,), Array, built.folder)
    if error is None and 0 <= array.size < 1000 and np.prod([float(size) for size in array.chunks]) < 1e6:
        say("it opens, and is read")
        found, error = attempt((*OF_VALUES, MemoryError), lambda: array[...])
        require(error is not None or np.shape(found) == array.shape, "an answer of another shape")


def lists_of_codecs(draws, say, room):
    """A damaged list of codecs makes a chain, or is refused with the codec's place."""
    built = Built(draws, say, room / "array", most=5)
    codecs = built.codecs
    for _ in range(draws.between(1, 2)):
        codecs = _changed(draws, codecs) if codecs else codecs
    say(f"codecs {json.dumps(codecs)}, where {MARK!r} stands for {DEEP} levels")
    codecs = [_nested() if codec == MARK else codec for codec in codecs]
    _, error = attempt((Refused, TypeError), Chain, codecs, built.chunks, built.kind.name)
    if error is not None and getattr(error, "codec", None) is not None:
        place, name = error.codec
        require(0 <= place < len(codecs), f"codec {place} of {len(codecs)} is named")
        said = codecs[place].get("name") if isinstance(codecs[place], dict) else codecs[place]
        require(not isinstance(said, str) or name == said, f"codec {place} is named {name!r}, and not {said!r}")
