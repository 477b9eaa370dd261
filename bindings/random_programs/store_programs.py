"""Programs of arrays in stores: right ones, slow ones, broken ones, and such whose objects others replace."""

import json
import threading
import zipfile
from dataclasses import dataclass
from typing import Any

import numpy as np
from array_programs import Access
from built import Built, metadata_of
from chains import LITTLE, Loose, names_in, some_codecs
from formats import decoded, encoded, same, untouched
from judge import as_chunk, attempt, check, require, told
from kinds import PLAIN, TEXT, fill_json, some_chunk
from stores import OF_SECONDS, TELLS, Objects, Opening, Raised, Ranged
from zarrs_codecs import Array
from zarrs_codecs.refusals import Refused


def _objects_of(built):
    objects = Objects()
    for path in built.folder.rglob("*"):
        if path.is_file():
            # long ago, so that what is kept of it may stay
            objects.put(f"a/{path.relative_to(built.folder)}", path.read_bytes(), 1_600_000_000)
    return objects


def _some_store(draws, say, objects, room):
    sort = draws.below(4)
    if sort == 0:
        say("store: files are opened, a missing one is a KeyError")
        return Opening(objects, KeyError)
    if sort == 1:
        say("store: an archive")
        archive = zipfile.ZipFile(room / "archive.zip", "w")
        for path, (value, *_) in objects.found.items():
            archive.writestr(path, value)
        return archive
    tells = draws.one_of(TELLS)
    say(f"store: ranges, and info tells {tells}")
    return Ranged(objects, tells)


def stores(draws, say, room):
    """An array in a store is read as in a folder, and is asked for no more than it needs."""
    built = Built(draws, say, room / "array")
    objects = _objects_of(built)
    store = _some_store(draws, say, objects, room)
    array, whole = Array("a", store=store, threads=draws.one_of([1, 3])), built.whole()
    for _ in range(draws.between(1, 4)):
        access = Access(draws, built.shape)
        say(f"{access!r}")
        if isinstance(store, Ranged):
            store.fetches.clear()
        check(built.kind, access.read(array), access.due(whole), "read of a store")
        if isinstance(store, Ranged):
            _check_fetches(built, store, access)


def _check_fetches(built, store, access):
    """No chunk without elements of the answer is touched, and no byte of another is fetched twice."""
    wanted = np.zeros(built.shape, bool)
    wanted[access.numpys] = True
    allowed = {}
    for numbers in built.grid():
        if wanted[built.places(numbers)[0]].any():
            path = f"a/{built.path(numbers).relative_to(built.folder)}"
            allowed[path] = len(store.objects.found[path][0]) if path in store.objects.found else 0
    for path in {path for path, *_ in store.fetches}:
        require(path in allowed, f"{path} is fetched, and has no element of the answer")
        fetched = [one for one in store.fetches if one[0] == path]
        count, rounds = sum(end - begin for _, begin, end, _ in fetched), len({one[-1] for one in fetched})
        require(count <= allowed[path], f"{count} bytes of {path} are fetched, which has {allowed[path]}")
        require(rounds <= _most_rounds(built.codecs), f"{rounds} requests are made of {path}")


def _most_rounds(codecs):
    """In how many rounds a chunk is read at most: an index and elements, or offsets before them, and one for each level of shards
    in shards; where these stand behind a change of axes, eight and a last one."""
    names = [*names_in(codecs)]
    levels = names.count("sharding_indexed")
    return 9 if levels > 1 and {"reshape", "zarrs.squeeze"} & {*names} else 3 + max(levels - 1, 0)


def broken_stores(draws, say, room):
    """A store that raises or returns short gives its error, and no wrong answer; later it is read again."""
    built = Built(draws, say, room / "array")
    at = draws.between(1, 6)
    way = draws.one_of(["short", "raises", "returns"])
    say(f"a store whose request {at} {way}")
    store = Ranged(_objects_of(built), draws.one_of(TELLS), **{way: at})
    array, error = attempt((OSError, EOFError), Array, "a", store=store)
    if error is not None:
        return
    whole = built.whole()
    for _ in range(4):
        access = Access(draws, built.shape)
        say(f"{access!r}")
        found, error = attempt((Raised, EOFError), access.read, array)
        if error is None:
            check(built.kind, found, access.due(whole), "read of a broken store")


@dataclass
class Versions:
    """One chunk with several contents, each a whole object."""

    kind: Any
    metadata: Any
    chunks: list
    values: list


def _versions(draws, say, count, may_be_long):
    """Some contents of one chunk, mostly a shard that is read in rounds: a long one, whose inner chunks stand elsewhere each time,
    or one that Python cuts. Where none may be long, values are of one length, mostly."""
    is_long = may_be_long and draws.chance(2)
    kind = draws.one_of(PLAIN[:8] if is_long else [*PLAIN[:8], TEXT])
    sizes = draws.one_of([(1 << 17,), (512, 256)]) if is_long else tuple(draws.one_of([4, 8, 16]) for _ in range(draws.between(1, 2)))
    fill = some_chunk(draws, kind, ())
    codecs = _sharded(draws, kind, sizes, is_long, may_be_long) if is_long or draws.below(4) else some_codecs(draws, kind, sizes)
    metadata = metadata_of(sizes, sizes, kind.name, fill_json(kind, fill), codecs, {"name": "default"})
    say(f"zarr.json: {json.dumps(metadata)}")
    others = (fill, Loose(draws)) if may_be_long else (None, untouched)
    values = [encoded(codecs, some_chunk(draws, kind, sizes, others[0]), fill, others[1]) for _ in range(count)]
    return Versions(kind, metadata, [decoded(codecs, value, kind, sizes, fill) for value in values], values)


def _sharded(draws, kind, sizes, is_long, may_be_long):
    inner = ["vlen-utf8" if kind.is_text else draws.one_of([LITTLE, "packbits"])]
    if not is_long and (may_be_long or draws.chance(2)):
        inner.append({"name": "gzip", "configuration": {"level": 1}})
    part = [draws.one_of([size // 4, size // 2]) for size in sizes]
    keys = {"chunk_shape": part, "codecs": inner, "index_codecs": [LITTLE], "index_location": draws.one_of(["end", "start"])}
    if draws.chance(3):
        outer = {**keys, "chunk_shape": list(sizes), "codecs": [{"name": "sharding_indexed", "configuration": keys}]}
        return [{"name": "sharding_indexed", "configuration": outer}]
    return [{"name": "sharding_indexed", "configuration": keys}]


def _stored(versions, at=None):
    objects = Objects()
    objects.put("a/zarr.json", json.dumps(versions.metadata).encode(), 1_600_000_000)
    objects.put(_chunk_path(versions), versions.values[0], at)
    return objects


def _chunk_path(versions):
    return "/".join(["a", "c", *("0" for _ in versions.metadata["shape"])])


def replaced(draws, say, room):
    """A chunk that is replaced as a whole while it is read is answered as it was or as it is, or refused."""
    versions = _versions(draws, say, 3, True)
    objects, path = _stored(versions, 1_600_000_000), _chunk_path(versions)
    tells = draws.one_of([name for name in TELLS if name not in OF_SECONDS and name != "nothing"])
    store = Ranged(objects, tells) if draws.below(5) else Opening(objects)
    array = Array("a", store=store)
    current = [0]

    def replace():
        current[0] += 1
        objects.put(path, versions.values[current[0] % len(versions.values)], 1_600_000_000 + current[0])

    for number in range(draws.between(2, 4)):
        first = objects.calls + draws.one_of([4, 4, 4, 3, 5, 2, 1, 6])
        objects.turns = {first: replace, **({first + draws.between(1, 3): replace} if draws.chance(3) else {})}
        before = current[0]
        access = Access(draws, versions.chunks[0].shape)
        say(f"info tells {tells}; replaced before calls {sorted(it - objects.calls for it in objects.turns)} of read {number}: {access!r}")
        found, error = attempt((OSError, EOFError, Refused), access.read, array)
        if error is not None:
            continue
        answer = as_chunk(versions.kind, found)
        dues = [access.due(versions.chunks[it % len(versions.values)]) for it in range(before, current[0] + 1)]
        require(any(same(answer, due) for due in dues), f"an answer of no version: {told(answer)}")


def young(draws, say, room):
    """Of a store that tells times in whole seconds a chunk that was written just before isn't kept."""
    versions = _versions(draws, say, 3, False)
    objects, path = _stored(versions), _chunk_path(versions)
    tells = draws.one_of(OF_SECONDS)
    say(f"info tells {tells}")
    array = Array("a", store=Ranged(objects, tells))
    for number, value in enumerate(versions.values):
        objects.put(path, value)
        access = Access(draws, versions.chunks[0].shape)
        say(f"version {number} is put, {access!r}")
        check(versions.kind, access.read(array), access.due(versions.chunks[number]), "a read behind a write")


def attributes(draws, say, room):
    """Threads that set attributes of one array lose none."""
    array = Array.create(room / "array", (2,), (2,), "int8")
    threads, each = draws.between(2, 4), draws.between(2, 12)
    say(f"{threads} threads set {each} attributes each")
    failed = []

    def put(thread):
        try:
            for number in range(each):
                array.attrs[f"{thread} {number}"] = number
        except BaseException as error:
            failed.append(error)

    begun = [threading.Thread(target=put, args=(thread,)) for thread in range(threads)]
    for one in begun:
        one.start()
    for one in begun:
        one.join()
    if failed:
        raise failed[0]
    for kept in (dict(array.attrs), dict(Array(room / "array").attrs)):
        require(len(kept) == threads * each, f"{threads * each - len(kept)} of {threads * each} attributes are lost")
