"""Programs whose time and memory are bounded: each is held to many times what the least of its kind takes, by processor time and
by what the process held at most, so that a busy machine fails none."""

import contextlib
import io
import json
import pathlib
import resource
import struct
import time
import zlib

import numpy as np
from built import metadata_of
from chains import HAS_NUMCODECS, LITTLE, transpose
from formats import ABSENT
from judge import OF_INDICES, attempt, check, require
from kinds import Chunk, Kind
from zarrs_codecs import Array, Chain
from zarrs_codecs.refusals import BytesCodec, InvalidBytesLength, OutOfMemory, Refused, UnknownName

# What is never too much: for what takes milliseconds, and a few MB.
SECONDS, BYTES = 0.5, 48 << 20
# Processor seconds behind which a program here is ended.
_MOST = 4
_UINT16 = Kind("uint16", np.dtype("<u2"), 16)


def _ended_soon():
    used = resource.getrusage(resource.RUSAGE_SELF)
    most = int(used.ru_utime + used.ru_stime) + _MOST
    resource.setrlimit(resource.RLIMIT_CPU, (most, resource.getrlimit(resource.RLIMIT_CPU)[1]))


def _held(word):
    status = pathlib.Path("/proc/self/status").read_text()
    return int(next(line for line in status.splitlines() if line.startswith(word)).split()[1]) << 10


@contextlib.contextmanager
def costing(seconds, bytes_more, text):
    """What is done here takes no more processor seconds, which a call may tell behind it, and holds at most so many bytes
    more."""
    _ended_soon()
    try:
        # what was held at most begins anew
        pathlib.Path("/proc/self/clear_refs").write_text("5")
        before = _held("VmRSS")
    except OSError:
        before = _held("VmHWM")
    began = time.process_time()
    yield
    took, more = time.process_time() - began, _held("VmHWM") - before
    most = seconds() if callable(seconds) else seconds
    require(took <= most, f"{text} takes {took:.2f} processor seconds, where {most:.2f} are many")
    require(more <= bytes_more, f"{text} holds {more >> 20} MiB more, where {bytes_more >> 20} are many")


def took(call, times=1):
    """How many processor seconds a call takes behind a first one; of several times the most."""
    call()
    found = []
    for _ in range(times):
        began = time.process_time()
        call()
        found.append(time.process_time() - began)
    return max(found)


def _array(folder, shape, chunks, name, fill, codecs):
    folder.mkdir()
    said = metadata_of(shape, chunks, name, fill, codecs, {"name": "default"})
    (folder / "zarr.json").write_text(json.dumps(said))
    return said


def empties(draws, say, room):
    """An answer without elements takes no time, however many chunks its axes have."""
    long = draws.one_of([3_000_000, 1 << 40, (1 << 62) + 1])
    sizes = [long, draws.one_of([0, 0, 5])]
    chunks = [draws.one_of([1, 1 << 10]), 1]
    order = draws.order(range(2))
    shape, chunks = [sizes[n] for n in order], [chunks[n] for n in order]
    axis = order.index(1)
    say(f"shape {shape}, chunks {chunks}")
    _array(room / "array", shape, chunks, "int8", 0, ["bytes"])
    array = Array(room / "array", threads=draws.one_of([1, 2]))
    nothing = [slice(None), slice(None)]
    sort = draws.below(4)
    nothing[axis] = [slice(0, 0), [], np.zeros(sizes[1], bool), slice(None) if not sizes[1] else slice(3, 1)][sort]
    lens = draws.one_of(["", "oindex"]) if sort in (1, 2) else ""
    index = tuple(nothing)
    say(f"{lens or 'array'}[{index!r}]")
    read = getattr(array, lens) if lens else array
    with costing(SECONDS, BYTES, "an answer of no elements"):
        if draws.below(3) == 2:
            read[index] = 1
            return
        found, error = attempt((MemoryError, ValueError, *OF_INDICES), lambda: read[index])
    require(error is not None or np.shape(found)[axis] == 0, f"an answer of shape {np.shape(found)}")


def many_chunks(draws, say, room):
    """Threads that read many chunks hold a few at a time."""
    count = 1 << 14
    _array(room / "array", [count], [1], "int8", 7, ["bytes"])
    threads = draws.one_of([2, 4])
    say(f"{threads} threads read {count} chunks, of which none is stored")
    array = Array(room / "array", threads=threads)
    array[:100]
    with costing(8 * SECONDS, 10 << 20, "a read of many chunks"):
        found = array[...]
    require((found == 7).all(), "other fill values")


def _plain_shard(data, inner):
    """The value of a shard that has all its inner chunks, and its codecs."""
    axes, grid = data.ndim, [size // part for size, part in zip(data.shape, inner)]
    divided = data.reshape([one for pair in zip(grid, inner) for one in pair])
    parts = divided.transpose([*range(0, 2 * axes, 2), *range(1, 2 * axes, 2)]).tobytes()
    count, size = int(np.prod(grid)), int(np.prod(inner)) * data.itemsize
    index = np.stack([np.arange(count) * size, np.full(count, size)], axis=1).astype("<u8")
    keys = {"chunk_shape": list(inner), "codecs": [LITTLE], "index_codecs": [LITTLE]}
    return parts, index, [{"name": "sharding_indexed", "configuration": keys}]


def _some_shard(draws, say, most):
    """A shard of many inner chunks."""
    sorts = [((1 << 17,), (2,)), ((1 << 18,), (4,)), ((1024, 1024), (2, 2)), ((1 << 19,), (4,)), ((1 << 20,), (4,))]
    shape, inner = draws.one_of(sorts[:most])
    data = np.random.default_rng(1).integers(0, 1 << 16, shape).astype("<u2")
    parts, index, codecs = _plain_shard(data, inner)
    say(f"a shard of {shape}, inner chunks of {inner}")
    return data, parts, index, Chain(codecs, shape, "uint16")


def steps(draws, say, room):
    """A step, or points, over a shard of many inner chunks cost no more than some times the whole."""
    data, parts, index, chain = _some_shard(draws, say, 5)
    value = parts + index.tobytes()
    whole = took(lambda: chain.decode(value))
    if draws.chance(3):
        rows = draws.numbers().integers(0, data.shape, (draws.one_of([100_000, 300_000]), data.ndim))
        selection, numpys, words = rows, tuple(rows.T), f"{len(rows)} rows"
    else:
        selection = numpys = tuple(slice(draws.below(3), None, draws.between(2, 9)) for _ in data.shape)
        words = repr(selection)
    at_hand = took(lambda: chain.read(value, selection))
    say(f"read_from of {words}; decode takes {whole:.3f} s, read {at_hand:.3f} s")
    with costing(20 * whole + 4 * at_hand + SECONDS / 5, 50 * (len(value) + data.nbytes), "read_from"):
        found = chain.read_from(io.BytesIO(value), selection)
    check(_UINT16, found, Chunk(_UINT16, data).at(numpys), "read_from")


def damaged_shards(draws, say, room):
    """Where one inner chunk of many is damaged, a refusal costs no more than some times what a good value does."""
    data, parts, index, chain = _some_shard(draws, say, 2)
    good, step = parts + index.tobytes(), tuple(slice(None, None, 3) for _ in data.shape)
    place = draws.one_of([len(index) - 1, 0, draws.below(len(index))])
    index[place] = draws.one_of([(len(parts), 1 << 40), (0, 1), (0, ABSENT)])
    ways = {
        "decode": lambda value: chain.decode(value),
        "read": lambda value: chain.read(value, step),
        "read_from": lambda value: chain.read_from(io.BytesIO(value), ...),
    }
    way = draws.one_of(ways)

    def least():
        return took(lambda: ways[way](good), 3)

    # a busy machine takes twice as long at one moment as at another: so the good value is read before and behind
    before = least()
    say(f"{way}, where inner chunk {place} is {index[place].tolist()}; of a good value it takes {before:.3f} s")
    value = parts + index.tobytes()
    most = 50 * (len(value) + data.nbytes)
    # which inner chunk it is, Python finds by some dozens of calls
    with costing(lambda: 20 * max(before, least()) + SECONDS / 5, most, f"{way}, which is refused,"):
        _, error = attempt((Refused,), ways[way], value)
    require(error is not None or way == "read", f"{way} of a damaged value isn't refused")


def long_lists(draws, say, room):
    """Which codec of a long list is refused is found in some times what a good list takes."""
    count, place = draws.between(300, 1000), draws.one_of([1, 0, 2])
    good = [transpose([1, 0])] * count
    wrong = draws.one_of(["nothing", {"name": "transpose", "configuration": {"order": [0, 0]}}, transpose([0, 1, 2])])
    least = took(lambda: Chain([*good, "bytes"], (2, 2), "uint8"))
    bad = [[*good, wrong], [wrong, *good, "bytes"], [*good[: count // 2], wrong, *good[count // 2 :], "bytes"]][place]
    say(f"{count} transposes, and {wrong} {['behind', 'before', 'among'][place]} them; a good list takes {least:.4f} s")
    with costing(50 * least + SECONDS / 5, BYTES, "the place of a wrong codec"):
        _, error = attempt((Refused,), Chain, bad, (2, 2), "uint8")
    require(error is not None, "a list with a wrong codec is taken")
    require(wrong != "nothing" or isinstance(error, UnknownName), f"{error!r}")


def sizes(draws, say, room):
    """How long elements are, or chunks, as `zarr.json` has it, takes no memory before there are some."""
    length = draws.one_of([1 << 20, 100 << 20, (1 << 31) - 4, 1 << 28]) // 4 * 4
    names = ["null_terminated_bytes", "fixed_length_utf32"]
    name = draws.one_of([*names, *names, "raw_bytes", f"r{8 * length}", "int8"])
    said, shape, fill = name, [4], "" if name == "fixed_length_utf32" else "AAAA"
    if name == "int8":
        shape, fill = [1 << 40], 0
    elif not name.startswith("r") or name == "raw_bytes":
        said = {"name": name, "configuration": {"length_bytes": length}}
    _array(room / "array", shape, shape, said, fill, [LITTLE])
    say(f"zarr.json of {said}, shape and chunks {shape}")
    with costing(2 * SECONDS, BYTES, "opening it"):
        _, error = attempt((Refused, MemoryError), Array, room / "array")
    if error is None and name == "int8":
        with costing(SECONDS, BYTES, "an element of it"):
            require(Array(room / "array")[1 << 30] == 0, "another fill value")


def _gzip_bomb(draws, megabytes):
    """A value that opens to so many MiB of zeros, of one member or of many."""
    packer = zlib.compressobj(9, zlib.DEFLATED, -15)
    zeros = bytes(16 << 20)
    block = packer.compress(zeros) + packer.flush(zlib.Z_FULL_FLUSH)
    head, end, crc = b"\x1f\x8b\x08\0\0\0\0\0\0\xff", b"\x03\0", 0
    if draws.chance(2):
        return (head + block + end + struct.pack("<II", zlib.crc32(zeros), len(zeros))) * (megabytes // 16)
    for _ in range(megabytes // 16):
        crc = zlib.crc32(zeros, crc)
    return head + block * (megabytes // 16) + end + struct.pack("<II", crc, megabytes << 20)


def bombs(draws, say, room):
    """A compressed value that opens to more than is due is refused before it is opened whole."""
    name = draws.one_of(["gzip", "zstd", "blosc"] if HAS_NUMCODECS else ["gzip"])
    megabytes = draws.one_of([96, 128])
    if name == "gzip":
        value, codec = _gzip_bomb(draws, megabytes), {"name": "gzip", "configuration": {"level": 1}}
    else:
        value, codec = _packed_bomb(name, megabytes)
    say(f"{name} of {len(value)} bytes, which open to {megabytes} MiB, in a chunk of 8 bytes")
    codecs = ["bytes", *["crc32c"] * draws.below(2), codec]
    chain = Chain(codecs, (8,), "uint8")
    calls = {
        "decode": lambda: chain.decode(value),
        "read": lambda: chain.read(value, 0),
        "read_from": lambda: chain.read_from(io.BytesIO(value), 0),
        "write": lambda: chain.write(value, 0, 1),
    }
    call = draws.one_of(calls)
    say(call)
    with costing(4 * SECONDS, BYTES, "a value that opens to more"):
        _, error = attempt((Refused, MemoryError), calls[call])
    require(isinstance(error, (BytesCodec, InvalidBytesLength, OutOfMemory)), f"{error!r}, of a value that opens to more")


def _packed_bomb(name, megabytes):
    import numcodecs

    zeros = np.zeros(megabytes << 20, np.uint8)
    if name == "zstd":
        return bytes(numcodecs.Zstd(1).encode(zeros)), {"name": "zstd", "configuration": {"level": 1, "checksum": False}}
    keys = {"cname": "lz4", "clevel": 5, "shuffle": "noshuffle", "blocksize": 0, "typesize": 1}
    return bytes(numcodecs.Blosc("lz4", 5, 0).encode(zeros)), {"name": "blosc", "configuration": keys}
