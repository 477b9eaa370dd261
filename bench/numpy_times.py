#!/usr/bin/env python3
"""numpy_times.py [-s SECONDS] [WORD ..]: times numpy at the workloads of bench.c that begin with a word, or at all.

A line for each that numpy has a usual way for: its name, and the least processor time of one call in ns. Answers go
into an array that stands there, where numpy's function takes one.
"""
import sys
import time

import numpy as np

words = sys.argv[1:]
seconds = 0.5
if words[:1] == ["-s"]:
    seconds, words = float(words[1]), words[2:]
random = np.random.default_rng(1)


def timed(call, calls):
    start = time.process_time_ns()
    for _ in range(calls):
        call()
    return (time.process_time_ns() - start) / calls


def row(name, make):
    """Times what `make` answers, where the workload is wanted."""
    if words and not name.startswith(tuple(words)):
        return
    call = make()
    call()
    calls = 1
    while timed(call, calls) * calls < 100_000:
        calls *= 2
    best, end, rounds = float("inf"), time.perf_counter() + seconds, 0
    while rounds < 5 or time.perf_counter() < end:
        best, rounds = min(best, timed(call, calls)), rounds + 1
    print(f"{name}\t{best:.1f}", flush=True)


def noise(shape, kind=np.uint32):
    return random.integers(0, np.iinfo(kind).max, shape, dtype=kind, endpoint=True)


def copies(target, source):
    return lambda: np.copyto(target, source)


def transpose(shape, order, kind=np.uint32):
    def make():
        moved = noise(shape, kind).transpose(order)
        return copies(np.empty(moved.shape, kind), moved)
    return make


def nibbles(packed):
    """Twice as many elements as the last axis has bytes."""
    both = np.empty((*packed.shape[:-1], 2 * packed.shape[-1]), np.uint8)
    np.bitwise_and(packed, 15, out=both[..., 0::2])
    np.right_shift(packed, 4, out=both[..., 1::2])
    return both


def pack_bits():
    bits = noise(1 << 24, np.uint8) & 1
    return lambda: np.packbits(bits, bitorder="little")


def unpack_bits():
    packed = noise(1 << 21, np.uint8)
    return lambda: np.unpackbits(packed, bitorder="little")


def pack_nibbles():
    elements = noise(1 << 24, np.uint8) & 15
    return lambda: elements[0::2] | (elements[1::2] << 4)


def unpack_nibbles():
    packed = noise(1 << 23, np.uint8)
    return lambda: nibbles(packed)


def window_bits(x):
    def make():
        packed = noise((4096, 512), np.uint8)
        def call():
            part = packed[1000:1512, x // 8:(x + 519) // 8]
            return np.unpackbits(part, axis=1, bitorder="little")[:, x % 8:x % 8 + 512].copy()
        return call
    return make


def window_nibbles(x):
    def make():
        packed = noise((4096, 2048), np.uint8)
        return lambda: nibbles(packed[1000:1512, x // 2:(x + 513) // 2])[:, x % 2:x % 2 + 512].copy()
    return make


def masks(run):
    count = 1 << 20
    mask = (np.arange(count) // run % 2 if run > 1 else noise(count, np.uint8) & 1).astype(bool)
    return mask, noise(count)


def optional_value(mask, elements):
    packed, present = np.packbits(mask, bitorder="little"), elements[mask]
    lengths = np.array([packed.size, present.nbytes], np.uint64)
    return np.concatenate([lengths.view(np.uint8), packed, present.view(np.uint8)])


def optional_encode(run):
    def make():
        mask, elements = masks(run)
        return lambda: optional_value(mask, elements)
    return make


def optional_decode(run):
    def make():
        value, count = optional_value(*masks(run)), 1 << 20
        def call():
            packed = int(value[:8].view(np.uint64)[0])
            mask = np.unpackbits(value[16:16 + packed], bitorder="little", count=count).view(bool)
            elements = np.zeros(count, np.uint32)
            elements[mask] = value[16 + packed:].view(np.uint32)
            return mask, elements
        return call
    return make


def shard(is_decoded):
    """Inner chunks one behind the other, and the elements that they are cut of; the index, which stays the same, is left out."""
    def make():
        inner, elements = noise((16, 16, 64, 64)), noise((1024, 1024)).reshape(16, 64, 16, 64).transpose(0, 2, 1, 3)
        return copies(elements, inner) if is_decoded else copies(inner, elements)
    return make


def square(side, is_turned):
    """A chunk as it is stored, and seen as its elements."""
    stored = noise((side, side)).astype(">u4" if is_turned else "<u4")
    return stored, stored.T if is_turned else stored


def encode(side):
    return lambda: copies(np.empty((side, side), ">u4"), noise((side, side)).T)


def decode(side, is_turned):
    return lambda: copies(np.empty((side, side), "<u4"), square(side, is_turned)[1])


def read(side, width, is_turned):
    def make():
        y, x = side // 4 + 3, side // 4 + 5
        _, seen = square(side, is_turned)
        return copies(np.empty((width, width), "<u4"), seen[y:y + width, x:x + width])
    return make


def write(side, width, is_turned):
    """As the library's, a new value beside the old one."""
    def make():
        y, x = side // 4 + 3, side // 4 + 5
        stored, _ = square(side, is_turned)
        new, out = noise((width, width)), np.empty_like(stored)
        seen = out.T if is_turned else out
        def call():
            np.copyto(out, stored)
            seen[y:y + width, x:x + width] = new
        return call
    return make


def edits(width, is_turned):
    def make():
        stored, _ = square(512, is_turned)
        new, out = noise((width, width)), np.empty_like(stored)
        seen = out.T if is_turned else out
        places = random.integers(0, 512 - width, (1000, 2)).tolist()
        def call():
            np.copyto(out, stored)
            for y, x in places:
                seen[y:y + width, x:x + width] = new
        return call
    return make


def tuples(count, is_turned):
    def make():
        _, seen = square(2048, is_turned)
        pairs = random.integers(0, 2048, (count, 2))
        return lambda: seen[pairs[:, 0], pairs[:, 1]].astype("<u4", copy=False)
    return make


for way in ("encode", "decode"):
    row(f"transpose {way} u32 1024x1024", transpose((1024, 1024), (1, 0)))
    row(f"transpose {way} u8 1024x1024", transpose((1024, 1024), (1, 0), np.uint8))
    row(f"transpose {way} u32 64x64x64x16, [1,0,2,3]", transpose((64, 64, 64, 16), (1, 0, 2, 3)))
    row(f"transpose {way} u32 128x128x128, [2,1,0]", transpose((128, 128, 128), (2, 1, 0)))
row("packbits encode bool 16 Mi", pack_bits)
row("packbits decode bool 16 Mi", unpack_bits)
row("packbits encode uint4 16 Mi", pack_nibbles)
row("packbits decode uint4 16 Mi", unpack_nibbles)
for x in (1003, 1000):
    row(f"packbits read bool 512x512 at x={x}", window_bits(x))
    row(f"packbits read uint4 512x512 at x={x}", window_nibbles(x))
for what, run in (("half of them", 1), ("runs of 64", 64)):
    row(f"optional encode 1 Mi, {what}", optional_encode(run))
    row(f"optional decode 1 Mi, {what}", optional_decode(run))
row("shard encode 1024x1024, inner chunks of 64x64", shard(False))
row("shard decode 1024x1024, inner chunks of 64x64", shard(True))
row("chain encode 2048x2048", encode(2048))
row("chain decode 2048x2048", decode(2048, True))
for side, width in ((2048, 64), (2048, 256), (2048, 1024), (512, 64), (4096, 64), (4096, 256)):
    row(f"chain read {width}x{width} of {side}x{side}", read(side, width, True))
for side, width in ((2048, 64), (2048, 256), (2048, 1024), (512, 64), (4096, 64)):
    row(f"chain write {width}x{width} of {side}x{side}", write(side, width, True))
for width in (64, 1024):
    row(f"bytes read {width}x{width} of 2048x2048", read(2048, width, False))
row("bytes write 64x64 of 2048x2048", write(2048, 64, False))
for width in (8, 2, 32):
    row(f"chain 1,000 edits of {width}x{width} of 512x512", edits(width, True))
row("bytes 1,000 edits of 8x8 of 512x512", edits(8, False))
for name, is_turned in (("bytes", False), ("chain", True)):
    row(f"{name} read 100,000 tuples of 2048x2048", tuples(100_000, is_turned))
    row(f"{name} read 1,000 tuples of 2048x2048", tuples(1_000, is_turned))
row("bytes reencode 2048x2048 to the chain", encode(2048))
row("bytes decode 2048x2048", decode(2048, False))
row("bytes decode 2x2", decode(2, False))
