"""Chains that the library keeps: over threads, in forked children, and when they are let go."""

import copy
import ctypes
import pickle
import subprocess
import sys
import threading
from concurrent.futures import ThreadPoolExecutor
from ctypes import byref

import numpy as np
import pytest
from samples import BIG, same, transpose

from zarrs_codecs import Chain, OutOfMemory, UnknownName
from zarrs_codecs import _kept as kept_module
from zarrs_codecs._kept import _Handle
from zarrs_codecs._library import Sizes, library
from zarrs_codecs.chain import coder_in

ARRAY = np.arange(12, dtype="int32").reshape(3, 4)
BYTES = b'{"shape": [4], "data_type": "uint8", "fill_value": "09", "codecs": ["bytes"]}'
TEXTS = b'{"shape": [4], "data_type": "string", "fill_value": "", "codecs": ["vlen-utf8"]}'
NO_BUFFER = (None, 0)


def made():
    return Chain([transpose([1, 0]), BIG], (3, 4), "int32")


def handles(chain):
    """What stands in the handles that no call uses."""
    return [(it._obj.is_there, it._obj.at) for it in coder_in(chain)._kept._idle]


def test_a_header_is_read_once(monkeypatch):
    headers = []
    call = library.zarrs_chain_new

    def counted(header, length, handle):
        headers.append(header)
        return call(header, length, handle)

    monkeypatch.setattr(kept_module.library, "zarrs_chain_new", counted)
    chain = made()
    value = chain.encode(ARRAY)
    before = handles(chain)
    same(chain.decode(value), ARRAY)
    same(chain.read(chain.write(value, 0, 7), 0), np.full(4, 7, "int32"))
    same(chain.read_many(value, [0])[0], ARRAY[0])
    chain.write(value, 1, 9, out=value)
    assert chain.planned_ranges(0) is not None and chain.representation.size == 48
    assert len(headers) == 1 and handles(chain) == before and len(before) == 1


def test_one_call_at_a_time_uses_a_handle(monkeypatch):
    """Of many threads over one chain, each has a handle of its own as long as its call takes."""
    chain, used = made(), set()
    value = chain.encode(ARRAY)
    call, lock, all_there = library.zarrs_chain_decode, threading.Lock(), threading.Event()

    def watched(handle, *arguments):
        place = ctypes.addressof(handle._obj)
        with lock:
            assert place not in used
            used.add(place)
            if len(used) == 8:
                all_there.set()
        assert all_there.wait(60)
        code = call(handle, *arguments)
        with lock:
            used.remove(place)
        return code

    monkeypatch.setattr(library, "zarrs_chain_decode", watched)
    with ThreadPoolExecutor(8) as threads:
        for found in threads.map(chain.decode, [value] * 400):
            same(found, ARRAY)
    assert len(handles(chain)) == 8 and len(set(handles(chain))) == 8


def test_threads_do_all_of_it_at_once(rng):
    chain = made()
    arrays = rng.integers(-(1 << 31), 1 << 31, (16, 3, 4)).astype("int32")

    def round_trip(array):
        value = chain.encode(array)
        for _ in range(20):
            same(chain.decode(value), array)
            same(chain.read(value, np.s_[1:, ::2]), array[1:, ::2])
            value = chain.write(value, 2, array[2])
            chain.write(value, 0, array[0], out=value)
            same(chain.decode(chain.reencode(value, [transpose([1, 0]), BIG])), array)
        return value

    with ThreadPoolExecutor(8) as threads:
        for value, array in zip(threads.map(round_trip, arrays), arrays):
            same(chain.decode(value), array)
    assert len(handles(chain)) <= 8


def test_what_is_freed(monkeypatch):
    """Each handle once: with its chain, or behind the call that had it when the chain went."""
    freed = []

    def noted(handle):
        freed.append((handle._obj.is_there, handle._obj.at))
        library.zarrs_chain_free(handle)

    monkeypatch.setattr(_Handle.__del__, "__defaults__", (noted, byref))
    chain = made()
    call = chain.decode
    with ThreadPoolExecutor(4) as threads:
        list(threads.map(call, [chain.encode(ARRAY)] * 100))
    mine = sorted(handles(chain))
    del chain
    assert not freed
    del call
    assert sorted(freed) == mine
    freed.clear()
    with pytest.raises(UnknownName):
        Chain(["no_such_codec"], (3, 4), "int32")
    assert freed == [(False, None)]


def test_where_no_more_can_be_kept(monkeypatch):
    """A call that needs a handle of its own is refused where there is no memory for it; the others go on."""
    chain = made()
    value = chain.encode(ARRAY)
    held = coder_in(chain)._kept._idle.pop()
    with monkeypatch.context() as refusing:
        refusing.setattr(library, "zarrs_chain_new", lambda *_: 10)
        with pytest.raises(OutOfMemory):
            chain.decode(value)
        assert not handles(chain)
    same(chain.decode(value), ARRAY)
    coder_in(chain)._kept._idle.append(held)
    assert len(handles(chain)) == 2
    same(chain.decode(value), ARRAY)


def test_copies_keep_chains_of_their_own():
    chain = made()
    value = chain.encode(ARRAY)
    for other in (copy.copy(chain), copy.deepcopy(chain), pickle.loads(pickle.dumps(chain))):
        assert repr(other) == repr(chain) and other != chain and not set(handles(other)) & set(handles(chain))
        same(other.decode(value), ARRAY)
    assert chain == chain and hash(chain) == hash(chain)


FORKS = """
import os, threading
import numpy as np
from zarrs_codecs import Chain
chain = Chain([{"name": "transpose", "configuration": {"order": [1, 0]}}, {"name": "bytes", "configuration": {"endian": "big"}}], (30, 40), "int32")
array = np.arange(1200, dtype="int32").reshape(30, 40)
value, is_done = chain.encode(array), threading.Event()

def work():
    while not is_done.is_set():
        assert (chain.decode(value) == array).all()

def forked():
    child = os.fork()
    if not child:
        try:
            for _ in range(20):
                assert (chain.decode(value) == array).all()
                assert (chain.read(value, np.s_[3:5, ::2]) == array[3:5, ::2]).all()
            Chain(["bytes"], (2,), "uint8").encode([1, 2])
            if os.fork() == 0:
                os._exit(chain.decode(value)[0, 1] != 1)
            os._exit(os.wait()[1] != 0)
        finally:
            os._exit(1)
    assert os.waitpid(child, 0)[1] == 0
    assert (chain.decode(value) == array).all()

forked()
threads = [threading.Thread(target=work) for _ in range(3)]
for thread in threads:
    thread.start()
for _ in range(15):
    forked()
is_done.set()
for thread in threads:
    thread.join()
"""


def test_forked_children():
    """Also of a process whose threads are in calls."""
    subprocess.run([sys.executable, "-W", "ignore", "-c", FORKS], check=True, timeout=600)


LEAKS = """
import resource, threading
import numpy as np
from zarrs_codecs import Chain, Refused
from zarrs_codecs._kept import Kept
from zarrs_codecs._library import library
from zarrs_codecs.chain import coder_in
little = {"name": "bytes", "configuration": {"endian": "little"}}

def held():
    return int(open("/proc/self/statm").read().split()[1]) * resource.getpagesize()

def some_chains(count):
    for number in range(count):
        chain = Chain([little], (2, 2), "uint16")
        chain.decode(b"abcdefgh")
        if number % 16 == 0:
            try:
                Chain(["bytes", "unknown"], (2,), "uint8")
            except Refused:
                pass

def some_handles(count, header):
    kind, size = np.zeros(1, np.uint32), np.zeros(1, np.uint64)
    for _ in range(count):
        kept = Kept(header)
        assert kept.keep() == 0 and kept.call(library.zarrs_chain_representation, kind.ctypes, size.ctypes) == 0
    assert size[0] == 8 and Kept(header[:-1]).keep()

def some_threads(count, chain):
    def work():
        for _ in range(3):
            chain.decode(b"abcdefgh")

    for _ in range(count // 8):
        threads = [threading.Thread(target=work) for _ in range(8)]
        for thread in threads:
            thread.start()
        for thread in threads:
            thread.join()

def all_of_it(handles, chains, threads):
    chain = Chain([little], (2, 2), "uint16")
    some_handles(handles, coder_in(chain)._header)
    some_chains(chains)
    some_threads(threads, chain)

all_of_it(5_000, 1_000, 400)
before = held()
all_of_it(100_000, 10_000, 2_000)
grown = held() - before
assert grown < 4 << 20, f"{grown} bytes more"
"""


def test_nothing_is_left_of_chains_and_threads():
    """Of 100,000 chains that the library keeps, some hundred bytes each, 10,000 of Python's, and 2,000 threads over one."""
    subprocess.run([sys.executable, "-c", LEAKS], check=True, timeout=1200)


# -- the calls themselves


def answered(chain, value=b"abcd"):
    """The code and the bytes of a decode over a chain that is kept."""
    out, sizes = ctypes.create_string_buffer(4), Sizes()
    code = library.zarrs_chain_decode(byref(chain), value, len(value), *NO_BUFFER, *NO_BUFFER, out, 4, byref(sizes))
    return code, out.raw


def test_calls_over_no_chain():
    chain, other = _Handle(), _Handle()
    assert answered(chain) == (3, bytes(4))
    assert library.zarrs_chain_share(byref(chain), byref(other)) == 3
    for _ in range(2):
        library.zarrs_chain_free(byref(chain))
        assert (chain.is_there, chain.at) == (False, None)
    assert library.zarrs_chain_new(BYTES, len(BYTES), byref(other)) == 0
    assert library.zarrs_chain_share(byref(chain), byref(other)) == 3
    assert answered(other) == (0, b"abcd")


def test_what_is_kept_stays_where_a_header_is_refused():
    chain = _Handle()
    assert library.zarrs_chain_new(BYTES, len(BYTES), byref(chain)) == 0
    for header in (b"", b"{}", BYTES.replace(b'"bytes"', b'"other"')):
        code = library.zarrs_check(header, len(header))
        assert code and library.zarrs_chain_new(header, len(header), byref(chain)) == code
        assert answered(chain) == (0, b"abcd")
    assert library.zarrs_chain_new(TEXTS, len(TEXTS), byref(chain)) == 0
    assert answered(chain)[0] not in (0, 3)


def test_a_shared_chain_stays_for_the_last():
    first, second = _Handle(), _Handle()
    assert library.zarrs_chain_new(BYTES, len(BYTES), byref(first)) == 0
    assert library.zarrs_chain_share(byref(first), byref(second)) == 0 and first.at != second.at
    library.zarrs_chain_free(byref(first))
    assert answered(first)[0] == 3 and answered(second) == (0, b"abcd")
    assert library.zarrs_chain_share(byref(second), byref(first)) == 0
    library.zarrs_chain_free(byref(second))
    assert answered(first) == (0, b"abcd") and answered(first, b"abc")[0] == 15
