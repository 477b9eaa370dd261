"""Faults of files: writers that are killed, a full disk, a read-only folder, chunks that change while they are read.

Writers are programs of their own (`WRITER`), which fork once the package is loaded: a killed one is a fork of it.
"""

import contextlib
import errno
import json
import os
import shutil
import subprocess
import sys
import threading
import time
from pathlib import Path

import numpy as np
import pytest
from samples import LITTLE, VLEN, make_array

import zarrs_codecs as z
from zarrs_codecs import Array

GZIP = {"name": "gzip", "configuration": {"level": 1}}
# A program that forks for each line of its input, and says how the fork ended. Of a number and an element the fork writes
# that element everywhere, and is killed at the event of that number; where the number is below 0 it writes on and on, and
# is killed after so many microseconds.
WRITER = """
import os, signal, sys, time
import numpy as np
from zarrs_codecs import Array

def killed_at(number):
    left = number
    def event(frame, kind, argument):
        nonlocal left
        left -= 1
        if left == 0:
            os.kill(os.getpid(), signal.SIGKILL)
    return event

array = Array(sys.argv[1])
of = str if array.dtype == object else int
for line in sys.stdin:
    number, new = map(int, line.split())
    child = os.fork()
    if child == 0:
        if number > 0:
            sys.setprofile(killed_at(number))
        while True:
            array[...] = of(new)
            sys.setprofile(None)
            if number > 0:
                os._exit(0)
            new = (new + 1) % 100
    if number < 0:
        time.sleep(-number / 1e6)
        os.kill(child, signal.SIGKILL)
    print(os.waitstatus_to_exitcode(os.waitpid(child, 0)[1]), flush=True)
"""
# A program that writes 1, 2, 3 .. everywhere until it is killed, or so many times.
ENDLESS = """
import sys
from zarrs_codecs import Array
array = Array(sys.argv[1])
print("begins", flush=True)
for new in range(1, int(sys.argv[2])):
    array[eval(sys.argv[3], {"np": __import__("numpy")})] = new % 250
"""
CODECS = [
    pytest.param("uint8", ["bytes"], 0, id="bytes"),
    pytest.param("int16", ["packbits", GZIP], 0, id="gzip"),
    pytest.param("string", [VLEN], "", id="texts"),
]


def started(program, *words, **how):
    return subprocess.Popen([sys.executable, "-c", program, *map(str, words)], stdout=subprocess.PIPE, text=True, **how)


def chunk_files(folder):
    return sorted(it.name for it in (Path(folder) / "c").rglob("*") if it.is_file())


def is_of_one(found):
    """Whether all elements are the same."""
    return len(set(np.asarray(found).reshape(-1).tolist())) == 1


@contextlib.contextmanager
def small_disk(folder, size):
    """A disk of so many bytes."""
    folder.mkdir()
    mounted = subprocess.run(["mount", "-t", "tmpfs", "-o", f"size={size}", "tmpfs", folder], capture_output=True)
    if mounted.returncode:
        pytest.skip("no disk can be mounted here")
    try:
        yield folder
    finally:
        subprocess.run(["umount", folder], check=True)


@pytest.mark.parametrize("is_there", [True, False])
@pytest.mark.parametrize("data_type, codecs, fill", CODECS)
def test_a_writer_killed_at_every_point_leaves_the_old_chunk_or_the_new_one(data_type, codecs, fill, is_there, tmp_path):
    """At each call of a function that a write makes, and at each return from one. Each writer finds what the first one
    did, a chunk or not even a folder, so that all of them make the same calls."""
    array = make_array(tmp_path / "a", (6,), (6,), data_type, codecs, fill)
    of = str if data_type == "string" else int
    old, number, ends = of(fill), 0, []
    if is_there:
        array[...] = old = of(1)
    with started(WRITER, tmp_path / "a", stdin=subprocess.PIPE) as writer:
        while not ends or ends[-1] != 0:
            number += 1
            new = number % 100
            if not is_there:
                shutil.rmtree(tmp_path / "a/c", ignore_errors=True)
                old = of(fill)
            writer.stdin.write(f"{number} {new}\n")
            writer.stdin.flush()
            ends.append(int(writer.stdout.readline()))
            assert ends[-1] in (0, -9)
            found = array[...]
            assert is_of_one(found) and found[0] in (old, of(new)), number
            old = found[0]
        writer.stdin.close()
    assert ends[:-1] == [-9] * (number - 1) and number > 50
    assert old == of(number % 100)
    # what killed writers leave beside it are files that no chunk is named by
    assert all(name == "0" or name.endswith(".tmp") for name in chunk_files(tmp_path / "a"))


def test_a_writer_killed_at_any_time_leaves_the_old_chunk_or_the_new_one(tmp_path, rng):
    """Of a chunk of a megabyte, so that the time goes into its write."""
    array = make_array(tmp_path / "a", (1 << 20,), (1 << 20,), "uint8", ["bytes"], 0)
    array[...] = 0
    with started(WRITER, tmp_path / "a", stdin=subprocess.PIPE) as writer:
        for _ in range(40):
            writer.stdin.write(f"{-int(rng.integers(1, 20_000))} {int(rng.integers(1, 100))}\n")
            writer.stdin.flush()
            assert int(writer.stdout.readline()) == -9
            found = array[...]
            assert is_of_one(found)
        writer.stdin.close()


def test_a_full_disk_leaves_the_chunk(tmp_path):
    with small_disk(tmp_path / "disk", 1 << 19) as disk:
        array = make_array(disk / "a", (1 << 17,), (1 << 17,), "uint8", ["bytes"], 0)
        array[...] = 1
        (disk / "other").write_bytes(b"x" * (1 << 18))
        with pytest.raises(OSError) as raised:
            array[...] = 2
        assert raised.value.errno == errno.ENOSPC
        assert (array[...] == 1).all()
        assert chunk_files(disk / "a") == ["0"]
        (disk / "other").unlink()
        array[...] = 3
        assert (array[...] == 3).all()


def test_a_read_only_folder_is_read_and_never_written(tmp_path):
    with small_disk(tmp_path / "disk", 1 << 18) as disk:
        array = make_array(disk / "a", (4, 4), (2, 4), "uint8", ["bytes"], 7)
        array[:2] = 1
        subprocess.run(["mount", "-o", "remount,ro", disk], check=True)
        for index in (slice(0, 2), slice(2, 4), 0):
            with pytest.raises(OSError) as raised:
                array[index] = 2
            assert raised.value.errno in (errno.EROFS, errno.EACCES)
        assert Array(disk / "a")[...].tolist() == [[1] * 4] * 2 + [[7] * 4] * 2
        assert chunk_files(disk / "a") == ["0"]


@pytest.mark.parametrize("data_type, codecs", [("uint8", ["bytes"]), ("int32", [LITTLE, GZIP])])
@pytest.mark.parametrize("index", [slice(None), slice(100, 200, 7)])
def test_a_chunk_that_is_replaced_while_it_is_read_is_read_as_one_of_the_two(data_type, codecs, index, tmp_path):
    array = make_array(tmp_path / "a", (1 << 16,), (1 << 16,), data_type, codecs, 0)
    array[...] = 0
    with started(ENDLESS, tmp_path / "a", 10**9, "...") as writer:
        writer.stdout.readline()
        until, seen, reads = time.time() + 600, set(), 0
        while reads < 200 or (len(seen) < 2 and time.time() < until):
            found = array[index]
            assert is_of_one(found)
            seen.add(int(found[0]))
            reads += 1
        writer.kill()
    assert len(seen) > 1


def test_a_chunk_that_another_program_cuts_while_it_is_read_is_told(tmp_path, monkeypatch):
    """A writer that replaces no file but changes one: what is read then is no chunk."""
    array = make_array(tmp_path / "a", (64,), (64,), "uint8", ["bytes"], 0)
    array[...] = 1
    path = tmp_path / "a/c/0"
    read = os.preadv

    def cuts(file, views, place):
        path.write_bytes(b"\1" * 8)
        return read(file, views, place)

    monkeypatch.setattr("os.preadv", cuts)
    with pytest.raises(EOFError):
        array[...]
    monkeypatch.undo()
    with pytest.raises(z.InvalidBytesLength):
        array[...]


def test_two_processes_on_one_chunk_leave_whole_chunks(tmp_path):
    """Each writes half of it: what one of them has just written the other may take back, but nothing is torn."""
    array = make_array(tmp_path / "a", (64,), (64,), "uint8", ["bytes", GZIP], 0)
    array[...] = 0
    halves = ["np.s_[:32]", "np.s_[32:]"]
    writers = [started(ENDLESS, tmp_path / "a", 60, half) for half in halves]
    for writer in writers:
        writer.stdout.readline()
    while any(writer.poll() is None for writer in writers):
        found = array[...]
        assert is_of_one(found[:32]) and is_of_one(found[32:])
    assert [writer.wait() for writer in writers] == [0, 0]
    for writer in writers:
        writer.stdout.close()
    found = array[...]
    assert is_of_one(found[:32]) and is_of_one(found[32:]) and 59 in found
    assert chunk_files(tmp_path / "a") == ["0"]


def test_threads_on_chunks_of_one_array_write_all_of_them(tmp_path):
    array = make_array(tmp_path / "a", (64, 8), (1, 8), "uint16", [LITTLE, GZIP], 0)
    rows = [threading.Thread(target=array.__setitem__, args=(row, row)) for row in range(64)]
    for row in rows:
        row.start()
    for row in rows:
        row.join()
    assert (array[...] == np.arange(64)[:, None]).all()


def test_metadata_that_is_cut_is_told(tmp_path):
    """At every length of `zarr.json`."""
    make_array(tmp_path / "a", (4,), (4,), "uint8", ["bytes"], 0)
    path = tmp_path / "a/zarr.json"
    text = path.read_text()
    for length in range(len(text)):
        path.write_text(text[:length])
        with pytest.raises(z.InvalidMetadata):
            Array(tmp_path / "a")
    path.write_text(text)
    assert json.loads(text) and Array(tmp_path / "a").shape == (4,)
