"""Runs programs, each in a process of its own with bounded time and memory, and makes small what fails."""

import mmap
import os
import pathlib
import resource
import shutil
import signal
import sys
import tempfile
import time
import traceback
import warnings
from dataclasses import dataclass

import numpy as np
from draws import Draws, made, smaller

# Processor seconds of a program, and how much memory it may take more than there is when it begins.
SECONDS, ROOM = 20, 3 << 29
# Within so many processor seconds a failing program is made smaller.
TRYING = 20
_CHOICES = 1 << 16


@dataclass
class Ended:
    """How a program ended: well, or by what is told; its choices, its lines, and its processor time."""

    label: str
    text: str
    choices: list
    lines: list
    seconds: float

    @property
    def is_well(self):
        """Whether nothing was wrong."""
        return not self.label


def _label(error):
    """What failed, by which another failure is told to be the same."""
    text = str(error).split(":", 1)[0] if type(error).__name__ == "Wrong" else ""
    return f"{type(error).__name__} {text}".strip()


def _limited():
    signal.signal(signal.SIGXCPU, signal.SIG_DFL)
    resource.setrlimit(resource.RLIMIT_CORE, (0, 0))
    resource.setrlimit(resource.RLIMIT_CPU, (SECONDS, SECONDS + 1))
    size = int(pathlib.Path("/proc/self/statm").read_text().split()[0]) * mmap.PAGESIZE
    resource.setrlimit(resource.RLIMIT_AS, (size + ROOM, size + ROOM))


def _run_here(program, draws, out, room):
    """Runs a program in this process, and writes its lines and how it ended."""

    def say(line):
        os.write(out, f"L{line}".replace("\n", " ")[:2000].encode(errors="replace") + b"\n")

    try:
        with warnings.catch_warnings():
            warnings.simplefilter("ignore")
            program(draws, say, room)
    except BaseException as error:
        trace = traceback.format_exc().splitlines()
        os.write(out, f"F{_label(error)}\n".encode(errors="replace"))
        told = [str(error)] if type(error).__name__ == "Wrong" else [trace[-1], *trace[-9:-1]]
        for line in told:
            os.write(out, b"T" + line.replace("\n", " ")[:3000].encode(errors="replace") + b"\n")


def run(program, seed, given, room):
    """Runs a program in a process of its own."""
    shared = mmap.mmap(-1, 8 * _CHOICES)
    kept = np.frombuffer(shared, np.uint64)
    into, out = os.pipe()
    folder = pathlib.Path(tempfile.mkdtemp(dir=room))
    process = os.fork()
    if process == 0:
        try:
            os.close(into)
            _limited()
            _run_here(program, Draws(seed, given, kept), out, folder)
        finally:
            os._exit(0)
    os.close(out)
    with open(into, "rb") as said:
        lines = said.read().decode(errors="replace").splitlines()
    _, status, used = os.wait4(process, 0)
    shutil.rmtree(folder, ignore_errors=True)
    label, text = "", [line[1:] for line in lines if line[:1] == "T"]
    for line in lines:
        label = line[1:] if line[:1] == "F" else label
    if os.WIFSIGNALED(status):
        label = f"ended by {signal.Signals(os.WTERMSIG(status)).name}"
        text = [f"{used.ru_utime + used.ru_stime:.1f} processor seconds are over" if "XCPU" in label or "KILL" in label else label]
    choices = made(kept)
    return Ended(label, "\n".join(text), choices, [line[1:] for line in lines if line[:1] == "L"], used.ru_utime + used.ru_stime)


def made_small(program, ended, room, most):
    """The smallest program that fails in the same way, of those that are tried, so many at most."""
    tries, seconds = 0, 0.0
    found = True
    while found:
        found = False
        for choices in smaller(ended.choices):
            if tries >= most or seconds > TRYING:
                return ended
            tries += 1
            came = run(program, 0, choices, room)
            seconds += came.seconds
            if came.label == ended.label and len(came.choices) <= len(ended.choices) and came.choices != ended.choices:
                ended, found = came, True
                break
    return ended


def told(name, seed, ended):
    """A failing program, as it is printed."""
    lines = [f"seed {seed}, {name}: {ended.label}", *(f"    {line}" for line in ended.lines)]
    return "\n".join([*lines, *(f"  ! {line}" for line in ended.text.splitlines())])


@dataclass
class Counts:
    """What has been run: how many programs of each name, how many failed, and their processor time."""

    programs: dict
    seconds: dict
    failed: list

    def line(self):
        """All of it in a line."""
        each = ", ".join(f"{name} {count}" for name, count in sorted(self.programs.items()))
        seconds = sum(self.seconds.values())
        return f"{sum(self.programs.values())} programs, {len(self.failed)} fail, {seconds:.0f} processor seconds: {each}"


def run_all(chosen, seeds, most, tries, until=None, is_shown=False):
    """Runs the program of each seed, up to as many that fail, or until a time; one that fails is made smaller."""
    counts = Counts({}, {}, [])
    began = time.time()
    at = "/dev/shm" if os.access("/dev/shm", os.W_OK) else None
    with tempfile.TemporaryDirectory(dir=at) as room:
        for seed in seeds:
            if until is not None and time.time() > until:
                break
            name, program = chosen(seed)
            ended = run(program, seed, None, room)
            counts.programs[name] = counts.programs.get(name, 0) + 1
            counts.seconds[name] = counts.seconds.get(name, 0) + ended.seconds
            if is_shown and ended.is_well:
                print(told(name, seed, ended))
            if not ended.is_well:
                counts.failed.append(seed)
                ended = made_small(program, ended, room, tries)
                print(told(name, seed, ended), flush=True)
                if len(counts.failed) == most:
                    break
            if until is not None and time.time() - began > 60:
                began = time.time()
                print(f"so far, to seed {seed}: {counts.line()}", file=sys.stderr, flush=True)
    return counts
