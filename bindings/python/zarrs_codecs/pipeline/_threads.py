"""The threads that code chunks."""

import asyncio
import os
import threading
from collections.abc import Awaitable, Callable, Sequence
from concurrent.futures import ThreadPoolExecutor
from typing import TypeVar

from zarr.core.config import config

# So many bytes are decoded by the event loop's own thread.
IN_LOOP = 1 << 18
# Of chunks of so few bytes each, Python's part takes longer than the library's, and Python runs in one thread at a time.
_FEW_EACH = 1 << 15
_R = TypeVar("_R")
_lock = threading.Lock()
_pools: dict[int, ThreadPoolExecutor] = {}


def _cores() -> int:
    """How many cores this process may use."""
    return len(os.sched_getaffinity(0)) if hasattr(os, "sched_getaffinity") else os.cpu_count() or 1


def thread_count() -> int:
    """How many threads code chunks: as zarr-python's configuration has it, or as many as there are cores."""
    declared = config.get("codec_pipeline.max_workers", None) or config.get("threading.max_workers", None)
    return max(int(declared), 1) if declared else _cores()


def pool() -> ThreadPoolExecutor:
    """The threads that code chunks, which are begun when they are first needed, and in each process anew."""
    count = thread_count()
    with _lock:
        if count not in _pools:
            _pools[count] = ThreadPoolExecutor(count, "zarrs_codecs")
        return _pools[count]


def _renew() -> None:
    """Forgets threads that are another process's, of which this one was forked off."""
    global _lock
    _lock = threading.Lock()
    _pools.clear()


if hasattr(os, "register_at_fork"):
    os.register_at_fork(after_in_child=_renew)


def run_all(calls: Sequence[Callable[[], _R]]) -> list[_R]:
    """What calls return, run by this thread and by others that have nothing to do. When one raises an exception, no other
    is begun, and it is raised when all that were begun have ended; of several that of the first call."""
    places, turn = iter(range(len(calls))), threading.Lock()
    done: dict[int, _R] = {}
    failed: dict[int, BaseException] = {}

    def work() -> None:
        while not failed:
            with turn:
                place = next(places, None)
            if place is None:
                return
            try:
                done[place] = calls[place]()
            except BaseException as error:
                failed[place] = error

    threads = pool()
    helpers = [threads.submit(work) for _ in range(min(thread_count(), len(calls)) - 1)]
    work()
    for helper in helpers:
        # one that hasn't begun has nothing to do any more: waiting for it, all threads could wait for each other
        if not helper.cancel():
            helper.result()
    if failed:
        raise failed[min(failed)]
    return [done[place] for place in range(len(calls))]


async def in_thread(call: Callable[[], _R]) -> _R:
    """What a call returns, run by a thread that isn't the event loop's."""
    return await asyncio.get_running_loop().run_in_executor(pool(), call)


async def run_at_hand(calls: Sequence[Callable[[], _R]], work: int) -> list[_R]:
    """What calls return that wait for nothing, and go through so many bytes together: run by the event loop's thread, by
    another, or by all. An exception is raised as `run_all` does."""
    if work <= IN_LOOP:
        # others that wait for the event loop have their turn
        await asyncio.sleep(0)
        return [call() for call in calls]
    if work <= _FEW_EACH * len(calls):
        return await in_thread(lambda: [call() for call in calls])
    return await in_thread(lambda: run_all(calls))


async def run_together(calls: Sequence[Callable[[], Awaitable[_R]]], limit: int | None) -> list[_R]:
    """What calls return, so many of them at a time. When one raises an exception, no other is begun, and it is raised when
    all that were begun have ended; of several that of the first call."""
    turn = asyncio.Semaphore(limit or max(len(calls), 1))
    done: dict[int, _R] = {}
    failed: dict[int, Exception] = {}

    async def run(place: int) -> None:
        async with turn:
            if failed:
                return
            try:
                done[place] = await calls[place]()
            except Exception as error:
                failed[place] = error

    await asyncio.gather(*map(run, range(len(calls))))
    if failed:
        raise failed[min(failed)]
    return [done[place] for place in range(len(calls))]
