"""Reads of a batch of chunks into one answer."""

import asyncio
from collections.abc import Callable
from dataclasses import dataclass
from functools import partial
from typing import Any

import numpy as np
from zarr.core.codec_pipeline import fill_value_or_default
from zarr.core.config import config

from .._types import AnyArray
from ..refusals import Refused
from ._parts import Part, is_basic
from ._statistics import Statistics
from ._threads import IN_LOOP, in_thread, run_all, run_at_hand, run_together
from ._values import AllLacking, ChunkFile, FarValue, Lacking, Missing, file_of, is_at_hand


@dataclass(slots=True)
class Read:
    """A chunk's part that is read: by which getter, as zarr-python declares its form, and where its elements are put."""

    part: Part
    getter: Any
    spec: Any
    answer: AnyArray
    there: Any
    drop_axes: tuple[int, ...]

    def _target(self) -> AnyArray | None:
        """The place of the answer that a whole chunk may be decoded into; None where there is no such place."""
        there = self.there if isinstance(self.there, tuple) else (self.there,)
        if not self.part.is_whole or self.drop_axes or not is_basic(there):
            return None
        # of an answer of no axes an array too, and no scalar
        return self.answer[(*there, ...)]

    def _put(self, read: Callable[[], AnyArray | None]) -> bool:
        """Puts what a call reads into the answer, and fill values where nothing is stored; whether something is."""
        try:
            found = read()
        except Missing:
            self.answer[self.there] = fill_value_or_default(self.spec)
            return False
        except Refused as error:
            if error.path is None:
                error.path = str(self.getter)
            raise
        if found is not None:
            found = found.squeeze(axis=self.drop_axes) if self.drop_axes else found
            # an array of one byte string numpy would put into an array of objects as it is
            is_one = self.answer.dtype == object and isinstance(found, np.ndarray) and found.ndim == 0
            self.answer[self.there] = found[()] if is_one else found
        return True

    def from_value(self, value: Any) -> bool:
        """Reads the part of a value that zarr-python has got; None is nothing stored."""

        def read() -> AnyArray | None:
            if value is None:
                raise Missing
            return self.part.of_value(value.as_numpy_array(), self._target())

        return self._put(read)

    def from_file(self, path: str) -> bool:
        """Reads the part of a value in a file: ranges of it, or all."""

        def read() -> AnyArray | None:
            with ChunkFile(path) as source:
                if self.part.is_ranged:
                    return self.part.of_source(source)
                return self.part.of_value(source.whole(), self._target())

        return self._put(read)

    async def from_far(self, turn: asyncio.Semaphore, statistics: Statistics) -> bool:
        """Reads the part of a value in a store that is far away: ranges of it, or all."""
        value = FarValue(self.getter, self.spec, turn)
        try:
            if self.part.is_ranged_far():
                try:
                    return await self._from_ranges(value)
                except AllLacking:
                    pass
            return await _run(partial(self.from_value, await value.get()), self.part.work)
        finally:
            statistics.add("requests", value.requests)

    async def _from_ranges(self, value: FarValue) -> bool:
        """Reads the part round by round, each of which fetches what the one before it lacked."""
        while True:
            try:
                return await _run(partial(self._put, partial(self.part.of_source, value)), self.part.work)
            except Lacking as lacking:
                ranges = lacking.ranges
            try:
                await value.fetch(ranges)
            except (Missing, Refused) as error:
                return self._put(partial(_raise, error))


def _raise(error: Exception) -> None:
    raise error


async def _run(call: Callable[[], bool], work: int) -> bool:
    """What a call returns that goes through so many bytes, run by the event loop's thread where that is little."""
    return call() if work <= IN_LOOP else await in_thread(call)


async def read_all(reads: list[Read], statistics: Statistics) -> list[bool]:
    """Reads chunks of one store; which of them are stored. An exception is raised when all reads that were begun have
    ended."""
    first = reads[0].getter
    if is_at_hand(first):
        values = [await read.getter.get(prototype=read.spec.prototype) for read in reads]
        calls = [partial(read.from_value, value) for read, value in zip(reads, values, strict=True)]
        return await run_at_hand(calls, sum(read.part.work for read in reads))
    paths = [file_of(read.getter) for read in reads]
    files = [partial(read.from_file, path) for read, path in zip(reads, paths, strict=True) if path is not None]
    if len(files) == len(reads):
        return await in_thread(lambda: run_all(files))
    limit = config.get("async.concurrency")
    turn = asyncio.Semaphore(limit or 1 << 30)
    return await run_together([partial(read.from_far, turn, statistics) for read in reads], limit)
