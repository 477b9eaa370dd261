"""Writes of a batch of chunks."""

from dataclasses import dataclass
from functools import partial
from typing import Any

import numpy as np
from zarr.core.buffer import cpu
from zarr.core.codec_pipeline import fill_value_or_default
from zarr.core.config import config

from .._types import AnyArray, Bytes
from ..refusals import Refused
from ._parts import Part
from ._threads import IN_LOOP, in_thread, run_all, run_at_hand, run_together
from ._values import is_at_hand, is_set_in_threads

# The type of a buffer's bytes: int8 in zarr-python 3.0, uint8 later, and each rejects the other.
_BYTE = cpu.Buffer.create_zero_length().as_numpy_array().dtype


@dataclass(slots=True)
class Write:
    """A chunk's part that is written: by which setter, as zarr-python declares its form, and of which elements of an array;
    whether these are all of the chunk that the array has."""

    part: Part
    setter: Any
    spec: Any
    array: AnyArray
    there: Any
    drop_axes: tuple[int, ...]
    is_complete: bool

    @property
    def work(self) -> int:
        """How many bytes of elements are gone through, more or less."""
        return self.part.coding.size * self.part.coding.dtype.itemsize

    def _new(self) -> AnyArray:
        if self.array.ndim == 0:
            return self.array
        new: AnyArray = self.array[self.there]
        return np.expand_dims(new, self.drop_axes) if self.drop_axes else new

    def value(self, old: Any) -> Any:
        """The chunk's new value, a buffer of zarr-python's, of the old one, or of None; None where nothing is stored."""
        fill = None if self.spec.config.write_empty_chunks else fill_value_or_default(self.spec)
        try:
            made = self.part.written(None if old is None else old.as_numpy_array(), self._new(), fill)
        except Refused as error:
            if error.path is None:
                error.path = str(self.setter)
            raise
        return None if made is None else buffer_of(_own(made), self.spec)

    async def get(self) -> Any:
        """The old value; None where all of the chunk is replaced, or nothing is stored."""
        return None if self.is_complete else await self.setter.get(prototype=self.spec.prototype)

    async def put(self, value: Any) -> None:
        """Stores a value, or deletes what is stored."""
        await (self.setter.delete() if value is None else self.setter.set(value))

    def in_thread(self) -> None:
        """Writes the chunk with no event loop."""
        value = self.value(None if self.is_complete else self.setter.get_sync(prototype=self.spec.prototype))
        if value is None:
            self.setter.delete_sync()
        else:
            self.setter.set_sync(value)

    async def by_loop(self) -> None:
        """Writes the chunk to a store that may be far away."""
        call = partial(self.value, await self.get())
        await self.put(call() if self.work <= IN_LOOP else await in_thread(call))


def buffer_of(value: Bytes, spec: Any) -> Any:
    """A value as zarr-python takes it."""
    return spec.prototype.buffer.from_array_like(value.view(_BYTE))


def _own(value: Bytes) -> Bytes:
    """A value in memory of about its size: a store in memory keeps the array."""
    base = value.base
    return value.copy() if isinstance(base, np.ndarray) and base.nbytes > value.nbytes + value.nbytes // 8 else value


async def write_all(writes: list[Write]) -> None:
    """Writes chunks of one store. An exception is raised when all writes that were begun have ended."""
    first, work = writes[0].setter, sum(write.work for write in writes)
    if is_set_in_threads(first):
        calls = [write.in_thread for write in writes]
        await (run_at_hand(calls, work) if is_at_hand(first) else in_thread(lambda: run_all(calls)))
    elif is_at_hand(first):
        values = await run_at_hand([partial(write.value, await write.get()) for write in writes], work)
        for write, value in zip(writes, values, strict=True):
            await write.put(value)
    else:
        await run_together([write.by_loop for write in writes], config.get("async.concurrency"))
