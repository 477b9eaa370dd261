"""Files that count what is asked of them, return short, and raise."""

import io
import os

import numpy as np


class Raised(OSError):
    """What a file of these raises."""


class CountingFile:
    """A file in memory, of a sort that is drawn: it fills buffers or returns bytes, fewer than are asked for at times, and says
    where it is or leaves that to `tell`. `raises_at` is the call that raises."""

    def __init__(self, value, draws, raises_at=None):
        self._value, self._place, self._calls = bytes(value), 0, 0
        self._is_short, self._tells = draws.chance(3), draws.chance(3)
        self._raises_at = raises_at
        self.seen = np.zeros(len(value), bool)
        self.asked = 0
        if draws.chance(2):
            self.read = self._read
        else:
            self.readinto = self._readinto
        self.told = f"a file that has {'read' if hasattr(self, 'read') else 'readinto'}{', and returns short' * self._is_short}"

    def _called(self):
        self._calls += 1
        if self._calls == self._raises_at:
            raise Raised("the file is away")

    def seek(self, place, whence=os.SEEK_SET):
        self._called()
        self._place = place + len(self._value) * (whence == os.SEEK_END)
        return None if self._tells else self._place

    def tell(self):
        return self._place

    def _read(self, count=-1):
        self._called()
        if self._is_short and count > 1:
            count = (count + 1) // 2
        end = len(self._value) if count < 0 else min(self._place + count, len(self._value))
        found = self._value[self._place : end]
        self.seen[self._place : end] = True
        self.asked += len(found)
        self._place = end
        return found

    def _readinto(self, buffer):
        found = self._read(len(buffer))
        buffer[: len(found)] = found
        return len(found)

    def close(self):
        self._value = b""


class LyingFile(io.BytesIO):
    """A file that says that it has filled another number of bytes, once."""

    def __init__(self, value, lie):
        super().__init__(bytes(value))
        self._lie = lie

    def readinto(self, buffer):
        count = super().readinto(buffer)
        lie, self._lie = self._lie, None
        return count if lie is None else lie
