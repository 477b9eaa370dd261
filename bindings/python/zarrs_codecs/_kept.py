"""Chains that the library keeps from one call to the next."""

import ctypes
from collections.abc import Callable
from typing import Any

from ._library import library


class _Handle(ctypes.Structure):
    """What C holds of a chain that is kept: of none at first. It is freed with this."""

    _fields_ = [("is_there", ctypes.c_bool), ("at", ctypes.c_void_p)]

    # as arguments, since the module may be gone before the last handle
    def __del__(self, free: Callable[..., Any] = library.zarrs_chain_free, at: Callable[..., Any] = ctypes.byref) -> None:
        free(at(self))


class Kept:
    """The chain of a header, which the library keeps, so that the header is read once, and once more for each call that runs
    beside others.

    One call at a time uses a handle: it takes one out of a list, or makes one where there is none, and puts it back behind
    it. No thread comes between in either step, so there is no lock to be held when a process forks; and a handle that
    another thread's call has then isn't in the child's list.
    """

    def __init__(self, header: bytes) -> None:
        self._header = header
        # each as C is given it, which holds the handle itself
        self._idle: list[Any] = []

    def _make(self) -> tuple[Any, int]:
        """A new handle, and the code that the library answers."""
        handle = ctypes.byref(_Handle())
        return handle, library.zarrs_chain_new(self._header, len(self._header), handle)

    def keep(self) -> int:
        """Makes the first handle: the code is that of `zarrs_check`."""
        handle, code = self._make()
        if code == 0:
            self._idle.append(handle)
        return code

    def call(self, function: Callable[..., int], *arguments: Any) -> int:
        """What a call of the library answers over the chain."""
        try:
            handle = self._idle.pop()
        except IndexError:
            handle, code = self._make()
            if code:
                return code
        code = function(handle, *arguments)
        self._idle.append(handle)
        return code
