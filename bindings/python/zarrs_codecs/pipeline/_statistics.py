"""Which way an array's chunks went."""

import threading
from collections import Counter

_WAYS = {
    "read": "chunks read by the library",
    "written": "chunks written by the library",
    "read_by_zarr_python": "chunks read by zarr-python",
    "written_by_zarr_python": "chunks written by zarr-python",
    "requests": "requests to far stores, of chunks read by the library",
}


class Statistics:
    """How many chunks went which way in this process, since it began or `clear` was called. A chunk that was read and then
    written counts twice.

    Attributes
    ----------
    read, written : int
        Chunks by the library.
    read_by_zarr_python, written_by_zarr_python : int
        Chunks by zarr-python's own pipeline.
    requests : int
        How many requests the library's reads made of stores that are neither a folder nor in memory.
    reasons : collections.Counter
        Why chunks went zarr-python's way, each with how many.

    Examples
    --------
    >>> found = Statistics()
    >>> found.add("read", 3)
    >>> found.add("read_by_zarr_python", 1, "an example")
    >>> found.read, found.written, dict(found.reasons)
    (3, 0, {'an example': 1})
    """

    def __init__(self) -> None:
        self._lock = threading.Lock()
        self.clear()

    def clear(self) -> None:
        """Begin to count anew.

        Examples
        --------
        >>> found = Statistics()
        >>> found.add("written", 2)
        >>> found.clear()
        >>> found.written
        0
        """
        with self._lock:
            self.reasons: Counter[str] = Counter()
            self.read = self.written = 0
            self.read_by_zarr_python = self.written_by_zarr_python = 0
            self.requests = 0

    def add(self, way: str, count: int, reason: str | None = None) -> None:
        """Count some chunks, or requests.

        Parameters
        ----------
        way : str
            One of the attributes' names.
        count : int
            How many.
        reason : str, optional
            Why they went zarr-python's way.

        Examples
        --------
        >>> found = Statistics()
        >>> found.add("requests", 2)
        >>> found.requests
        2
        """
        with self._lock:
            setattr(self, way, getattr(self, way) + count)
            if reason is not None:
                self.reasons[reason] += count

    def renew_lock(self) -> None:
        """Makes a lock that no thread holds, in a process that was forked off."""
        self._lock = threading.Lock()

    def __repr__(self) -> str:
        lines = [f"{getattr(self, way):8}  {what}" for way, what in _WAYS.items()]
        lines += [f"{count:8}  by zarr-python since: {reason}" for reason, count in self.reasons.most_common()]
        return "\n".join(lines)
