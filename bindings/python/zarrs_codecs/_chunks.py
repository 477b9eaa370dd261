"""The files of an array's chunks."""

import contextlib
import math
import threading
from collections.abc import Callable, Iterable, Iterator
from concurrent.futures import ThreadPoolExecutor
from pathlib import Path
from typing import Any

from ._cache import Cache
from ._coder import Coder
from ._files import Source
from ._metadata import Keys
from ._rounds import Fetched
from ._selections import Rows, select
from ._stores import Folder
from ._types import AnyArray, Shape
from .refusals import InvalidBytesLength, Refused

# So many times a file is read that is replaced meanwhile.
_MOST_TRIES = 4
# A chunk of so many bytes is read at once, where all of it is needed or its reads aren't planned.
_SMALL = 1 << 16
# One of a file at hand is read at once where one in so many of its elements is needed, or more.
_WHOLE_FROM = 4


@contextlib.contextmanager
def _naming(path: str) -> Iterator[None]:
    """What is raised says which file it is of."""
    try:
        yield
    except Refused as error:
        error.path = Path(path)
        raise
    except EOFError as error:
        raise EOFError(f"{error}, in {path}") from error
    except OSError as error:
        if error.errno is None:
            # with a file's name it would leave out what it says
            error.args = (f"{error}, in {path}", *error.args[1:])
        elif error.filename is None:
            error.filename = path
        raise


# What calls with the arguments of each part.
Each = Callable[[Callable[..., None], Iterable[tuple[Any, ...]]], None]


def one_by_one(call: Callable[..., None], parts: Iterable[tuple[Any, ...]]) -> None:
    """Calls with the arguments of each part, one after another."""
    for arguments in parts:
        call(*arguments)


class Chunks:
    """Reads and writes chunks, of each as much as a selection needs, by so many threads at most.

    Where a chain needs whole values, they are kept when they are read, and what Python's codecs make of them
    isn't made again; of others what says where the elements are, an index or offsets.
    """

    def __init__(
        self, files: Folder, root: str, keys: Keys, coder: Coder, cache: int, threads: int
    ) -> None:
        if threads < 1 or cache < 0:
            raise ValueError(f"{threads} threads and a cache of {cache} bytes")
        self._files, self._root, self._keys, self._coder = files, root, keys, coder
        self._threads = threads
        self.cache = Cache(cache)
        self._shape = coder.form.shape
        representation, size = coder.representation
        # how many bytes each chunk's file has, where that is always the same
        self._file_size = size if representation == "fixed" and not coder.unproved else None

    def path(self, chunk: Shape) -> str:
        """The path of a chunk's file."""
        return self._root + self._keys.key(chunk)

    def each(self, call: Callable[..., None], parts: Iterable[tuple[Any, ...]]) -> None:
        """Calls with the arguments of each part, each of another chunk. The exception of the first part that has one is
        raised, when all calls that were begun have ended."""
        if self._threads == 1:
            one_by_one(call, parts)
            return
        turn, numbered = threading.Lock(), enumerate(parts)
        failed: list[tuple[int, BaseException]] = []

        def work() -> None:
            while not failed:
                with turn:
                    number, arguments = next(numbered, (-1, None))
                if arguments is None:
                    return
                try:
                    call(*arguments)
                except BaseException as error:
                    failed.append((number, error))

        with ThreadPoolExecutor(self._threads) as pool:
            workers = [pool.submit(work) for _ in range(self._threads)]
            try:
                for one in workers:
                    one.result()
            except BaseException as error:
                failed.append((-1, error))
        if failed:
            raise min(failed, key=lambda one: one[0])[1]

    def check_folder(self) -> None:
        """Raises `FileNotFoundError` where the array isn't there any more."""
        self._files.check(f"{self._root}zarr.json")

    def _check_size(self, size: int) -> None:
        if self._file_size not in (None, size):
            raise InvalidBytesLength(f"{size} bytes, where {self._file_size} are due")

    def _opened(self, path: str, source: Source) -> AnyArray:
        """The whole value that an open file has, behind Python's codecs."""
        self._check_size(source.length())
        state = source.state()
        value: AnyArray | None = self.cache.get(path, state)
        if value is None:
            value = self._coder.inner(source.whole())
            self.cache.put(path, state, value)
        return value

    def _in_rounds(self, path: str, source: Source, selection: Any, out: AnyArray | None) -> AnyArray:
        """The elements of a selection of an open file's value, of which what was kept isn't read again."""
        state = source.state()
        fetched = Fetched(source, self.cache.get(path, state))
        found = self._coder.read_fetched(fetched, selection, out)
        if fetched.first.nbytes:
            self.cache.put(path, state, fetched.first)
        return found

    def read(self, chunk: Shape, selection: Any, out: AnyArray | None = None) -> Any:
        """The elements of a selection of a chunk, in `out` where it is given; None where no file is there. Of one that was
        replaced while it was read it is read anew."""
        path = self.path(chunk)
        for _ in range(_MOST_TRIES):
            try:
                source = self._files.open(path)
            except FileNotFoundError:
                self.check_folder()
                return None
            try:
                with _naming(path):
                    found = self._read(path, source, selection, out)
                if source.is_same(self._coder.rests_on_length):
                    return found
            except (Refused, EOFError):
                if source.is_same(has_failed=True):
                    raise
            finally:
                source.close()
        raise OSError(f"the file was replaced each time that it was read, in {path}")

    def _read(self, path: str, source: Source, selection: Any, out: AnyArray | None) -> Any:
        """The same of the chunk's open file."""
        if self._coder.is_read_whole:
            return self._coder.read(self._opened(path, source), selection, out)
        size = source.length()
        self._check_size(size)
        # of a long value a read that is composed holds a part at a time
        is_at_once = size <= _SMALL or not self._coder.is_composed
        if is_at_once and out is not None and out.shape == self._shape:
            # all of the chunk: one call instead of two
            return self._coder.decode(source.whole(), out)
        if self._coder.is_planned:
            needed = 0 if out is None or source.part_bytes is None else out.size
            if _WHOLE_FROM * needed >= math.prod(self._shape):
                # one read instead of many, and few bytes more
                return self._coder.read(source.whole(), selection, out)
            return self._coder.read_fetched(Fetched(source), selection, out)
        if size <= _SMALL and not self._coder.is_composed:
            # one read instead of several
            return self._coder.read(self._opened(path, source), selection, out)
        return self._in_rounds(path, source, selection, out)

    def read_into(self, chunk: Shape, inside: Any, answer: AnyArray, there: Any, fill: Any) -> None:
        """Puts the elements of a chunk into an answer, fill values where no file is there."""
        out = answer[there] if self._coder.form.kind.is_plain and isinstance(inside, tuple) else None
        found = self.read(chunk, inside, out)
        if found is None:
            answer[there] = fill
        elif out is None:
            answer[there] = found

    def write(self, chunk: Shape, inside: Any, new: AnyArray) -> None:
        """Makes a chunk's file anew, with new elements at the places of a selection."""
        path = self.path(chunk)
        self._files.check_written()
        self.check_folder()
        selected = select(inside, self._shape)
        with _naming(path):
            if new.shape == self._shape and not isinstance(selected, Rows):
                value = self._coder.encode(new)
            else:
                value = self._coder.write(self._stored(path), selected, new)
        self._files.replace(path, value)
        self.cache.drop(path)

    def _stored(self, path: str) -> AnyArray | None:
        """What a chunk's file has, behind Python's codecs; None where it isn't there."""
        try:
            source = self._files.open(path)
        except FileNotFoundError:
            return None
        try:
            if self._coder.is_read_whole:
                return self._opened(path, source)
            self._check_size(source.length())
            whole: AnyArray = self._coder.inner(source.whole())
            return whole
        finally:
            source.close()
