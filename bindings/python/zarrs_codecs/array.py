"""A Zarr v3 array in a folder, or in a store."""

import math
import operator
import os
from collections.abc import Iterator, Sequence
from pathlib import Path
from typing import Any

import numpy as np
from numpy.typing import ArrayLike, DTypeLike

from ._attributes import Attributes, bytes_of
from ._chunks import Chunks
from ._data_types import data_type as data_type_of
from ._data_types import zarrs_own
from ._files import UNFINISHED, replace
from ._fill_values import fill_json, is_absent
from ._header import codec_list
from ._indexing import Outer
from ._metadata import made, metadata_of, parsed, usual_codecs
from ._regions import Elements
from ._stores import Folder, Store
from ._types import AnyArray, Shape, sizes_of
from .chain import array_chain, coder_in
from .refusals import InvalidFillValue, Refused


class Info(dict[str, Any]):
    """What an array is, by names; printed a line each."""

    def __repr__(self) -> str:
        width = max(map(len, self))
        return "\n".join(f"{name:{width}}  {value}" for name, value in self.items())


class Array:
    """A Zarr v3 array in a folder or in a store: `zarr.json`, a regular grid, and a file for each chunk.

    Basic indices of numpy read and write, and so do lists of places and masks, as numpy's do, for one axis or
    as a mask of all; `oindex` takes several, each with each, `vindex` points. An answer has numpy's shape of the
    index; texts and byte strings are in object arrays, elements that may be absent in masked ones. What is
    written is broadcast as numpy does.

    Reading touches the chunks that have elements of the answer, and of each, where its chain plans its reads,
    the bytes that these elements need; of a shard (`sharding_indexed`) the index, and of the inner chunks with such
    elements what their own codecs need; a chunk that isn't there has fill values. Values that are needed whole
    are kept, `cache` bytes at most, behind the codecs that Python runs, for as long as the file is the same; of
    others an index, or the offsets of texts.

    Writing replaces whole files, each by a rename of one that is on the disk as a whole, with the mode that the
    file had, so a reader sees a chunk as it was or as it is; two writers of one chunk must take turns.

    Where `store` has `info` and `cat_ranges`, as fsspec's file systems have, all ranges of a
    round of `Chain.read_from` are fetched by one call, and what `info` reports must differ
    where a file was changed, else nothing of it is kept; a read of several calls, or that looks for an index at the end,
    is made anew where it was changed meanwhile, and `OSError` is raised where it is so each time.

    Parameters
    ----------
    folder : str or os.PathLike
        Where it is: that of the moment when it is opened, whatever folder is the current one later.
    cache : int, optional
        How many bytes of values are kept.
    threads : int, optional
        How many chunks are read or written at a time.
    store : object, optional
        What opens files by `store.open(path)`, whose paths begin with `folder`: each file has `seek`, and `readinto` or
        `read`, and one that isn't there is a `FileNotFoundError` or a `KeyError`, as `zipfile.ZipFile` has it. Such an array
        isn't written: `io.UnsupportedOperation` is raised.
    coalesce : int, optional
        Ranges of a store's file with so many bytes between them, or fewer, are one request, of 16 MiB at most: best as many
        as come in the time that a request takes. Where none is given, no byte is fetched that isn't needed.

    Attributes
    ----------
    shape, dtype, ndim, size
        As numpy has them.
    chunks : tuple of int
        The shape of a chunk.
    dimension_names : tuple of str or None, or None
        The axes' names.
    metadata : dict
        What `zarr.json` declared.
    chain : Chain
        The chain of the chunks.
    folder : pathlib.Path
        Where they are.

    Raises
    ------
    FileNotFoundError
        The folder isn't there or has no `zarr.json` any more.
    InvalidMetadata
        Its `zarr.json` is of no such array.
    Refused
        The errors of `Chain`, those of `decode` where a chunk is read whole and else those of `read`; `InvalidBytesLength`
        for a chunk of another length than its codecs always write.
    OSError
        It is no file, as a pipe isn't.
    IndexError
        An index is none.
    ValueError, TypeError
        Elements don't broadcast, or aren't of the type; or are of another kind.

    Examples
    --------
    >>> import tempfile
    >>> folder = tempfile.TemporaryDirectory()
    >>> array = Array.create(folder.name, (4, 6), (2, 3), "float32", fill_value=0.5)
    >>> array[1, :3] = [1, 2, 3]
    >>> Array(folder.name)[:2, 1:4]
    array([[0.5, 0.5, 0.5],
           [2. , 3. , 0.5]], dtype=float32)
    >>> array[[1, 3], 0]
    array([1. , 0.5], dtype=float32)
    >>> array.shape, array.chunks, array.ndim, array.size, array.nbytes
    ((4, 6), (2, 3), 2, 24, 96)
    """

    def __init__(
        self,
        folder: str | os.PathLike[str],
        *,
        cache: int = 1 << 25,
        threads: int = 1,
        store: Any = None,
        coalesce: int = 0,
    ) -> None:
        self._store, self._settings = store, {"cache": operator.index(cache), "threads": operator.index(threads)}
        self._coalesce = operator.index(coalesce)
        self._folder = os.path.abspath(folder) if store is None else os.fspath(folder).rstrip("/")
        self.folder = Path(self._folder)
        path = self.folder / "zarr.json"
        files = Folder() if store is None else Store(store, coalesce)
        root = f"{self._folder}/" if self._folder else ""
        try:
            found = metadata_of(files, root)
            declared, self.shape, self.chunks = found.declared, found.shape, found.chunks
            self._type = data_type_of(declared["data_type"])
            if declared["fill_value"] is None and not self._type.is_optional:
                raise InvalidFillValue(f"null isn't of {self._type.name}")
            self.chain = array_chain(declared["codecs"], self.chunks, declared["data_type"], declared["fill_value"])
        except Refused as error:
            error.path = path
            raise
        self.metadata: dict[str, Any] = declared
        self.dimension_names = found.names
        self._attributes = Attributes(files, root, declared)
        self.dtype = self._type.dtype
        self.ndim = len(self.shape)
        self.size = math.prod(self.shape)
        self._fill: Any = self.chain.read(None, (0,) * self.ndim)
        self._chunks = Chunks(files, root, found.keys, coder_in(self.chain), **self._settings)
        self._elements = Elements(self.shape, self.chunks, self._type, self._fill, self._chunks)

    @classmethod
    def create(
        cls,
        folder: str | os.PathLike[str],
        shape: int | Sequence[int],
        chunks: int | Sequence[int],
        data_type: Any,
        *,
        fill_value: Any = None,
        codecs: Sequence[Any] | None = None,
        attributes: dict[str, Any] | None = None,
        dimension_names: Sequence[str | None] | None = None,
        cache: int = 1 << 25,
        threads: int = 1,
    ) -> "Array":
        """A new array.

        Parameters
        ----------
        folder : str or os.PathLike
            A folder that isn't there or is empty; what a killed writer left behind doesn't matter.
        shape, chunks : int or sequence of int
            The shape of the array and that of a chunk.
        data_type : str, dict, numpy.dtype or type
            The type of the elements, as `zarr.json` has it, or numpy's.
        fill_value : object, optional
            The element where nothing is stored, as `zarr.json` or Python has it; None is zero, empty or absent.
        codecs : sequence of str or dict, optional
            Without them the elements are stored as they are, the lowest byte first, and texts and byte strings
            as zarr-python stores them, by `vlen-utf8` and `vlen-bytes`; `zarrs.vlen` reads a few of them by themselves.
        attributes : dict, optional
            Attributes by their names.
        dimension_names : sequence of str or None, optional
            The axes' names.
        cache, threads : int, optional
            As `Array` takes them.

        Returns
        -------
        Array
            The array, opened.

        Raises
        ------
        FileExistsError
            The folder has something in it.
        Refused
            There is no such array.

        Examples
        --------
        >>> import tempfile
        >>> with tempfile.TemporaryDirectory() as folder:
        ...     array = Array.create(folder, [3], [2], "string", fill_value="?", dimension_names=["x"])
        ...     array[0] = "a text"
        ...     array[...], array.dimension_names
        (array(['a text', '?', '?'], dtype=object), ('x',))
        """
        shape, chunks, data_type = sizes_of(shape), sizes_of(chunks), zarrs_own(data_type)
        kind = data_type_of(data_type)
        codecs = usual_codecs(kind) if codecs is None else codec_list(codecs)
        first: Any = array_chain(codecs, chunks, data_type, fill_value).read(None, (0,) * len(chunks))
        metadata = made(shape, chunks, data_type, fill_json(kind, first), codecs)
        if attributes is not None:
            metadata["attributes"] = attributes
        if dimension_names is not None:
            metadata["dimension_names"] = list(dimension_names)
        whole = bytes_of(metadata)
        parsed(metadata)
        os.makedirs(folder, exist_ok=True)
        if not all(UNFINISHED.fullmatch(entry.name) for entry in os.scandir(folder)):
            raise FileExistsError(f"{os.fspath(folder)} isn't empty")
        replace(os.path.join(os.path.abspath(folder), "zarr.json"), whole)
        return cls(folder, cache=cache, threads=threads)

    @property
    def attrs(self) -> Attributes:
        """The attributes, by their names. One that is set or deleted is so in `zarr.json` at once.

        Examples
        --------
        >>> import tempfile
        >>> with tempfile.TemporaryDirectory() as folder:
        ...     Array.create(folder, [3], [2], "int8", attributes={"unit": "m"}).attrs["by"] = "hand"
        ...     Array(folder).attrs
        {'unit': 'm', 'by': 'hand'}
        """
        return self._attributes

    @property
    def fill_value(self) -> Any:
        """The element that is everywhere where nothing is stored, as numpy holds it; None where it is absent.

        Examples
        --------
        >>> import tempfile
        >>> with tempfile.TemporaryDirectory() as folder:
        ...     print(Array.create(folder, [3], [2], "float32", fill_value="NaN").fill_value)
        nan
        """
        return None if is_absent(self._fill) else self._fill

    @property
    def nbytes(self) -> int:
        """How many bytes all elements have in numpy's array of them, without those of texts themselves.

        Examples
        --------
        >>> import tempfile
        >>> with tempfile.TemporaryDirectory() as folder:
        ...     Array.create(folder, [3], [2], "float32").nbytes
        12
        """
        return self.size * self.dtype.itemsize

    @property
    def info(self) -> Info:
        """What the array is, a dict by names, which prints a line each.

        Examples
        --------
        >>> import tempfile
        >>> with tempfile.TemporaryDirectory() as folder:
        ...     print(Array.create(folder, [3], [2], "int8").info)  # doctest: +ELLIPSIS
        folder           ...
        shape            (3,)
        chunks           (2,)
        data type        int8
        fill value       0
        codecs           ['bytes']
        Python's codecs  []
        bytes            3
        """
        unproved = self.chain.unproved
        names = [codec if isinstance(codec, str) else codec["name"] for codec in self.chain.codecs]
        return Info(
            {
                "folder": self._folder,
                "shape": self.shape,
                "chunks": self.chunks,
                "data type": self.metadata["data_type"],
                "fill value": self.metadata["fill_value"],
                "codecs": [name for name in names if name not in unproved],
                "Python's codecs": list(unproved),
                "bytes": self.nbytes,
            }
        )

    def __repr__(self) -> str:
        return f"Array({self._folder!r})"

    def __reduce__(self) -> tuple[Any, ...]:
        return _opened, (self._folder, self._store, {**self._settings, "coalesce": self._coalesce})

    def __len__(self) -> int:
        if not self.shape:
            raise TypeError("len() of an array without axes")
        return self.shape[0]

    def __iter__(self) -> Iterator[Any]:
        if not self.shape:
            raise TypeError("iteration over an array without axes")
        return (self[place] for place in range(len(self)))

    def __array__(self, dtype: DTypeLike | None = None, copy: bool | None = None) -> AnyArray:
        """All elements, as numpy's functions ask for them, in a masked array where some may be absent; `np.asarray`,
        whose arrays have none, makes blanks of these. A read makes a new array, so `copy=False` raises
        `ValueError`."""
        if copy is False:
            raise ValueError("an array is read from its files, and so always copied")
        return np.asanyarray(self[...], dtype)

    def chunk_path(self, chunk: Shape) -> Path:
        """The file of a chunk, which may not be there.

        Parameters
        ----------
        chunk : tuple of int
            The chunk's numbers on the axes.

        Returns
        -------
        pathlib.Path
            Its path.

        Examples
        --------
        >>> import tempfile
        >>> with tempfile.TemporaryDirectory() as folder:
        ...     str(Array.create(folder, [9], [3], "int8").chunk_path((2,)).relative_to(folder))
        'c/2'
        """
        return Path(self._chunks.path(chunk))

    @property
    def oindex(self) -> "OuterIndex":
        """`array.oindex[..]` takes a list of places or a mask for each axis that has one, each with each. The
        answer has an axis for each list and slice, in their order.

        Examples
        --------
        >>> import tempfile
        >>> with tempfile.TemporaryDirectory() as folder:
        ...     array = Array.create(folder, [3, 4], [2, 2], "int8")
        ...     array[...] = np.arange(12).reshape(3, 4)
        ...     array.oindex[[2, 0], [True, False, False, True]]
        array([[ 8, 11],
               [ 0,  3]], dtype=int8)
        """
        return OuterIndex(self._elements)

    @property
    def vindex(self) -> "PointIndex":
        """`array.vindex[..]` takes points: an index for each axis, which are broadcast and have the shape of the
        answer; or a mask of all.

        Examples
        --------
        >>> import tempfile
        >>> with tempfile.TemporaryDirectory() as folder:
        ...     array = Array.create(folder, [3, 4], [2, 2], "int8")
        ...     array.vindex[[0, 2], [1, -1]] = [5, 6]
        ...     array[...].tolist()
        [[0, 5, 0, 0], [0, 0, 0, 0], [0, 0, 0, 6]]
        """
        return PointIndex(self._elements)

    def __getitem__(self, selection: Any) -> Any:
        return self._elements.read(selection)

    def __setitem__(self, selection: Any, array: ArrayLike) -> None:
        self._elements.write(selection, array)


class OuterIndex:
    """Reads and writes an array by outer indices: a list of places or a mask for each axis that has one."""

    def __init__(self, elements: Elements) -> None:
        self._elements = elements

    def __getitem__(self, selection: Any) -> AnyArray:
        return self._elements.read_outer(Outer(selection, self._elements.shape))

    def __setitem__(self, selection: Any, array: ArrayLike) -> None:
        self._elements.write_outer(array, Outer(selection, self._elements.shape))


class PointIndex:
    """Reads and writes an array by points: an index for each axis, or a mask of all."""

    def __init__(self, elements: Elements) -> None:
        self._elements = elements

    def __getitem__(self, selection: Any) -> Any:
        return self._elements.read_points(selection)

    def __setitem__(self, selection: Any, array: ArrayLike) -> None:
        self._elements.write_points(selection, array)


def _opened(folder: str, store: Any, settings: dict[str, int]) -> Array:
    """An array that was pickled."""
    return Array(folder, store=store, **settings)
