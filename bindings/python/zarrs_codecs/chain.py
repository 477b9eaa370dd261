"""A chunk's codecs, as the library runs them."""

import copy
from collections.abc import Iterable, Sequence
from typing import Any

import numpy as np
import numpy.typing as npt
from numpy.typing import ArrayLike

from ._coder import Coder, Form, Representation, Shard
from ._elements import empty, held, shape_of
from ._files import File, Source
from ._header import codec_list, copied, json_of
from ._coders import array_coder, coder_of, shard_of
from ._rounds import Fetched
from ._selections import select
from ._types import AnyArray, Bytes, Shape
from .refusals import NotInPlace

__all__ = ["Chain", "Representation"]


class Chain:
    """The codecs of chunks of one shape, data type and fill value.

    Making one raises what `check` does.

    Floats cross as unsigned integers of their size, complex numbers as two of them, `rN` as void elements; `string` and
    `bytes` have object arrays, an optional type (`{"optional": TYPE}`) masked ones.

    Where `gzip`, `zstd`, `blosc` or `numcodecs.*` come last, with `crc32c` or without, Python runs them, on whole values:
    nothing about them is proved, and all but the first need numcodecs. So it does where they come last in the `codecs` of
    `sharding_indexed`, behind transpositions alone and before such codecs: Python then cuts the chunk.

    A value goes in as any buffer and comes out as an array of `uint8`. A selection is a basic index of
    numpy, or a list or an array of elements' indices, a row for each. Each error is an exception of the
    library's name, below `Refused`; `OutOfMemory` may come in place of any answer. A chain has no state
    but what the library keeps of its header, so threads may use one together. numpy's arrays have 32 axes at most, from its
    version 2 on 64: of a chunk with more, elements are read and written by lists of indices, and else numpy's `ValueError`
    comes.

    Parameters
    ----------
    codecs : sequence of str or dict
        The codecs, as `zarr.json` has them.
    shape : int or sequence of int
        The shape of a chunk.
    data_type : str, dict, numpy.dtype or type
        The type of the elements, as `zarr.json` has it, or numpy's.
    fill_value : object, optional
        The element where nothing is stored, as `zarr.json` or Python has it; None is zero, empty or absent.

    Attributes
    ----------
    shape : tuple of int
        The shape of a chunk.
    dtype : numpy.dtype
        The type of its elements in numpy.

    Examples
    --------
    >>> chain = Chain([{"name": "bytes", "configuration": {"endian": "big"}}], (2,), "int16", -1)
    >>> chain.shape, chain.dtype, chain.encode([1, 2])
    ((2,), dtype('int16'), array([0, 1, 0, 2], dtype=uint8))
    >>> Chain(["bytes", "adler32"], (2,), "uint8")
    Traceback (most recent call last):
    zarrs_codecs.refusals.UnknownName: UnknownName, by codec 1, 'adler32'
    """

    def __init__(
        self, codecs: Sequence[Any], shape: int | Sequence[int], data_type: Any, fill_value: Any = None
    ) -> None:
        text = json_of(codec_list(codecs))
        form = Form(shape, data_type, fill_value)
        self._set(coder_of(copied(text), form))

    def _set(self, coder: Coder) -> None:
        self._coder, self.shape, self.dtype = coder, coder.form.shape, coder.form.dtype

    @property
    def codecs(self) -> list[Any]:
        """The codecs, as `zarr.json` has them, in a list of its own: what is made of it changes nothing here.

        Examples
        --------
        >>> Chain(["bytes"], (2,), "uint8").codecs
        ['bytes']
        """
        return copied(self._coder.text)

    @property
    def data_type(self) -> Any:
        """The data type, as `zarr.json` has it, and as one's own: what is made of it changes nothing here.

        Examples
        --------
        >>> Chain(["bytes"], (2,), "uint8").data_type
        'uint8'
        """
        return copy.deepcopy(self._coder.form.data_type)

    @property
    def fill_value(self) -> Any:
        """The fill value, as it was given, in the same way.

        Examples
        --------
        >>> Chain(["bytes"], (2,), "uint8", 7).fill_value
        7
        """
        return copy.deepcopy(self._coder.form.fill_value)

    @property
    def representation(self) -> Representation:
        """How many bytes a value has, before the codecs that Python runs.

        Examples
        --------
        >>> Chain(["packbits"], (9,), "bool").representation
        Representation(kind='fixed', size=2)
        """
        return self._coder.representation

    @property
    def unproved(self) -> tuple[str, ...]:
        """The names of the codecs that Python runs behind those of the library, the first one first; before them that of
        `sharding_indexed`, where Python cuts the chunk.

        Examples
        --------
        >>> Chain(["bytes", {"name": "gzip", "configuration": {"level": 1}}], (4,), "uint8").unproved
        ('gzip',)
        """
        return self._coder.unproved

    def __repr__(self) -> str:
        return f"Chain({self.codecs!r}, {self.shape}, {self.data_type!r}, {self.fill_value!r})"

    def __reduce__(self) -> tuple[Any, ...]:
        made = cut_chain if isinstance(self._coder, Shard) else Chain
        return made, (self.codecs, self.shape, self.data_type, self.fill_value)

    def check(self) -> None:
        """Raise the error of these codecs for such chunks, if there is one, which is a class below `Refused`; so does making a
        chain.

        Examples
        --------
        >>> Chain(["packbits"], (9,), "bool").check()
        """
        self._coder.check()

    # -- whole chunks

    def encode(self, array: ArrayLike) -> Bytes:
        """The value of a chunk.

        Parameters
        ----------
        array : array_like
            The elements, of the chunk's shape.

        Returns
        -------
        numpy.ndarray of uint8
            The value.

        Raises
        ------
        ValueError
            The shape is another one, or an element isn't of the type.
        TypeError
            An element is of another kind.

        Examples
        --------
        >>> Chain(["packbits"], (9,), "bool").encode([True] * 9)
        array([255,   1], dtype=uint8)
        """
        if shape_of(array) != self.shape:
            raise ValueError(f"an array of shape {shape_of(array)}, where {self.shape} is due")
        return self._coder.encode(held(self._coder.form.kind, array))

    def decode(self, value: Any, out: AnyArray | None = None) -> AnyArray:
        """The chunk of a value.

        Parameters
        ----------
        value : buffer
            The value.
        out : numpy.ndarray, optional
            An array of the chunk's shape. Elements of one size are written straight into it where it is in one piece and of
            this type.

        Returns
        -------
        numpy.ndarray
            The elements, of the chunk's shape; `out` where it is given.

        Raises
        ------
        Refused
            The value is damaged or of another length.

        Examples
        --------
        >>> print(Chain(["packbits"], (9,), "bool").decode(b"\\xff\\x00").sum())
        8
        """
        return self._coder.decode(value, out)

    def reencode(self, value: Any, codecs: Sequence[Any]) -> Bytes:
        """The value that other codecs write for the chunk of a value.

        Parameters
        ----------
        value : buffer
            The value of these codecs.
        codecs : sequence of str or dict
            The other ones.

        Returns
        -------
        numpy.ndarray of uint8
            The other value.

        Raises
        ------
        Refused
            The value is damaged, or the other codecs don't take such chunks.

        Examples
        --------
        >>> Chain(["bytes"], (3,), "bool").reencode(b"\\1\\0\\1", ["packbits"])
        array([5], dtype=uint8)
        """
        other = coder_of(copied(json_of(codec_list(codecs))), self._coder.form)
        return self._coder.reencode(value, other)

    # -- parts of chunks

    def read(self, value: Any, selection: Any, out: AnyArray | None = None) -> AnyArray:
        """The elements of a selection of a value.

        Parameters
        ----------
        value : buffer or None
            The value; None is nothing stored, so that the elements are fill values.
        selection : basic index, list or numpy.ndarray
            Which elements: numpy's index, or a row of indices for each.
        out : numpy.ndarray, optional
            An array of the answer's shape, which the elements are put into.

        Returns
        -------
        numpy.ndarray
            The elements, in numpy's shape of the index, or one in a row for a list of indices; `out` where it is given.

        Raises
        ------
        IndexError, TypeError
            It is no selection, or, as `OutOfBounds`, it has an index outside.
        Refused
            The value is too short or damaged there.

        Examples
        --------
        >>> chain = Chain(["bytes"], (2, 3), "uint8", 9)
        >>> value = chain.encode([[1, 2, 3], [4, 5, 6]])
        >>> chain.read(value, (0, slice(None, None, -1)))
        array([3, 2, 1], dtype=uint8)
        >>> chain.read(value, [[1, 0], [0, 2]])
        array([4, 3], dtype=uint8)
        >>> chain.read(None, (..., 0))
        array([9, 9], dtype=uint8)
        """
        return self._coder.read(self._coder.inner(value), selection, out)

    def read_many(self, value: Any, selections: Iterable[Any]) -> list[AnyArray]:
        """The elements of each of several selections. The value is looked at once where it has to be decoded whole. Raises what
        `read` does.

        Parameters
        ----------
        value : buffer or None
            The value, as `read` takes it.
        selections : iterable
            Selections, as `read` takes them.

        Returns
        -------
        list of numpy.ndarray
            What `read` returns of them, one after another.

        Examples
        --------
        >>> chain = Chain(["bytes"], (2, 3), "uint8", 9)
        >>> chain.read_many(chain.encode([[1, 2, 3], [4, 5, 6]]), [0, (..., 2)])
        [array([1, 2, 3], dtype=uint8), array([3, 6], dtype=uint8)]
        """
        inner = self._coder.inner(value)
        return self._coder.read_many(inner, [select(one, self.shape) for one in selections])

    def planned_ranges(self, selection: Any) -> npt.NDArray[np.uint64] | None:
        """The ranges of a value's bytes that a read of a selection needs. What a slice with a step leaves out is among them.

        Parameters
        ----------
        selection : basic index, list or numpy.ndarray
            Which elements, as `read` takes it.

        Returns
        -------
        numpy.ndarray of uint64, or None
            Rows of a start and an end, in order and none touching the next; None where the read needs the whole value, or
            the value itself says what it needs, as a shard does.

        Examples
        --------
        >>> Chain(["bytes"], (4, 4), "uint8").planned_ranges((slice(1, 3), slice(2)))
        array([[ 4,  6],
               [ 8, 10]], dtype=uint64)
        """
        return self._coder.planned_ranges(selection)

    def read_from(self, file: Any, selection: Any, out: AnyArray | None = None) -> AnyArray:
        """The elements of a selection of the value that a file has.

        It asks for no byte but those of `planned_ranges`, part by part, so that fewer bytes than the answer
        has are held beside it, and at most some 3 MiB. Where the plan is None it goes in rounds, of which
        each fetches what the one before it lacked: over texts of `zarrs.vlen` first how long the offsets
        are, then the offsets, then the texts that are selected; over `sharding_indexed` the index, then what
        is needed of all inner chunks at once, of texts those inner chunks whole; over shards in shards the
        indexes of all inner shards in between; over other codecs the whole value. That is three rounds at most,
        and one more for each further level of shards in shards. Behind `reshape` or `zarrs.squeeze` shards in shards
        go one after the other, and behind eight rounds those that are needed come whole. Of a shard of over a thousand inner
        chunks of which many are needed the whole value comes at once. Each range is a read
        of the file by itself. Of a slice with a step it leaves out what is between two places where that's
        16 KiB of the file or more, of a shard also what isn't in one piece there and the inner chunks that have
        none of them.

        Parameters
        ----------
        file : file object or int
            An open file, its number, or an object with `seek`, and `readinto` or `read`.
        selection : basic index, list or numpy.ndarray
            Which elements, as `read` takes it.
        out : numpy.ndarray, optional
            An array of the answer's shape, which the elements are put into.

        Returns
        -------
        numpy.ndarray
            What `read` returns of the value.

        Raises
        ------
        Exception
            What `read` raises of such a value, also of what was fetched between two places; `read` may look at more of these,
            and where two things are damaged each may name another one. What the file raises, `OSError` where it answers what
            no file does, and `EOFError` where it is cut meanwhile.

        Examples
        --------
        >>> import io
        >>> Chain(["bytes"], (4,), "uint8").read_from(io.BytesIO(b"abcd"), slice(1, 3))
        array([98, 99], dtype=uint8)
        """
        source = file if isinstance(file, Source) else File(file)
        return self._coder.read_fetched(Fetched(source), selection, out)

    def write(self, value: Any, selection: Any, array: ArrayLike, out: Any = None) -> Any:
        """The value that is left of a value when elements are written at a selection. The old value stays as it is, but
        where it is `out`.

        Parameters
        ----------
        value : buffer or None
            The value; None is nothing stored.
        selection : basic index, list or numpy.ndarray
            Which elements, as `read` takes it.
        array : array_like
            The new elements, broadcast to the selection's shape in numpy's way.
        out : buffer, optional
            The value itself, in one piece that may be written: the elements are written into it. What a slice with a step
            leaves out is written anew, as it was.

        Returns
        -------
        numpy.ndarray of uint8
            The new value; `out` where it is given.

        Raises
        ------
        ValueError
            The elements don't broadcast, or what `read` and `encode` raise.
        NotInPlace
            There is an `out`, and not all codecs write a part of a value, as `bytes` does and the codecs before it, or the
            value is too short.

        Examples
        --------
        >>> chain = Chain(["bytes"], (2, 3), "uint8", 9)
        >>> chain.decode(chain.write(None, (slice(None), 1), [7, 8]))
        array([[9, 7, 9],
               [9, 8, 9]], dtype=uint8)
        >>> value = bytearray(b"abcdef")
        >>> chain.write(value, (1, slice(2)), [88, 89], out=value)
        bytearray(b'abcXYf')
        """
        elements = held(self._coder.form.kind, array)
        chosen = select(selection, self.shape)
        if out is None:
            return self._coder.write(self._coder.inner(value), chosen, elements)
        if out is not value:
            raise ValueError("out is the value itself, where it is given")
        self._coder.edit(value, chosen, elements)
        return value

    def write_many(self, value: Any, edits: Iterable[tuple[Any, ArrayLike]], out: Any = None) -> Any:
        """The value that is left by a list of edits, one after another. Where the codecs write a part of a value all
        edits are made by one call, in a third of the time that a call for each takes.

        Parameters
        ----------
        value : buffer or None
            The value; None is nothing stored.
        edits : iterable of tuple
            A selection and its elements, each as `write` takes them.
        out : buffer, optional
            The value itself, as `write` takes it.

        Returns
        -------
        numpy.ndarray of uint8
            The new value; `out` where it is given.

        Raises
        ------
        Exception
            What `write` raises, before an edit is made; but `OutOfMemory`, behind which the edits before the one that lacks
            it stay in `out`.

        Examples
        --------
        >>> chain = Chain(["bytes"], (2, 3), "uint8", 9)
        >>> chain.decode(chain.write_many(None, [(np.s_[:, 1], [7, 8]), ([[0, 0], [1, 2]], 5)]))
        array([[5, 7, 9],
               [9, 8, 5]], dtype=uint8)
        """
        coder, kind = self._coder, self._coder.form.kind
        chosen = [(select(selection, self.shape), held(kind, array)) for selection, array in edits]
        if out is not None:
            if out is not value:
                raise ValueError("out is the value itself, where it is given")
            coder.edit_many(value, chosen)
            return value
        if value is None:
            nothing = select(np.empty((0, len(self.shape)), np.int64), self.shape)
            value = coder.write(None, nothing, empty(kind, (0,)))
        mine = np.frombuffer(value, np.uint8).copy()
        try:
            coder.edit_many(mine, chosen)
        except NotInPlace:
            for one, elements in chosen:
                mine = coder.write(coder.inner(mine), one, elements)
        return mine


def coder_in(chain: Chain) -> Coder:
    """What codes a chain's chunks."""
    return chain._coder


def _over(coder: Coder) -> Chain:
    """The chain of a coder."""
    chain = Chain.__new__(Chain)
    chain._set(coder)
    return chain


def cut_chain(codecs: Sequence[Any], shape: int | Sequence[int], data_type: Any, fill_value: Any = None) -> Chain:
    """The chain of shards that Python cuts, also where the library takes their codecs."""
    form = Form(shape, data_type, fill_value)
    return _over(shard_of(copied(json_of(codec_list(codecs))), form))


def array_chain(codecs: Any, shape: Shape, data_type: Any, fill_value: Any = None) -> Chain:
    """The chain of an array's chunks, of which Python cuts some more."""
    chain = Chain(codecs, shape, data_type, fill_value)
    coder = array_coder(chain._coder, chain.codecs)
    return chain if coder is chain._coder else _over(coder)
