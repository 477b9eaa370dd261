"""zarr-python 3's codec pipeline over the library."""

from collections.abc import Iterable, Iterator
from dataclasses import dataclass, field
from functools import cached_property
from typing import Any, ClassVar

import numpy as np
from zarr.abc import codec as abc
from zarr.core.codec_pipeline import BatchedCodecPipeline

from .._types import AnyArray
from ._chains import Coding, NotTaken, coding_of, declared_by
from ._parts import Part
from ._reading import Read, read_all
from ._statistics import Statistics
from ._writing import Write, buffer_of, write_all

# Of a chunk: its getter or setter, its form, the places in it and those in the array, and whether these are all of it.
Job = tuple[Any, Any, Any, Any, bool]


@dataclass(frozen=True)
class CodecPipeline(abc.CodecPipeline):
    """The codecs of an array of zarr-python 3, as the library runs them. zarr-python takes it by one line, and so does all
    that stands on zarr-python.

    Chunks whose codecs, type or buffers the library doesn't take are read and written by zarr-python's own pipeline, each by
    itself; `CodecPipeline.stats` counts which way they go, and why. Where the package isn't installed but only on the path,
    `zarrs_codecs.CodecPipeline` is to be looked at once before, by which zarr-python learns of it.

    Attributes
    ----------
    codecs : tuple
        zarr-python's codecs.
    plain : zarr.core.codec_pipeline.BatchedCodecPipeline
        zarr-python's own pipeline, of the same codecs.
    stats : Statistics
        Which way chunks went, of all pipelines of the process.

    Examples
    --------
    >>> import zarr, zarrs_codecs
    >>> with zarr.config.set({"codec_pipeline.path": "zarrs_codecs.CodecPipeline"}):
    ...     array = zarr.create_array({}, shape=(4, 6), chunks=(2, 3), dtype="uint8")
    >>> array[1:, 4:] = 7
    >>> array[:2, 3:].tolist()
    [[0, 0, 0], [0, 7, 7]]
    """

    codecs: tuple[Any, ...]
    # zarr-python's own pipeline, of the same codecs
    plain: BatchedCodecPipeline = field(compare=False, repr=False)
    stats: ClassVar[Statistics] = Statistics()

    @classmethod
    def from_codecs(cls, codecs: Iterable[Any]) -> "CodecPipeline":
        """The pipeline of a list of codecs.

        Parameters
        ----------
        codecs : iterable
            zarr-python's codecs.

        Returns
        -------
        CodecPipeline
            The pipeline.

        Examples
        --------
        >>> import zarr.codecs
        >>> len(CodecPipeline.from_codecs([zarr.codecs.BytesCodec()]).codecs)
        1
        """
        listed = tuple(codecs)
        return cls(listed, BatchedCodecPipeline.from_codecs(listed))

    def evolve_from_array_spec(self, array_spec: Any) -> "CodecPipeline":
        """The pipeline of these codecs for an array's chunks.

        Parameters
        ----------
        array_spec : zarr.core.array_spec.ArraySpec
            The form of the chunks, which decides some of the codecs' configuration.

        Returns
        -------
        CodecPipeline
            The pipeline.
        """
        evolved = self.plain.evolve_from_array_spec(array_spec)
        return type(self)(tuple(evolved), evolved)

    def __iter__(self) -> Iterator[Any]:
        return iter(self.codecs)

    def __reduce__(self) -> tuple[Any, ...]:
        return type(self), (self.codecs, self.plain)

    @property
    def supports_partial_decode(self) -> bool:
        """Whether zarr-python's own pipeline reads a part of a chunk."""
        return bool(self.plain.supports_partial_decode)

    @property
    def supports_partial_encode(self) -> bool:
        """Whether zarr-python's own pipeline writes a part of a chunk."""
        return bool(self.plain.supports_partial_encode)

    def validate(self, **declared: Any) -> None:
        """Raise what a codec has against such an array.

        Parameters
        ----------
        **declared
            The array's shape, type and chunk grid.
        """
        self.plain.validate(**declared)

    def compute_encoded_size(self, byte_length: int, array_spec: Any) -> int:
        """How many bytes the codecs make of so many.

        Parameters
        ----------
        byte_length : int
            How many bytes a chunk's elements have.
        array_spec : zarr.core.array_spec.ArraySpec
            The form of the chunk.

        Returns
        -------
        int
            How many bytes its value has.
        """
        return int(self.plain.compute_encoded_size(byte_length, array_spec))

    @cached_property
    def _declared(self) -> Any:
        """What zarr-python declares the codecs to be, or why the library hasn't all of them."""
        try:
            return declared_by(self.codecs)
        except NotTaken as error:
            return error

    def _codings(self, way: str, specs: list[Any]) -> list[Coding | None]:
        """How the library codes chunks of these forms; None of those that zarr-python codes."""
        found: list[Coding | None] = []
        kept: dict[Any, Coding | NotTaken] = {}
        for spec in specs:
            # mostly one form has all chunks of a batch, which lives as long as this
            form = spec.shape, id(spec.dtype), id(spec.fill_value)
            if form not in kept:
                try:
                    kept[form] = self._coding(spec)
                except NotTaken as error:
                    kept[form] = error
            coding = kept[form]
            found.append(coding if isinstance(coding, Coding) else None)
            if isinstance(coding, NotTaken):
                self.stats.add(f"{way}_by_zarr_python", 1, str(coding))
        self.stats.add(way, len(found) - found.count(None))
        return found

    def _coding(self, spec: Any) -> Coding:
        if isinstance(self._declared, NotTaken):
            raise self._declared
        return coding_of(self._declared, spec)

    async def decode(self, chunk_bytes_and_specs: Iterable[tuple[Any, Any]]) -> Iterable[Any]:
        """The chunks of values at hand.

        Parameters
        ----------
        chunk_bytes_and_specs : iterable of tuple
            Values, or None, each with the form of its chunk.

        Returns
        -------
        list
            Their chunks, as zarr-python's buffers of elements; None of None.
        """
        batch = list(chunk_bytes_and_specs)
        codings = self._codings("read", [spec for _, spec in batch])
        theirs = iter(await self.plain.decode([job for job, coding in zip(batch, codings, strict=True) if coding is None]))
        found = []
        for (value, spec), coding in zip(batch, codings, strict=True):
            if coding is None:
                found.append(next(theirs))
            elif value is None:
                found.append(None)
            else:
                found.append(spec.prototype.nd_buffer.from_numpy_array(coding.chain.decode(value.as_numpy_array())))
        return found

    async def encode(self, chunk_arrays_and_specs: Iterable[tuple[Any, Any]]) -> Iterable[Any]:
        """The values of chunks at hand.

        Parameters
        ----------
        chunk_arrays_and_specs : iterable of tuple
            Chunks, or None, each with its form.

        Returns
        -------
        list
            Their values, as zarr-python's buffers of bytes; None of None.
        """
        batch = list(chunk_arrays_and_specs)
        codings = self._codings("written", [spec for _, spec in batch])
        theirs = iter(await self.plain.encode([job for job, coding in zip(batch, codings, strict=True) if coding is None]))
        found = []
        for (array, spec), coding in zip(batch, codings, strict=True):
            if coding is None:
                found.append(next(theirs))
            elif array is None:
                found.append(None)
            else:
                found.append(buffer_of(coding.chain.encode(_as_objects(array.as_numpy_array())), spec))
        return found

    def _taken(self, way: str, batch: list[Job], array: Any) -> list[Coding | None]:
        """How the library codes the chunks of a batch; None of those that zarr-python codes."""
        if type(array) is np.ndarray or isinstance(array, np.generic):
            return self._codings(way, [spec for _, spec, *_ in batch])
        self.stats.add(f"{way}_by_zarr_python", len(batch), f"an array is a {type(array).__qualname__}, and not numpy's")
        return [None] * len(batch)

    async def read(self, batch_info: Iterable[Job], out: Any, drop_axes: tuple[int, ...] = ()) -> Any:
        """Read parts of chunks into an array.

        Parameters
        ----------
        batch_info : iterable of tuple
            For each chunk what gets its value, its form, the places in it, those in the array, and whether these are all of
            the chunk.
        out : zarr.core.buffer.NDBuffer
            The array.
        drop_axes : tuple of int, optional
            Axes of one element that the array hasn't.

        Returns
        -------
        tuple of dict
            For each chunk whether it is "present" or "missing" in the store.
        """
        batch, array = list(batch_info), out.as_ndarray_like()
        codings = self._taken("read", batch, array)
        found: list[Any] = [{"status": "present"}] * len(batch)
        theirs = [place for place, coding in enumerate(codings) if coding is None]
        if theirs:
            statuses = await self.plain.read([batch[place] for place in theirs], out, drop_axes)
            # zarr-python 3.0 says nothing of them
            for place, status in zip(theirs, statuses or (), strict=False):
                found[place] = status
        ours = {
            place: Read(Part(coding, batch[place][2]), *batch[place][:2], array, batch[place][3], drop_axes)
            for place, coding in enumerate(codings)
            if coding is not None
        }
        if ours:
            for place, is_there in zip(ours, await read_all(list(ours.values()), self.stats), strict=True):
                found[place] = {"status": "present" if is_there else "missing"}
        return tuple(found)

    async def write(self, batch_info: Iterable[Job], value: Any, drop_axes: tuple[int, ...] = ()) -> None:
        """Write parts of chunks from an array.

        Parameters
        ----------
        batch_info : iterable of tuple
            For each chunk what sets its value, and the rest, as `read` takes it.
        value : zarr.core.buffer.NDBuffer
            The array.
        drop_axes : tuple of int, optional
            Axes of one element that the array hasn't.
        """
        batch, given = list(batch_info), value.as_ndarray_like()
        codings = self._taken("written", batch, given)
        theirs = [job for job, coding in zip(batch, codings, strict=True) if coding is None]
        if theirs:
            await self.plain.write(theirs, value, drop_axes)
        if len(theirs) == len(batch):
            return
        array = _as_objects(np.asarray(given))
        await write_all(
            [
                Write(Part(coding, selection), setter, spec, array, there, drop_axes, is_complete)
                for (setter, spec, selection, there, is_complete), coding in zip(batch, codings, strict=True)
                if coding is not None
            ]
        )


def _as_objects(array: AnyArray) -> AnyArray:
    """Texts of any length as objects, which the library takes; other elements as they are."""
    return array.astype(object) if array.dtype.kind == "T" else array
