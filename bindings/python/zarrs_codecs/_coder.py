"""What codes chunks: the library, or Python, which cuts shards and has the library code the inner chunks."""

import copy
import reprlib
from abc import ABC, abstractmethod
from collections.abc import Callable, Sequence
from functools import wraps
from typing import Any, Concatenate, NamedTuple, ParamSpec, TypeVar

import numpy as np
import numpy.typing as npt

from ._data_types import DataType, zarrs_own
from ._data_types import data_type as data_type_of
from ._rounds import Fetched
from ._selections import Selection
from ._types import AnyArray, Bytes, Shape, sizes_of
from .refusals import Refused, Syntax

_P = ParamSpec("_P")
_R = TypeVar("_R")
_C = TypeVar("_C", bound="Coder")


class Representation(NamedTuple):
    """How many bytes a value has: just `size` where `kind` is "fixed", at most `size` where it is "bounded",
    and any number where it is "unbounded"; `size` is None then.

    Attributes
    ----------
    kind : str
        "fixed", "bounded" or "unbounded".
    size : int or None
        The number.

    Examples
    --------
    >>> Representation("fixed", 2).size
    2
    """

    kind: str
    size: int | None


def _copied(fill_value: Any) -> Any:
    """A fill value that nobody else changes."""
    try:
        return copy.deepcopy(fill_value)
    except Exception:
        # none of any type, as the header will say
        return fill_value


class Form:
    """The shape, the data type and the fill value of chunks. Raises `Syntax` of sizes that no chunk has, and
    `UnsupportedDataType`."""

    __slots__ = ("shape", "data_type", "fill_value", "kind", "dtype")

    def __init__(self, shape: int | Sequence[int], data_type: Any, fill_value: Any = None) -> None:
        own_type = zarrs_own(data_type)
        self.shape = sizes_of(shape)
        if any(not 0 < size < 1 << 64 for size in self.shape):
            raise Syntax(f"a chunk of shape {reprlib.repr(self.shape)}, where each size is from 1 to 2^64 - 1")
        self.kind: DataType = data_type_of(own_type)
        self.dtype = self.kind.dtype
        self.data_type, self.fill_value = copy.deepcopy(own_type), _copied(fill_value)

    def of_shape(self, shape: Shape) -> "Form":
        """The same of chunks of another shape."""
        return Form(shape, self.data_type, self.fill_value)

    @property
    def first(self) -> tuple[int, ...]:
        """The place of the first element."""
        return (0,) * len(self.shape)


def located(method: Callable[Concatenate[_C, _P], _R]) -> Callable[Concatenate[_C, _P], _R]:
    """The method; an error that it raises says which codec it is of."""

    @wraps(method)
    def with_codec(coder: _C, /, *arguments: _P.args, **more: _P.kwargs) -> _R:
        try:
            return method(coder, *arguments, **more)
        except Refused as error:
            coder.locate(error)
            raise

    return with_codec


class Coder(ABC):
    """Codes chunks of one form by one list of codecs, which `text` has in JSON. A value is what is stored of a chunk; the
    coder's own value is what is left of it when the codecs at the end that Python runs have decoded it.

    Elements are such as the data type holds. An error says which codec it is of, and of which inner chunk of a shard.
    """

    # whether Python cuts the chunk, and whether codecs that Python runs stand behind the others
    is_composed = False
    has_outer = False
    text: str
    form: Form

    @property
    @abstractmethod
    def unproved(self) -> tuple[str, ...]:
        """The names of the codecs that Python runs, the first one first."""

    @property
    @abstractmethod
    def representation(self) -> Representation:
        """How many bytes a coder's own value has."""

    @property
    @abstractmethod
    def is_planned(self) -> bool:
        """Whether the library plans its reads, and the elements are of one size."""

    @property
    @abstractmethod
    def is_read_whole(self) -> bool:
        """Whether a read of any element of a value, however long it is, takes all of its bytes."""

    @property
    @abstractmethod
    def rests_on_length(self) -> bool:
        """Whether a read of a cut value may answer what the whole one doesn't have: where an index may stand behind, which
        is looked for at a place that is counted from the end."""

    @property
    @abstractmethod
    def cut(self) -> "Cut | None":
        """A shard behind transpositions, as Python cuts it; None where there is another codec."""

    @abstractmethod
    def check(self) -> None:
        """Raises the error of these codecs for such chunks, if there is one."""

    @abstractmethod
    def locate(self, error: Refused) -> None:
        """Puts into an error which codec it is of, and which key, where that can be found."""

    @abstractmethod
    def inner(self, stored: Any) -> Any:
        """The coder's own value of what is stored, and None of None."""

    @abstractmethod
    def encode(self, elements: AnyArray) -> Bytes:
        """The value of a chunk's elements."""

    @abstractmethod
    def decode(self, value: Any, out: AnyArray | None = None) -> AnyArray:
        """The chunk of a value, in `out` where it is given."""

    @abstractmethod
    def read(self, inner: Any, selection: Any, out: AnyArray | None = None) -> AnyArray:
        """The elements of a selection of the coder's own value, and fill values of None; in `out` where it is given."""

    @abstractmethod
    def read_many(self, inner: Any, selections: list[Selection]) -> list[AnyArray]:
        """The elements of each of several selections."""

    @abstractmethod
    def read_fetched(self, fetched: Fetched, selection: Any, out: AnyArray | None = None) -> AnyArray:
        """The elements of a selection of a value that is read in rounds, of which something may be there."""

    @abstractmethod
    def planned_ranges(self, selection: Any) -> npt.NDArray[np.uint64] | None:
        """The ranges of a value that a read of a selection takes; None where it isn't planned."""

    @abstractmethod
    def write(self, inner: Any, chosen: Selection, elements: AnyArray) -> Bytes:
        """The value that is left of the coder's own value, or of None, where elements are written at a selection."""

    @abstractmethod
    def edit(self, value: Any, chosen: Selection, elements: AnyArray) -> None:
        """Writes elements into the value itself. Raises `NotInPlace`."""

    @abstractmethod
    def edit_many(self, value: Any, edits: list[tuple[Selection, AnyArray]]) -> None:
        """The same, edit by edit."""

    @abstractmethod
    def reencode(self, value: Any, other: "Coder") -> Bytes:
        """The value that another coder writes for the chunk of a value."""


class Shard(Coder):
    """A chunk that is a shard, which Python cuts into inner chunks, each with a coder of its own."""

    is_composed = True
    chunk: Coder

    @abstractmethod
    def index_range(self, length: int) -> tuple[int, int]:
        """Where the index stands in a value of so many bytes."""

    @abstractmethod
    def entries(self, index: Any) -> AnyArray:
        """The first byte of each inner chunk, and how many there are."""

    @abstractmethod
    def place_of(self, entries: AnyArray, number: int, length: int) -> tuple[int, int] | None:
        """The bytes of an inner chunk in a value of so many; None where it isn't stored."""

    @abstractmethod
    def pieces(self, chosen: Selection) -> "list[Piece]":
        """The elements of a selection, inner chunk by inner chunk, in the order of their numbers."""

    @abstractmethod
    def whole_ranges(self, fetched: Fetched, chosen: Selection) -> AnyArray:
        """The bytes of all inner chunks with elements of a selection, in the order of their first ones, of a value whose
        index was fetched."""

    @abstractmethod
    def check_index(self, fetched: Fetched, chosen: Selection) -> None:
        """Raises the error of the first entry of an inner chunk with elements of a selection that is behind the value."""


class Cut(NamedTuple):
    """The order of a chunk's axes in a shard, and the shard."""

    order: tuple[int, ...]
    shard: Shard


class Piece(NamedTuple):
    """The elements of a selection that are in one inner chunk: the chunk's number, where they are in it, and where
    in the answer."""

    number: int
    inside: Any
    there: Any


# What makes the coder of a list of codecs for chunks of a form.
Maker = Callable[[list[Any], Form], Coder]
