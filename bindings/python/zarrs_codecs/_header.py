"""The header of a chunk, as JSON, and what the library says of it."""

import ctypes
import json
import math
import reprlib
from typing import Any

from ._data_types import DataType
from ._elements import empty, given, held
from ._fill_values import fill_hex
from ._library import SHORT, library, name_of
from ._types import Shape
from .refusals import InvalidConfiguration, Syntax

# An error of a chunk of more elements than these has no codec, which a chunk is written to find.
_MOST_ELEMENTS = 1 << 20


def codec_list(codecs: Any) -> list[Any]:
    """A list of codecs; `InvalidConfiguration` is raised of a name or a codec alone."""
    if isinstance(codecs, (str, bytes, dict)):
        raise InvalidConfiguration(f"codecs are a list, and not {reprlib.repr(codecs)}")
    return list(codecs)


def json_of(declared: Any) -> str:
    """JSON of codecs or of a header. Raises `Syntax` where there is none."""
    try:
        return json.dumps(declared)
    except RecursionError as error:
        raise Syntax("codecs are nested too deeply") from error
    except (TypeError, ValueError) as error:
        raise Syntax(f"codecs have no JSON: {error}") from error


def copied(text: str) -> list[Any]:
    """The list of codecs that this JSON is of."""
    try:
        found: list[Any] = json.loads(text)
    except RecursionError as error:
        raise Syntax("codecs are nested too deeply") from error
    return found


class Header:
    """What a header says before its codecs: a chunk's shape, the type of its elements, and the fill value."""

    def __init__(self, shape: Shape, kind: DataType, fill_value: Any) -> None:
        self._shape, self._kind = shape, kind
        declared = {"shape": shape, "data_type": kind.header, "fill_value": fill_hex(kind, fill_value)}
        self._begin = json_of(declared)[:-1]

    def text(self, codecs: str) -> bytes:
        """The header with these codecs, a list in JSON."""
        return f'{self._begin}, "codecs": {codecs}}}'.encode()

    def checked(self, codecs: list[Any]) -> str:
        """What the library says of codecs for such chunks: the name of an error, or "Done"."""
        header = self.text(json_of(codecs))
        return name_of(library.zarrs_check(header, len(header)))

    def written(self, codecs: list[Any]) -> str:
        """The same, of a chunk that is written with them as well."""
        header = self.text(json_of(codecs))
        code = library.zarrs_check(header, len(header))
        if code == 0 and math.prod(self._shape) <= _MOST_ELEMENTS:
            # a chunk of fill values is written, and its value not taken
            none = given(self._kind, held(self._kind, empty(self._kind, (0,))))
            nothing, needed = (None, 0), ctypes.c_size_t()
            stored, places, at = (False, *nothing), (0, *nothing), ctypes.byref(needed)
            code = library.zarrs_write(header, len(header), *stored, *places, *none, *nothing, at)
        return "Done" if code in (0, SHORT) else name_of(code)
