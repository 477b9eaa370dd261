"""`zarr.json` of an array: what of it is read here, and where chunks are."""

import json
import reprlib
from collections.abc import Sequence
from dataclasses import dataclass
from typing import Any

from ._data_types import DataType
from ._stores import Folder
from ._types import Shape
from .refusals import InvalidMetadata

_NEEDED = {"shape", "data_type", "chunk_grid", "chunk_key_encoding", "fill_value", "codecs"}
_KNOWN = _NEEDED | {
    "attributes",
    "consolidated_metadata",
    "dimension_names",
    "node_type",
    "storage_transformers",
    "zarr_format",
}


def _named(declared: Any) -> tuple[str, dict[str, Any]]:
    """The name and the configuration of an extension point, which may be its name alone."""
    match declared:
        case str(name):
            return name, {}
        case {"name": str(name), **rest}:
            configuration = rest.get("configuration")
            if configuration is None:
                return name, {}
            if isinstance(configuration, dict):
                return name, configuration
            raise InvalidMetadata(f"zarr.json has the configuration {reprlib.repr(configuration)} of {name!r}")
    raise InvalidMetadata(f"zarr.json has no name in {reprlib.repr(declared)}")


def _sizes(declared: Any, key: str, least: int) -> tuple[int, ...]:
    """The sizes that a key has: those that numpy can count, from the least one on."""
    if not isinstance(declared, list) or any(type(size) is not int or not least <= size < 1 << 63 for size in declared):
        raise InvalidMetadata(f"zarr.json has the {key} {reprlib.repr(declared)}")
    return tuple(declared)


def _checked(metadata: Any) -> dict[str, Any]:
    """A `zarr.json` of an array that is read here; else `InvalidMetadata` is raised."""
    if not isinstance(metadata, dict):
        raise InvalidMetadata("zarr.json is no object")
    if metadata.get("zarr_format") != 3:
        raise InvalidMetadata(f"zarr.json has the format {reprlib.repr(metadata.get('zarr_format'))}, where 3 is read")
    if metadata.get("node_type") == "group":
        raise InvalidMetadata("zarr.json is of a group: each array in it is opened by its own folder")
    if metadata.get("node_type") != "array":
        raise InvalidMetadata(f"zarr.json is of a node {reprlib.repr(metadata.get('node_type'))}, and not of an array")
    for key in sorted(metadata.keys() - _KNOWN):
        value = metadata[key]
        if not isinstance(value, dict) or value.get("must_understand") is not False:
            raise InvalidMetadata(f"zarr.json has the unknown key {reprlib.repr(key)}")
    for key in sorted(_NEEDED - metadata.keys()):
        raise InvalidMetadata(f"zarr.json has no key {reprlib.repr(key)}")
    if metadata.get("storage_transformers") not in (None, []):
        raise InvalidMetadata("storage transformers aren't read")
    if not isinstance(metadata.get("attributes", {}), dict):
        raise InvalidMetadata(f"zarr.json has the attributes {reprlib.repr(metadata['attributes'])}")
    if not isinstance(metadata["codecs"], list):
        raise InvalidMetadata(f"zarr.json has the codecs {reprlib.repr(metadata['codecs'])}, which are no list")
    return metadata


class Keys:
    """Where chunks are: the encoding of their numbers in names."""

    def __init__(self, declared: Any) -> None:
        name, configuration = _named(declared)
        if name not in ("default", "v2"):
            raise InvalidMetadata(f"no encoding of chunk keys is named {reprlib.repr(name)}")
        self._is_v2 = name == "v2"
        self._separator: str = configuration.get("separator", "." if self._is_v2 else "/")
        if self._separator not in (".", "/"):
            raise InvalidMetadata(f"chunk keys separated by {reprlib.repr(self._separator)}")

    def key(self, chunk: tuple[int, ...]) -> str:
        """The key of the chunk of these numbers."""
        numbers = map(str, chunk)
        if self._is_v2:
            return self._separator.join(numbers) or "0"
        return self._separator.join(["c", *numbers])


def _chunks(declared: Any, axes: int) -> tuple[int, ...]:
    """The shape of chunks that a grid has."""
    name, configuration = _named(declared)
    if name != "regular":
        raise InvalidMetadata(f"a chunk grid that is {reprlib.repr(name)}, where regular ones are read")
    chunks = _sizes(configuration.get("chunk_shape"), "chunk shape", 1)
    if len(chunks) != axes:
        raise InvalidMetadata(f"chunks of {len(chunks)} axes, where the array has {axes}")
    return chunks


def _names(declared: Any, axes: int) -> tuple[str | None, ...] | None:
    """The names of the axes; None where none are given."""
    if declared is None:
        return None
    if (
        not isinstance(declared, list)
        or len(declared) != axes
        or not all(name is None or isinstance(name, str) for name in declared)
    ):
        raise InvalidMetadata(f"zarr.json has the dimension names {reprlib.repr(declared)}")
    return tuple(declared)


@dataclass(frozen=True)
class ArrayMetadata:
    """What the `zarr.json` of an array says: itself, and what follows from it."""

    declared: dict[str, Any]
    shape: tuple[int, ...]
    chunks: tuple[int, ...]
    keys: Keys
    names: tuple[str | None, ...] | None


def parsed(declared: Any) -> ArrayMetadata:
    """What a `zarr.json` says. Raises `InvalidMetadata` where it isn't one of an array that is read here."""
    declared = _checked(declared)
    shape = _sizes(declared["shape"], "shape", 0)
    return ArrayMetadata(
        declared,
        shape,
        _chunks(declared["chunk_grid"], len(shape)),
        Keys(declared["chunk_key_encoding"]),
        _names(declared.get("dimension_names"), len(shape)),
    )


def _is_there(files: Folder, path: str) -> bool:
    try:
        files.check(path)
    except FileNotFoundError:
        return False
    return True


def metadata_of(files: Folder, root: str) -> ArrayMetadata:
    """What the file `zarr.json` says behind this beginning of paths. Raises `InvalidMetadata` where it isn't one of an
    array that is read here."""
    try:
        whole = files.read(f"{root}zarr.json")
    except FileNotFoundError:
        if _is_there(files, f"{root}.zarray"):
            raise InvalidMetadata("the folder has an array of Zarr v2, where v3 is read") from None
        raise
    try:
        declared = json.loads(whole.decode())
    except RecursionError as error:
        raise InvalidMetadata("zarr.json is nested too deeply") from error
    except ValueError as error:
        raise InvalidMetadata(f"zarr.json is no JSON: {error}") from error
    return parsed(declared)


_LITTLE = {"name": "bytes", "configuration": {"endian": "little"}}


def usual_codecs(kind: DataType) -> list[Any]:
    """Codecs for a data type that leave its elements as they are, those that zarr-python has too where there are such."""
    codec: dict[str, Any] = _LITTLE
    if kind.is_variable:
        codec = {"name": "vlen-utf8" if kind.is_text else "vlen-bytes"}
    if kind.is_optional:
        inside = {"mask_codecs": ["packbits"], "data_codecs": [codec]}
        codec = {"name": "zarrs.optional", "configuration": inside}
    return [codec]


def _named_type(declared: Any) -> Any:
    """A data type in the form of `zarr.json`, where `{"optional": TYPE}` has none."""
    match declared:
        case {"optional": str(name), **rest} if not rest:
            return {"name": "zarrs.optional", "configuration": {"name": name}}
        case {"optional": dict(inner), **rest} if not rest:
            return {"name": "zarrs.optional", "configuration": inner}
    return declared


def _as_objects(codecs: Sequence[Any]) -> list[Any]:
    """The codecs, and those in their configurations, each an object: readers of Zarr 3.0 take no name alone."""
    return [{"name": codec} if isinstance(codec, str) else _with_objects(codec) for codec in codecs]


def _with_objects(codec: Any) -> Any:
    match codec:
        case {"configuration": dict(configuration)}:
            inner = {
                key: _as_objects(value) if key.endswith("codecs") and isinstance(value, (list, tuple)) else value
                for key, value in configuration.items()
            }
            return {**codec, "configuration": inner}
    return codec


def made(shape: Shape, chunks: Shape, data_type: Any, fill: Any, codecs: list[Any]) -> dict[str, Any]:
    """The `zarr.json` of an array, whose fill value is in the form of it."""
    return {
        "zarr_format": 3,
        "node_type": "array",
        "shape": list(shape),
        "data_type": _named_type(data_type),
        "chunk_grid": {"name": "regular", "configuration": {"chunk_shape": list(chunks)}},
        "chunk_key_encoding": {"name": "default", "configuration": {"separator": "/"}},
        "fill_value": fill,
        "codecs": _as_objects(codecs),
    }
