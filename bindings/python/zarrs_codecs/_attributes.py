"""An array's attributes, which are kept in its `zarr.json`."""

import copy
import json
import threading
from collections.abc import Iterator, MutableMapping
from typing import Any

import numpy as np

from ._metadata import metadata_of
from ._stores import Folder
from .refusals import InvalidMetadata


# Held while a `zarr.json` is read and replaced, so that threads keep what others set.
_TURN = threading.Lock()


def bytes_of(metadata: dict[str, Any], has_nan: bool = False) -> np.ndarray[Any, np.dtype[np.uint8]]:
    """The bytes of a `zarr.json`, in which NaN and infinite numbers are where others have written them. Raises
    `InvalidMetadata` where there is no JSON of it."""
    try:
        text = json.dumps(metadata, indent=2, allow_nan=has_nan)
    except (TypeError, ValueError, RecursionError) as error:
        raise InvalidMetadata(f"what zarr.json would say has no JSON: {error}") from error
    return np.frombuffer(text.encode(), np.uint8)


class Attributes(MutableMapping[str, Any]):
    """Attributes by their names, in the `zarr.json` of an array.

    What is read is what the file had when it was read last. A name that is set or deleted is so in the file at
    once, beside what others have written there meanwhile: threads take turns, and processes that set attributes of one
    array at a time must, as for chunks. A value that is changed itself isn't: values come out as copies. Raises
    `InvalidMetadata` where a value has no JSON.
    """

    def __init__(self, files: Folder, root: str, metadata: dict[str, Any]) -> None:
        self._files, self._root = files, root
        self._metadata = metadata

    @property
    def _declared(self) -> dict[str, Any]:
        found: dict[str, Any] = self._metadata.get("attributes", {})
        return found

    def __getitem__(self, name: str) -> Any:
        return copy.deepcopy(self._declared[name])

    def __iter__(self) -> Iterator[str]:
        return iter(self._declared)

    def __len__(self) -> int:
        return len(self._declared)

    def __repr__(self) -> str:
        return repr(self._declared)

    def update(self, *others: Any, **more: Any) -> None:
        """Sets several, in one write."""
        self._replace(set_all=dict(*others, **more))

    def __setitem__(self, name: str, value: Any) -> None:
        self._replace(set_all={name: value})

    def __delitem__(self, name: str) -> None:
        if name not in self._declared:
            raise KeyError(name)
        self._replace(without=name)

    def _replace(self, set_all: dict[str, Any] | None = None, without: str | None = None) -> None:
        self._files.check_written()
        with _TURN:
            self._replace_in_turn(set_all, without)

    def _replace_in_turn(self, set_all: dict[str, Any] | None, without: str | None) -> None:
        metadata = metadata_of(self._files, self._root).declared
        attributes = {**metadata.get("attributes", {}), **(set_all or {})}
        attributes.pop(without, None)
        for name in attributes:
            if not isinstance(name, str):
                raise InvalidMetadata(f"an attribute is named by {name!r}, which is no text")
        bytes_of(set_all or {})
        whole = bytes_of({**metadata, "attributes": attributes}, has_nan=True)
        self._files.replace(f"{self._root}zarr.json", whole)
        self._metadata["attributes"] = json.loads(whole.tobytes())["attributes"]
