"""Codecs of Zarr v3, proved, over numpy arrays.

`Chain` encodes and decodes chunks, and reads, writes and re-encodes them in part; `Array` is a Zarr v3
array in a folder or a store; `CodecPipeline` runs the codecs of zarr-python 3, which it needs. An error is an exception of
the library's name, below `Refused`. `proved` says whether the library that was loaded is a proved one;
`bindings/build --unproved` makes one that isn't.
"""

from typing import Any

from . import refusals
from ._library import proved
from ._version import __version__
from .array import Array
from .chain import Chain, Representation
from .refusals import *  # noqa: F403

__all__ = ["Array", "Chain", "Representation", "__version__", "proved", "refusals"]
__all__ += refusals.__all__


def __getattr__(name: str) -> Any:
    if name != "CodecPipeline":
        raise AttributeError(f"module {__name__!r} has no attribute {name!r}")
    from .pipeline import CodecPipeline

    return CodecPipeline


def __dir__() -> list[str]:
    return [*globals(), "CodecPipeline"]
