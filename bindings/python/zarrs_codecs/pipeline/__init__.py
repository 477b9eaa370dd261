"""A codec pipeline for zarr-python 3: its arrays are read and written by the library's codecs.

`zarr.config.set({"codec_pipeline.path": "zarrs_codecs.CodecPipeline"})` is all that a program sets. This module needs
zarr-python 3, and is imported when `zarrs_codecs.CodecPipeline` is looked at, or when zarr-python looks for it, as it does
by the package's entry point where the package is installed.
"""

import os

from zarr.registry import register_pipeline

from ._codec_pipeline import CodecPipeline
from ._statistics import Statistics

__all__ = ["CodecPipeline", "Statistics"]

# as it is configured, pickled and compared
CodecPipeline.__module__ = "zarrs_codecs"
register_pipeline(CodecPipeline)

if hasattr(os, "register_at_fork"):
    os.register_at_fork(after_in_child=CodecPipeline.stats.renew_lock)
