"""The example of xarray and Dask by several processes prints what its page says."""

import importlib.util
import os
import re
import subprocess
import sys
from pathlib import Path

import pipelines  # noqa: F401
import pytest

import zarrs_codecs

EXAMPLES = Path(__file__).resolve().parents[3] / "examples"
MISSING = [name for name in ("xarray", "dask", "distributed") if importlib.util.find_spec(name) is None]


@pytest.mark.skipif(not EXAMPLES.is_dir(), reason="it isn't the repository's package")
@pytest.mark.skipif(bool(MISSING), reason=f"{', '.join(MISSING)} isn't installed")
def test_the_example_of_xarray_and_dask(tmp_path):
    environment = {**os.environ, "PYTHONPATH": os.pathsep.join([str(Path(zarrs_codecs.__file__).parents[1]), *sys.path])}
    words = [sys.executable, "-W", "ignore", EXAMPLES / "python/xarray_means.py", tmp_path]
    run = subprocess.run(words, env=environment, capture_output=True, text=True)
    assert run.returncode == 0, run.stderr
    page = (EXAMPLES / "README.md").read_text().partition("## `python/xarray_means.py")[2].partition("It prints\n")[2].partition("\n## ")[0]
    assert run.stdout == "".join(f"{line}\n" for line in re.findall("^    (.*)$", page, re.MULTILINE))
