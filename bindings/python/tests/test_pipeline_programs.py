"""Random programs over the pipeline, beside numpy and the formats of files: a hundred, with bounded time each."""

import re
import subprocess
import sys
from pathlib import Path

import pipelines  # noqa: F401
import pytest

import zarrs_codecs

PROGRAMS = Path(__file__).resolve().parents[2] / "random_programs"


@pytest.mark.skipif(not PROGRAMS.is_dir(), reason="it isn't the repository's package")
def test_a_hundred_programs():
    words = ["--only", "pipeline", "--programs", "100", "--tries", "40", "--package", Path(zarrs_codecs.__file__).parents[1]]
    run = subprocess.run([sys.executable, PROGRAMS, *words], capture_output=True, text=True)
    assert run.returncode == 0, run.stdout + run.stderr
    assert re.fullmatch(r"seeds 1 to 100: 100 programs, 0 fail, \d+ processor seconds: pipeline 100\n", run.stdout)
