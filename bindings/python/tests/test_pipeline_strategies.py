"""Arrays and indices of zarr-python's own strategies of hypothesis, by one pipeline and by the other. PIPELINE_EXAMPLES says
how many of each, at random then; else they are a few, the same each time."""

import importlib.util
import os

import numpy as np
import pytest
from pipelines import OURS, THEIRS, opened, same_bits, using

if importlib.util.find_spec("hypothesis") is None:
    pytest.skip("hypothesis isn't installed", allow_module_level=True)

import zarr  # noqa: E402
from hypothesis import HealthCheck, given, settings  # noqa: E402
from hypothesis import strategies as st  # noqa: E402
from hypothesis.extra import numpy as npst  # noqa: E402
from zarr.testing import strategies as zst  # noqa: E402

pytestmark = pytest.mark.filterwarnings("ignore")
ASKED = os.environ.get("PIPELINE_EXAMPLES")
examples = settings(
    max_examples=int(ASKED or 15),
    derandomize=ASKED is None,
    database=None,
    deadline=None,
    suppress_health_check=list(HealthCheck),
)
V3 = st.just(3)


def by(path, strategy):
    """An example that is drawn with a pipeline."""

    def drawn(data):
        with using(path):
            return data.draw(strategy)

    return drawn


def elements(dtype, shape):
    """Elements of a type, of texts those that zarr-python keeps."""
    return npst.arrays(dtype, shape, elements=zst.safe_unicode_for_dtype(dtype) if dtype.kind == "U" else None)


def compared(data, array):
    """An array by both pipelines: all of it, what indices have, and what edits by either leave."""
    ours, theirs = opened(array, OURS), opened(array, THEIRS)
    expected = np.array(theirs[...])
    same_bits(ours[...], expected)
    index = data.draw(zst.basic_indices(shape=array.shape))
    same_bits(ours[index], expected[index])
    if array.shape and array.size:
        zarrs, numpys = data.draw(zst.orthogonal_indices(shape=array.shape))
        same_bits(ours.oindex[zarrs], expected[numpys])
    new = np.array(expected[index])
    new = new if new.dtype.kind in "TO" else data.draw(elements(new.dtype, new.shape))
    theirs[index] = new
    same_bits(ours[...], theirs[...])
    # zarr-python drops chunks that are nearly those of fill values
    expected = np.array(ours[...])
    new = new if new.dtype.kind in "TO" else data.draw(elements(new.dtype, new.shape))
    ours[index] = new
    expected[index] = new
    same_bits(ours[...], expected)
    same_bits(theirs[...], expected)


@pytest.mark.parametrize("path", [OURS, THEIRS])
@given(data=st.data())
@examples
def test_arrays(path, data):
    compared(data, by(path, zst.arrays(zarr_formats=V3))(data))


@pytest.mark.skipif(not hasattr(zst, "sharded_arrays"), reason="zarr-python 3.0 has no such strategy")
@pytest.mark.parametrize("path", [OURS, THEIRS])
@given(data=st.data())
@examples
def test_sharded_arrays(path, data):
    compared(data, by(path, zst.sharded_arrays())(data))


@pytest.mark.skipif(not hasattr(zst, "block_test_arrays"), reason="zarr-python 3.0 has no such strategy")
@pytest.mark.parametrize("path", [OURS, THEIRS])
@given(data=st.data())
@examples
def test_arrays_of_irregular_grids(path, data):
    with zarr.config.set({"array.rectilinear_chunks": True}):
        compared(data, by(path, zst.rectilinear_arrays())(data))
