"""What the tests share."""

import zlib

import numpy as np
import pytest


@pytest.fixture
def rng(request: pytest.FixtureRequest) -> np.random.Generator:
    """Random numbers, the same at each run of a test."""
    return np.random.default_rng(zlib.crc32(request.node.name.encode()))
