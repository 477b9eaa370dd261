"""numcodecs' bytes-to-bytes codecs, by the names that zarr-python has for them."""

import bz2
import importlib.util
import lzma
import zlib

import numpy as np
import pytest
from samples import LITTLE, same, some_region
from test_sharding import sharded

import zarrs_codecs as z
from zarrs_codecs import Array, Chain

if importlib.util.find_spec("numcodecs") is None:
    pytest.skip("python3-numcodecs isn't installed", allow_module_level=True)

import numcodecs  # noqa: E402

CONFIGURATIONS = {
    "zlib": {"level": 3},
    "gzip": {"level": 3},
    "bz2": {"level": 3},
    "lzma": {"preset": 1},
    "lz4": {"acceleration": 1},
    "zstd": {"level": 3},
    "blosc": {"cname": "lz4", "clevel": 5, "shuffle": 1, "blocksize": 0},
    "shuffle": {"elementsize": 4},
    "crc32": {},
    "adler32": {},
    "crc32c": {},
    "fletcher32": {},
    "jenkins_lookup3": {},
}


def is_known(name):
    try:
        numcodecs.get_codec({"id": name, **CONFIGURATIONS[name]})
    except ValueError:
        return False
    return True


KNOWN = [name for name in CONFIGURATIONS if is_known(name)]
OPENED = {"zlib": zlib.compress, "bz2": bz2.compress, "lzma": lzma.compress}


def metadata(name):
    return {"name": f"numcodecs.{name}", "configuration": CONFIGURATIONS[name]}


def test_most_are_known():
    assert len(KNOWN) >= 9


@pytest.mark.parametrize("name", KNOWN)
def test_round_the_chain(name, rng):
    chain = Chain([LITTLE, metadata(name)], (5, 6), "int32")
    array = rng.integers(0, 9, chain.shape).astype("i4")
    value = chain.encode(array)
    own = numcodecs.get_codec({"id": name, **CONFIGURATIONS[name]})
    assert value.tobytes() == bytes(own.encode(array.reshape(-1).view("u1")))
    same(chain.decode(value), array)
    region = some_region(rng, chain.shape)
    same(chain.read(value, region), array[region])
    written = chain.write(value, np.s_[1:3, ::2], 5)
    array[1:3, ::2] = 5
    same(chain.decode(written), array)
    assert chain.unproved == (f"numcodecs.{name}",)


@pytest.mark.parametrize("name", KNOWN)
def test_values_that_are_damaged(name, rng):
    """They fail, or are decoded as numcodecs decodes them, where nothing in them says what is due."""
    chain = Chain([LITTLE, metadata(name)], (64,), "int32")
    value = chain.encode(rng.integers(0, 9, 64))
    for damaged in (value[:-1], value[:3], value[:0], np.append(value, np.uint8(7))):
        if name in ("zlib", "bz2", "lzma") and damaged.size > value.size:
            # what stands behind the end is passed over, as Python's modules do
            continue
        with pytest.raises(z.Refused):
            chain.decode(damaged)


@pytest.mark.parametrize("name", [name for name in ("zlib", "gzip", "bz2", "lzma", "lz4", "zstd", "blosc") if name in KNOWN])
def test_a_value_that_opens_to_more_is_not_opened_whole(name):
    own = numcodecs.get_codec({"id": name, **CONFIGURATIONS[name]})
    bomb = own.encode(np.zeros(1 << 22, "u1"))
    with pytest.raises(z.InvalidBytesLength, match="more than 16 bytes"):
        Chain([LITTLE, metadata(name)], (4,), "int32").decode(bomb)


def test_configurations_that_numcodecs_does_not_take():
    for configuration in ({"level": 3, "depth": 5}, {"elements": 3}):
        with pytest.raises(z.InvalidConfiguration, match="numcodecs doesn't take") as error:
            Chain([LITTLE, {"name": "numcodecs.zlib", "configuration": configuration}], (4,), "int32")
        assert error.value.codec == (1, "numcodecs.zlib")


def test_elsewhere_and_others():
    with pytest.raises(z.UnknownName, match="at the end of a list of codecs alone"):
        Chain([metadata("zlib"), LITTLE], (4,), "int32")
    for name in ("delta", "pcodec", "nothing"):
        with pytest.raises(z.UnknownName):
            Chain([LITTLE, {"name": f"numcodecs.{name}", "configuration": {}}], (4,), "int32")


def test_in_shards_and_before_a_checksum(rng, tmp_path):
    inside = [LITTLE, metadata("shuffle"), metadata("zlib"), "crc32c"]
    array = Array.create(tmp_path / "a", (10, 6), (8, 4), "int32", codecs=sharded([2, 2], inside))
    expected = rng.integers(0, 9, (10, 6)).astype("i4")
    array[...] = expected
    same(Array(tmp_path / "a")[1:9, 2:], expected[1:9, 2:])
    assert array.chain.unproved == ("sharding_indexed", "numcodecs.shuffle", "numcodecs.zlib")
