"""Data types and fill values, as `zarr.json` has them and as Python does."""

import math

import numpy as np
import pytest
from samples import LITTLE, VLEN, optional

from zarrs_codecs import Array, Chain, InvalidFillValue, UnsupportedDataType


def filled(name, fill, codec=LITTLE):
    """The element that is read where nothing is stored."""
    return Chain([codec], (2,), name, fill).read(None, 0)


@pytest.mark.parametrize(
    "name, fill, expected",
    [
        ("bool", True, True),
        ("int8", -128, -128),
        ("uint64", 2**64 - 1, 2**64 - 1),
        ("int64", np.int64(-5), -5),
        ("int2", -2, -2),
        ("uint4", 15, 15),
        ("float16", 1.5, 1.5),
        ("float32", "Infinity", math.inf),
        ("float64", "-Infinity", -math.inf),
        ("float32", "0x3fc00000", 1.5),
        ("float64", 3, 3.0),
        ("complex64", [1.5, "-Infinity"], complex(1.5, -math.inf)),
        ("complex128", 2 - 1j, 2 - 1j),
        ("complex64", 2, 2),
        ("int32", None, 0),
        ("complex64", None, 0),
        ({"name": "int16"}, 7, 7),
        ({"name": "int16", "configuration": {}}, 7, 7),
        ({"optional": "uint16"}, 7, 7),
        ({"name": "zarrs.optional", "configuration": {"name": "uint16"}}, [7], 7),
    ],
)
def test_fill_values(name, fill, expected):
    codec = (
        optional(LITTLE)
        if isinstance(name, dict) and "int16" not in (name["name"] if "name" in name else "")
        else LITTLE
    )
    assert filled(name, fill, codec) == expected


@pytest.mark.parametrize(
    "numpys, own",
    [
        (np.float32, "float32"),
        (np.dtype(">i4"), "int32"),
        (float, "float64"),
        (int, "int64"),
        (bool, "bool"),
        (np.complex64, "complex64"),
        (np.dtype("V3"), {"name": "raw_bytes", "configuration": {"length_bytes": 3}}),
        (np.dtype("M8[10ms]"), {"name": "numpy.datetime64", "configuration": {"unit": "ms", "scale_factor": 10}}),
        (np.dtype("m8"), {"name": "numpy.timedelta64", "configuration": {"unit": "generic", "scale_factor": 1}}),
        (np.dtype("U2"), {"name": "fixed_length_utf32", "configuration": {"length_bytes": 8}}),
        (np.dtype("S2"), {"name": "null_terminated_bytes", "configuration": {"length_bytes": 2}}),
        ({"optional": np.int16}, {"optional": "int16"}),
    ],
)
def test_numpys_types(numpys, own, tmp_path):
    """One of numpy's stands for Zarr's, and is written so."""
    codec = optional(LITTLE) if isinstance(own, dict) and "optional" in own else LITTLE
    chain = Chain([codec], 2, numpys)
    assert chain.data_type == own and chain.dtype == Chain([codec], (2,), own).dtype and chain.shape == (2,)
    made, other = Array.create(tmp_path / "a", 5, 2, numpys), Array.create(tmp_path / "b", (5,), (2,), own)
    assert made.metadata == other.metadata and made.shape == (5,) and made.chunks == (2,)


@pytest.mark.parametrize("numpys", [str, object, np.longdouble, np.dtype([("a", "i4")]), np.dtype("U"), np.void, "M8[s]", "O"])
def test_numpys_types_that_zarr_has_not(numpys):
    with pytest.raises(UnsupportedDataType):
        Chain([LITTLE], (2,), numpys)


@pytest.mark.parametrize("name, own", [("f4", "float32"), ("<u2", "uint16"), ("i8", "int64"), ("c16", "complex128")])
def test_a_short_name_of_numpys_is_told(name, own):
    with pytest.raises(UnsupportedDataType, match=f"named '{name}'; there is '{own}'$"):
        Chain([LITTLE], (2,), name)


def test_not_a_number():
    assert math.isnan(filled("float32", "NaN"))
    assert filled("float32", "0x7fc00001").tobytes().hex() == "0100c07f"
    assert filled("float32", "NaN").tobytes().hex() == "0000c07f"


def test_raw_and_variable_fill_values():
    assert bytes(filled("r24", [1, 2, 255])) == b"\1\2\xff"
    assert bytes(filled("r24", b"abc")) == b"abc"
    assert filled("string", "é", VLEN) == "é"
    assert filled("string", None, VLEN) == ""
    for name in ("bytes", "variable_length_bytes"):
        assert filled(name, b"\xff", VLEN) == b"\xff"
        assert filled(name, "AP8=", VLEN) == b"\0\xff"
        assert filled(name, [0, 255], VLEN) == b"\0\xff"


@pytest.mark.parametrize(
    "name, fill",
    [
        ("uint8", 256),
        ("uint8", -1),
        ("int8", 128),
        ("int2", 2),
        ("uint4", 16),
        ("bool", "false"),
        ("bool", 2),
        ("r24", [1, 2]),
        ("r24", ""),
        ("float16", 1e9),
        ("float32", -1e39),
        ("complex64", [0, 1e39]),
        ("float32", "0x3fc0"),
    ],
)
def test_fill_values_out_of_their_type(name, fill):
    with pytest.raises(InvalidFillValue, match="isn't of"):
        filled(name, fill)


@pytest.mark.parametrize(
    "name, fill",
    [
        ("uint8", 1.5),
        ("uint8", "1"),
        ("float32", "one"),
        ("string", 0),
        ("complex64", [1]),
        ("bytes", "!"),
        ("bytes", 3),
        ("r16", 2),
        ("float64", 10**400),
    ],
)
def test_fill_values_of_another_kind(name, fill):
    with pytest.raises(InvalidFillValue):
        filled(name, fill, VLEN if name in ("string", "bytes") else LITTLE)


@pytest.mark.parametrize(
    "name", ["int3", "int128", "float8", "r7", "r0", "datetime64", "", 5, None, {}, {"name": 5}, []]
)
def test_no_data_type(name):
    with pytest.raises(ValueError, match="data type"):
        Chain([LITTLE], (2,), name, 0)


def test_types_of_numpy():
    assert Chain([LITTLE], (2,), "float32").dtype == np.float32
    assert Chain(["bytes"], (2,), "int4").dtype == np.int8
    assert Chain(["bytes"], (2,), "r24").dtype == np.dtype("V3")
    assert Chain([VLEN], (2,), "string").dtype == object
    assert Chain([optional(LITTLE)], (2,), {"optional": "int64"}).dtype == np.int64
