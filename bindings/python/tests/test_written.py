"""`zarr.json` as zarr-python 3 and zarrs write it: what opens, and what a refusal says of what doesn't."""

import datetime
import json

import numpy as np
import pytest
from samples import LITTLE, VLEN, make_array, optional, same
from test_bytes_codecs import numcodecs_alone

import zarrs_codecs as z
from zarrs_codecs import Array, Chain

ZSTD = {"name": "zstd", "configuration": {"level": 0, "checksum": False}}
CHECKED = {"name": "zstd", "configuration": {"level": 3, "checksum": True}}
GROUP = {"zarr_format": 3, "node_type": "group", "attributes": {}}


def moments(kind, unit="s", factor=1):
    configuration = {"unit": unit, "scale_factor": factor}
    return {"name": f"numpy.{kind}", "configuration": configuration}


def sized(name, length):
    return {"name": name, "configuration": {"length_bytes": length}}


@numcodecs_alone
def test_as_zarr_python_writes_by_itself(tmp_path):
    """Its keys in its order, a group beside the array and one above it, with metadata of all."""
    consolidated = {"kind": "inline", "must_understand": False, "metadata": {"a": {"zarr_format": 3}}}
    for folder in (tmp_path, tmp_path / "beside"):
        folder.mkdir(exist_ok=True)
        (folder / "zarr.json").write_text(json.dumps({**GROUP, "consolidated_metadata": consolidated}))
    more = {"attributes": {"units": "m", "nested": {"a": [1, None]}}, "storage_transformers": []}
    array = make_array(tmp_path / "a", (7, 5), (4, 3), "float64", [LITTLE, ZSTD], 0.0, **more)
    expected = np.arange(35.0).reshape(7, 5)
    array[...] = expected
    opened = Array(tmp_path / "a")
    same(opened[...], expected)
    assert opened.attrs == more["attributes"] and opened.dimension_names is None
    opened.attrs["nested"]["a"] = 5
    assert opened.attrs["nested"] == {"a": [1, None]}
    with pytest.raises(z.InvalidMetadata, match="of a group: each array in it"):
        Array(tmp_path / "beside")


@pytest.mark.parametrize(
    "more",
    [
        {"consolidated_metadata": None},
        {"consolidated_metadata": {"kind": "inline", "must_understand": False, "metadata": {}}},
        {"attributes": {"_FillValue": "NaN", "deep": {"a": {"b": []}}}},
        {"dimension_names": ["y", None]},
        {"dimension_names": None},
        {"storage_transformers": []},
        {"extension": {"must_understand": False, "name": "any"}},
    ],
)
def test_keys_of_metadata(more, tmp_path):
    array = make_array(tmp_path / "a", (2, 2), (2, 2), "uint8", ["bytes"], 7, **more)
    assert array[...].tolist() == [[7, 7], [7, 7]]
    assert array.dimension_names == (("y", None) if more.get("dimension_names") else None)
    assert array.attrs == more.get("attributes", {})


@pytest.mark.parametrize(
    "more, says",
    [
        ({"storage_transformers": [{"name": "any"}]}, "storage transformers"),
        ({"extension": {"name": "any"}}, "'extension'"),
        ({"dimension_names": ["y"]}, "dimension names"),
        ({"dimension_names": ["y", 5]}, "dimension names"),
        ({"attributes": []}, "attributes"),
        ({"zarr_format": 2}, "format 2"),
    ],
)
def test_what_is_missing_in_metadata_is_said(more, says, tmp_path):
    with pytest.raises(z.InvalidMetadata, match=says):
        make_array(tmp_path / "a", (2, 2), (2, 2), "uint8", ["bytes"], 7, **more)


def test_an_array_of_version_2_is_told(tmp_path):
    (tmp_path / ".zarray").write_text("{}")
    with pytest.raises(z.InvalidMetadata, match="Zarr v2"):
        Array(tmp_path)


@pytest.mark.parametrize(
    "data_type, codec, fill, expected",
    [
        ("bool", "bytes", True, True),
        ("bool", "bytes", 1, True),
        ("uint8", "bytes", True, 1),
        ("int8", "bytes", -3, -3),
        ("uint64", LITTLE, 2**64 - 1, 2**64 - 1),
        ("float16", LITTLE, "0x7e01", np.frombuffer(b"\x01\x7e", "<f2")[0]),
        ("float32", LITTLE, "NaN", np.float32("nan")),
        ("float64", LITTLE, "-Infinity", -np.inf),
        ("float64", LITTLE, 1, 1.0),
        ("complex64", LITTLE, ["NaN", 2.5], np.complex64(complex(np.nan, 2.5))),
        ("complex128", LITTLE, ["0x3ff0000000000000", "-Infinity"], complex(1, -np.inf)),
        ("r16", "bytes", [1, 2], np.void(b"\1\2")),
        ("r16", "bytes", "AQI=", np.void(b"\1\2")),
        (sized("raw_bytes", 2), "bytes", "AQI=", np.void(b"\1\2")),
        (sized("null_terminated_bytes", 3), "bytes", "YWI=", b"ab"),
        (sized("fixed_length_utf32", 8), LITTLE, "ä", "ä"),
        ("string", VLEN, "ä", "ä"),
        ("variable_length_bytes", VLEN, "AQI=", b"\1\2"),
        ("bytes", VLEN, [1, 2], b"\1\2"),
        ("string", {"name": "vlen-utf8"}, "ä", "ä"),
        ("variable_length_bytes", {"name": "vlen-bytes"}, "AQI=", b"\1\2"),
        (moments("datetime64", "ms", 10), LITTLE, 5, np.datetime64(5, ("ms", 10))),
        (moments("datetime64"), LITTLE, "NaT", np.datetime64("NaT", "s")),
        (moments("timedelta64", "generic"), LITTLE, -1, np.timedelta64(-1)),
        ({"name": "zarrs.optional", "configuration": {"name": "int32"}}, optional(LITTLE), [5], 5),
    ],
)
def test_every_form_of_fill_value(data_type, codec, fill, expected, tmp_path):
    array = make_array(tmp_path / "a", (3,), (2,), data_type, [codec], fill)
    found = array[...]
    assert found.shape == (3,)
    assert found[1] == expected or (found[1] != found[1] and expected != expected)
    assert np.asarray(found[1], found.dtype).tobytes() == np.asarray(expected, found.dtype).tobytes() or (
        found.dtype == object
    )
    array[0] = found[1]
    assert array.chunk_path((0,)).is_file()
    assert array[0] == expected or expected != expected


def test_types_of_one_length_and_moments(tmp_path):
    days = np.array(["2020-01-01", "NaT", "1970-01-02"], "M8[D]")
    array = make_array(tmp_path / "a", (3,), (2,), moments("datetime64"), [LITTLE], "NaT")
    array[...] = days
    assert array.dtype == np.dtype("<M8[s]")
    same(Array(tmp_path / "a")[...], days.astype("<M8[s]"))
    assert array.chunk_path((0,)).read_bytes() == days[:2].astype("<M8[s]").astype("<i8").tobytes()
    words = Chain([LITTLE], (2,), sized("fixed_length_utf32", 8), "")
    assert words.decode(words.encode(["ab", "c"])).tolist() == ["ab", "c"]
    with pytest.raises(z.InvalidElement, match="length 3"):
        words.encode(["abc", "c"])
    near = Chain([LITTLE], (2,), moments("datetime64", "ns"), np.datetime64("2020-01-01", "D"))
    assert near.read(None, 0) == np.datetime64("2020-01-01")
    same(near.decode(near.encode(days[:2])), days[:2].astype("<M8[ns]"))
    far = np.array(["3000-01-01", "NaT"], "M8[D]")
    with pytest.raises(z.InvalidElement, match="3000-01-01 isn't of"):
        near.encode(far)
    with pytest.raises(z.InvalidFillValue):
        Chain([LITTLE], (2,), moments("datetime64", "ns"), far[0])
    big = Chain([{"name": "bytes", "configuration": {"endian": "big"}}], (1,), sized("fixed_length_utf32", 4))
    assert big.encode(["ä"]).tobytes() == "ä".encode("utf-32-be")


DAY = datetime.date(2020, 1, 1)


@pytest.mark.parametrize(
    "kind, given, due",
    [
        ("M8[s]", "2020-01-01", DAY),
        ("M8[s]", [DAY, None], [DAY, "NaT"]),
        ("M8[s]", np.array(["2020-01-01T03", "NaT"]), [datetime.datetime(2020, 1, 1, 3), "NaT"]),
        ("M8[10ms]", np.datetime64("2020-01-01"), DAY),
        ("m8[s]", [datetime.timedelta(1), None], np.array([86400, "NaT"], "m8[s]")),
        ("m8[s]", 5, np.timedelta64(5, "s")),
        ("m8[s]", np.array([5, 6], "u1"), np.array([5, 6], "m8[s]")),
        ("U3", np.array(["ä", "abc"], object), ["ä", "abc"]),
        ("U3", b"ab", "ab"),
        ("S3", np.array([b"a", b"abc"], object), [b"a", b"abc"]),
        ("V2", [b"ab", b"c\0"], np.array([b"ab", b"c\0"], "V2")),
        ("V2", np.array([b"ab", np.void(b"cd")], object), np.array([b"ab", b"cd"], "V2")),
        ("V2", np.array([b"ab", b"cd"]), np.array([b"ab", b"cd"], "V2")),
    ],
)
def test_elements_as_python_and_numpy_have_them(kind, given, due):
    chain = Chain([LITTLE], (2,), np.dtype(kind))
    expected = np.empty(2, kind)
    expected[...] = due
    same(chain.decode(chain.write(None, ..., given)), expected)


@pytest.mark.parametrize(
    "kind, given, refused",
    [
        ("M8[s]", 5, TypeError),
        ("M8[s]", np.timedelta64(5, "s"), TypeError),
        ("M8[s]", datetime.timedelta(1), TypeError),
        ("M8[s]", "x", z.InvalidElement),
        ("m8[s]", "5", TypeError),
        ("m8[s]", DAY, TypeError),
        ("m8[s]", np.array([1 << 63] * 2, np.uint64), TypeError),
        ("U3", 12345, TypeError),
        ("U3", np.array(["a", 5], object), TypeError),
        ("U3", np.array(["a", "abcd"], object), z.InvalidElement),
        ("U3", b"\xff", z.InvalidText),
        ("U3", b"abcd", z.InvalidElement),
        ("S3", 12345, TypeError),
        ("S3", "ab", TypeError),
        ("S3", np.array([b"a", None], object), TypeError),
        ("V2", 70000, TypeError),
        ("V2", 1.5, TypeError),
        ("V2", "ab", TypeError),
        ("V2", [b"ab", b"c"], z.InvalidElement),
        ("V2", np.array([b"a", b"b"]), z.InvalidElement),
        ("V2", np.array([b"abc", b"abc"]), z.InvalidElement),
    ],
)
def test_elements_that_numpy_would_cut(kind, given, refused):
    chain = Chain([LITTLE], (2,), np.dtype(kind))
    with pytest.raises(refused, match="isn't of|aren't of"):
        chain.write(None, ..., given)


@pytest.mark.parametrize(
    "data_type",
    [
        {"name": "struct", "configuration": {"fields": []}},
        moments("datetime64", "fortnight"),
        moments("datetime64", "s", 0),
        {"name": "numpy.datetime64", "configuration": {"unit": "s"}},
        sized("fixed_length_utf32", 5),
        sized("raw_bytes", 0),
        "float8_e4m3",
        "bfloat16",
    ],
)
def test_data_types_that_do_not_open(data_type):
    with pytest.raises(z.UnsupportedDataType):
        Chain([LITTLE], (2,), data_type)


SHARDS = {
    "name": "sharding_indexed",
    "configuration": {
        "chunk_shape": [2, 2],
        "codecs": [LITTLE, ZSTD],
        "index_codecs": [LITTLE, {"name": "crc32c"}],
        "index_location": "end",
    },
}


@pytest.mark.parametrize(
    "codecs, data_type, codec",
    [
        ([LITTLE, {"name": "adler32"}], "int32", (1, "adler32")),
        ([{"name": "numcodecs.delta", "configuration": {}}, LITTLE], "int32", (0, "numcodecs.delta")),
    ],
)
@numcodecs_alone
def test_codecs_that_do_not_open_are_named(codecs, data_type, codec):
    with pytest.raises(z.UnknownName) as told:
        Chain(codecs, (4, 4), data_type)
    assert told.value.codec == codec


@numcodecs_alone
def test_shards_as_zarr_python_writes_them():
    chain = Chain([SHARDS], (4, 4), "int32", 3)
    array = np.arange(16, dtype="i4").reshape(4, 4)
    array[2:, 2:] = 3
    value = chain.encode(array)
    same(chain.decode(value), array)
    same(chain.read(value, np.s_[1:3, 0]), array[1:3, 0])
    assert chain.unproved == ("sharding_indexed", "zstd")


@numcodecs_alone
def test_checksums_of_zstd():
    chain = Chain(["bytes", CHECKED], (1000,), "uint8")
    array = (np.arange(1000) % 7).astype("u1")
    value = chain.encode(array)
    # the bit of a frame's header that says that a checksum ends it
    assert value[4] & 4 and not Chain(["bytes", ZSTD], (1000,), "uint8").encode(array)[4] & 4
    same(chain.decode(value), array)
    value = value.copy()
    value[-1] ^= 1
    with pytest.raises(z.BytesCodec, match="by codec 1, 'zstd'"):
        chain.decode(value)
