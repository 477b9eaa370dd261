"""The codec crc32c: what it makes beside a model of it, and damage."""

import io

import numpy as np
import pytest
from samples import LITTLE, VLEN, same

import zarrs_codecs as z
from zarrs_codecs import Array, Chain, _locating

GZIP = {"name": "gzip", "configuration": {"level": 1}}


def checksum(data):
    """The CRC-32C of bytes, bit by bit (RFC 3720, 12.1), in four bytes, the lowest first."""
    register = 0xFFFFFFFF
    for byte in bytes(data):
        register ^= byte
        for _ in range(8):
            register = register >> 1 ^ (0x82F63B78 if register & 1 else 0)
    return (register ^ 0xFFFFFFFF).to_bytes(4, "little")


@pytest.mark.parametrize(
    "data, known",
    [
        (bytes(32), "aa36918a"),
        (b"\xff" * 32, "43aba862"),
        (bytes(range(32)), "4e79dd46"),
        (bytes(range(31, -1, -1)), "5cdb3f11"),
        (b"123456789", "839206e3"),
    ],
)
def test_known_checksums(data, known):
    assert checksum(data).hex() == known
    chain = Chain(["bytes", "crc32c"], (len(data),), "uint8")
    assert bytes(chain.encode(np.frombuffer(data, "u1"))) == data + bytes.fromhex(known)


def test_values_of_each_length(rng=np.random.default_rng(7)):
    for length in [*range(1, 40), 1000, 65537]:
        array = rng.integers(0, 256, length, "u1")
        chain = Chain(["bytes", {"name": "crc32c"}], (length,), "uint8")
        value = chain.encode(array)
        assert bytes(value) == array.tobytes() + checksum(array)
        same(chain.decode(value), array)


def test_each_damaged_byte_is_found():
    chain = Chain([LITTLE, "crc32c"], (2, 3), "int16", -1)
    array = np.arange(6, dtype="i2").reshape(2, 3)
    value = chain.encode(array)
    for place in range(value.size):
        for bit in range(8):
            damaged = value.copy()
            damaged[place] ^= 1 << bit
            for call in (
                lambda: chain.decode(damaged),
                lambda: chain.read(damaged, np.s_[0, 0]),
                lambda: chain.write(damaged, np.s_[1, 1], 7),
                lambda: chain.read_from(io.BytesIO(damaged.tobytes()), np.s_[1, 2]),
            ):
                with pytest.raises(z.BytesCodec):
                    call()
    for size in range(value.size):
        with pytest.raises(z.BytesCodec):
            chain.decode(value[:size])


def test_parts_and_what_is_planned():
    chain = Chain([LITTLE, "crc32c"], (4, 5), "float32", 2.5)
    array = np.arange(20, dtype="f4").reshape(4, 5)
    value = chain.encode(array)
    assert chain.unproved == () and chain.planned_ranges(np.s_[1, 2:]) is None
    same(chain.read(value, np.s_[1:3, ::2]), array[1:3, ::2])
    same(chain.read_from(io.BytesIO(bytes(value)), np.s_[:, 3]), array[:, 3])
    array[2, 1:4] = -1
    written = chain.write(value, np.s_[2, 1:4], -1)
    assert bytes(written) == array.tobytes() + checksum(array.tobytes())
    same(chain.decode(chain.write(None, np.s_[0, 0], 1))[0, :2], np.float32([1, 2.5]))
    assert bytes(chain.reencode(value, [LITTLE])) == bytes(value[:-4])


def test_inside_and_behind_other_codecs():
    texts = np.array(["a", "", "bc"], object)
    inside = {**VLEN["configuration"], "index_codecs": [LITTLE, "crc32c"], "data_codecs": ["bytes", "crc32c", "crc32c"]}
    chain = Chain([{**VLEN, "configuration": inside}, "crc32c"], (3,), "string")
    value = chain.encode(texts)
    assert bytes(value[-4:]) == checksum(value[:-4]) and b"abc" + checksum(b"abc") in bytes(value)
    same(chain.decode(value), texts)
    packed = Chain(["bytes", "crc32c", GZIP, GZIP], (100,), "uint8")
    array = np.arange(100, dtype="u1")
    same(packed.decode(packed.encode(array)), array)
    assert packed.unproved == ("gzip", "gzip")


def test_an_array_with_checksums(tmp_path):
    array = Array.create(tmp_path / "a", (10,), (4,), "int32", fill_value=3, codecs=[LITTLE, "crc32c"])
    array[1:7] = np.arange(6)
    same(Array(tmp_path / "a")[:], np.int32([3, 0, 1, 2, 3, 4, 5, 3, 3, 3]))
    chunk = tmp_path / "a" / "c" / "0"
    stored = chunk.read_bytes()
    assert stored[-4:] == checksum(stored[:-4])
    chunk.write_bytes(stored[:-1] + bytes([stored[-1] ^ 1]))
    with pytest.raises(z.BytesCodec):
        Array(tmp_path / "a")[2]
    same(Array(tmp_path / "a")[4:], np.int32([3, 4, 5, 3, 3, 3]))


def test_whose_a_refusal_is_is_asked_once(monkeypatch):
    chain = Chain(["bytes", "crc32c"], (4,), "uint8")
    damaged = b"abcd" + bytes(4)
    asked = []
    found = _locating._fails
    monkeypatch.setattr(_locating, "_fails", lambda *given: asked.append(given) or found(*given))
    with pytest.raises(z.BytesCodec, match="by codec 1, 'crc32c'"):
        chain.decode(damaged)
    assert len(asked) == 1


@pytest.mark.parametrize("name", ["sample.reverse", "sample.length", "CRC32C"])
def test_the_library_makes_no_other_codecs_of_bytes(name):
    with pytest.raises(z.UnknownName):
        Chain(["bytes", name], (4,), "uint8")
