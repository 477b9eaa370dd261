"""Refusals come as exceptions of the library's names."""

import itertools

import numpy as np
import pytest
from samples import BIG, LITTLE, VLEN, optional, transpose

import zarrs_codecs as z
from zarrs_codecs import Chain, _library


def reshape(*sizes):
    return {"name": "reshape", "configuration": {"shape": list(sizes)}}


def packed(**configuration):
    return {"name": "packbits", "configuration": configuration}


NAMES = [name for name in map(_library.name_of, range(2, 256)) if name]


def test_every_refusal_of_the_library_has_a_class():
    assert len(NAMES) >= 36
    for name in NAMES:
        refusal = getattr(z, name)
        assert refusal.__name__ == name and issubclass(refusal, z.Refused) and refusal.__doc__


def test_every_class_is_a_refusal_of_the_library():
    classes = {
        name
        for name, value in vars(z).items()
        if isinstance(value, type) and issubclass(value, z.Refused)
    }
    pythons = {"Refused", "InvalidElement", "InvalidMetadata", "InvalidText"}
    later = {"ElementCount", "IndivisibleShape", "IndexNotFixed"}
    assert classes | later == {*pythons, *NAMES, *later}


def test_kinds_of_refusals():
    assert issubclass(z.OutOfMemory, MemoryError)
    assert issubclass(z.OutOfBounds, IndexError)
    assert issubclass(z.Storage, OSError)
    assert issubclass(z.InvalidBytesLength, ValueError)


@pytest.mark.parametrize("code", [2, 3, 10, 11, 17, 50, 57])
def test_codes_raise_their_names(code):
    with pytest.raises(getattr(z, _library.name_of(code)), match=_library.name_of(code)):
        _library.checked(code)


def test_a_code_of_no_name():
    with pytest.raises(z.Refused):
        _library.checked(200)


@pytest.mark.parametrize(
    "name, codecs, shape, data_type",
    [
        ("UnknownName", ["adler32"], (4,), "int32"),
        ("UnknownName", ["sharding"], (4,), "int32"),
        ("InvalidConfiguration", ["sharding_indexed"], (4,), "int32"),
        ("UnknownName", [LITTLE, "adler32"], (4,), "int32"),
        ("UnknownName", ["gzip", LITTLE], (4,), "int32"),
        ("MissingArrayToBytes", [], (4,), "int32"),
        ("MissingArrayToBytes", [transpose([0])], (4,), "int32"),
        ("MultipleArrayToBytes", [LITTLE, "packbits"], (4,), "int32"),
        ("EndiannessMissing", ["bytes"], (4,), "int32"),
        (
            "InvalidConfiguration",
            [{"name": "bytes", "configuration": {"endian": "middle"}}],
            (4,),
            "int32",
        ),
        ("InvalidConfiguration", [5], (4,), "int32"),
        ("NotAPermutation", [transpose([0, 0]), LITTLE], (2, 2), "int32"),
        ("IncompatibleDimensionality", [transpose([1, 0]), LITTLE], (4,), "int32"),
        ("UnsupportedDataType", [LITTLE], (4,), "string"),
        ("UnsupportedDataType", [VLEN], (4,), "int32"),
        ("UnsupportedDataType", [optional("bytes")], (4,), "uint8"),
        ("ReshapeElements", [reshape(3), LITTLE], (4,), "int32"),
        ("ReshapeDimension", [reshape([1]), LITTLE], (4,), "int32"),
        ("MultipleAuto", [reshape(-1, -1), LITTLE], (4,), "int32"),
        ("ZeroSize", [reshape(0), LITTLE], (4,), "int32"),
        ("BitRange", [packed(first_bit=0, last_bit=32)], (4,), "int32"),
        ("BitOrder", [packed(first_bit=2, last_bit=1)], (4,), "int32"),
        ("Syntax", [LITTLE], (0,), "int32"),
        ("Overflow", [LITTLE], (2**32, 2**31), "int32"),
    ],
)
def test_chains_that_are_none(name, codecs, shape, data_type):
    with pytest.raises(getattr(z, name)) as refused:
        Chain(codecs, shape, data_type)
    assert type(refused.value) is getattr(z, name)


def changed(value, place, byte):
    damaged = bytearray(value)
    damaged[place] = byte
    return damaged


def test_damaged_values_of_bytes():
    chain = Chain([LITTLE], (4,), "int32")
    for value in (b"", bytes(15), bytes(17)):
        with pytest.raises(z.InvalidBytesLength):
            chain.decode(value)
    with pytest.raises(z.InvalidByteRange):
        chain.read(bytes(15), slice(0, 4))
    assert chain.read(bytes(15), slice(0, 3)).tolist() == [0, 0, 0]


def test_damaged_values_of_packbits():
    chain = Chain([packed(padding_encoding="first_byte")], (9,), "bool")
    value = chain.encode(np.ones(9, bool))
    with pytest.raises(z.PaddingByte):
        chain.decode(changed(value, 0, 9))
    with pytest.raises(z.InvalidBytesLength):
        chain.decode(value[:-1])


def test_damaged_values_of_texts():
    chain = Chain([VLEN], (2,), "string", "")
    value = chain.encode(np.array(["ab", "c"], object))
    with pytest.raises(z.InvalidOffsets):
        chain.decode(changed(value, 16, 9))
    with pytest.raises(z.IndexLength):
        chain.decode(changed(value, 0, 255))
    with pytest.raises(z.InvalidBytesLength):
        chain.decode(value[:4])


def test_damaged_values_of_masks():
    chain = Chain([optional("bytes", "bytes")], (2,), {"optional": "uint8"})
    value = chain.encode(np.ma.MaskedArray([1, 2], [False, False], "u1"))
    with pytest.raises(z.MaskValue):
        chain.decode(changed(value, 16, 2))
    with pytest.raises(z.HeaderOverflow):
        chain.decode(bytearray(b"\xff" * 16) + value[16:].tobytes())
    with pytest.raises(z.InvalidBytesLength):
        chain.decode(value[:-1])


def test_any_damage_raises_a_refusal_or_answers(rng):
    """Bytes that are changed, cut off or added never end otherwise."""
    chains = [
        Chain([VLEN], (3,), "bytes", b""),
        Chain([optional(BIG)], (3,), {"optional": "int16"}),
        Chain([packed(padding_encoding="last_byte")], (3, 5), "uint4"),
    ]
    arrays = [
        np.array([b"ab", b"", b"cde"], object),
        np.ma.MaskedArray([1, 2, 3], [False, True, False], "i2"),
        rng.integers(0, 16, (3, 5)).astype("u1"),
    ]
    for (chain, array), _ in itertools.product(zip(chains, arrays), range(200)):
        value = bytearray(chain.encode(array))
        value[rng.integers(len(value))] = rng.integers(256)
        value = (
            value[: rng.integers(len(value) + 1)]
            if rng.integers(2)
            else value + bytes(rng.integers(3))
        )
        for call in (lambda: chain.decode(value), lambda: chain.read(value, 0)):
            try:
                call()
            except z.Refused:
                continue


def test_reencoding_into_other_codecs_that_do_not_fit():
    chain = Chain([LITTLE], (4,), "int32")
    with pytest.raises(z.UnsupportedDataType):
        chain.reencode(bytes(16), [VLEN])
    with pytest.raises(z.InvalidBytesLength):
        chain.reencode(bytes(15), [BIG])
    with pytest.raises(z.UnknownName):
        chain.reencode(bytes(16), ["adler32"])


def masks(mask, data=LITTLE):
    return {"name": "zarrs.optional", "configuration": {"mask_codecs": mask, "data_codecs": [data]}}


def texts(**changes):
    return {**VLEN, "configuration": {**VLEN["configuration"], **changes}}


def shards(**changes):
    said = {"chunk_shape": [2], "codecs": [LITTLE], "index_codecs": [LITTLE], **changes}
    return {"name": "sharding_indexed", "configuration": said}


SHARD = (0, "sharding_indexed")


def without(codec, key):
    configuration = {name: value for name, value in codec["configuration"].items() if name != key}
    return {**codec, "configuration": configuration}


GZIP = {"name": "gzip", "configuration": {"level": 10}}
MIDDLE = {"name": "bytes", "configuration": {"endian": "middle"}}
INT, TEXT, MASKED = "int32", "string", {"optional": "int32"}


@pytest.mark.parametrize(
    "codecs, shape, data_type, name, codec, inner, key",
    [
        ([LITTLE, "adler32"], (4,), INT, "UnknownName", (1, "adler32"), (), None),
        ([LITTLE, GZIP], (4,), INT, "InvalidConfiguration", (1, "gzip"), (), "level"),
        ([LITTLE, "gzip"], (4,), INT, "InvalidConfiguration", (1, "gzip"), (), "level"),
        (["bytes"], (4,), INT, "EndiannessMissing", (0, "bytes"), (), "endian"),
        ([MIDDLE], (4,), INT, "InvalidConfiguration", (0, "bytes"), (), "endian"),
        ([LITTLE], (4,), TEXT, "UnsupportedDataType", (0, "bytes"), (), None),
        ([VLEN], (4,), INT, "UnsupportedDataType", (0, "zarrs.vlen"), (), None),
        ([transpose([0, 1]), transpose([0, 0]), LITTLE], (2, 2), INT, "NotAPermutation", (1, "transpose"), (), "order"),
        ([transpose([0]), transpose([1, 0]), LITTLE], (4,), INT, "IncompatibleDimensionality", (1, "transpose"), (), "order"),
        ([{"name": "transpose"}, LITTLE], (4,), INT, "InvalidConfiguration", (0, "transpose"), (), "order"),
        ([reshape(3), LITTLE], (4,), INT, "ReshapeElements", (0, "reshape"), (), "shape"),
        ([LITTLE, "packbits"], (4,), INT, "MultipleArrayToBytes", (1, "packbits"), (), None),
        ([transpose([0])], (4,), INT, "MissingArrayToBytes", None, (), None),
        ([packed(first_bit=0, last_bit=32)], (4,), INT, "BitRange", (0, "packbits"), (), "last_bit"),
        ([packed(padding_encoding="first")], (4,), INT, "InvalidConfiguration", (0, "packbits"), (), "padding_encoding"),
        ([texts(index_codecs=["adler32"])], (4,), TEXT, "UnknownName", (0, "zarrs.vlen"), (("index_codecs", 0, "adler32"),), None),
        ([texts(data_codecs=["bytes", "adler32"])], (4,), TEXT, "UnknownName", (0, "zarrs.vlen"), (("data_codecs", 1, "adler32"),), None),
        ([texts(index_codecs=[])], (4,), TEXT, "MissingArrayToBytes", (0, "zarrs.vlen"), (), "index_codecs"),
        ([texts(index_location="middle")], (4,), TEXT, "InvalidConfiguration", (0, "zarrs.vlen"), (), "index_location"),
        ([without(VLEN, "index_data_type")], (4,), TEXT, "InvalidConfiguration", (0, "zarrs.vlen"), (), "index_data_type"),
        ([texts(data_codecs=[MIDDLE])], (4,), TEXT, "InvalidConfiguration", (0, "zarrs.vlen"), (("data_codecs", 0, "bytes"),), "endian"),
        ([masks(["packbits"], "bytes")], (4,), MASKED, "EndiannessMissing", (0, "zarrs.optional"), (("data_codecs", 0, "bytes"),), "endian"),
        ([masks([transpose([1, 0]), "packbits"])], (4,), MASKED, "IncompatibleDimensionality", (0, "zarrs.optional"), (("mask_codecs", 0, "transpose"),), "order"),
        (
            [masks(["packbits"], texts(index_codecs=[transpose([0, 0]), LITTLE]))],
            (4,),
            {"optional": "string"},
            "NotAPermutation",
            (0, "zarrs.optional"),
            (("data_codecs", 0, "zarrs.vlen"), ("index_codecs", 0, "transpose")),
            "order",
        ),
        ([shards(codecs=[LITTLE, "adler32"])], (4,), INT, "UnknownName", SHARD, (("codecs", 1, "adler32"),), None),
        ([shards(index_codecs=["adler32"])], (4,), INT, "UnknownName", SHARD, (("index_codecs", 0, "adler32"),), None),
        ([shards(codecs=["bytes"])], (4,), INT, "EndiannessMissing", SHARD, (("codecs", 0, "bytes"),), "endian"),
        ([shards(index_codecs=["bytes"])], (4,), INT, "EndiannessMissing", SHARD, (("index_codecs", 0, "bytes"),), "endian"),
        ([shards(chunk_shape=[3])], (4,), INT, "IndivisibleShape", SHARD, (), "chunk_shape"),
        ([shards(chunk_shape=[2, 2])], (4,), INT, "IncompatibleDimensionality", SHARD, (), "chunk_shape"),
        ([shards(chunk_shape=[0])], (4,), INT, "ZeroSize", SHARD, (), "chunk_shape"),
        ([shards(index_location="middle")], (4,), INT, "InvalidConfiguration", SHARD, (), "index_location"),
        ([without(shards(), "codecs")], (4,), INT, "InvalidConfiguration", SHARD, (), "codecs"),
        ([shards(codecs=[packed(first_bit=1, last_bit=32)])], (4,), INT, "BitRange", SHARD, (("codecs", 0, "packbits"),), "last_bit"),
        ([shards(index_codecs=[shards(chunk_shape=[1, 1])])], (4,), INT, "IndexNotFixed", SHARD, (("index_codecs", 0, "sharding_indexed"),), None),
        ([transpose([1, 0]), shards(chunk_shape=[3, 1])], (2, 4), INT, "IndivisibleShape", (1, "sharding_indexed"), (), "chunk_shape"),
        ([masks(["packbits"], shards(codecs=["bytes"]))], (4,), MASKED, "EndiannessMissing", (0, "zarrs.optional"), (("data_codecs", 0, "sharding_indexed"), ("codecs", 0, "bytes")), "endian"),
        ([LITTLE], (2**40, 2**40), INT, "Overflow", None, (), None),
    ],
)
def test_a_refusal_says_where(codecs, shape, data_type, name, codec, inner, key):
    with pytest.raises(getattr(z, name)) as told:
        Chain(codecs, shape, data_type)
    assert (told.value.codec, told.value.inner, told.value.key) == (codec, inner, key)


def test_what_a_refusal_prints():
    with pytest.raises(z.InvalidConfiguration) as told:
        Chain([texts(data_codecs=[transpose([0]), MIDDLE])], (4,), "string")
    expected = "InvalidConfiguration, by codec 0, 'zarrs.vlen', in its data_codecs[1], 'bytes', for its key 'endian'"
    assert str(told.value) == expected


def test_refusals_that_come_when_a_chunk_is_encoded():
    """What the codecs inside others are given, the library sees then."""
    chain = Chain([texts(index_codecs=["bytes"])], (2,), "string", "")
    for call in (
        lambda: chain.encode(np.array(["a", "b"], object)),
        lambda: chain.write(None, 0, "a"),
        lambda: chain.reencode(Chain([VLEN], (2,), "string", "").encode(np.array(["", ""], object)), [VLEN]),
    ):
        with pytest.raises(z.EndiannessMissing) as told:
            call()
        assert told.value.codec == (0, "zarrs.vlen")
        assert told.value.inner == (("index_codecs", 0, "bytes"),) and told.value.key == "endian"
    other = Chain([VLEN], (2,), "string", "")
    with pytest.raises(z.EndiannessMissing) as told:
        other.reencode(other.encode(np.array(["a", "b"], object)), chain.codecs)
    assert told.value.inner == (("index_codecs", 0, "bytes"),)


@pytest.mark.parametrize(
    "codecs, hint",
    [
        (["squeeze", LITTLE], "'zarrs.squeeze'"),
        (["vlen"], "'zarrs.vlen'"),
        ([{"name": "gzip", "configuration": {"level": 1}}, LITTLE], "Python runs gzip at the end"),
    ],
)
def test_what_could_help(codecs, hint):
    with pytest.raises(z.UnknownName, match=hint):
        Chain(codecs, (4,), "int32")


def nested(depth):
    value = 5
    for _ in range(depth):
        value = [value]
    return value


DEEP_TYPE = "int32"
for _ in range(5000):
    DEEP_TYPE = {"optional": DEEP_TYPE}


@pytest.mark.parametrize(
    "codecs, data_type, fill",
    [
        ([nested(5000)], "int32", 0),
        ([{"name": "transpose", "configuration": {"order": nested(400)}}, LITTLE], "int32", 0),
        ([{1, 2}], "int32", 0),
        ([LITTLE, object()], "int32", 0),
        ([{"name": "bytes", "configuration": {"endian": float("nan")}}], "int32", 0),
        ([LITTLE], DEEP_TYPE, 0),
        ([LITTLE], "int33", 0),
        ([LITTLE], 5, 0),
        ([LITTLE], ["int32"], 0),
        ([LITTLE], {"name": "int32", "configuration": [1]}, 0),
        ([LITTLE], "float32", 10**400),
        ([LITTLE], "float32", "0x7fc0"),
        ([LITTLE], "float32", "0xzz"),
        ([LITTLE], "float32", "1_0"),
        ([LITTLE], "float32", [0]),
        ([LITTLE], "complex64", [1, 2, 3]),
        ([LITTLE], "complex64", 10**400),
        ([LITTLE], "int32", 2**31),
        ([LITTLE], "int32", 1.5),
        ([LITTLE], "int32", nested(5000)),
        (["bytes"], "bool", "true"),
        (["bytes"], "r16", {1: 2, 3: 4}),
        (["bytes"], "r16", [1, 2, 3]),
        (["bytes"], "r16", [300, 0]),
        (["bytes"], "r16", "AAA"),
        ([VLEN], "string", "\ud800"),
        ([VLEN], "string", 5),
        ([VLEN], "bytes", "=="),
    ],
)
def test_bad_metadata_raises_refusals_alone(codecs, data_type, fill):
    with pytest.raises(z.Refused):
        Chain(codecs, (4,), data_type, fill)


@pytest.mark.parametrize("codec, data_type, fill", [("bytes", "r16", 2), (VLEN, "bytes", 3), ("bytes", "r16", np.uint8(2)), (VLEN, "bytes", True)])
def test_a_number_is_no_list_of_bytes(codec, data_type, fill):
    """Python's `bytes` makes so many zeros of one."""
    with pytest.raises(z.InvalidFillValue, match="is no list of bytes"):
        Chain([codec], (4,), data_type, fill)


SHORT = [
    ([LITTLE], INT, 15, "InvalidBytesLength", 0, "15 bytes, where 16 are due"),
    ([transpose([0]), LITTLE], INT, 17, "InvalidBytesLength", 1, "17 bytes, where 16 are due"),
    (["packbits"], "bool", 0, "InvalidBytesLength", 0, "0 bytes, where 1 are due"),
    ([VLEN], TEXT, 7, "InvalidBytesLength", 0, None),
    (["vlen-utf8"], TEXT, 3, "InvalidBytesLength", 0, None),
    ([masks(["packbits"])], MASKED, 15, "InvalidBytesLength", 0, None),
    ([transpose([0]), shards()], INT, 3, "InvalidBytesLength", 1, None),
    ([transpose([0]), LITTLE, "crc32c"], INT, 3, "BytesCodec", 2, "3 bytes, where 20 are due"),
    (["vlen-utf8", "crc32c"], TEXT, 3, "BytesCodec", 1, None),
]


@pytest.mark.parametrize("codecs, data_type, length, name, place, says", SHORT)
def test_a_refusal_of_a_value_says_which_codec(codecs, data_type, length, name, place, says):
    chain = Chain(codecs, (4,), data_type)
    calls = [chain.decode, lambda value: chain.reencode(value, codecs)]
    if says is None or "crc32c" in codecs:
        calls += [lambda value: chain.read(value, 0), lambda value: chain.read_many(value, [0])]
        calls.append(lambda value: chain.write(value, 0, chain.read(None, 0)))
    for call in calls:
        with pytest.raises(getattr(z, name)) as told:
            call(bytes(length))
        codec = codecs[place]
        assert told.value.codec == (place, codec if isinstance(codec, str) else codec["name"])
        assert says is None or str(told.value).startswith(says)


EMPTY = Chain([VLEN], (4,), TEXT, "")
CHECKED = Chain(["bytes", "crc32c"], (20,), "uint8")


def test_a_part_that_a_value_lacks_says_which_codec():
    with pytest.raises(z.InvalidByteRange, match="^15 bytes, where 16 are due, by codec 1, 'bytes'$"):
        Chain([transpose([0]), LITTLE], (4,), INT).read(bytes(15), slice(None))


@pytest.mark.parametrize(
    "codecs, data_type, value, name, place",
    [
        ([VLEN], TEXT, (8).to_bytes(8, "little") + bytes(4), "IndexLength", 0),
        ([transpose([0]), VLEN], TEXT, changed(EMPTY.encode([""] * 4), 16, 9), "InvalidOffsets", 1),
        (["vlen-utf8"], TEXT, b"\1\0\0\0", "ElementCount", 0),
        ([masks(["bytes"])], MASKED, b"\xff" * 16, "HeaderOverflow", 0),
        ([masks(["bytes"])], MASKED, (4).to_bytes(8, "little") + bytes(8) + b"\2" * 4, "MaskValue", 0),
        ([packed(padding_encoding="first_byte")], "bool", b"\1\0", "PaddingByte", 0),
        ([LITTLE, "crc32c"], INT, bytes(20), "BytesCodec", 1),
        ([LITTLE, "crc32c", "crc32c"], INT, b"", "BytesCodec", 2),
        ([LITTLE, "crc32c", "crc32c"], INT, CHECKED.encode([0] * 20), "BytesCodec", 1),
        (["vlen-utf8", "crc32c"], TEXT, bytes(4), "InvalidBytesLength", 0),
    ],
)
def test_refusals_of_values_that_are_damaged(codecs, data_type, value, name, place):
    chain = Chain(codecs, (4,), data_type)
    with pytest.raises(getattr(z, name)) as told:
        chain.decode(value)
    codec = codecs[place]
    assert told.value.codec == (place, codec if isinstance(codec, str) else codec["name"])


def test_a_refusal_of_elements_says_which_codec():
    chain = Chain([texts(index_codecs=[packed(first_bit=0, last_bit=0)])], (1,), TEXT, "")
    for call in (lambda: chain.encode(["ab"]), lambda: chain.write(None, 0, "ab")):
        with pytest.raises(z.OffsetNotKept) as told:
            call()
        assert told.value.codec == (0, "zarrs.vlen")


def test_what_the_library_cannot_read_is_named():
    with pytest.raises(z.Syntax, match="shape"):
        Chain([LITTLE], (3, 0), "int32")
    with pytest.raises(z.Syntax, match="shape"):
        Chain([shards()], (-1,), "int32")
    for wrong in ({"name": 2**64}, {"name": "bytes", "configuration": {"endian": "\ud800"}}):
        with pytest.raises(z.Syntax) as told:
            Chain([transpose([0]), wrong], (4,), "int32")
        assert told.value.codec[0] == 1


def test_bytes_that_are_no_text():
    chain = Chain([VLEN], (2,), "string", "")
    value = Chain([VLEN], (2,), "bytes", b"").encode(np.array([b"a", b"\xff"], object))
    for call in (lambda: chain.decode(value), lambda: chain.read(value, 1)):
        with pytest.raises(z.InvalidText):
            call()
    assert chain.read(value, 0) == "a"
    with pytest.raises(z.InvalidText):
        chain.encode(np.array(["a", "\ud800"], object))


def test_arguments_of_another_kind():
    chain = Chain([LITTLE], (4,), "int32")
    for call in (
        lambda: chain.read(bytes(16), np.s_[::2], out=[0, 0]),
        lambda: chain.decode(bytes(16), out=[0] * 4),
        lambda: chain.read_from(object(), 0),
        lambda: chain.decode("text"),
    ):
        with pytest.raises(TypeError):
            call()
    with pytest.raises(ValueError, match="float32"):
        Chain([LITTLE], (1,), "float32").encode([10**400])
    single = Chain([LITTLE], (1,), "float32")
    assert single.decode(single.encode([10**30])) == np.float32(1e30)
    with pytest.raises(TypeError):
        single.encode(np.array(["1"], object))


JUNK = [
    *(None, True, 0, -1, 1, 2**70, 10**400, 1.5, float("nan"), "", "x", "bytes", "int32", "NaN"),
    *([], [0], [1, 1], [[]], {}, {"name": "bytes"}, {"name": 5}, {"optional": "int8"}, nested(60)),
]


def spoilt(rng, tree):
    """The tree with junk at a random place, or without what is there."""
    if rng.integers(4) == 0 or not isinstance(tree, (dict, list)) or not tree:
        return JUNK[rng.integers(len(JUNK))]
    tree = tree.copy()
    keys = list(tree) if isinstance(tree, dict) else range(len(tree))
    key = keys[rng.integers(len(keys))]
    if rng.integers(6) == 0:
        del tree[key]
    else:
        tree[key] = spoilt(rng, tree[key])
    return tree


def test_any_spoilt_chain_raises_a_refusal_or_is_made():
    seed = int(np.random.SeedSequence().entropy % 2**32)
    rng = np.random.default_rng(seed)
    whole = [
        ([transpose([1, 0]), reshape(6), LITTLE, {"name": "gzip", "configuration": {"level": 1}}], "int32", 0),
        ([texts(data_codecs=[transpose([0]), LITTLE])], "string", "a"),
        ([masks([packed(first_bit=0)], texts())], {"name": "zarrs.optional", "configuration": {"name": "string"}}, ["a"]),
        ([packed(padding_encoding="last_byte", last_bit=1)], "uint4", 3),
        ([LITTLE], "complex64", [0, "NaN"]),
        ([shards(chunk_shape=[1, 3], codecs=[LITTLE, "crc32c"])], "int32", 7),
        ([shards(chunk_shape=[2, 1], codecs=[LITTLE, {"name": "gzip", "configuration": {"level": 1}}])], "int32", 7),
    ]
    for number in range(2000):
        said = list(whole[rng.integers(len(whole))])
        for _ in range(rng.integers(1, 3)):
            said = spoilt(rng, said)
        if not isinstance(said, list) or len(said) != 3:
            continue
        try:
            chain = Chain(said[0] if isinstance(said[0], list) else [said[0]], (2, 3), *said[1:])
            chain.decode(chain.write(None, (), chain.read(None, ())))
        except z.Refused as error:
            assert str(error)
        except Exception as error:
            raise AssertionError(f"seed {seed}, number {number}: {said!r:.1000}") from error
