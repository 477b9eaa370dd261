#!/usr/bin/env python3
"""The line tool a second time, written from the published formats: slow, element by element, and no code of the crates.

tools/model.py < LINES                 answers the lines as zarrs_chain_tool does, with its exit status
tools/model.py --transcripts FOLDER    plays the transcripts of a folder: prints each run that they have otherwise, and how
                                       many runs there are; the status is 1 where one differs

A chunk is a list of elements in row-major order. An element is bytes; of an optional type None, or a list of one element of
the type inside. A value is bytes. A chain is a list of array-to-array codecs, an array-to-bytes codec, and a list of
bytes-to-bytes codecs. What is refused is raised, by the name that the answer has: the order of the tests is the order of
refusals. Memory is taken to be there.
"""
import itertools
import json
import math
import pathlib
import sys

MOST = 2**64 - 1
ENOUGH = 2**20
DEEPEST = 127
PAGES = "https://codec.zarrs.dev"
NAMES = {
    "transpose": "transpose",
    "reshape": "reshape",
    "zarrs.squeeze": "squeeze",
    PAGES + "/array_to_array/squeeze": "squeeze",
    "bytes": "bytes",
    "endian": "bytes",
    "packbits": "packbits",
    "zarrs.vlen": "vlen",
    PAGES + "/array_to_bytes/vlen": "vlen",
    "zarrs.optional": "optional",
    "optional": "optional",
    PAGES + "/array_to_bytes/optional": "optional",
    "sharding_indexed": "sharding",
    "vlen-utf8": "vlen-utf8",
    "vlen-bytes": "vlen-bytes",
    "crc32c": "crc32c",
    "sample.reverse": "sample.reverse",
    "sample.length": "sample.length",
}
TO_ARRAY = ("transpose", "reshape", "squeeze")
TO_BYTES = ("bytes", "packbits", "vlen", "optional", "sharding", "vlen-utf8", "vlen-bytes")


class Refused(Exception):
    """A refusal; its text is the name."""


class TooLarge(Exception):
    """More elements than are made here; nothing is said of such a line."""


def require(holds, name):
    if not holds:
        raise Refused(name)


def counted(number):
    """The number, where 64 bits count it."""
    require(number <= MOST, "Overflow")
    return number


def made(number):
    """The number, where so many elements are made here."""
    if number > ENOUGH:
        raise TooLarge
    return number


# -- JSON ------------------------------------------------------------------------------------------------------------


class Float:
    """A number that no whole number of 64 bits is."""


def read_whole(text):
    number = int(text) if len(text) < 25 else None
    if text == "-0" or number is None or not -(2**63) <= number <= MOST:
        return read_float(text)
    return number


def read_float(text):
    require(math.isfinite(float(text)), "Syntax")
    return Float()


def refuse_constant(_):
    raise Refused("Syntax")


READER = json.JSONDecoder(parse_int=read_whole, parse_float=read_float, parse_constant=refuse_constant)


def require_depth(text):
    """Lists and objects stand in each other to a depth, which is looked at before anything else is."""
    depth, is_text, at = 0, False, 0
    if text.count("[") + text.count("{") <= DEEPEST:
        return
    while at < len(text):
        letter = text[at]
        if is_text and letter == "\\":
            at += 1
        elif letter == '"':
            is_text = not is_text
        elif not is_text and letter in "[{":
            depth += 1
            require(depth <= DEEPEST, "Syntax")
        elif not is_text and letter in "]}":
            depth -= 1
        at += 1


def is_readable(tree):
    """Whether a tree has no float, and no text with half a letter."""
    if isinstance(tree, dict):
        return all(is_readable(it) for pair in tree.items() for it in pair)
    if isinstance(tree, list):
        return all(map(is_readable, tree))
    if isinstance(tree, str):
        return tree.isascii() or not any(0xD800 <= ord(letter) < 0xE000 for letter in tree)
    return not isinstance(tree, Float)


def read_json(text):
    """The tree of a JSON text without floats. Of keys that come twice the last stands."""
    require_depth(text)
    try:
        tree = READER.decode(text)
    except (ValueError, RecursionError):
        raise Refused("Syntax") from None
    require(is_readable(tree), "Syntax")
    return tree


def is_number(tree):
    return isinstance(tree, int) and not isinstance(tree, bool) and tree >= 0


def is_numbers(tree):
    return isinstance(tree, list) and all(map(is_number, tree))


def read_hex(tree):
    require(isinstance(tree, str), "Syntax")
    require(len(tree) % 2 == 0 and all(letter in "0123456789abcdefABCDEF" for letter in tree), "Syntax")
    return bytes.fromhex(tree)


# -- Data types: ("fixed", bits, components, is_signed), ("variable", name), ("optional", inside) ---------------------


def named_types():
    types = {"bool": ("fixed", 1, 1, False), "string": ("variable", "string"), "bytes": ("variable", "bytes")}
    for bits in (2, 4, 8, 16, 32, 64):
        types[f"int{bits}"] = ("fixed", bits, 1, True)
        types[f"uint{bits}"] = ("fixed", bits, 1, False)
    return types


TYPES = named_types()
BOOL, UINT8, UINT64 = TYPES["bool"], TYPES["uint8"], TYPES["uint64"]
# the codecs whose elements stand each behind its length, and the one type of each
PREFIXED = {"vlen-utf8": TYPES["string"], "vlen-bytes": TYPES["bytes"]}


def read_type(tree):
    if isinstance(tree, str):
        require(tree in TYPES, "Syntax")
        return TYPES[tree]
    require(isinstance(tree, dict) and len(tree) == 1, "Syntax")
    if "optional" in tree:
        return ("optional", read_type(tree["optional"]))
    said = tree.get("components")
    require(isinstance(said, dict) and sorted(said) == ["bits", "count", "signed"], "Syntax")
    bits, count, signed = said["bits"], said["count"], said["signed"]
    require(is_number(bits) and is_number(count) and isinstance(signed, bool), "Syntax")
    require(bits >= 1 and count >= 1, "BitRange")
    of_type = ("fixed", bits, count, signed)
    counted(size_of(of_type))
    return of_type


def width_of(of_type):
    """How many bytes a component has."""
    return -(-of_type[1] // 8)


def size_of(of_type):
    return of_type[2] * width_of(of_type)


def does_fit(fill, of_type):
    if of_type[0] == "fixed":
        return len(fill) == size_of(of_type)
    if of_type[0] == "variable":
        return True
    return fill == b"\0" or fill[-1:] == b"\1" and does_fit(fill[:-1], of_type[1])


def element_of_fill(fill, of_type):
    if of_type[0] != "optional":
        return fill
    return None if fill == b"\0" else [element_of_fill(fill[:-1], of_type[1])]


def blank_fill(of_type):
    """The fill value that a chain inside is given."""
    return {"fixed": lambda: bytes(made(size_of(of_type))), "variable": lambda: b"", "optional": lambda: b"\0"}[of_type[0]]()


def count_of(shape):
    """How many elements a chunk has."""
    return counted(math.prod(shape))


def require_room(shape, of_type):
    """How many elements the chunk has, which 64 bits count, and their bytes or offsets."""
    inside = of_type
    while inside[0] == "optional":
        inside = inside[1]
    count = count_of(shape)
    counted(count + 1 if inside[0] == "variable" else count * size_of(inside))
    return count


def require_elements(count, shape, of_type):
    """As many elements as the chunk has."""
    require(count == require_room(shape, of_type), "InvalidBytesLength")


# -- Metadata and codecs ---------------------------------------------------------------------------------------------


def valid(holds):
    require(holds, "InvalidConfiguration")


def read_metadata(tree):
    """The name, the configuration, and whether it must be understood."""
    if isinstance(tree, str):
        return tree, {}, True
    valid(isinstance(tree, dict) and isinstance(tree.get("name"), str))
    configuration, must = tree.get("configuration"), tree.get("must_understand")
    valid(configuration is None or isinstance(configuration, dict))
    valid(must is None or isinstance(must, bool))
    return tree["name"], configuration or {}, must is not False


def read_list(tree):
    valid(isinstance(tree, list))
    return [read_metadata(it) for it in tree]


def make_transpose(said):
    order = said.get("order")
    valid(is_numbers(order))
    require(sorted(order) == list(range(len(order))), "NotAPermutation")
    return ("transpose", order)


def make_reshape(said):
    sizes = said.get("shape")
    valid(isinstance(sizes, list))
    for size in sizes:
        valid(is_number(size) or is_numbers(size) or isinstance(size, int) and not isinstance(size, bool) and size == -1)
    require(0 not in [it for it in sizes if not isinstance(it, list)], "ZeroSize")
    require(sum(it == -1 for it in sizes) <= 1, "MultipleAuto")
    return ("reshape", sizes)


def make_bytes(said):
    endian = said.get("endian")
    valid(endian is None or endian in ("little", "big"))
    return ("bytes", endian)


def make_packbits(said):
    padding, first, last = said.get("padding_encoding"), said.get("first_bit"), said.get("last_bit")
    valid(padding is None or padding in ("none", "first_byte", "last_byte"))
    valid((first is None or is_number(first)) and (last is None or is_number(last)))
    require(first is None or last is None or first <= last, "BitOrder")
    return ("packbits", padding or "none", first, last)


def make_vlen(said):
    index, data = read_list(said.get("index_codecs")), read_list(said.get("data_codecs"))
    offset, place = said.get("index_data_type"), said.get("index_location", "start")
    valid(isinstance(offset, str) and offset in ("uint32", "uint64"))
    valid(isinstance(place, str) and place in ("start", "end"))
    return ("vlen", make_chain(index), make_chain(data), TYPES[offset], place)


def make_optional(said):
    mask, data = read_list(said.get("mask_codecs")), read_list(said.get("data_codecs"))
    return ("optional", make_chain(mask), make_chain(data))


def make_sharding(said):
    shape, place = said.get("chunk_shape"), said.get("index_location", "end")
    valid(is_numbers(shape))
    inner, index = read_list(said.get("codecs")), read_list(said.get("index_codecs"))
    valid(isinstance(place, str) and place in ("start", "end"))
    require(0 not in shape, "ZeroSize")
    return ("sharding", shape, make_chain(inner), make_chain(index), place)


def make_codec(name, said):
    require(name in NAMES, "UnknownName")
    makers = {
        "transpose": make_transpose,
        "reshape": make_reshape,
        "bytes": make_bytes,
        "packbits": make_packbits,
        "vlen": make_vlen,
        "optional": make_optional,
        "sharding": make_sharding,
    }
    kind = NAMES[name]
    return makers[kind](said) if kind in makers else (kind,)


def make_chain(metadatas):
    """The array-to-array codecs, the array-to-bytes codec, the bytes-to-bytes codecs."""
    arrays, to_bytes, behind = [], None, []
    for name, said, must in metadatas:
        try:
            codec = make_codec(name, said)
        except Refused:
            if must:
                raise
            continue
        if codec[0] in TO_BYTES:
            require(to_bytes is None, "MultipleArrayToBytes")
            to_bytes = codec
        else:
            (arrays if codec[0] in TO_ARRAY else behind).append(codec)
    require(to_bytes is not None, "MissingArrayToBytes")
    return arrays, to_bytes, behind


# -- Whether a chain takes a chunk -----------------------------------------------------------------------------------


def reshaped(sizes, shape):
    new = []
    for size in sizes:
        if isinstance(size, list):
            require(all(axis < len(shape) for axis in size), "ReshapeDimension")
            size = counted(math.prod(shape[axis] for axis in size))
        new.append(size)
    count, others = count_of(shape), counted(math.prod(it for it in new if it != -1))
    if -1 in new:
        require(count % others == 0, "ReshapeElements")
        return [count // others if it == -1 else it for it in new]
    require(count == others, "ReshapeElements")
    return new


def shape_behind(codec, shape, of_type):
    """The shape that an array-to-array codec gives a chunk."""
    if codec[0] == "transpose":
        require(of_type[0] != "optional", "UnsupportedDataType")
        require(len(codec[1]) == len(shape), "IncompatibleDimensionality")
        return [shape[axis] for axis in codec[1]]
    if codec[0] == "reshape":
        return reshaped(codec[1], shape)
    return [size for size in shape if size > 1] or [1]


def shapes_of(chain, shape, of_type):
    """The shape before each array-to-array codec, and behind the last."""
    shapes = [shape]
    for codec in chain[0]:
        shapes.append(shape_behind(codec, shapes[-1], of_type))
    return shapes


def kept_bits(codec, of_type):
    """The first and the last bit that packbits keeps of a component."""
    first = 0 if codec[2] is None else codec[2]
    last = of_type[1] - 1 if codec[3] is None else codec[3]
    require(first <= last < of_type[1], "BitRange")
    return first, last


def is_whole_bytes(codec, of_type):
    return of_type[1] % 8 == 0 and kept_bits(codec, of_type) == (0, of_type[1] - 1)


def require_fit_of_fixed(codec, shape, of_type, fill):
    """Of bytes and packbits."""
    require(of_type[0] == "fixed", "UnsupportedDataType")
    require(does_fit(fill, of_type), "InvalidFillValue")
    if codec[0] == "packbits":
        first, last = kept_bits(codec, of_type)
    counted(count_of(shape) * size_of(of_type))
    if codec[0] == "packbits" and not is_whole_bytes(codec, of_type):
        counted(count_of(shape) * of_type[2] * (last - first + 1))
    if codec[0] == "bytes":
        require(codec[1] is not None or width_of(of_type) == 1, "EndiannessMissing")


def require_fit(chain, shape, of_type, fill):
    """That the chain takes such chunks."""
    shape, codec = shapes_of(chain, shape, of_type)[-1], chain[1]
    if codec[0] in ("bytes", "packbits"):
        require_fit_of_fixed(codec, shape, of_type, fill)
    elif codec[0] == "vlen":
        require(of_type[0] == "variable", "UnsupportedDataType")
        count_of(shape)
    elif codec[0] in PREFIXED:
        require(of_type == PREFIXED[codec[0]], "UnsupportedDataType")
        count_of(shape)
    elif codec[0] == "sharding":
        require_fit_of_shard(codec, shape, of_type, fill)
    else:
        require(of_type[0] == "optional", "UnsupportedDataType")
        require(does_fit(fill, of_type), "InvalidFillValue")
        count_of(shape)
        require_fit(codec[1], shape, BOOL, b"\0")
        require_fit(codec[2], shape, of_type[1], blank_fill(of_type[1]))


def require_fit_of_shard(codec, shape, of_type, fill):
    """Of sharding_indexed."""
    _, inner_shape, inner, index, _ = codec
    require(len(inner_shape) == len(shape), "IncompatibleDimensionality")
    require(all(size % part == 0 for size, part in zip(shape, inner_shape)), "IndivisibleShape")
    require_room(shape, of_type)
    require_fit(inner, inner_shape, of_type, fill)
    element = element_of_fill(fill, of_type)
    require(kept(inner, element, of_type) == element, "InvalidFillValue")
    require_fit(index, index_shape(codec, shape), UINT64, bytes(8))
    require(index[1][0] in ("bytes", "packbits"), "IndexNotFixed")


def index_shape(codec, shape):
    return [size // part for size, part in zip(shape, codec[1])] + [2]


def has_bits(codec, of_type):
    """Whether packbits has a range of bits in a type."""
    try:
        return of_type[0] == "fixed" and bool(kept_bits(codec, of_type))
    except Refused:
        return False


def kept(chain, element, of_type):
    """What a chain keeps of an element: all of it, where its array-to-bytes codec doesn't take the type."""
    codec = chain[1]
    if codec[0] == "packbits" and has_bits(codec, of_type):
        return decode_fixed(codec, encode_fixed(codec, [element], of_type), 1, of_type)[0]
    if codec[0] == "vlen" and of_type[0] == "variable":
        return b"".join(kept(codec[2], bytes([byte]), UINT8) for byte in element)
    if codec[0] == "optional" and of_type[0] == "optional":
        return None if element is None else [kept(codec[2], element[0], of_type[1])]
    return kept(codec[2], element, of_type) if codec[0] == "sharding" else element


# -- Coordinate maps -------------------------------------------------------------------------------------------------


def place_of(indices, shape):
    """The row-major number of an element."""
    place = 0
    for index, size in zip(indices, shape):
        place = place * size + index
    return place


def indices_of(place, shape):
    indices = []
    for size in reversed(shape):
        indices.insert(0, place % size)
        place //= size
    return indices


def place_behind(codec, place, before, behind):
    """Where an array-to-array codec puts the element of a place, by its two shapes; reshape and squeeze keep the order."""
    if codec[0] != "transpose":
        return place
    indices = indices_of(place, before)
    return place_of([indices[axis] for axis in codec[1]], behind)


def last_places(chain, places, shape, of_type):
    """Where all of a chain's put the elements of these places."""
    shapes = shapes_of(chain, shape, of_type)
    for codec, before, behind in zip(chain[0], shapes, shapes[1:]):
        places = [place_behind(codec, place, before, behind) for place in places]
    return places


def moved(chain, chunk, shape, of_type):
    """The chunk as the array-to-bytes codec gets it."""
    new = [None] * len(chunk)
    for place, element in zip(last_places(chain, range(len(chunk)), shape, of_type), chunk):
        new[place] = element
    return new


def moved_back(chain, chunk, shape, of_type):
    return [chunk[place] for place in last_places(chain, range(len(chunk)), shape, of_type)]


# -- bytes, packbits -------------------------------------------------------------------------------------------------


def components_of(element, of_type):
    width = width_of(of_type)
    return [element[at : at + width] for at in range(0, len(element), width)]


def turned(element, codec, of_type):
    """The bytes of an element as `bytes` stores them, and back."""
    if codec[1] != "big":
        return element
    return b"".join(part[::-1] for part in components_of(element, of_type))


def bits_of(data):
    return [byte >> bit & 1 for byte in data for bit in range(8)]


def bytes_of(bits):
    bits = bits + [0] * (-len(bits) % 8)
    return bytes(sum(bits[at + bit] << bit for bit in range(8)) for at in range(0, len(bits), 8))


def packed_component(part, first, last):
    return bits_of(part)[first : last + 1]


def unpacked_component(bits, first, last, of_type):
    above = bits[-1] if of_type[3] else 0
    return bytes_of([0] * first + bits + [above] * (8 * width_of(of_type) - 1 - last))


def spare_bits(count, codec, of_type):
    first, last = kept_bits(codec, of_type)
    return -(count * of_type[2] * (last - first + 1)) % 8


def encode_fixed(codec, chunk, of_type):
    if codec[0] == "bytes" or is_whole_bytes(codec, of_type):
        return b"".join(turned(it, codec if codec[0] == "bytes" else ("bytes", "little"), of_type) for it in chunk)
    first, last = kept_bits(codec, of_type)
    bits = [bit for it in chunk for part in components_of(it, of_type) for bit in packed_component(part, first, last)]
    spare = bytes([spare_bits(len(chunk), codec, of_type)])
    before, after = spare * (codec[1] == "first_byte"), spare * (codec[1] == "last_byte")
    return before + bytes_of(bits) + after


def element_at(codec, value, place, of_type):
    """The element of a place, from its bytes alone."""
    if codec[0] == "bytes" or is_whole_bytes(codec, of_type):
        size = size_of(of_type)
        require((place + 1) * size <= len(value), "InvalidByteRange")
        part = value[place * size : (place + 1) * size]
        return turned(part, codec if codec[0] == "bytes" else ("bytes", "little"), of_type)
    first, last = kept_bits(codec, of_type)
    kept, many = last - first + 1, of_type[2]
    before = 8 * (codec[1] == "first_byte")
    begin, end = before + place * many * kept, before + (place + 1) * many * kept
    require(end <= 8 * len(value), "InvalidByteRange")
    bits = [value[at // 8] >> at % 8 & 1 for at in range(begin, end)]
    parts = [bits[at : at + kept] for at in range(0, many * kept, kept)]
    return b"".join(unpacked_component(it, first, last, of_type) for it in parts)


def decode_fixed(codec, value, count, of_type):
    if codec[0] == "bytes" or is_whole_bytes(codec, of_type):
        require(len(value) == count * size_of(of_type), "InvalidBytesLength")
    else:
        first, last = kept_bits(codec, of_type)
        padding = codec[1] != "none"
        require(len(value) == -(-count * of_type[2] * (last - first + 1) // 8) + padding, "InvalidBytesLength")
        if padding:
            found = value[0] if codec[1] == "first_byte" else value[-1]
            require(found == spare_bits(count, codec, of_type), "PaddingByte")
    return [element_at(codec, value, place, of_type) for place in range(count)]


# -- vlen, optional, vlen-utf8, vlen-bytes ---------------------------------------------------------------------------


def length_bytes(number):
    return number.to_bytes(8, "little")


def encode_vlen(codec, chunk):
    _, index, data, offset, place = codec
    ends = [0, *itertools.accumulate(map(len, chunk))]
    require(ends[-1] < 2 ** offset[1], "OffsetTooLarge")
    offsets = [end.to_bytes(size_of(offset), "little") for end in ends]
    stored = encode_chain(index, offsets, [len(offsets)], offset, bytes(size_of(offset)))
    kept = decode_chain(index, stored, [len(offsets)], offset, bytes(size_of(offset)))
    require(kept == offsets, "OffsetNotKept")
    joined = b"".join(chunk)
    texts = encode_chain(data, [bytes([it]) for it in joined], [len(joined)], UINT8, b"\0") if joined else b""
    length = length_bytes(len(stored))
    return length + stored + texts if place == "start" else texts + stored + length


def split_vlen(codec, value):
    """The index part and the data part."""
    require(len(value) >= 8, "InvalidBytesLength")
    is_start = codec[4] == "start"
    length = int.from_bytes(value[:8] if is_start else value[-8:], "little")
    require(length <= len(value) - 8, "IndexLength")
    if is_start:
        return value[8 : 8 + length], value[8 + length :]
    rest = value[:-8]
    return rest[len(rest) - length :], rest[: len(rest) - length]


def read_offsets(codec, stored, count):
    """The offsets of an index part."""
    offset = codec[3]
    offsets = decode_chain(codec[1], stored, [counted(count + 1)], offset, bytes(size_of(offset)))
    ends = [int.from_bytes(it, "little") for it in offsets]
    require(all(one <= other for one, other in zip(ends, ends[1:])), "InvalidOffsets")
    return ends


def decode_vlen(codec, value, count):
    stored, texts = split_vlen(codec, value)
    ends = read_offsets(codec, stored, count)
    joined = b"".join(decode_chain(codec[2], texts, [ends[-1]], UINT8, b"\0")) if ends[-1] else b""
    return [joined[begin:end] for begin, end in zip(ends, ends[1:])]


def is_plain(codec):
    """Whether a vlen is read in part: offsets and texts as they stand."""
    return codec[1] in ([[], ("bytes", "little"), []], ([], ("bytes", "little"), []), ([], ("bytes", "big"), [])) and (
        codec[2][0] == [] and codec[2][1][0] == "bytes" and codec[2][2] == []
    )


def texts_at(codec, value, places, count):
    """The elements of places, from the offsets and their own bytes."""
    stored, texts = split_vlen(codec, value)
    ends = read_offsets(codec, stored, count)
    found = []
    for place in places:
        begin, end = ends[place], ends[place + 1]
        require(begin == end or end <= len(texts), "InvalidByteRange")
        found.append(texts[begin:end])
    return found


def encode_optional(codec, chunk, shape, of_type):
    flags = [b"\0" if it is None else b"\1" for it in chunk]
    mask = encode_chain(codec[1], flags, shape, BOOL, b"\0")
    present = [it[0] for it in chunk if it is not None]
    inside = of_type[1]
    data = encode_chain(codec[2], present, [len(present)], inside, blank_fill(inside)) if present else b""
    return length_bytes(len(mask)) + length_bytes(len(data)) + mask + data


def decode_optional(codec, value, shape, of_type):
    require(len(value) >= 16, "InvalidBytesLength")
    masks, datas = int.from_bytes(value[:8], "little"), int.from_bytes(value[8:16], "little")
    require(16 + masks + datas <= MOST, "HeaderOverflow")
    require(len(value) == 16 + masks + datas, "InvalidBytesLength")
    flags = decode_chain(codec[1], value[16 : 16 + masks], shape, BOOL, b"\0")
    require(all(it in (b"\0", b"\1") for it in flags), "MaskValue")
    count, inside = flags.count(b"\1"), of_type[1]
    data = decode_chain(codec[2], value[16 + masks :], [count], inside, blank_fill(inside)) if count else []
    present = iter(data)
    return [[next(present)] if it == b"\1" else None for it in flags]


def four_bytes(number):
    require(number < 2**32, "OffsetTooLarge")
    return number.to_bytes(4, "little")


def encode_prefixed(chunk):
    """How many elements there are, and then each behind the number of its bytes."""
    return four_bytes(len(chunk)) + b"".join(four_bytes(len(it)) + it for it in chunk)


def decode_prefixed(value, count):
    def due(size):
        require(size <= len(value), "InvalidBytesLength")
        return size

    require(int.from_bytes(value[: due(4)], "little") == count, "ElementCount")
    elements, at = [], 4
    for _ in range(count):
        begin = due(at + 4)
        at = due(begin + int.from_bytes(value[at:begin], "little"))
        elements.append(value[begin:at])
    require(at == len(value), "InvalidBytesLength")
    return elements


# -- sharding_indexed ------------------------------------------------------------------------------------------------


def inner_places(codec, shape):
    """Of each inner chunk the places of its elements."""
    counts = index_shape(codec, shape)[:-1]
    for block in itertools.product(*map(range, counts)):
        starts = [number * part for number, part in zip(block, codec[1])]
        rows = [range(start, start + part) for start, part in zip(starts, codec[1])]
        yield [place_of(it, shape) for it in itertools.product(*rows)]


def encode_shard(codec, chunk, shape, of_type, fill):
    _, inner_shape, inner, index, place = codec
    sizes, blank = index_shape(codec, shape), element_of_fill(fill, of_type)
    size = len(encode_chain(index, [bytes(8)] * made(math.prod(sizes)), sizes, UINT64, bytes(8)))
    at, parts, numbers = size if place == "start" else 0, [], []
    for places in inner_places(codec, shape):
        elements = [chunk[it] for it in places]
        if all(kept(inner, it, of_type) == blank for it in elements):
            numbers += [MOST, MOST]
            continue
        parts.append(encode_chain(inner, elements, inner_shape, of_type, fill))
        numbers += [at, len(parts[-1])]
        at += len(parts[-1])
    rows = [it.to_bytes(8, "little") for it in numbers]
    stored = encode_chain(index, rows, sizes, UINT64, bytes(8))
    require(all(kept(index, it, UINT64) == it for it in rows), "OffsetNotKept")
    joined = b"".join(parts)
    return stored + joined if place == "start" else joined + stored


def index_numbers(codec, value, shape):
    """Of each inner chunk where its value begins, and how many bytes it has."""
    _, _, _, index, place = codec
    sizes = index_shape(codec, shape)
    size = len(encode_chain(index, [bytes(8)] * made(math.prod(sizes)), sizes, UINT64, bytes(8)))
    require(len(value) >= size, "InvalidBytesLength")
    stored = value[:size] if place == "start" else value[len(value) - size :]
    numbers = [int.from_bytes(it, "little") for it in decode_chain(index, stored, sizes, UINT64, bytes(8))]
    return list(zip(numbers[::2], numbers[1::2]))


def inner_stored(value, at, many):
    """The value of an inner chunk; None where it isn't stored."""
    if at == many == MOST:
        return None
    require(at + many <= len(value), "InvalidByteRange")
    return value[at : at + many]


def decode_shard(codec, value, shape, of_type, fill):
    _, inner_shape, inner, _, _ = codec
    spans = index_numbers(codec, value, shape)
    chunk = [element_of_fill(fill, of_type)] * made(count_of(shape))
    for places, span in zip(inner_places(codec, shape), spans):
        stored = inner_stored(value, *span)
        if stored is None:
            continue
        for it, element in zip(places, decode_chain(inner, stored, inner_shape, of_type, fill)):
            chunk[it] = element
    return chunk


def inner_place(codec, place, shape):
    """The number of the inner chunk that has a place, and the place in it."""
    parts, counts = codec[1], index_shape(codec, shape)[:-1]
    indices = indices_of(place, shape)
    number = place_of([index // part for index, part in zip(indices, parts)], counts)
    return number, place_of([index % part for index, part in zip(indices, parts)], parts)


def shard_at(codec, value, places, shape, of_type, fill):
    """The elements of places: of each inner chunk that has any, in the order of their numbers, what is read of its own value."""
    _, inner_shape, inner, _, _ = codec
    spans, found = index_numbers(codec, value, shape), {}
    meant = [inner_place(codec, place, shape) for place in places]
    for number in sorted({number for number, _ in meant}):
        stored = inner_stored(value, *spans[number])
        inside = [it for other, it in meant if other == number]
        elements = read_chain(inner, stored, inside, inner_shape, of_type, fill)
        found.update(zip([(number, it) for it in inside], elements))
    return [found[it] for it in meant]


# -- Chains ----------------------------------------------------------------------------------------------------------


def encode_chain(chain, chunk, shape, of_type, fill):
    require_fit(chain, shape, of_type, fill)
    require_elements(len(chunk), shape, of_type)
    codec, last = chain[1], shapes_of(chain, shape, of_type)[-1]
    chunk = moved(chain, chunk, shape, of_type)
    if codec[0] == "vlen":
        value = encode_vlen(codec, chunk)
    elif codec[0] == "optional":
        value = encode_optional(codec, chunk, last, of_type)
    elif codec[0] in PREFIXED:
        value = encode_prefixed(chunk)
    elif codec[0] == "sharding":
        value = encode_shard(codec, chunk, last, of_type, fill)
    else:
        value = encode_fixed(codec, chunk, of_type)
    return do_behind(chain, value)


def rest_of_byte(byte):
    """What division bit by bit leaves of a byte."""
    for _ in range(8):
        byte = byte >> 1 ^ 0x82F63B78 * (byte & 1)
    return byte


RESTS = [rest_of_byte(byte) for byte in range(256)]


def checksum_of(value):
    """CRC-32C."""
    rest = 2**32 - 1
    for byte in value:
        rest = rest >> 8 ^ RESTS[(rest ^ byte) & 255]
    return (rest ^ 2**32 - 1).to_bytes(4, "little")


def do_behind(chain, value):
    """The value behind the bytes-to-bytes codecs."""
    for behind in chain[2]:
        if behind[0] == "sample.reverse":
            value = value[::-1]
        elif behind[0] == "sample.length":
            value = length_bytes(len(value)) + value
        else:
            value = value + checksum_of(value)
    return value


def undo_behind(chain, value):
    """The value before them."""
    for behind in reversed(chain[2]):
        if behind[0] == "sample.reverse":
            value = value[::-1]
        elif behind[0] == "sample.length":
            require(len(value) >= 8, "BytesCodec")
            require(int.from_bytes(value[:8], "little") == len(value) - 8, "BytesCodec")
            value = value[8:]
        else:
            require(len(value) >= 4 and checksum_of(value[:-4]) == value[-4:], "BytesCodec")
            value = value[:-4]
    return value


def decode_content(chain, value, shape, of_type, fill):
    """The chunk, as the array-to-bytes codec got it."""
    codec, last = chain[1], shapes_of(chain, shape, of_type)[-1]
    if codec[0] == "vlen":
        return decode_vlen(codec, value, count_of(last))
    if codec[0] == "optional":
        return decode_optional(codec, value, last, of_type)
    if codec[0] in PREFIXED:
        return decode_prefixed(value, count_of(last))
    if codec[0] == "sharding":
        return decode_shard(codec, value, last, of_type, fill)
    return decode_fixed(codec, value, count_of(last), of_type)


def decode_chain(chain, value, shape, of_type, fill):
    require_fit(chain, shape, of_type, fill)
    chunk = decode_content(chain, undo_behind(chain, value), shape, of_type, fill)
    return moved_back(chain, chunk, shape, of_type)


def read_content(chain, value, places, shape, of_type, fill):
    """The elements of places of what the array-to-bytes codec got."""
    codec, last = chain[1], shapes_of(chain, shape, of_type)[-1]
    if is_read_whole(codec):
        chunk = decode_content(chain, value, shape, of_type, fill)
        return [chunk[place] for place in places]
    if codec[0] == "sharding":
        return shard_at(codec, value, places, last, of_type, fill)
    if codec[0] == "vlen":
        return texts_at(codec, value, places, count_of(last))
    return [element_at(codec, value, place, of_type) for place in places]


def is_read_whole(codec):
    """Whether a read in part needs the whole value."""
    return codec[0] in ("optional", *PREFIXED) or codec[0] == "vlen" and not is_plain(codec)


def read_chain(chain, value, places, shape, of_type, fill):
    """The elements of places, of a value or of none."""
    if value is None:
        return [element_of_fill(fill, of_type)] * len(places)
    return read_content(chain, undo_behind(chain, value), last_places(chain, places, shape, of_type), shape, of_type, fill)


# -- Selections ------------------------------------------------------------------------------------------------------


def read_indexer(tree):
    """("ranges", pairs) or ("indices", tuples)."""
    require(isinstance(tree, dict) and len(tree) == 1, "Syntax")
    kind, rows = next(iter(tree.items()))
    require(kind in ("ranges", "indices") and isinstance(rows, list), "Syntax")
    require(all(is_numbers(row) and (kind == "indices" or len(row) == 2) for row in rows), "Syntax")
    require(kind == "indices" or all(begin <= end for begin, end in rows), "ReversedRange")
    return kind, rows


def places_in(indexer, shape):
    """The places of the elements that are meant, in order."""
    kind, rows = indexer
    if kind == "ranges":
        require(len(rows) == len(shape), "IncompatibleDimensionality")
        require(all(end <= size for (_, end), size in zip(rows, shape)), "OutOfBounds")
        if not made(math.prod(end - begin for begin, end in rows)):
            # whatever the other ranges have
            return []
        return [place_of(it, shape) for it in itertools.product(*[range(*row) for row in rows])]
    require(all(len(row) == len(shape) for row in rows), "IncompatibleDimensionality")
    require(all(index < size for row in rows for index, size in zip(row, shape)), "OutOfBounds")
    return [place_of(row, shape) for row in rows]


# -- Elements --------------------------------------------------------------------------------------------------------


def read_element(tree, of_type):
    if of_type[0] == "optional":
        require(tree is None or isinstance(tree, list) and len(tree) == 1, "Syntax")
        return None if tree is None else [read_element(tree[0], of_type[1])]
    require(tree is not None and not isinstance(tree, list), "ArrayBytesKind")
    data = read_hex(tree)
    require(of_type[0] == "variable" or len(data) == size_of(of_type), "InvalidBytesLength")
    return data


def read_elements(tree, of_type):
    require(isinstance(tree, list), "Syntax")
    return [read_element(it, of_type) for it in tree]


def shown_element(element):
    if element is None:
        return "null"
    return f"[{shown_element(element[0])}]" if isinstance(element, list) else f'"{element.hex()}"'


def shown(elements):
    return "[" + ",".join(map(shown_element, elements)) + "]"


# -- The tool --------------------------------------------------------------------------------------------------------


class Session:
    """What the header says, and the stored value."""

    def __init__(self, line):
        tree = read_json(text_of(line))
        require(isinstance(tree, dict), "Syntax")
        self.shape = tree.get("shape")
        require(is_numbers(self.shape) and 0 not in self.shape, "Syntax")
        self.type = read_type(tree.get("data_type"))
        self.fill = read_hex(tree.get("fill_value"))
        require(isinstance(tree.get("codecs"), list), "Syntax")
        self.chain = make_chain(read_list(tree["codecs"]))
        require_fit(self.chain, self.shape, self.type, self.fill)
        self.form = (self.shape, self.type, self.fill)
        self.stored = None

    def encode(self, tree):
        return f'"{encode_chain(self.chain, read_elements(tree, self.type), *self.form).hex()}"'

    def load(self, tree):
        self.stored = read_hex(tree)
        return ""

    def decode(self):
        return "none" if self.stored is None else shown(decode_chain(self.chain, self.stored, *self.form))

    def read(self, tree):
        return shown(self.elements_at(read_indexer(tree)))

    def elements_at(self, indexer):
        """What a decoder in part reads. What it keeps is decoded before the places are looked at."""
        value = None if self.stored is None else undo_behind(self.chain, self.stored)
        if value is not None and is_read_whole(self.chain[1]):
            decode_content(self.chain, value, *self.form)
        places = places_in(indexer, self.shape)
        if value is None:
            return [element_of_fill(self.fill, self.type)] * len(places)
        return read_content(self.chain, value, last_places(self.chain, places, self.shape, self.type), *self.form)

    def write(self, tree):
        require(isinstance(tree, dict) and sorted(tree) == ["at", "data"], "Syntax")
        indexer = read_indexer(tree["at"])
        data = read_elements(tree["data"], self.type)
        places = places_in(indexer, self.shape)
        require(len(data) == len(places), "DataMismatch")
        if self.stored is not None and self.chain[1][0] == "bytes" and not self.chain[2]:
            self.write_in_place(places, data)
            return ""
        if self.stored is None:
            chunk = [element_of_fill(self.fill, self.type)] * made(count_of(self.shape))
        else:
            chunk = decode_chain(self.chain, self.stored, *self.form)
        for place, element in zip(places, data):
            chunk[place] = element
        self.stored = encode_chain(self.chain, chunk, *self.form)
        return ""

    def write_in_place(self, places, data):
        size, value = size_of(self.type), bytearray(self.stored)
        for place, element in zip(last_places(self.chain, places, self.shape, self.type), data):
            at = size * place
            value += bytes(made(max(0, at + size - len(value))))
            value[at : at + size] = turned(element, self.chain[1], self.type)
        self.stored = bytes(value)

    def erase(self):
        self.stored = None
        return ""

    def reencode(self, tree):
        require(isinstance(tree, list), "Syntax")
        other = make_chain(read_list(tree))
        if self.stored is None:
            return "none"
        chunk = decode_chain(self.chain, self.stored, *self.form)
        return f'"{encode_chain(other, chunk, *self.form).hex()}"'

    def value(self):
        return "none" if self.stored is None else f'"{self.stored.hex()}"'

    def answer(self, line):
        """The answer to a line."""
        alone = {"decode": self.decode, "erase": self.erase, "value": self.value}
        others = {"encode": self.encode, "load": self.load, "read": self.read, "write": self.write, "reencode": self.reencode}
        text = text_of(line)
        word, space, rest = text.partition(" ")
        if not space and word in alone:
            return f"ok {alone[word]()}".rstrip()
        require(space and word in others, "Syntax")
        return f"ok {others[word](read_json(rest))}".rstrip()


def text_of(line):
    try:
        return line.decode()
    except UnicodeDecodeError:
        raise Refused("Syntax") from None


def answers_to(sent):
    """The answers to all that is sent, and the exit status."""
    lines = [line for line in sent.split(b"\n") if line]
    if not lines:
        return [], 0
    try:
        session = Session(lines[0])
    except Refused as refused:
        return [f"error {refused}"], 2
    answers = []
    for line in lines[1:]:
        try:
            answers.append(session.answer(line))
        except Refused as refused:
            answers.append(f"error {refused}")
    return answers, 0


# -- Transcripts (docs/TRANSCRIPTS.md) -------------------------------------------------------------------------------


def runs_of(text):
    """The runs of a transcript: what is sent, the answers that have to come, and how the run has to end."""
    for part in text.split("\n\n"):
        sent, wanted, end = "", [], 0
        for line in part.split("\n"):
            if line.startswith(">| "):
                sent += line[3:]
            elif line.startswith(">"):
                sent += line[1:].removeprefix(" ") + "\n"
            elif line.startswith("="):
                end = {"= bad header": 2}.get(line, line)
            elif line and not line.startswith("#"):
                wanted.append(line)
        if sent:
            yield sent, wanted, end


def play(folder):
    """Prints where the transcripts of a folder differ, and how many runs there are: whether there was one, and none differs."""
    count, differing = 0, 0
    for path in sorted(pathlib.Path(folder).glob("*.txt")):
        for sent, *wanted in runs_of(path.read_bytes().decode()):
            count += 1
            came = [*answers_to(sent.encode())]
            if came != wanted:
                differing += 1
                print(f"{path.name}: to the run that begins with {sent.splitlines()[0]} came {came}, and {wanted} is wanted")
    print(f"{count} runs, {differing} of them differ")
    return count > 0 and not differing


def main():
    if sys.argv[1:2] == ["--transcripts"] and len(sys.argv) == 3:
        return 0 if play(sys.argv[2]) else 1
    if sys.argv[1:]:
        sys.exit(__doc__)
    answers, status = answers_to(sys.stdin.buffer.read())
    for answer in answers:
        print(answer)
    return status


if __name__ == "__main__":
    sys.exit(main())
