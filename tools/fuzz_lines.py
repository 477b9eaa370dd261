"""Random headers and lines for tools/fuzz: `Run(seed)` has `lines`, and whether the last of them has its end.

Most of what is made is as it should be; now and then something is not: a size, an order, a key, a letter. The model tells
what a good header means, and writes the values that are loaded, whole or damaged.
"""
import itertools
import json
import math
import random
import zlib

import model

PAGES = model.PAGES
SQUEEZE = ("zarrs.squeeze", PAGES + "/array_to_array/squeeze")
VLEN = ("zarrs.vlen", PAGES + "/array_to_bytes/vlen")
OPTIONAL = ("zarrs.optional", "optional", PAGES + "/array_to_bytes/optional")
PREFIXED = tuple(model.PREFIXED)
BEHIND = ("sample.reverse", "sample.length", "crc32c", "crc32c")
HUGE = (2**64 - 1, 2**63, 2**63 - 1, 2**62, 2**61, 2**32, 2**32 - 1, 2**31)
# what stands where something else is due
JUNK = (None, True, False, 0, 1, 2, 7, -1, -2, 2**32, 2**63, 2**64 - 1, "", "x", "00", "0", "bytes", "little", "\u00e9", [], [0], [[]], {}, {"a": 1})
# the same, as text
ODD = ("0.5", "1e3", "1.0", "-0", "18446744073709551616", "-9223372036854775809", "NaN", "01", "1e999", '"\\ud800"', '"\\u0041"', "[1,]", "nul")
LINES = (
    b"", b" ", b"sing", b"value ", b"Value", b"decode []", b"erase x", b"encode", b"read", b"write {}", b"load", b"load \"0\"", b"load \"0G\"",
    b"load \"AB\" ", b"load  \"cd\"", b"load \"00\" 1", b"value\r", b"\r", b"\xff", b"load \"\xc3\x28\"", b"load \"\xed\xa0\x80\"", b"reencode",
    b"reencode []", b"reencode {}", b"load \"00", b"read {}", b"read {\"places\":[]}", b"encode null", b"\tvalue", b"load\t\"00\"", b"load \"00\"\t\r",
    b"load \"\\u0030\\u0030\"", b"encode " + b"[" * 130 + b"]" * 130, b"encode " + b"[" * 127 + b"]" * 127, b"load [1.5]", b"load 1e400", b"\x00",
    b"\xef\xbb\xbfvalue", b"read {\"ranges\":[[0,1]],\"ranges\":[]}", b"write {\"at\":{\"indices\":[]},\"data\":[],\"data\":[]}",
    b"load {\"a\":0.5,\"a\":\"00\"}", b"erase",
)


def has_shards(chain):
    """Whether a chain or one in it has sharding_indexed."""
    inside = {"vlen": slice(1, 3), "optional": slice(1, 3), "sharding": slice(2, 4)}.get(chain[1][0])
    return chain[1][0] == "sharding" or inside is not None and any(map(has_shards, chain[1][inside]))


def shard_index(codec, form):
    """How many bytes the index of a shard has, and its form."""
    sizes = model.index_shape(codec, form[0])
    index_form = (sizes, model.UINT64, bytes(8))
    return len(model.encode_chain(codec[3], [bytes(8)] * model.made(math.prod(sizes)), *index_form)), index_form


def joined_shard(codec, form, joined, spans):
    """The value of these bytes of inner chunks, and of an index with where each begins and how many bytes it has."""
    numbers = [number.to_bytes(8, "little") for span in spans for number in span]
    stored = model.encode_chain(codec[3], numbers, *shard_index(codec, form)[1])
    return stored + joined if codec[4] == "start" else joined + stored


class Run:
    """The lines of a seed."""

    def __init__(self, seed):
        self.random = random.Random(seed)
        # more elements than memory holds, and often than 64 bits count: with it come other faults of a header
        self.is_huge = self.chance(0.06)
        # as many as are moved in blocks: small ones, since those are packed
        self.is_large = not self.is_huge and self.chance(0.06)
        self.lines, self.session = [self.header()], None
        try:
            self.session = model.Session(self.lines[0])
        except (model.Refused, model.TooLarge):
            self.lines += [b"value"] * self.chance(0.2)
        else:
            self.is_huge = math.prod(self.session.shape) > 500
            for _ in range(self.random.randint(1, self.pick((12, 60, 60)))):
                self.lines += self.next_lines() if not self.has_long_elements() else [self.pick((b"decode", b"value"))]
        if self.chance(0.04):
            self.lines.insert(self.random.randint(0, len(self.lines)), b"")
        self.has_end = not self.chance(0.03)

    # -- Chances

    def chance(self, part):
        return self.random.random() < part

    def pick(self, items):
        return self.random.choice(items)

    def few(self, most):
        return min(self.random.randint(0, most), self.random.randint(0, most))

    # -- Types, shapes, fill values

    def type_tree(self, depth=0):
        roll = self.random.random()
        if self.is_large and self.chance(0.6):
            return self.pick(("bool", "int2", "int4", "uint4", "int8", "uint8", "int16", {"components": {"bits": self.random.randint(1, 12), "count": 1, "signed": True}}))
        if roll < 0.42:
            return self.pick(sorted(set(model.TYPES) - {"string", "bytes"}))
        if roll < 0.58:
            bits = self.pick((1, 3, 5, 7, 8, 9, 11, 12, 16, 17, 24, 31, 32, 33, 63, 64, 65, self.random.randint(1, 130)))
            return {"components": {"bits": bits, "count": self.random.randint(1, self.pick((3, 3, 3, 9))), "signed": self.chance(0.5)}}
        if roll < 0.76 or depth > 2:
            return self.pick(("string", "bytes"))
        return {"optional": self.type_tree(depth + 1)}

    def shape(self):
        if self.is_huge:
            return [self.pick(HUGE) for _ in range(self.random.randint(1, 2))] + [self.random.randint(1, 3)] * self.few(2)
        sizes, most = ((1, 7, 8, 9, 16, 17, 33, 64, 130), 450) if self.is_large else ((1, 1, 2, 2, 3, 4, 5, 7), 70)
        shape = [self.pick(sizes) for _ in range(self.random.randint(self.is_large, 4))]
        while math.prod(shape) > most:
            shape.pop()
        return [self.random.randint(1, 40)] if len(shape) == 1 and self.chance(0.3) else shape

    def fill(self, of_type):
        if of_type[0] == "fixed":
            return bytes(model.size_of(of_type)) if self.chance(0.5) else self.random.randbytes(model.size_of(of_type))
        if of_type[0] == "variable":
            return self.random.randbytes(self.few(4))
        return b"\0" if self.chance(0.4) else self.fill(of_type[1]) + b"\1"

    # -- Codecs

    def transpose(self, shape, is_flat):
        axes = 1 if is_flat else len(shape)
        axes += self.pick((1, -1)) if self.chance(0.03) else 0
        order = list(range(max(axes, 0)))
        self.random.shuffle(order)
        if order and self.chance(0.02):
            order[0] = self.pick((0, len(order), 2**64 - 1))
        return {"name": "transpose", "configuration": {"order": order}}

    def reshape(self, shape, is_flat):
        count, sizes = math.prod(shape), []
        if is_flat:
            sizes = self.pick(([-1], [-1, 1], [1, -1], [-1], [[0]]))
        else:
            left = count
            for _ in range(self.random.randint(0, 3)):
                size = self.pick([it for it in range(1, 9) if left % it == 0])
                sizes.append(size)
                left //= size
            sizes.insert(self.random.randint(0, len(sizes)), left)
            if self.chance(0.4):
                sizes[self.random.randrange(len(sizes))] = -1
            if self.chance(0.35):
                sizes = [[axis] for axis in range(len(shape))]
                while len(sizes) > 1 and self.chance(0.5):
                    sizes[-2:] = [sizes[-2] + sizes[-1]]
                if sizes and self.chance(0.3):
                    sizes[self.random.randrange(len(sizes))] = -1
        if sizes and self.chance(0.04):
            sizes = list(sizes)
            sizes[self.random.randrange(len(sizes))] = self.pick((0, -1, 3, [0], [7], [], 2**32, 2**63, [0, 0]))
        return {"name": "reshape", "configuration": {"shape": sizes}}

    def arrays(self, of_type, shape, is_flat):
        """Array-to-array codecs, and the shape behind them."""
        codecs = []
        for _ in range(self.few(3)):
            kinds = [self.reshape, lambda *_: self.named(SQUEEZE)]
            if of_type[0] != "optional" or self.chance(0.05):
                kinds += [self.transpose] * 2
            codecs.append(self.pick(kinds)(shape, is_flat))
            try:
                name, said, _ = model.read_metadata(codecs[-1])
                shape = model.shape_behind(model.make_codec(name, said), shape, of_type)
            except model.Refused:
                pass
        return codecs, shape

    def named(self, names, configuration=None):
        name = self.pick(names)
        if configuration is None:
            return self.pick((name, {"name": name}, {"name": name, "configuration": {}}, {"name": name, "configuration": {"other": [1]}}))
        return {"name": name, "configuration": configuration}

    def bytes(self, of_type):
        if of_type[0] == "fixed" and model.width_of(of_type) > 1 and not self.chance(0.2 if self.is_huge else 0.03):
            return self.named(("bytes", "bytes", "endian"), {"endian": self.pick(("little", "big"))})
        return self.pick((self.named(("bytes", "endian")), self.named(("bytes",), {"endian": self.pick(("little", "big", None))})))

    def packbits(self, of_type):
        bits, said = of_type[1] if of_type[0] == "fixed" else 8, {}
        if self.chance(0.6):
            said["padding_encoding"] = self.pick(("none", "first_byte", "last_byte", "first_byte", "last_byte", None))
        if self.chance(0.45):
            said["first_bit"] = self.random.randint(0, bits - 1)
        if self.chance(0.45):
            said["last_bit"] = self.random.randint(said.get("first_bit", 0), bits - 1)
        if bits > 1 and self.chance(0.25):
            kept = self.pick([it for it in (1, 2, 4, 8) if it <= bits])
            said["first_bit"] = self.random.randint(0, bits - kept)
            said["last_bit"] = said["first_bit"] + kept - 1
        if self.chance(0.2 if self.is_huge else 0.04):
            said[self.pick(("first_bit", "last_bit"))] = self.pick((None, bits, bits - 1, 0, 2**64 - 1))
        return self.named(("packbits",), said or None)

    def vlen(self, shape, depth):
        offset = self.pick(("uint32", "uint64"))
        plain = [{"name": "bytes", "configuration": {"endian": self.pick(("little", "big"))}}], self.pick((["bytes"], ["endian"]))
        index, data = plain
        if self.chance(0.5):
            index = self.chain(model.TYPES[offset], [min(math.prod(shape) + 1, model.MOST)], False, depth + 1)
        if self.chance(0.4):
            data = self.chain(model.UINT8, [1], True, depth + 1)
        said = {"index_codecs": index, "data_codecs": data, "index_data_type": offset}
        if self.chance(0.6):
            said["index_location"] = self.pick(("start", "end"))
        return self.named(VLEN, said)

    def prefixed(self, of_type):
        """vlen-utf8 or vlen-bytes, now and then the other one."""
        wanted = [name for name, kind in model.PREFIXED.items() if kind == of_type]
        return self.named(tuple(wanted) if wanted and not self.chance(0.03) else PREFIXED, self.pick((None, None, None, {"level": 1}, {"endian": "big"})))

    def optional(self, of_type, shape, depth):
        inside = of_type[1] if of_type[0] == "optional" else model.UINT8
        mask, data = self.chain(model.BOOL, shape, False, depth + 1), self.chain(inside, shape, True, depth + 1)
        return self.named(OPTIONAL, {"mask_codecs": mask, "data_codecs": data})

    def divisor(self, size):
        """The size of an inner chunk, now and then one that doesn't divide this one."""
        if self.chance(0.02):
            return self.pick((0, size + 1, 2, 3, 2**63))
        return self.pick([it for it in (1, 2, 3, 4, 5, 7, 8, 2**31, size // 2, size) if it and size % it == 0])

    def sharding(self, of_type, shape, is_flat, depth):
        sizes = [1 if is_flat else self.divisor(size) for size in shape]
        counts = [max(size // part, 1) if part else 1 for size, part in zip(shape, sizes)]
        if self.chance(0.03):
            sizes = sizes[1:] if sizes and self.chance(0.5) else sizes + [1]
        index = [{"name": "bytes", "configuration": {"endian": self.pick(("little", "big"))}}]
        if self.chance(0.25):
            index = self.chain(model.UINT64, [*counts, 2], False, depth + 1)
        elif self.chance(0.4):
            index.append("crc32c")
        said = {"chunk_shape": sizes, "codecs": self.chain(of_type, [max(it, 1) for it in sizes], False, depth + 1), "index_codecs": index}
        if self.chance(0.6):
            said["index_location"] = self.pick(("start", "end"))
        return self.named(("sharding_indexed",), said)

    def to_bytes(self, of_type, shape, is_flat, depth):
        if depth < 4 and self.chance(0.25 if depth == 0 else 0.15):
            return self.sharding(of_type, shape, is_flat, depth)
        kind = of_type[0] if not self.chance(0.02) else self.pick(("fixed", "variable", "optional"))
        if kind == "fixed":
            return self.bytes(of_type) if self.chance(0.55) else self.packbits(of_type)
        if kind == "variable" and self.chance(0.45):
            return self.prefixed(of_type)
        return self.vlen(shape, depth) if kind == "variable" or depth > 4 else self.optional(of_type, shape, depth)

    def chain(self, of_type, shape, is_flat, depth=0):
        """A list of codecs; flat where the chunk has one axis of any length."""
        codecs, shape = self.arrays(of_type, [1] if is_flat else shape, is_flat)
        codecs.append(self.to_bytes(of_type, shape, is_flat, depth))
        if self.chance(0.35 if depth == 0 else 0.25):
            codecs += [self.named(BEHIND) for _ in range(self.pick((1, 1, 2, 3, 4)))]
        if self.chance(0.06):
            self.random.shuffle(codecs)
        if self.chance(0.06):
            codecs.insert(self.random.randint(0, len(codecs)), self.spare_codec(of_type))
        if self.chance(0.03) and isinstance(codecs[-1], dict):
            codecs[-1]["must_understand"] = self.pick((False, True, None))
        return codecs

    def spare_codec(self, of_type):
        """A codec too many, which often needn't be understood."""
        codec = self.pick((
            {"name": "gzip"}, "vlen-utf8", {"name": "vlen-bytes"}, {"name": "packbits", "configuration": {"first_bit": 3, "last_bit": 1}}, {"name": "transpose"}, "bytes",
            {"name": "vlen", "configuration": {"index_codecs": [5]}}, {"name": "zarrs.vlen", "configuration": {"index_codecs": [5]}},
            {"name": "sharding_indexed", "configuration": {"chunk_shape": [0], "codecs": [], "index_codecs": []}}, "sharding_indexed",
            {"name": "reshape", "configuration": {"shape": [0, -1, -1]}}, {"name": "zarrs.optional", "configuration": {"mask_codecs": [], "data_codecs": []}},
        ))
        return {**(codec if isinstance(codec, dict) else {"name": codec}), "must_understand": False} if self.chance(0.7) else codec

    # -- Headers

    def header(self):
        tree = self.type_tree()
        of_type, shape = model.read_type(tree), self.shape()
        fill = self.fill(of_type).hex() if not self.chance(0.2 if self.is_huge else 0.02) else self.pick(("", "00", "0", "0001", "zz"))
        said = {"shape": shape, "data_type": tree, "fill_value": fill, "codecs": self.chain(of_type, shape, False)}
        if self.chance(0.1):
            said["other"] = self.pick(JUNK)
        if self.chance(0.2):
            keys = list(said)
            self.random.shuffle(keys)
            said = {key: said[key] for key in keys}
        for _ in range(self.pick((1, 1, 2, 3)) if self.chance(0.12) else 0):
            said = self.spoilt_tree(said)
        return self.text(said, 0.02)

    def text(self, tree, spoilt):
        text = json.dumps(tree, separators=(",", ":"), ensure_ascii=False) if not self.chance(0.05) else json.dumps(tree)
        if self.chance(spoilt):
            return self.spoilt_text(text)
        return text.encode()

    def spoilt_text(self, text):
        roll, data = self.random.random(), bytearray(text.encode())
        if roll < 0.4:
            places = [at for at, letter in enumerate(text) if letter in "0123456789"]
            if places:
                at = self.pick(places)
                return (text[:at] + self.pick(ODD) + text[at + 1 :]).encode()
        if roll < 0.6:
            return bytes(data[: self.random.randrange(len(data))])
        at = self.random.randrange(len(data))
        if roll < 0.8:
            data[at] = self.pick((0, 10, 34, 44, 91, 93, 123, 125, 48, 32, 255, self.random.randrange(256)))
        else:
            del data[at]
        return bytes(data).replace(b"\n", b" ")

    def spoilt_tree(self, tree):
        """The tree with one part changed, left out or doubled."""
        if isinstance(tree, (list, dict)) and tree and self.chance(0.8):
            keys = list(tree) if isinstance(tree, dict) else list(range(len(tree)))
            key, new = self.pick(keys), dict(tree) if isinstance(tree, dict) else list(tree)
            if self.chance(0.12):
                del new[key]
            elif self.chance(0.1) and isinstance(new, list):
                new.append(self.pick(JUNK) if self.chance(0.5) else tree[key])
            elif self.chance(0.1) and isinstance(new, dict):
                new[self.pick(("other", "name", "must_understand", "configuration"))] = self.pick(JUNK)
            else:
                new[key] = self.spoilt_tree(tree[key])
            return new
        return self.pick(JUNK)

    # -- Elements and values

    def element(self, of_type):
        if of_type[0] == "optional":
            return None if self.chance(0.35) else [self.element(of_type[1])]
        if of_type[0] == "variable":
            # now and then as long as offsets of two bytes, or of three
            return self.random.randbytes(self.few(6) if self.chance(0.98) else self.few(400) if self.chance(0.998) else 66000)
        if of_type == model.BOOL and not self.chance(0.1):
            return self.pick((b"\0", b"\1"))
        size = model.size_of(of_type)
        return self.random.randbytes(size) if self.chance(0.8) else bytes([self.pick((0, 1, 127, 128, 255))]) * size

    def chunk(self):
        count, of_type = math.prod(self.session.shape), self.session.type
        chunk = [self.element(of_type) for _ in range(count if count < 500 else self.few(3))]
        if not has_shards(self.session.chain) or self.chance(0.2):
            return chunk
        # most of it is the fill element, or what some codecs make that of, in rows
        blank, part = model.element_of_fill(self.session.fill, of_type), self.pick((0.05, 0.3, 0.6))
        many, other = self.random.randint(1, 9), self.near(blank)
        kept = [self.chance(part) for _ in range(len(chunk) // many + 1)]
        return [it if kept[at // many] else other if self.chance(0.1) else blank for at, it in enumerate(chunk)]

    def near(self, element):
        """The element with another bit, which codecs may leave out."""
        if isinstance(element, list):
            return [self.near(element[0])]
        if not element or self.chance(0.3):
            return element
        at = self.random.randrange(len(element))
        return element[:at] + bytes([element[at] ^ 1 << self.random.randrange(8)]) + element[at + 1 :]

    def tree_of(self, element):
        if element is None:
            return None
        return [self.tree_of(element[0])] if isinstance(element, list) else element.hex()

    def elements(self, chunk):
        tree = [self.tree_of(it) for it in chunk]
        if self.chance(0.06):
            return self.wrong_elements(tree)
        if self.chance(0.03):
            return tree[1:] if self.chance(0.5) else tree + tree[:1]
        return tree

    def wrong_elements(self, tree):
        """The tree with one fault or several."""
        for _ in range(self.random.randint(1, 3)):
            if isinstance(tree, list) and tree and self.chance(0.7):
                tree[self.random.randrange(len(tree))] = self.pick((None, ["00"], [None], [], "0", "00", "0000", "zz", 5, True, {}))
            else:
                tree = self.spoilt_tree(tree)
        return tree

    def loose_vlen(self, codec, chunk):
        """A value whose offsets begin above 0, or end at 0 before bytes of no element."""
        _, index, data, offset, place = codec
        ends = [0, *itertools.accumulate(map(len, chunk))]
        before = self.random.randint(1, 4)
        joined = self.random.randbytes(before) + b"".join(chunk)
        size = model.size_of(offset)
        offsets = [(end + before).to_bytes(size, "little") for end in ends]
        if ends[-1] == 0:
            offsets = [bytes(size)] * len(ends)
        stored = model.encode_chain(index, offsets, [len(offsets)], offset, bytes(size))
        texts = model.encode_chain(data, [bytes([it]) for it in joined], [len(joined)], model.UINT8, b"\0")
        length = model.length_bytes(len(stored))
        return length + stored + texts if place == "start" else texts + stored + length

    def loose_optional(self, codec, shape):
        """A value without a present element, and data all the same."""
        mask = model.encode_chain(codec[1], [b"\0"] * math.prod(shape), shape, model.BOOL, b"\0")
        more = self.random.randbytes(self.few(5))
        return model.length_bytes(len(mask)) + model.length_bytes(len(more)) + mask + more

    def loose_shard(self, codec, chunk, form):
        """A value whose inner chunks stand in any order, with bytes between; those that are alike stand once, or stand though
        they are left out."""
        _, inner_shape, inner, index, place = codec
        shape, of_type, fill = form
        size, _ = shard_index(codec, form)
        blank, values = model.element_of_fill(fill, of_type), {}
        spans = []
        for number, places in enumerate(model.inner_places(codec, shape)):
            elements = [chunk[it] for it in places]
            if all(model.kept(inner, it, of_type) == blank for it in elements) and self.chance(0.6):
                spans.append(None)
                continue
            value = model.encode_chain(inner, elements, inner_shape, of_type, fill)
            spans.append((value, 0 if self.chance(0.5) else number))
            values[spans[-1]] = None
        order, joined = list(values), b""
        self.random.shuffle(order)
        at = size if place == "start" else 0
        for value in order:
            joined += self.random.randbytes(self.few(3))
            values[value] = at + len(joined)
            joined += value[0]
        joined += self.random.randbytes(self.few(2))
        return joined_shard(codec, form, joined, [(model.MOST, model.MOST) if it is None else (values[it], len(it[0])) for it in spans])

    def content(self):
        """A value before the bytes-to-bytes codecs."""
        shape, of_type, fill = self.session.form
        arrays, codec, _ = self.session.chain
        chain, last = (arrays, codec, []), model.shapes_of(self.session.chain, shape, of_type)[-1]
        if self.is_huge or self.chance(0.06):
            return self.random.randbytes(self.few(40))
        if codec[0] == "vlen" and self.chance(0.15):
            return self.loose_vlen(codec, self.chunk() if self.chance(0.7) else [b""] * math.prod(shape))
        if codec[0] == "optional" and self.chance(0.08):
            return self.loose_optional(codec, last)
        if codec[0] == "sharding" and self.chance(0.3):
            return self.loose_shard(codec, model.moved(chain, self.chunk(), shape, of_type), (last, of_type, fill))
        return model.encode_chain(chain, self.chunk(), shape, of_type, fill)

    def spoilt_stage(self, kind, value):
        """The value behind a bytes-to-bytes codec, with another checksum or length than it should have, or none."""
        if kind == "crc32c" and len(value) >= 4:
            before, checksum = value[:-4], value[-4:]
            at = self.random.randrange(len(value))
            return self.pick((
                before + checksum[::-1], before, value[:-1], before + bytes(4), checksum + before, before + zlib.crc32(before).to_bytes(4, "little"),
                before + bytes(it ^ 255 for it in checksum), value + b"\0", value[: self.random.randint(0, 4)], before[1:] + checksum,
                value[:at] + bytes([value[at] ^ 1 << self.random.randrange(8)]) + value[at + 1 :], model.do_behind(([], None, [(kind,)]), value),
            ))
        if kind == "sample.length" and len(value) >= 8:
            length, rest = len(value) - 8, value[8:]
            return self.pick((model.length_bytes(self.pick((0, length + 1, max(0, length - 1), model.MOST))) + rest, value[: self.random.randint(0, 8)], rest))
        return self.damaged(value)

    def spoilt_at_depth(self, chain, value, form):
        """The value with one part spoilt, at any depth; the lengths and checksums of what stands around that part are right. The
        form is the shape, the type and the fill value of its chunk."""
        codec, stages = chain[1], chain[2]
        shape, of_type, fill = form
        if not all(shape):
            return self.damaged(value)
        last = model.shapes_of(chain, shape, of_type)[-1]
        inner = model.undo_behind(chain, value)
        if stages and self.chance(0.5):
            at = self.random.randrange(len(stages))
            part = self.spoilt_stage(stages[at][0], model.do_behind(([], None, stages[: at + 1]), inner))
            return model.do_behind(([], None, stages[at + 1 :]), part)
        if codec[0] == "vlen" and len(inner) >= 8 and self.chance(0.7):
            stored, texts = model.split_vlen(codec, inner)
            count, offset = math.prod(last), codec[3]
            if texts and self.chance(0.5):
                length = model.read_offsets(codec, stored, count)[-1]
                texts = self.spoilt_at_depth(codec[2], texts, ([length], model.UINT8, b"\0"))
            else:
                stored = self.spoilt_at_depth(codec[1], stored, ([count + 1], offset, bytes(model.size_of(offset))))
            length = model.length_bytes(len(stored))
            inner = length + stored + texts if codec[4] == "start" else texts + stored + length
        elif codec[0] == "optional" and len(inner) >= 16 and self.chance(0.7):
            masks = int.from_bytes(inner[:8], "little")
            mask, data = inner[16 : 16 + masks], inner[16 + masks :]
            if data and self.chance(0.5):
                count = model.decode_chain(codec[1], mask, last, model.BOOL, b"\0").count(b"\1")
                data = self.spoilt_at_depth(codec[2], data, ([count], of_type[1], model.blank_fill(of_type[1])))
            else:
                mask = self.spoilt_at_depth(codec[1], mask, (last, model.BOOL, b"\0"))
            inner = model.length_bytes(len(mask)) + model.length_bytes(len(data)) + mask + data
        elif codec[0] == "sharding":
            inner = self.spoilt_shard(codec, inner, (last, of_type, fill))
        else:
            inner = self.spoilt_content(codec, inner)
        return model.do_behind(chain, inner)

    def spoilt_shard(self, codec, value, form):
        """The value with a part of its index, an inner chunk or a number of its index spoilt, or cut."""
        _, inner_shape, inner, index, place = codec
        size, index_form = shard_index(codec, form)
        if len(value) < size or self.chance(0.15):
            return self.damaged(value)
        stored, joined = (value[:size], value[size:]) if place == "start" else (value[len(value) - size :], value[: len(value) - size])
        if self.chance(0.25):
            stored = self.spoilt_at_depth(index, stored, index_form)
            return stored + joined if place == "start" else joined + stored
        numbers = [int.from_bytes(it, "little") for it in model.decode_chain(index, stored, *index_form)]
        spans, first = list(zip(numbers[::2], numbers[1::2])), size if place == "start" else 0
        there = [number for number, span in enumerate(spans) if span != (model.MOST, model.MOST)]
        if there and self.chance(0.5):
            # an inner chunk, behind all others
            number = self.pick(there)
            at, many = spans[number]
            part = self.spoilt_at_depth(inner, value[at : at + many], (inner_shape, *form[1:]))
            spans[number] = first + len(joined), len(part)
            return joined_shard(codec, form, joined + part, spans)
        return joined_shard(codec, form, joined, self.spoilt_spans(spans, len(value)))

    def spoilt_spans(self, spans, length):
        """The spans of inner chunks with others for one or two of them."""
        for _ in range(self.random.randint(1, 2)):
            at = self.random.randrange(len(spans))
            begin, many = spans[at]
            some = (0, 1, length, length + 1, model.MOST, model.MOST - 1, 2**63, 2**32)
            spans[at] = self.pick((
                (self.pick((*some, begin + 1, begin - 1)), many), (begin, self.pick((*some, many + 1, many - 1))), (model.MOST, model.MOST),
                (model.MOST, self.pick((0, 1, many))), (0, model.MOST), (length - many, many), (length - many + 1, many), self.pick(spans), (length, 0),
                (length + 1, 0), (model.MOST - many + 1, many), (begin, length - begin),
            ))
        return [(max(begin, 0) % 2**64, max(many, 0) % 2**64) for begin, many in spans]

    def spoilt_content(self, codec, value):
        """The value with another number in a place of its layout."""
        if codec[0] in PREFIXED and len(value) >= 4 and self.chance(0.9):
            return self.spoilt_prefixed(value)
        if codec[0] == "packbits" and value:
            at = self.pick((0, len(value) - 1))
            return value[:at] + bytes([self.pick((value[at] ^ 1, value[at] ^ 128, 0, 1, 7, 8, 255))]) + value[at + 1 :]
        if codec[0] == "vlen" and len(value) >= 16:
            stored, texts = model.split_vlen(codec, value)
            size, stored = model.size_of(codec[3]), bytearray(stored)
            if stored:
                end = 0 if codec[1][1][1:2] == ("little",) else size - 1
                at = min(self.random.randrange(len(stored)) // size * size + end, len(stored) - 1)
                stored[at] = self.pick((0, 1, 2, 3, 200, max(0, stored[at] - 1), min(255, stored[at] + 1)))
            length = model.length_bytes(len(stored) + self.pick((0, 0, 0, 0, 1, -1)))
            return length + stored + texts if codec[4] == "start" else texts + stored + length
        if codec[0] == "optional" and len(value) >= 16:
            masks, datas = (int.from_bytes(value[at : at + 8], "little") for at in (0, 8))
            mask, data = bytearray(value[16 : 16 + masks]), value[16 + masks :]
            if mask and self.chance(0.5):
                mask[self.random.randrange(len(mask))] = self.pick((0, 1, 2, 255))
            else:
                masks, datas = self.pick(((masks, 2**64 - 1), (2**64 - 16, masks), (masks + 1, datas - 1), (masks + 1, datas), (masks, len(data) - 1)))
            data = data[: datas if self.chance(0.5) else len(data)]
            return model.length_bytes(masks) + model.length_bytes(max(0, datas)) + mask + data
        return self.damaged(value)

    def spoilt_prefixed(self, value):
        """The value with another count or another length, which may be made up for, or with other bytes at its end."""
        def four(number):
            return (number % 2**32).to_bytes(4, "little")

        places, at = [], 4
        while at + 4 <= len(value):
            places.append(at)
            at += 4 + int.from_bytes(value[at : at + 4], "little")
        at = 0 if not places or self.chance(0.3) else self.pick((places[0], places[-1], self.pick(places)))
        number, left = int.from_bytes(value[at : at + 4], "little"), len(value) - at - 4
        roll = self.random.random()
        if roll < 0.15 and len(places) > 1:
            # an element that takes in the one behind it; the count is one too many then, or one fewer
            at = self.pick(places[:-1])
            number = int.from_bytes(value[at : at + 4], "little")
            behind = int.from_bytes(value[at + 4 + number : at + 8 + number], "little")
            count = int.from_bytes(value[:4], "little") - self.pick((0, 1))
            value = four(count) + value[4:at] + four(number + 4 + behind) + value[at + 4 :]
        elif roll < 0.3:
            # an element of nothing more, with the count or without
            value = four(int.from_bytes(value[:4], "little") + self.pick((0, 1))) + value[4:] + bytes(4)
        elif roll < 0.4:
            # the highest byte first
            value = value[:at] + value[at : at + 4][::-1] + value[at + 4 :]
        elif roll < 0.55:
            # as far as a length, or into one, or without a byte
            value = value[: self.pick((at, at + self.random.randint(1, 3), at + 4, at + 4 + number, len(value) - 1))]
        else:
            new = self.pick((0, 1, number + 1, max(0, number - 1), left, left + 1, max(0, left - 1), 2**32 - 1, 2**31, number + 256))
            value = value[:at] + four(new) + value[at + 4 :]
        return value

    def damaged(self, value):
        value = bytearray(value)
        for _ in range(self.random.randint(1, 2)):
            roll, at = self.random.random(), self.pick((0, max(0, len(value) - 1), self.random.randrange(len(value) + 1)))
            if roll < 0.22:
                del value[at:]
            elif roll < 0.3:
                del value[:1]
            elif roll < 0.4:
                value += self.random.randbytes(self.random.randint(1, 3))
            elif roll < 0.55 and len(value) >= 8:
                at = self.pick((0, 0, min(8, len(value) - 8), len(value) - 8, self.random.randrange(len(value) - 7)))
                number = self.pick((0, 1, 2, 7, 8, 9, len(value), len(value) - 8, len(value) - 16, 2**32, 2**63, 2**64 - 1, 2**64 - 16))
                value[at : at + 8] = model.length_bytes(max(number, 0))
            elif at < len(value):
                value[at] = self.pick((0, 1, 2, 255, value[at] ^ 1 << self.random.randrange(8), self.random.randrange(256)))
        return bytes(value)

    def value(self):
        """A value to be loaded: one that is written for a chunk, or one that is damaged before or behind the last codecs."""
        try:
            value = self.content()
        except (model.Refused, model.TooLarge):
            value = self.random.randbytes(self.few(30))
        roll = self.random.random()
        if roll < 0.12:
            value = self.damaged(value)
        value = model.do_behind(self.session.chain, value)
        if roll < 0.12 or roll >= 0.45:
            return value
        return bytes(self.spoilt_value(value)) if roll < 0.36 else self.damaged(value)

    def spoilt_value(self, value):
        try:
            return self.spoilt_at_depth(self.session.chain, value, self.session.form)
        except (model.Refused, model.TooLarge):
            return self.damaged(value)

    # -- Lines

    def range_in(self, size):
        begin, end = sorted((self.random.randint(0, size), self.random.randint(0, size)))
        if size > 500:
            begin = self.pick((0, 0, 1, size - 1, size // 2))
            end = min(size, begin + self.few(3))
        if self.chance(0.03):
            return self.pick(([end, begin], [begin, size + 1], [0, 2**64 - 1], [size, 0], [begin]))
        if self.chance(0.05):
            # nothing, at the axis' end and behind it
            at = self.pick((size, size, size + 1, size + 1, size + 2, 2 * size, 2**32, 2**63, 2**64 - 1))
            return [min(at, model.MOST)] * 2
        if self.chance(0.1):
            return [0, size] if size <= 500 else [begin, end]
        return [begin, end]

    def indexer(self):
        shape = self.session.shape
        if self.chance(0.5):
            rows, kind = [self.range_in(size) for size in shape], "ranges"
        else:
            many, kind = self.few(7), "indices"
            rows = [[self.random.randrange(size) if size < 500 else self.pick((0, 1, size - 1)) for size in shape] for _ in range(many)]
            if rows and self.chance(0.25):
                rows.append(self.pick(rows))
        if rows and self.chance(0.06):
            rows = self.spoilt_tree(rows) if self.chance(0.4) else rows[1:] if self.chance(0.5) else rows + [[self.pick((0, 9))] * max(1, len(shape))]
        return {kind: rows}

    def read(self):
        return b"read " + self.text(self.indexer(), 0.01)

    def write(self):
        at = self.indexer()
        try:
            many = len(model.places_in(model.read_indexer(at), self.session.shape))
        except (model.Refused, model.TooLarge):
            many = self.pick((0, 1))
        many = max(0, many + self.pick((1, -1))) if self.chance(0.04) else many
        data = self.elements([self.element(self.session.type) for _ in range(many)])
        if has_shards(self.session.chain) and self.chance(0.3):
            data = [self.tree_of(model.element_of_fill(self.session.fill, self.session.type))] * many
        if self.chance(0.07):
            at = self.pick(({"ranges": [[1, 0]] * len(self.session.shape)}, {"indices": [[0]]}, {"indices": [[2**32] * len(self.session.shape)]}, {"ranges": []}, at))
            data = self.wrong_elements([self.tree_of(self.element(self.session.type)) for _ in range(self.few(3))])
        tree = {"at": at, "data": data} if self.chance(0.8) else {"data": data, "at": at}
        if self.chance(0.02):
            tree = self.spoilt_tree(tree)
        return b"write " + self.text(tree, 0.01)

    def reencode(self):
        of_type = self.session.type if not self.chance(0.03) else self.pick(sorted(model.TYPES.values()))
        tree = self.chain(of_type, self.session.shape, False)
        return b"reencode " + self.text(self.spoilt_tree(tree) if self.chance(0.03) else tree, 0.01)

    def has_long_elements(self):
        """Whether an element has more bytes than are made here, as of components that were spoilt."""
        inside = self.session.type
        while inside[0] == "optional":
            inside = inside[1]
        return inside[0] == "fixed" and model.size_of(inside) > 1000

    def next_lines(self):
        """A line, and one that looks at it where it loads a value."""
        line = self.line()
        if not line.startswith(b"load") or self.chance(0.3):
            return [line]
        return [line, self.pick((lambda: b"decode", lambda: b"decode", self.read, self.write if not self.is_huge else self.read))()]

    def line(self):
        roll = self.random.random()
        if roll < 0.25:
            return b"load " + self.text(self.value().hex(), 0.01)
        if roll < 0.44:
            return self.read()
        if roll < 0.58 and not self.is_huge:
            return self.write()
        if roll < 0.68:
            return b"encode " + self.text(self.elements(self.chunk()), 0.01)
        if roll < 0.79:
            return b"decode"
        if roll < 0.88:
            return b"value"
        if roll < 0.91:
            return b"erase"
        return self.reencode() if roll < 0.97 else self.pick(LINES)
