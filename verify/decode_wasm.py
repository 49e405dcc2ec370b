# SPDX-License-Identifier: ISC
"""Reads instructions of WebAssembly (its core specification, 5.4), as wasm-objdump writes them:
those over whole numbers and vectors of them. Others are refused."""

from collections import namedtuple

# What is read: how many bytes, its name, what is behind it as numbers.
Read = namedtuple("Read", "size name immediates")


class Unreadable(Exception):
    """Bytes that are no instruction which is read here."""


def named(first, prefix, words):
    return {first + i: f"{prefix}{it}" for i, it in enumerate(words.split())}


COMPARED = "eq ne lt_s lt_u gt_s gt_u le_s le_u ge_s ge_u"
COMPUTED = ("clz ctz popcnt add sub mul div_s div_u rem_s rem_u and or xor shl shr_s shr_u rotl "
            "rotr")
PLAIN = {0x00: "unreachable", 0x01: "nop", 0x05: "else", 0x0b: "end", 0x0f: "return", 0x1a: "drop",
         0x1b: "select", 0x45: "i32.eqz", 0x50: "i64.eqz", 0xa7: "i32.wrap_i64",
         0xac: "i64.extend_i32_s", 0xad: "i64.extend_i32_u",
         **named(0x46, "i32.", COMPARED), **named(0x51, "i64.", COMPARED),
         **named(0x67, "i32.", COMPUTED), **named(0x79, "i64.", COMPUTED),
         **named(0xc0, "", "i32.extend8_s i32.extend16_s i64.extend8_s i64.extend16_s "
                           "i64.extend32_s")}
BLOCKS = {0x02: "block", 0x03: "loop", 0x04: "if"}
INDEXED = {0x0c: "br", 0x0d: "br_if", 0x10: "call", 0x20: "local.get", 0x21: "local.set",
           0x22: "local.tee", 0x23: "global.get", 0x24: "global.set"}
CONSTANTS = {0x41: ("i32.const", 32), 0x42: ("i64.const", 64)}
ACCESSES = {0x28: "i32.load", 0x29: "i64.load",
            **named(0x2c, "i32.", "load8_s load8_u load16_s load16_u"),
            **named(0x30, "i64.", "load8_s load8_u load16_s load16_u load32_s load32_u"),
            0x36: "i32.store", 0x37: "i64.store", 0x3a: "i32.store8", 0x3b: "i32.store16",
            **named(0x3c, "i64.", "store8 store16 store32")}
BRANCH_TABLE, MANY, VECTOR = 0x0e, 0xfc, 0xfd
MANY_NAMES = {10: ("memory.copy", 2), 11: ("memory.fill", 1)}
TYPES = {0x7f: "i32", 0x7e: "i64", 0x7b: "v128"}
NO_RESULT = 0x40
# Behind the byte of vectors.
VECTOR_ACCESSES = {0x00: "v128.load", 0x0b: "v128.store", 0x5c: "v128.load32_zero",
                   0x5d: "v128.load64_zero",
                   **named(0x01, "v128.", "load8x8_s load8x8_u load16x4_s load16x4_u load32x2_s "
                                          "load32x2_u load8_splat load16_splat load32_splat "
                                          "load64_splat")}
LANE_ACCESSES = named(0x54, "v128.", "load8_lane load16_lane load32_lane load64_lane store8_lane "
                                     "store16_lane store32_lane store64_lane")
LANES = named(0x15, "", "i8x16.extract_lane_s i8x16.extract_lane_u i8x16.replace_lane "
                        "i16x8.extract_lane_s i16x8.extract_lane_u i16x8.replace_lane "
                        "i32x4.extract_lane i32x4.replace_lane i64x2.extract_lane "
                        "i64x2.replace_lane")
SHAPES = {"i8x16": 0x60, "i16x8": 0x80, "i32x4": 0xa0, "i64x2": 0xc0}
OF_SHAPE = {0x1: "neg", 0x3: "all_true", 0x4: "bitmask", 0xb: "shl", 0xc: "shr_s", 0xd: "shr_u",
            0xe: "add", 0x11: "sub"}
EXTENDED = "extend_low_{0}_s extend_high_{0}_s extend_low_{0}_u extend_high_{0}_u"
VECTOR_PLAIN = {0x0e: "i8x16.swizzle", 0x53: "v128.any_true",
                **named(0x0f, "", "i8x16.splat i16x8.splat i32x4.splat i64x2.splat"),
                **named(0x23, "i8x16.", COMPARED), **named(0x2d, "i16x8.", COMPARED),
                **named(0x37, "i32x4.", COMPARED),
                **named(0xd6, "i64x2.", "eq ne lt_s gt_s le_s ge_s"),
                **named(0x4d, "v128.", "not and andnot or xor bitselect"),
                **{first + at: f"{shape}.{it}" for shape, first in SHAPES.items()
                   for at, it in OF_SHAPE.items()},
                **named(0x87, "i16x8.", EXTENDED.format("i8x16")),
                **named(0xa7, "i32x4.", EXTENDED.format("i16x8")),
                **named(0xc7, "i64x2.", EXTENDED.format("i32x4"))}
V128_CONST, SHUFFLE = 0x0c, 0x0d


class Reader:
    """Bytes, read from a place on."""

    def __init__(self, data, at=0, end=None):
        self.data, self.at, self.end = data, at, len(data) if end is None else end

    def take(self, count):
        """The next bytes."""
        if self.at + count > self.end:
            raise Unreadable(f"{self.at:x}: the bytes end within a part")
        self.at += count
        return self.data[self.at - count:self.at]

    def byte(self):
        return self.take(1)[0]

    def number(self, width=32):
        """A number without a sign, of at most so many bits, in LEB128."""
        value, start = 0, self.at
        for shift in range(0, width, 7):
            byte = self.byte()
            value |= (byte & 0x7f) << shift
            if byte < 0x80:
                if value >> width:
                    break
                return value
        raise Unreadable(f"{start:x}: a number of over {width} bits")

    def signed(self, width):
        """The same of one with a sign."""
        value, start = 0, self.at
        for shift in range(0, width, 7):
            byte = self.byte()
            value |= (byte & 0x7f) << shift
            if byte < 0x80:
                value -= (byte >> 6) << shift + 7
                if not -1 << width - 1 <= value < 1 << width - 1:
                    break
                return value
        raise Unreadable(f"{start:x}: a number of over {width} bits")

    def name(self):
        try:
            return self.take(self.number()).decode()
        except UnicodeDecodeError:
            raise Unreadable(f"{self.at:x}: a name that is no text") from None

    def type(self):
        start, byte = self.at, self.byte()
        if byte not in TYPES:
            raise Unreadable(f"{start:x}: byte {byte:02x} is no type of numbers or vectors")
        return TYPES[byte]


def span(name):
    """How many bytes an access spans."""
    kind, _, what = name.partition(".")
    if "x" in what:  # of as many parts of a vector as fill a half
        return 8
    bits = "".join(it for it in what if it.isdigit()) or kind[1:]
    return int(bits) // 8


def access(source, name, has_lane=False):
    """An access: its alignment, as a power of two, its offset, and the number of a lane."""
    start, alignment, offset = source.at, source.number(), source.number()
    if alignment > 4 or 1 << alignment > span(name):
        raise Unreadable(f"{start:x}: an access that is aligned to more than it spans")
    return (name, alignment, offset, lane(source, 16 // span(name))) if has_lane else \
        (name, alignment, offset)


def lane(source, count):
    """The number of one of so many lanes."""
    start, number = source.at, source.byte()
    if number >= count:
        raise Unreadable(f"{start:x}: byte {number:02x} is no lane")
    return number


def of_vector(source, start):
    code = source.number()
    if code in VECTOR_ACCESSES:
        return access(source, VECTOR_ACCESSES[code])
    if code in LANE_ACCESSES:
        return access(source, LANE_ACCESSES[code], True)
    if code in LANES:
        return LANES[code], lane(source, int(LANES[code].partition(".")[0].partition("x")[2]))
    if code == V128_CONST:
        return "v128.const", int.from_bytes(source.take(16), "little")
    if code == SHUFFLE:
        return ("i8x16.shuffle", *(lane(source, 32) for _ in range(16)))
    if code in VECTOR_PLAIN:
        return (VECTOR_PLAIN[code],)
    raise Unreadable(f"{start:x}: no instruction is known by fd {code:02x}")


def of_many(source, start):
    code = source.number()
    if code not in MANY_NAMES:
        raise Unreadable(f"{start:x}: no instruction is known by fc {code:02x}")
    name, zeros = MANY_NAMES[code]
    if any(source.take(zeros)):
        raise Unreadable(f"{start:x}: another memory")
    return (name,)


def parts(source):
    """The next instruction: its name and what is behind it."""
    start, code = source.at, source.byte()
    if code in PLAIN:
        return (PLAIN[code],)
    if code in INDEXED:
        return INDEXED[code], source.number()
    if code in CONSTANTS:
        name, width = CONSTANTS[code]
        return name, source.signed(width) & (1 << width) - 1
    if code in ACCESSES:
        return access(source, ACCESSES[code])
    if code in BLOCKS:
        if source.data[source.at:source.at + 1] == bytes([NO_RESULT]):
            source.at += 1
            return (BLOCKS[code],)
        return BLOCKS[code], source.type()
    if code == BRANCH_TABLE:
        return ("br_table", *(source.number() for _ in range(source.number() + 1)))
    if code == MANY:
        return of_many(source, start)
    if code == VECTOR:
        return of_vector(source, start)
    raise Unreadable(f"{start:x}: no instruction is known by {code:02x}")


def read(data, at, end):
    """The instruction at a place of bytes that end at another one."""
    source = Reader(data, at, end)
    name, *immediates = parts(source)
    return Read(source.at - at, name, tuple(immediates))


def text(name, immediates):
    """An instruction as wasm-objdump writes it."""
    if name == "v128.const":
        words = [f"0x{immediates[0] >> at & 0xffffffff:08x}" for at in range(0, 128, 32)]
    elif name == "i8x16.shuffle":
        number = int.from_bytes(bytes(immediates), "little")
        words = [f"0x{number >> at & 0xffffffff:08x}" for at in range(0, 128, 32)]
    elif name in ("memory.copy", "memory.fill"):
        words = ["0"] * (2 if name == "memory.copy" else 1)
    elif name == "i64.const":
        words = [str(immediates[0] - (immediates[0] >> 63 << 64))]
    else:
        words = map(str, immediates)
    return " ".join([name, *words])
