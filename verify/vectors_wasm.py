# SPDX-License-Identifier: ISC
"""Instructions of WebAssembly over vectors, as far as the kernels have them. TABLE has those that
give a value of their operands alone, each by what is behind it and the operands; MEMORY those that
read or write, which take (state, instruction)."""

from machine import Unknown, bits_of
from operands_wasm import address, operand, put, take
from terms import (add, and_words, constant, cut, inverted, joined, number_of, or_words,
                   shifted_left, shifted_right, subtract, xor_words)

WIDTHS = {"i8x16": 8, "i16x8": 16, "i32x4": 32, "i64x2": 64}


def each(width, function):
    """A function of each lane of one or two vectors."""
    def run(_, *vectors):
        return joined(map(function, *(cut(it, width) for it in vectors)))
    return run


def whole(function):
    return lambda _, *vectors: function(*vectors)


def shift(width, function):
    def run(_, vector, count):
        by = number_of(count[:width.bit_length() - 1])
        if by is None:
            raise Unknown("a shift by a number that is not known")
        return joined(function(it, by) for it in cut(vector, width))
    return run


def shifted_right_signed(word, count):
    return word[count:] + word[-1:] * count


def splat(width):
    return lambda _, word: word[:width] * (128 // width)


def extract(width, to, is_signed):
    def run(immediates, vector):
        part = cut(vector, width)[immediates[0]]
        return part + (part[-1] if is_signed else 0,) * (to - width)
    return run


def replace(width):
    def run(immediates, vector, word):
        parts = cut(vector, width)
        parts[immediates[0]] = word[:width]
        return joined(parts)
    return run


def shuffle(immediates, a, b):
    parts = cut(a + b, 8)
    return joined(parts[it] for it in immediates)


def swizzle(_, a, b):
    parts, found = cut(a, 8), []
    for it in map(number_of, cut(b, 8)):
        if it is None:
            raise Unknown("a choice of bytes that is not known")
        found.append(parts[it] if it < 16 else constant(0, 8))
    return joined(found)


def bitselect(_, a, b, mask):
    return xor_words(and_words(xor_words(a, b), mask), b)


def extend(width, is_low, is_signed):
    """The lanes of a half, each to twice its width."""
    def run(_, vector):
        parts = cut(vector[:64] if is_low else vector[64:], width)
        return joined(it + (it[-1] if is_signed else 0,) * width for it in parts)
    return run


def negative(word):
    return subtract(constant(0, len(word)), word)


def of_shape(shape):
    width = WIDTHS[shape]
    found = {"add": each(width, add), "sub": each(width, subtract), "neg": each(width, negative),
             "shl": shift(width, shifted_left), "shr_u": shift(width, shifted_right),
             "shr_s": shift(width, shifted_right_signed), "splat": splat(width),
             "replace_lane": replace(width)}
    if width < 32:
        found |= {f"extract_lane_{it}": extract(width, 32, it == "s") for it in "su"}
    else:
        found["extract_lane"] = extract(width, width, False)
    if width > 8:
        of = {16: "i8x16", 32: "i16x8", 64: "i32x4"}[width]
        found |= {f"extend_{half}_{of}_{sign}": extend(width // 2, half == "low", sign == "s")
                  for half in ("low", "high") for sign in "su"}
    return {f"{shape}.{name}": function for name, function in found.items()}


TABLE = {"v128.not": whole(inverted), "v128.and": whole(and_words), "v128.or": whole(or_words),
         "v128.xor": whole(xor_words),
         "v128.andnot": whole(lambda a, b: and_words(a, inverted(b))),
         "v128.bitselect": bitselect, "i8x16.shuffle": shuffle, "i8x16.swizzle": swizzle,
         **of_shape("i8x16"), **of_shape("i16x8"), **of_shape("i32x4"), **of_shape("i64x2")}


# Memory.

def read(state, it, size):
    """Bytes from the address that is on the stack, as a word; one of a pointer as bits of its
    own."""
    base, = take(state, it, 1)
    cells = state.load_cells(address(state, base, it.immediates[1]), size)
    return joined(map(bits_of, cells))


def give(state, it, vector):
    put(state, "v128", operand(state, len(it.types) - 1), vector)


def load_splat(state, it):
    size = int("".join(filter(str.isdigit, it.name[5:]))) // 8
    give(state, it, read(state, it, size) * (16 // size))


def load_zero(state, it):
    size = int("".join(filter(str.isdigit, it.name[5:]))) // 8
    give(state, it, read(state, it, size) + (0,) * (128 - 8 * size))


def load_extended(state, it):
    width = int(it.name[len("v128.load"):].partition("x")[0])
    give(state, it, extend(width, True, it.name[-1] == "s")(None, read(state, it, 8) + (0,) * 64))


def access_lane(state, it):
    """A load or a store of one lane."""
    base, vector = take(state, it, 2)
    width = int("".join(filter(str.isdigit, it.name[5:])))
    parts, where = cut(vector, width), address(state, base, it.immediates[1])
    number = it.immediates[2]
    if "store" in it.name:
        state.store(where, width // 8, parts[number])
        return
    parts[number] = joined(map(bits_of, state.load_cells(where, width // 8)))
    put(state, "v128", operand(state, len(it.types) - 2), joined(parts))


MEMORY = {**{f"v128.load{it}_splat": load_splat for it in (8, 16, 32, 64)},
          **{f"v128.load{it}_zero": load_zero for it in (32, 64)},
          **{f"v128.load{it}_{sign}": load_extended for it in ("8x8", "16x4", "32x2")
             for sign in "su"},
          **{f"v128.{what}{it}_lane": access_lane for what in ("load", "store")
             for it in (8, 16, 32, 64)}}
