# SPDX-License-Identifier: ISC
"""Operands of instructions of 64-bit ARM, from the text of decode_arm.py (the destination first),
and how they are read and written."""

import re
from collections import namedtuple

from machine import Pointer, Unknown, offset_of
from terms import constant, cut, joined, shifted_left

Register = namedtuple("Register", "name width")
Vector = namedtuple("Vector", "number width part")  # the part's width, as 32 in v0.4s, or None
Element = namedtuple("Element", "number width index")
Immediate = namedtuple("Immediate", "number")
Shift = namedtuple("Shift", "way by")
Extended = namedtuple("Extended", "is_signed width by")
Memory = namedtuple("Memory", "base displacement writes index shift", defaults=[None, 0])
Target = namedtuple("Target", "address")
Word = namedtuple("Word", "text")  # as the condition of csinv
Instruction = namedtuple("Instruction", "name operands following text raw")
# What is known of the flags: the result that Z and N tell of, C and V; None where unknown. Where
# the result is a difference, `pair` is of what.
Flags = namedtuple("Flags", "result c v pair", defaults=[None, None])
JUMPS = re.compile(r"b|bl|b\..*|cbn?z|tbn?z|adrp?")  # what has an address as its last operand
SCALARS = {"q": 128, "d": 64, "s": 32, "h": 16, "b": 8}
PARTS = {"b": 8, "h": 16, "s": 32, "d": 64}


def operand(text):
    if (it := re.fullmatch(r"#(-?)(0x[0-9a-f]+|\d+)", text)):
        return Immediate(-int(it[2], 0) if it[1] else int(it[2], 0))
    if (it := re.fullmatch(r"(ror|lsl|lsr|asr) #(\d+)", text)):
        return Shift(it[1], int(it[2]))
    if (it := re.fullmatch(r"([us])xt([bhw])(?: #(\d))?", text)):
        return Extended(it[1] == "s", {"b": 8, "h": 16, "w": 32}[it[2]], int(it[3] or 0))
    if (it := re.fullmatch(r"([wx])(\d+)", text)):
        return Register(f"x{it[2]}", 32 if it[1] == "w" else 64)
    if text in ("sp", "xzr", "wzr"):
        return Register("sp" if text == "sp" else "zero", 32 if text == "wzr" else 64)
    if (it := re.fullmatch(r"([qdshb])(\d+)", text)):
        return Vector(int(it[2]), SCALARS[it[1]], None)
    if (it := re.fullmatch(r"\{?v(\d+)\.(\d+)([bhsd])\}?", text)):
        return Vector(int(it[1]), int(it[2]) * PARTS[it[3]], PARTS[it[3]])
    if (it := re.fullmatch(r"\{?v(\d+)\.([bsd])\}?\[(\d+)\]", text)):
        return Element(int(it[1]), PARTS[it[2]], int(it[3]))
    if (it := re.fullmatch(r"\[(\w+)(?:, #(-?\d+))?\](!?)", text)):
        return Memory(operand(it[1]), int(it[2] or 0), bool(it[3]))
    if (it := re.fullmatch(r"\[(\w+), ([wx]\w+)(?:, (?:lsl|uxtw)(?: #(\d))?)?\]", text)):
        return Memory(operand(it[1]), 0, False, operand(it[2]), int(it[3] or 0))
    return Word(text)


def decode(line):
    if line.text.startswith("("):
        raise Unknown(f"the bytes {line.text}")
    name, _, rest = line.text.partition(" ")
    words = [it.strip() for it in re.findall(r"\s*(\[[^\]]*\]!?|[^,]+)", rest)]
    if JUMPS.fullmatch(name):
        operands = [*map(operand, words[:-1]), Target(int(words[-1], 16))]
    else:
        operands = [operand(it) for it in words]
    return Instruction(name, operands, line.at + 4, line.text, line.raw.hex())


# Reading and writing operands.

def value_of(state, it, width=None):
    if isinstance(it, Register):
        if it.name == "zero":
            return constant(0, it.width)
        value = state.registers[it.name]
        if it.width == 64:
            return value
        if isinstance(value, Pointer):
            state.refuse("a part of a pointer")
        return value[:it.width]
    if isinstance(it, Vector):
        return state.vectors[it.number][:it.width]
    if isinstance(it, Element):
        return cut(state.vectors[it.number], it.width)[it.index]
    if isinstance(it, Immediate):
        return constant(it.number, width)
    raise Unknown(f"an operand {it}")


def word(state, it, width=None):
    """An operand that is no pointer."""
    value = value_of(state, it, width)
    if isinstance(value, Pointer):
        state.refuse("a pointer where a number is wanted")
    return value


def put(state, it, value):
    """Writes a register; what is above is cleared."""
    if isinstance(it, Register):
        if it.name != "zero":
            state.registers[it.name] = value if it.width == 64 else value + (0,) * 32
    elif isinstance(it, Vector):
        state.vectors[it.number] = value + (0,) * (128 - len(value))
    else:
        parts = cut(state.vectors[it.number], it.width)
        parts[it.index] = value[:it.width]
        state.vectors[it.number] = joined(parts)


def at_offset(state, memory):
    """The address of a base and what is added to it."""
    offset = constant(memory.displacement, 64)
    if memory.index:
        offset = word(state, memory.index)
        offset = shifted_left(offset + (0,) * (64 - len(offset)), memory.shift)
    return state.add(state.registers[memory.base.name], offset)


def place(state, memory, after):
    """An address; `after` is what is added to the base afterwards, if anything."""
    base = state.registers[memory.base.name]
    if memory.base.name == "sp" and (offset_of(base) or 0) % 16:
        state.refuse("an access by a stack pointer that is not aligned")
    address = at_offset(state, memory)
    if memory.writes:
        state.registers[memory.base.name] = address
    if after:
        state.registers[memory.base.name] = state.add(base, constant(after.number, 64))
    return address



def extended(value, is_signed, width):
    """A word of a greater width, with zeros or the sign above."""
    return value + (value[-1] if is_signed else 0,) * (width - len(value))
