# SPDX-License-Identifier: ISC
"""Operands of instructions of x86-64, from the text of decode_x86.py (the destination last), and
how they are read and written."""

import re
from collections import namedtuple

import terms
from machine import Pointer, Unknown, at
from terms import constant

LONG = ["rax", "rcx", "rdx", "rbx", "rsp", "rbp", "rsi", "rdi", *(f"r{i}" for i in range(8, 16))]
REGISTERS = {}  # by name: (the register of 64 bits, how many bits)
for _name in LONG:
    if _name[1].isdigit():
        _parts = [_name, _name + "d", _name + "w", _name + "b"]
    elif _name[2] == "x":
        _parts = [_name, "e" + _name[1:], _name[1:], _name[1] + "l"]
    else:
        _parts = [_name, "e" + _name[1:], _name[1:], _name[1:] + "l"]
    REGISTERS.update(zip(_parts, [(_name, it) for it in (64, 32, 16, 8)]))

Register = namedtuple("Register", "name width")
Vector = namedtuple("Vector", "number width")
Immediate = namedtuple("Immediate", "number")
Memory = namedtuple("Memory", "displacement base index scale")
Target = namedtuple("Target", "address")
Instruction = namedtuple("Instruction", "name operands following text raw")
# What is known of the flags: the result that ZF and SF tell of, and CF; None where unknown.
# Where the result is a difference, `pair` is of what: it is zero where they are equal.
Flags = namedtuple("Flags", "result cf pair of", defaults=[None, None])  # of: after a product


# Prefixes that a reader writes as a word where they have no meaning with an instruction.
PREFIXES = {"data16", "addr32", "repz", "repnz", "lock", "cs", "ds", "es", "fs", "gs", "ss",
            "notrack", "bnd"}


def operand(text):
    if text.startswith("$"):
        return Immediate(int(text[1:], 16))
    if text.startswith("%"):
        name = text[1:]
        if (it := re.fullmatch(r"([xy])mm(\d+)", name)):
            return Vector(int(it[2]), 128 if it[1] == "x" else 256)
        if name in REGISTERS:
            return Register(*REGISTERS[name])
    if (it := re.fullmatch(r"(-?)(0x[0-9a-f]+|)\((%\w+|)(?:,(%\w+),(\d))?\)", text)) and all(
            of is None or of[1:] in REGISTERS or of in ("", "%rip") for of in (it[3], it[4])):
        displacement = int(it[2], 16) if it[2] else 0
        return Memory(-displacement if it[1] else displacement, it[3][1:], (it[4] or "%")[1:],
                      int(it[5] or 1))
    if re.fullmatch("[0-9a-f]+", text):
        return Target(int(text, 16))
    if text[0] == "*" and text[1:2] == "%":
        return operand(text[1:])
    raise Unknown(text)


def decode(line):
    text = line.text
    following = line.at + len(line.raw)
    if text.startswith("("):
        raise Unknown(f"the bytes {text}")
    if re.search(r"\bnop[wl]?\b", text) or text in ("xchg %ax,%ax", "endbr64"):
        return Instruction("nop", [], following, text, line.raw.hex())
    name, _, rest = text.partition(" ")
    if name in PREFIXES or name.startswith("rex"):
        raise Unknown(f"the prefix {name}")
    operands = [operand(it) for it in re.findall(r"[^,(]*\([^)]*\)|[^,]+", rest)]
    return Instruction(name, operands, following, text, line.raw.hex())


# Reading and writing operands.

def address(state, it):
    if it.base == "rip":
        return at("image", it.displacement + state.program.instruction(state.pc).following)
    total = constant(it.displacement, 64)
    if it.base:
        total = state.add(state.registers[REGISTERS[it.base][0]], total)
    if it.index:
        index = state.registers[REGISTERS[it.index][0]]
        if it.scale > 1:
            if isinstance(index, Pointer):
                state.refuse("a pointer times a number")
            index = terms.combination([(index, it.scale)], 0, 64)
        total = state.add(total, index)
    return total


def read(state, it, width, aligned=False):
    if isinstance(it, Register):
        value = state.registers[it.name]
        if it.width == 64:
            return value
        if isinstance(value, Pointer):
            state.refuse("a part of a pointer")
        return value[:it.width]
    if isinstance(it, Vector):
        return state.vectors[it.number][:width]
    if isinstance(it, Immediate):
        return constant(it.number, width)
    return state.load(address(state, it), width // 8, aligned)


def write(state, it, value, width, aligned=False):
    if isinstance(it, Register):
        if it.width == 32:
            value = value + (0,) * 32
        elif it.width < 32:
            old = state.registers[it.name]
            if isinstance(old, Pointer):
                old = terms.fresh("an address", 64)
            value = value + old[it.width:]
        state.registers[it.name] = value
    elif isinstance(it, Vector):
        old = state.vectors[it.number]
        state.vectors[it.number] = value + old[len(value):]
    else:
        state.store(address(state, it), width // 8, value, aligned)


def word(state, it, width):
    """An operand that is no pointer."""
    value = read(state, it, width)
    if isinstance(value, Pointer):
        state.refuse("a pointer where a number is wanted")
    return value


SUFFIXES = {"b": 8, "w": 16, "l": 32, "q": 64}


def width_of(it):
    for of in it.operands[::-1]:
        if isinstance(of, Register):
            return of.width
    return SUFFIXES[it.name[-1]]
