# SPDX-License-Identifier: ISC
"""Where instructions of WebAssembly find what they read.

Locals and operands are registers, or vectors, by how deep their function is called and by their
place there: `1.0` is the first local of the function that is shown, `1.s0` the operand at the
bottom of its stack. A number of 32 bits has zeros above, of which no instruction takes any. An
address of 64 bits is that of a region and an offset; cut to 32 bits, as lower.py has each cut, it
is the same address, since all regions lie below. Numbers that are addresses are those of the
module's constants."""

from machine import Pointer, at
from terms import add, constant, number_of

WIDTHS = {"i32": 32, "i64": 64, "v128": 128}


def depth(state):
    return number_of(state.registers["depth"])


def place(state, kind, name):
    """What has a local or an operand of a type."""
    return (state.vectors if kind == "v128" else state.registers), name


def local(state, number):
    return f"{depth(state)}.{number}"


def operand(state, number):
    return f"{depth(state)}.s{number}"


def get(state, kind, name):
    of, name = place(state, kind, name)
    value = of[name]
    return value if isinstance(value, Pointer) else value[:WIDTHS[kind]]


def put(state, kind, name, value):
    of, name = place(state, kind, name)
    if not isinstance(value, Pointer):
        assert len(value) == WIDTHS[kind], (name, kind, len(value))
        value = value + (0,) * (64 - len(value))
    of[name] = value


def take(state, it, count):
    """The uppermost operands, which go away."""
    first, found = len(it.types) - count, []
    for number in range(first, len(it.types)):
        kind = it.types[number]
        found.append(get(state, kind, operand(state, number)))
        of, name = place(state, kind, operand(state, number))
        del of[name]
    return found


def number(state, value):
    if isinstance(value, Pointer):
        state.refuse("an address where a number is wanted")
    return value


def address(state, value, offset):
    """Where an access is: an address of 32 bits and an offset, whose sum is not cut."""
    if not isinstance(value, Pointer):
        number = number_of(value)
        if number is None:
            state.refuse("an access at an address that depends on data")
        return at("image", number + offset)
    region = state.regions.get(value.region)
    if offset and (region is None or region.offset(value.offset, 0) is None):
        state.refuse(f"an access from an address that is outside of {value.region}")
    return Pointer(value.region, add(value.offset, constant(offset, 64)))
