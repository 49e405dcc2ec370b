# SPDX-License-Identifier: ISC
"""How code for x86-64 runs on Windows: Microsoft's convention, with the instructions of x86.py. Of
the arguments four are in registers and the others on the stack, above room for those four; a vector
is given by a pointer to it; rdi, rsi and the lower halves of xmm6 to xmm15 are kept too; and there
is no red zone."""

import x86
from loops import put_word
from machine import Refused, Region, at
from terms import cut, joined
from x86 import RESULTS, Program

ARGUMENTS = ["rcx", "rdx", "r8", "r9"]
KEPT = [*x86.KEPT, "rdi", "rsi"]
KEPT_VECTORS = range(6, 16)
FIRST_ON_STACK = 8 + 32  # above the address of return and the room
# The convention aligns a stack by 16 bytes, and some functions by 32: so each is looked at with
# either stack pointer, modulo 32, that it may be called with.
RESIDUES = (8, 24)
residue = RESIDUES[0]


def start_state(library, function, variables={}):
    state = x86.start_state(library, function, variables, residue, 32)
    state.red_zone = 0
    state.regions["stack"].high = FIRST_ON_STACK
    return state


def put_arguments(state, values, before=0):
    """Arguments, of which some are there already."""
    for i, value in enumerate(values, before):
        if i < len(ARGUMENTS):
            state.registers[ARGUMENTS[i]] = value
        else:
            offset = FIRST_ON_STACK + 8 * (i - len(ARGUMENTS))
            state.regions["stack"].high = offset + 8
            state.store(at("stack", offset), 8, value)
    state.regions["stack"].written.clear()


def put_vector_arguments(state, symbol, words):
    """Words as vectors in memory, of 256 bits in a build with AVX2, after two other arguments."""
    width = 256 if len(words[0]) == 64 and state.program.has_avx(symbol) else 128
    vectors = Region("vectors", 0, sum(map(len, words)) // 8, modulus=width // 8)
    state.add_region(vectors)
    values = cut(joined(words), width)
    for i, value in enumerate(values):
        put_word(vectors, i * width // 8, value)
    put_arguments(state, [at("vectors", i * width // 8) for i in range(len(values))], 2)


def check_return(state, start):
    if state.registers["rsp"] != at("stack", 8):
        raise Refused("return: the stack pointer is not restored")
    for name in KEPT:
        if name != "rsp" and state.registers[name] != start.registers[name]:
            raise Refused(f"return: {name} is not restored")
    for i in KEPT_VECTORS:
        if state.vectors[i][:128] != start.vectors[i][:128]:
            raise Refused(f"return: xmm{i} is not restored")
