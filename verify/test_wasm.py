#!/usr/bin/env python3
# SPDX-License-Identifier: ISC
"""Runs small functions of WebAssembly by node, and beside it by their meaning in wasm.py:

    test_wasm.py

Each instruction that has a meaning is in one of them, with what it takes read from memory and what
it gives written there; and functions with branches, calls and loops. All of the memory and the
globals are compared."""

import random
import struct
import subprocess
import sys
from collections import Counter, namedtuple

import decode_wasm
import terms
import vectors_wasm
import wasm
from decode_wasm import SHAPES
from flow_wasm import signature
from machine import Refused, Region, run
from wasm_module import MAGIC, Module

CASES, MEMORY, MIDDLE = 40, 512, 256
OPERANDS, RESULT = (0, 16, 32), 64  # where a function reads and writes
VOID, TYPES = 0x40, {it: code for code, it in decode_wasm.TYPES.items()}
CODES = {name: bytes([code]) for of in (decode_wasm.PLAIN, decode_wasm.BLOCKS, decode_wasm.INDEXED,
                                        decode_wasm.ACCESSES) for code, name in of.items()}
CODES |= {name: bytes([code]) for code, (name, _) in decode_wasm.CONSTANTS.items()}
CODES["br_table"] = bytes([decode_wasm.BRANCH_TABLE])
# Takes a module, and for each case a function's number and a memory; gives the memory after it.
MAIN = r"""
const read = (count) => (at += count, input.subarray(at - count, at));
const input = require("fs").readFileSync(0), output = [];
let at = 0;
const size = read(4).readUInt32LE();
const { exports } = new WebAssembly.Instance(new WebAssembly.Module(read(size)));
while (at < input.length) {
    const call = exports["f" + read(4).readUInt32LE()];
    const bytes = new Uint8Array(exports.memory.buffer, 0, SIZE);
    bytes.set(read(SIZE));
    call();
    output.push(Buffer.from(bytes));
}
require("fs").writeSync(1, Buffer.concat(output));
"""


def leb(value):
    """A number without a sign, as its bytes."""
    out = bytearray()
    while value >= 0x80:
        out.append(value & 0x7f | 0x80)
        value >>= 7
    return bytes([*out, value])


def signed_leb(value, width):
    value -= value >> width - 1 << width
    out = bytearray()
    while not -64 <= value < 64:
        out.append(value & 0x7f | 0x80)
        value >>= 7
    return bytes([*out, value & 0x7f])


def vector_code(name):
    """The bytes of the name of an instruction of vectors."""
    special = {"v128.const": decode_wasm.V128_CONST, "i8x16.shuffle": decode_wasm.SHUFFLE}
    for of in (decode_wasm.VECTOR_ACCESSES, decode_wasm.LANE_ACCESSES, decode_wasm.LANES,
               decode_wasm.VECTOR_PLAIN):
        special |= {it: code for code, it in of.items()}
    return bytes([decode_wasm.VECTOR]) + leb(special[name])


def code(name, *more):
    """The bytes of an instruction."""
    if name in ("memory.copy", "memory.fill"):
        number = {it[0]: number for number, it in decode_wasm.MANY_NAMES.items()}[name]
        return bytes([decode_wasm.MANY, number]) + bytes(2 if name == "memory.copy" else 1)
    if name in ("i32.const", "i64.const"):
        return CODES[name] + signed_leb(more[0] & (1 << int(name[1:3])) - 1, int(name[1:3]))
    if name in decode_wasm.BLOCKS.values():
        return CODES[name] + bytes([TYPES[more[0]] if more else VOID])
    if name == "br_table":
        return CODES[name] + leb(len(more) - 1) + b"".join(map(leb, more))
    if name == "v128.const":
        return vector_code(name) + more[0].to_bytes(16, "little")
    if name in CODES:
        return CODES[name] + b"".join(map(leb, more))
    if name == "i8x16.shuffle" or len(more) == 1:
        return vector_code(name) + bytes(more)
    return vector_code(name) + b"".join(map(leb, more))


def codes(*instructions):
    return b"".join(code(*it) for it in instructions)


def sized(data):
    return leb(len(data)) + data


def vector(parts):
    return leb(len(parts)) + b"".join(parts)


# A function: its parameters, its result or None, its further locals, its instructions.
Function = namedtuple("Function", "parameters result locals instructions")


def module(functions):
    """A module with these functions, each but the helpers exported, and a memory of a page."""
    def kinds(of):
        return vector([bytes([TYPES[it]]) for it in of])

    types = [b"\x60" + kinds(it.parameters) + kinds([it.result] if it.result else [])
             for it in functions]
    exports = [sized(b"memory") + bytes([2, 0])]
    exports += [sized(b"f%d" % i) + b"\0" + leb(i) for i in range(len(functions))]
    bodies = [sized(vector([b"\1" + bytes([TYPES[kind]]) for kind in it.locals])
                    + codes(*it.instructions) + code("end")) for it in functions]
    parts = {1: vector(types), 3: vector(list(map(leb, range(len(functions))))), 5: b"\1\0\1",
             6: vector([bytes([TYPES["i64"], 1]) + codes(("i64.const", 0), ("end",)),
                        bytes([TYPES["i32"], 1]) + codes(("i32.const", 7), ("end",)),
                        bytes([TYPES["i64"], 0]) + codes(("i64.const", 1 << 40), ("end",))]),
             7: vector(exports), 10: vector(bodies), 11: vector([])}
    return MAGIC + b"".join(bytes([number]) + sized(it) for number, it in parts.items())


def loads(kinds):
    """Puts operands of these types on the stack, from memory."""
    for place, kind in zip(OPERANDS, kinds):
        yield "i32.const", 0
        yield f"{kind}.load", 0, place


def of_instruction(name, *more):
    """A function that does an instruction, with operands from memory."""
    taken, given = signature(name)
    body = [("i32.const", 0)] if given else []
    body += [*loads(taken), (name, *more)]
    body += [(f"{given[0]}.store", 0, RESULT)] if given else []
    return Function([], None, [], body)


def at_address(name, *more):
    """The same of an access, at an address from memory."""
    taken, given = signature(name)
    values = list(loads(["i32", *taken[1:]]))
    body = [("i32.const", 0)] if given else []
    return Function([], None, [], [*body, *values, (name, *more), *(
        [(f"{given[0]}.store", 0, RESULT)] if given else [])])


def further(name, source):
    """What may be behind an instruction's name, each a tuple."""
    shape = name.partition(".")[0]
    if "_lane" in name and shape in SHAPES:
        return [(i,) for i in range(int(shape.partition("x")[2]))]
    if name == "i8x16.shuffle":
        return [tuple(source.randrange(32) for _ in range(16)) for _ in range(8)]
    if "load" in name or "store" in name:
        lanes = range(16 // decode_wasm.span(name)) if name.endswith("_lane") else [None]
        return [(0, offset, *([] if it is None else [it])) for it in lanes for offset in (0, 9)]
    return [()]


def of_each(source):
    """Pairs of functions, one for each form of each instruction, and whether its first operand is
    an address."""
    names = [*wasm.NUMBERS, *vectors_wasm.TABLE, *vectors_wasm.MEMORY,
             *(it for it in wasm.OTHERS if ".load" in it or ".store" in it)]
    for name in sorted(names):
        if name in known():
            for more in further(name, source):
                is_access = ".load" in name or ".store" in name
                yield (at_address if is_access else of_instruction)(name, *more), is_access
    for number in (0, 1, 0x80 << 120, (1 << 128) - 1, source.getrandbits(128)):
        yield Function([], None, [], [("i32.const", 0), ("v128.const", number),
                                      ("v128.store", 0, RESULT)]), False


def known():
    """The names that the reader knows."""
    return {*CODES, *decode_wasm.VECTOR_ACCESSES.values(), *decode_wasm.LANE_ACCESSES.values(),
            *decode_wasm.LANES.values(), *decode_wasm.VECTOR_PLAIN.values(), "i8x16.shuffle",
            "v128.const"}


FIRST = [*loads(["i32"])]  # a number from memory
STORE = ("i32.store", 0, RESULT)
LOOP = [  # sums the numbers up to one below 16
    *FIRST, ("i32.const", 15), ("i32.and",), ("local.set", 0), ("block",), ("local.get", 0),
    ("i32.eqz",), ("br_if", 0), ("loop",), ("local.get", 1), ("local.get", 0), ("i32.add",),
    ("local.set", 1), ("local.get", 0), ("i32.const", -1), ("i32.add",), ("local.tee", 0),
    ("br_if", 0), ("end",), ("end",), ("i32.const", 0), ("local.get", 1), STORE]


def choices(number):
    """Which of some places a table of branches goes to, by nested blocks."""
    body = [("i32.const", 0), ("block", "i32")]
    body += [("block",)] * 3 + [*FIRST, ("i32.const", 3), ("i32.and",), ("br_table", 0, 2, 1, 0)]
    for it in range(3):
        body += [("end",), ("i32.const", number + it), ("br", 2 - it)]
    return [*body, ("end",), STORE]


# Functions that are called: of a sum, of a choice by a return, of a vector.
HELPERS = [
    Function(["i32", "i64"], "i64", ["i32"], [
        ("local.get", 0), ("i64.extend_i32_u",), ("local.get", 1), ("i64.add",)]),
    Function(["i32"], "i32", [], [
        ("local.get", 0), ("i32.const", 1), ("i32.and",), ("if",), ("i32.const", 5), ("return",),
        ("end",), ("local.get", 0)]),
    Function(["v128", "v128"], "v128", ["v128"], [
        ("local.get", 1), ("local.get", 0), ("local.tee", 2), ("i64x2.sub",), ("local.get", 2),
        ("v128.xor",)])]
CALLS = [
    [("i32.const", 0), ("i64.const", 3), *FIRST, ("i32.const", 0), ("i64.load", 0, 16),
     ("call", 0), ("i64.sub",), ("i64.store", 0, RESULT)],
    [("i32.const", 0), *FIRST, ("call", 1), STORE],
    [("i32.const", 0), *loads(["v128", "v128"]), ("call", 2), ("v128.store", 0, RESULT)]]
OTHERS = [
    LOOP, choices(10), *CALLS,
    [("i32.const", 0), *loads(["i64", "i64", "i32"]), ("select",), ("i64.store", 0, RESULT)],
    [("i32.const", 0), *loads(["v128", "v128", "i32"]), ("select",), ("v128.store", 0, RESULT)],
    [("i32.const", 0), *FIRST, ("i32.const", 1), ("i32.and",), ("if", "i32"), ("i32.const", 1),
     ("else",), ("i32.const", 2), ("end",), STORE],
    [("i32.const", 0), ("i32.const", 9), *loads(["i64"]), ("drop",), ("nop",), STORE],
    [("i32.const", 0), ("block", "i32"), ("i32.const", 4), ("i32.const", 6), *FIRST, ("br_if", 0),
     ("drop",), ("end",), STORE],
    [("i32.const", 0), ("block", "i32"), ("i32.const", 4), ("i32.const", 6), ("br", 0), ("end",),
     STORE],
    [*FIRST, ("i32.const", 1), ("i32.and",), ("if",), ("return",), ("end",), ("i32.const", 0),
     ("i32.const", 77), STORE],
    [("i32.const", 0), ("global.get", 1), *FIRST, ("global.set", 1), ("global.get", 1),
     ("i32.add",), STORE, ("i32.const", 7), ("global.set", 1)],
    [("i32.const", 0), ("global.get", 2), ("i64.const", -5), ("i64.add",),
     ("i64.store", 0, RESULT)],
    *([("i32.const", to), ("i32.const", 300), ("i32.const", size), ("memory.copy",)]
      for to, size in ((100, 40), (310, 50), (290, 50), (300, 0))),
    [("i32.const", 200), ("i32.const", 0), ("i32.load", 0, 4), ("i32.const", 33), ("memory.fill",)]]


def number(width, source):
    if source.random() < 0.3:
        return source.choice([0, 1, (1 << width) - 1, 1 << (width - 1), (1 << (width - 1)) - 1, 2])
    return source.getrandbits(width)


def memory(source, is_access):
    """A memory with operands, the first of them an address if that is wanted."""
    found = bytearray(source.randbytes(MEMORY))
    for place in OPERANDS:
        lanes = source.choice((8, 16, 32, 64, 128))
        found[place:place + 16] = b"".join(
            number(lanes, source).to_bytes(lanes // 8, "little") for _ in range(128 // lanes))
    if source.random() < 0.2:  # equal operands
        found[16:32] = found[:16]
    if is_access:
        struct.pack_into("<I", found, 0, MIDDLE + source.randrange(64))
    return bytes(found)


def expected(it, symbol, before):
    """The memory after a function, by its meanings, and the names of the instructions."""
    start = wasm.start_state(it, symbol)
    start.regions["image"] = region = Region("image", 0, MEMORY, True)
    region.cells = {i: terms.constant(byte, 8) for i, byte in enumerate(before)}
    start.registers["global 1"] = terms.constant(7, 64)
    end, = run(start)[0]
    after = bytes(terms.number_of(end.regions["image"].cell(i)) for i in range(MEMORY))
    wasm.check_return(end, start)
    return after, {of.name for of in end.program.used.values()}


def by_node(data, cases):
    """The memory after each case, by node."""
    given = struct.pack("<I", len(data)) + data + b"".join(
        struct.pack("<I", function) + before for function, before in cases)
    done = subprocess.run(["node", "-e", MAIN.replace("SIZE", str(MEMORY))], input=given,
                          capture_output=True, check=True).stdout
    return terms.cut(done, MEMORY)


Compared = namedtuple("Compared", "names functions cases failed")


def compare():
    """Runs all functions by both."""
    source = random.Random(1)
    of_all = list(of_each(source)) + [(Function([], None, ["i32", "i32"], it), False)
                                      for it in OTHERS]
    functions = HELPERS + [it for it, _ in of_all]
    data = module(functions)
    it = Module(data, [f"f{i}" for i in range(len(functions))])
    cases = [(len(HELPERS) + i, memory(source, is_access))
             for i, (_, is_access) in enumerate(of_all) for _ in range(CASES)]
    failed, names = Counter(), set()
    for (function, before), found in zip(cases, by_node(data, cases)):
        try:
            after, more = expected(it, it.symbols[function], before)
        except Refused as why:
            failed[str(why)] += 1
            continue
        names |= more
        if after != found:
            failed[str(functions[function].instructions)] += 1
    return Compared(names, len(functions), len(cases), failed)


def main():
    found = compare()
    for what, count in found.failed.items():
        print(f"{what}: {count} cases differ")
    print(f"{len(found.names)} names, {found.functions} functions, {found.cases} cases, "
          f"{len(found.failed)} failures")
    sys.exit(bool(found.failed))


if __name__ == "__main__":
    main()
