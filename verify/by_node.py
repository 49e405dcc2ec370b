# SPDX-License-Identifier: ISC
"""As native.py, of a module of WebAssembly: its functions run under node."""

import random
import struct
import subprocess
import sys

from kernels import (ALGORITHM, ITERATIONS, MAX_LANES, METER_SIZE, OUTPUT_ROOM, STARTS, STATE_SIZE,
                     TAG, Blocks, InLanes)
from kernels_wasm import BLOCKS, SHA1
from test_wasm import code, leb, sized, vector
from wasm_module import CODE, EXPORTS, MAGIC

CASES = 60  # of each function
# Of a run: now and then node does not end within the limit. The cause is not known.
TRIES = 3
SECONDS = 120  # for one, which takes less than one second
# Where arguments are in memory, which are random bytes at first, above the module's own constants.
FIRST, PLACE_SIZE, MEMORY = 0x11000, 0x1000, 0x20000
# Takes a module, then for each case bytes of which no contract speaks, as pairs of where they begin
# and end behind their number; arguments behind theirs, each with whether it is long; and a memory.
# Prints what the memory above the stack is after each call, but for those bytes.
MAIN = r"""
const { createHash } = require("crypto");
const read = (count) => (at += count, input.subarray(at - count, at));
const input = require("fs").readFileSync(0);
let at = 0;
const size = read(4).readUInt32LE();
const { exports } = new WebAssembly.Instance(new WebAssembly.Module(read(size)));
while (at < input.length) {
    const unsaid = [], words = [];
    for (let left = read(4).readUInt32LE(); left > 0; left--) {
        unsaid.push([read(4).readUInt32LE(), read(4).readUInt32LE()]);
    }
    for (let left = read(4).readUInt32LE(); left > 0; left--) {
        const isLong = read(4).readUInt32LE(), word = read(8).readBigUInt64LE();
        words.push(isLong ? word : Number(word));
    }
    const bytes = new Uint8Array(exports.memory.buffer);
    bytes.set(read(MEMORY - FIRST), FIRST);
    let end = "returns";
    try { exports.f(...words); } catch (why) { end = String(why); }
    for (const [start, end] of unsaid) bytes.fill(0, start, end);
    console.log(end, createHash("sha256").update(bytes.subarray(65536)).digest("hex"));
}
""".replace("MEMORY", str(MEMORY)).replace("FIRST", str(FIRST))


def with_function(it, index):
    """A module that exports its memory and a function alone."""
    exports = vector([sized(b"memory") + b"\2\0", sized(b"f") + b"\0" + leb(index)])
    return rebuilt(it, {EXPORTS: exports})


def with_instructions(it, function, changed):
    """A module with other instructions in a function, by the addresses of those whose place they
    take."""
    bodies = [it.data[start:end] for start, end in it.bodies]
    at, parts = it.bodies[function.index][0], []
    for address, instructions in sorted(changed.items()):
        parts += [it.data[at:address], *(code(*of) for of in instructions)]
        at = it.lines[address].following
    bodies[function.index] = b"".join([*parts, it.data[at:function.end]])
    return rebuilt(it, {CODE: vector(list(map(sized, bodies)))})


def rebuilt(it, changed):
    """A module with other contents of sections."""
    return MAGIC + b"".join(bytes([number]) + sized(changed.get(number, content))
                            for number, content in it.sections.items())


# Arguments of the functions in lanes, of those with a context and of PBKDF2's loop, by their names.
OF_WORDS, OF_CONTEXT = ("states", "fronts", "meter"), ("output", "context", *BLOCKS[1:])
OF_LOOP, TURNS = ("derivation", "starts", "outputs", "count", "meter"), 3


def arguments_of(kernel):
    """The names of a kernel's arguments, and the rest of its row."""
    *_, text, row = kernel.check.args
    if text.startswith("PBKDF2"):
        return [it for it in OF_LOOP if it != "count" or row.lanes == 1], row
    if isinstance(row, (InLanes, Blocks)):
        return OF_WORDS, row
    return (OF_CONTEXT if len(row) == 1 else row[2]), row


def tags_of(name, row):
    """Bytes that an argument has to have in memory, by their offsets: the tags of its states, and
    how many iterations there are."""
    is_short = int(row[0].width == 32)
    if name == "state" and row[1]:
        return [(0, is_short)]
    if name == "context":
        return [(TAG, is_short), (ALGORITHM, int(row[0] is not SHA1))]
    if name == "derivation":
        return enumerate(TURNS.to_bytes(4, "little"), ITERATIONS)
    if name == "starts":
        return [(STATE_SIZE * i, is_short) for i in range(len(STARTS) * MAX_LANES)]
    return []


def unsaid_of(name, row):
    """Bytes of an argument of which no contract speaks, as pairs of where they begin and end."""
    size, room = row[0].width // 8, OUTPUT_ROOM
    if name == "output":
        return [(row[0].words * size, room)]
    if name == "outputs":
        return [(room * i + row.front * size, room * (i + 1)) for i in range(row.lanes)]
    return [(0, METER_SIZE)] if name == "meter" else []


def cases_of(kernel, it):
    """Arguments, each with a random memory."""
    source, function = random.Random(1), it.functions_[it.symbols.index(kernel.symbol)]
    names, row = arguments_of(kernel)
    for i in range(CASES):
        memory = bytearray(source.randbytes(MEMORY - FIRST))
        words, unsaid = [], []
        for j, (name, kind) in enumerate(zip(names, function.type.parameters)):
            place = j * PLACE_SIZE
            value = {"length": source.randrange(400), "is_sha256": i % 2, "count": 1}.get(
                name, FIRST + place)
            words.append((kind == "i64", value))
            unsaid += [struct.pack("<II", FIRST + place + start, FIRST + place + end)
                       for start, end in unsaid_of(name, row)]
            for offset, byte in tags_of(name, row):
                memory[place + offset] = byte
        yield b"".join([struct.pack("<I", len(unsaid)), *unsaid, struct.pack("<I", len(words)),
                        *(struct.pack("<IQ", *of) for of in words), memory])


def answers(it, kernel):
    """What the kernel makes of many arguments, in a module with the same functions; nothing where
    node does not end with it, and why on standard error."""
    data = with_function(it, it.symbols.index(kernel.symbol))
    given = struct.pack("<I", len(data)) + data + b"".join(cases_of(kernel, it))
    for _ in range(TRIES):
        try:
            done = subprocess.run(["node", "-e", MAIN], input=given, capture_output=True,
                                  timeout=SECONDS, check=False)
        except subprocess.TimeoutExpired:
            print(f"{kernel.name}: node takes too long", file=sys.stderr)
            continue
        if done.returncode == 0:
            return done.stdout.decode()
        print(f"{kernel.name}: node ended with {done.returncode}: {done.stderr.decode()[-300:]}",
              file=sys.stderr)
    return None


def computes_the_same(kernel, it, changed_kernel, changed):
    """Whether a kernel of a changed module gives the same answers."""
    expected = answers(it, kernel)
    assert expected and "Error" not in expected, "the module itself doesn't run"
    made = answers(changed, changed_kernel)
    if made is not None and made != expected:
        pairs = zip(expected.splitlines(), made.splitlines())
        other = next((of for of in enumerate(pairs) if of[1][0] != of[1][1]), "their number")
        print(f"{kernel.name}: the first answer that differs is {other}", file=sys.stderr)
    return made == expected
