#!/usr/bin/env python3
# SPDX-License-Identifier: ISC
"""Runs instructions on the processor, and beside it by their meaning in x86.py, from random states:

    test_x86.py INSTRUCTIONS FOLDER [RUN]

INSTRUCTIONS is a file of bytes and objdump's text, as `check --instructions` writes it. RUN is a
command that runs programs of x86-64, as `qemu-x86_64 -cpu max`. Without it the SHA instructions are
left out, if this processor has none. The library's own bytes are run, once each; where memory is at
rip or rsp, the text is assembled with another base. Of each kind of instruction (its name, the
kinds of its operands, its numbers, which registers are the same) one is run from CASES states. All
general registers but rsp, all vectors, the flags that are known, and 512 bytes of memory are
compared. Jumps, calls, returns, push and pop are left out; so is what names rsp but as a base.
"""

import random
import re
import struct
import subprocess
import sys
from collections import Counter, namedtuple

import terms
import x86
from elf import Line
from machine import Pointer, Refused, Region, State, at, offset_of
from operands_x86 import LONG, REGISTERS, Flags, Immediate, Memory, Register, decode

CASES = 12
SCRATCH, MIDDLE = 512, 256
HARNESS = r"""
    .bss
    .p2align 6
saved: .quad 0
where: .quad 0
target: .quad 0
kept: .quad 0
    .text
    .globl run_one
run_one:
    push %rbx; push %rbp; push %r12; push %r13; push %r14; push %r15
    mov %rsp, saved(%rip)
    mov %rdi, where(%rip)
    mov %rsi, target(%rip)
    mov %rdi, %rax
LOADS
    pushq 128(%rax)
    popfq
GENERAL
    mov 0(%rax), %rax
    jmp *target(%rip)
finish:
    mov %rax, kept(%rip)
    mov where(%rip), %rax
STORES
    mov kept(%rip), %rcx
    mov %rcx, 0(%rax)
    pushfq
    popq 128(%rax)
VECTORS
    vzeroupper
    cld
    pop %r15; pop %r14; pop %r13; pop %r12; pop %rbp; pop %rbx
    ret
    .globl codes
    .section .data.rel.ro,"aw"
codes:
"""
MAIN = r"""
#include <stdint.h>
#include <stdio.h>
#include <string.h>
struct context {
    uint64_t general[16], flags, pad[3];
    uint8_t vectors[16][32], memory[512];
};
struct { uint32_t code, base; int64_t offset; struct context it; } one;
struct context given __attribute__((aligned(64)));
extern void (*codes[])(void);
extern void run_one(struct context *, void (*)(void));
int main(void) {
    while (fread(&one, sizeof one, 1, stdin) == 1) {
        given = one.it;
        uint64_t start = (uint64_t)given.memory;
        if (one.base < 16) given.general[one.base] = start + (uint64_t)one.offset;
        run_one(&given, codes[one.code]);
        fwrite(&start, 8, 1, stdout);
        fwrite(&given, sizeof given, 1, stdout);
    }
}
"""


def kind(it):
    """What instructions have in common that are tested as one."""
    seen, parts = {}, [it.name]
    for of in it.operands:
        if isinstance(of, Immediate):
            parts.append(f"${of.number}")
        elif isinstance(of, Memory):
            parts.append(f"m{bool(of.index)}{of.scale}{of.displacement < 0}")
        else:
            key = getattr(of, "name", None) or of.number
            parts.append(f"{type(of).__name__}{of.width}:{seen.setdefault(key, len(seen))}")
    return " ".join(parts)


def with_base(text):
    """The text with memory at a register in the place of rip and rsp, or None if it names rsp."""
    used = {REGISTERS[it][0] for it in re.findall(r"%(\w+)", text) if it in REGISTERS}
    free = next(it for it in LONG if it not in used and it != "rsp")
    text = re.sub(r"-?0x[0-9a-f]+\(%rip\)", f"(%{free})", text)
    text = re.sub(r"\(%rsp", f"(%{free}", text)
    return None if re.search(r"%[er]?spl?\b", text) else text


def chosen(lines, has_sha):
    """Triples: an instruction, what the assembler takes for it, and how many cases it is run from.
    And how many kinds there are, and what was left out."""
    found, kinds, left = [], set(), Counter()
    for raw, text in sorted(lines, key=lambda it: it[::-1]):
        name = text.split()[0]
        changed = with_base(text)
        if name[0] == "j" or name in ("call", "ret", "push", "pop") or "nop" in text:
            left[name] += 1
        elif changed is None or name.startswith("sha") and not has_sha:
            left["rsp" if changed is None else name] += 1
        else:
            it = decode(Line(0, b"", changed))
            cases = 1 if kind(it) in kinds else CASES
            if cases > 1 or changed == text:
                kinds.add(kind(it))
                code = changed if changed != text else ".byte " + ", ".join(
                    f"0x{raw[i:i + 2]}" for i in range(0, len(raw), 2))
                found.append((it, code, cases))
    return found, len(kinds), left


def build(instructions, folder):
    general = [(8 * i, it) for i, it in enumerate(LONG) if it not in ("rsp", "rax")]
    text = HARNESS
    for name, lines in (
            ("LOADS", [f"vmovdqu {160 + 32 * i}(%rax), %ymm{i}" for i in range(16)]),
            ("VECTORS", [f"vmovdqu %ymm{i}, {160 + 32 * i}(%rax)" for i in range(16)]),
            ("GENERAL", [f"mov {place}(%rax), %{it}" for place, it in general]),
            ("STORES", [f"mov %{it}, {place}(%rax)" for place, it in general])):
        text = text.replace(name + "\n", "".join(f"    {it}\n" for it in lines))
    text += "".join(f"    .quad code{i}\n" for i in range(len(instructions))) + "    .text\n"
    text += "".join(f"code{i}: {it[1]}\n    jmp finish\n" for i, it in enumerate(instructions))
    text += '    .section .note.GNU-stack,"",@progbits\n'
    for name, content in (("codes.S", text), ("main.c", MAIN)):
        with open(f"{folder}/{name}", "w", encoding="ascii") as file:
            file.write(content)
    subprocess.run(["gcc", "-O1", f"{folder}/codes.S", f"{folder}/main.c", "-o",
                    f"{folder}/instructions"], check=True)


def number(width, source):
    if source.random() < 0.3:
        return source.choice([0, 1, (1 << width) - 1, 1 << (width - 1), (1 << (width - 1)) - 1, 2])
    return source.getrandbits(width)


def case(it, source):
    """A random state: (base register's number or 16, its offset, registers, two numbers whose
    comparison gives the flags, vectors, memory)."""
    general = [number(64, source) for _ in range(16)]
    base, offset = 16, 0
    memory = next((of for of in it.operands if isinstance(of, Memory)), None)
    if memory and it.name != "lea":
        index = 0
        if memory.index:
            index = source.choice([0, 32, 64])
            general[LONG.index(memory.index)] = index
        base = LONG.index(memory.base)
        offset = MIDDLE - memory.displacement - index * memory.scale
    if it.name.startswith("div"):  # of a larger quotient the processor ends the program
        general[LONG.index("rdx")] = 0
        if isinstance(it.operands[0], Register):
            general[LONG.index(it.operands[0].name)] |= 1
    vectors = [number(256, source) for _ in range(16)]
    for i in range(16):
        if source.random() < 0.3:
            vectors[i] = int.from_bytes(struct.pack("<8I", *(number(32, source)
                                                             for _ in range(8))), "little")
    # A shuffle by bytes and a comparison need numbers that aren't all different.
    a = number(64, source)
    b = a if source.random() < 0.3 else number(64, source)
    return base, offset, general, a, b, vectors, source.randbytes(SCRATCH)


def flags_after(a, b):
    """CF, ZF, SF and OF after a comparison: a - b."""
    result = (a - b) % (1 << 64)
    overflow = ((a ^ b) & (a ^ result)) >> 63
    return int(a < b), int(a == b), result >> 63, overflow


def flags_word(a, b):
    """The register of flags after a comparison."""
    cf, zf, sf, overflow = flags_after(a, b)
    return 0x202 | cf | zf << 6 | sf << 7 | overflow << 11


class OneInstruction:
    """A program for State: one instruction."""

    def __init__(self, it):
        self.it = it

    def instruction(self, _):
        return self.it

    def text(self, _):
        return self.it.text


def expected(it, of):
    base, offset, general, a, b, vectors, memory = of
    state = State(OneInstruction(it), "rsp", 128)
    scratch = Region("scratch", 0, SCRATCH, True, 64)
    for i, byte in enumerate(memory):
        scratch.cells[i] = terms.constant(byte, 8)
    state.add_region(scratch)
    for i, name in enumerate(LONG):
        state.registers[name] = terms.constant(general[i], 64)
    if base < 16:
        state.registers[LONG[base]] = at("scratch", offset)
    for i, value in enumerate(vectors):
        state.vectors[i] = terms.constant(value, 256)
    cf, _, _, overflow = flags_after(a, b)
    pair = terms.constant(a, 64), terms.constant(b, 64)
    state.flags = Flags(terms.subtract(*pair), cf, pair, overflow)
    state.pc = 0
    x86.execute(state, it)
    return state


def differences(it, state, start, after):
    """What the processor has otherwise than the state."""
    general = struct.unpack_from("<17Q", after)
    for i, name in enumerate(LONG):
        value = state.registers[name]
        if isinstance(value, Pointer):
            value = (start + offset_of(value)) % (1 << 64)
        else:
            value = terms.number_of(value)
        if name != "rsp" and value != general[i]:
            yield name
    for i in range(16):
        if terms.number_of(state.vectors[i]) != int.from_bytes(after[160 + 32 * i:192 + 32 * i],
                                                               "little"):
            yield f"ymm{i}"
    if state.flags and state.flags.cf is not None and state.flags.cf != general[16] & 1:
        yield "CF"
    if state.flags and state.flags.of is not None and state.flags.of != general[16] >> 11 & 1:
        yield "OF"
    if state.flags and state.flags.result is not None:
        if terms.is_zero(state.flags.result) != general[16] >> 6 & 1:
            yield "ZF"
        if len(state.flags.result) > 8 and state.flags.result[-1] != general[16] >> 7 & 1:
            yield "SF"
    for i in range(SCRATCH):
        if terms.number_of(state.regions["scratch"].cell(i)) != after[672 + i]:
            yield f"memory {i}"


Compared = namedtuple("Compared", "names kinds instructions cases failed refused left")


def compare(lines, folder, run=()):
    """Runs instructions, pairs of their bytes and texts, by both."""
    with open("/proc/cpuinfo", encoding="ascii") as file:
        instructions, kinds, left = chosen(lines, run or "sha_ni" in file.read())
    build(instructions, folder)
    source = random.Random(1)
    cases = [(i, case(it[0], source)) for i, it in enumerate(instructions) for _ in range(it[2])]
    data = b"".join(
        struct.pack("<IIq", i, of[0], of[1]) + struct.pack("<16Q", *of[2])
        + struct.pack("<QQQQ", flags_word(of[3], of[4]), 0, 0, 0)
        + b"".join(it.to_bytes(32, "little") for it in of[5]) + of[6] for i, of in cases)
    done = subprocess.run([*run, f"{folder}/instructions"], input=data,
                          capture_output=True, check=True).stdout
    size = 8 + 160 + 512 + SCRATCH
    assert len(done) == size * len(cases)
    failed, refused = Counter(), Counter()
    for n, (i, of) in enumerate(cases):
        it, after = instructions[i][0], done[size * n:size * (n + 1)]
        start, = struct.unpack_from("<Q", after)
        try:
            state = expected(it, of)
        except Refused as why:
            refused[it.name, str(why)] += 1
            continue
        for what in differences(it, state, start, after[8:]):
            failed[it.text, what] += 1
    ran = Counter(instructions[i][0].name for i, _ in cases)
    ran.subtract(dict_of(refused))
    return Compared({name for name, count in ran.items() if count > 0}, kinds, len(instructions),
                    len(cases) - sum(refused.values()), failed, refused, left)


def dict_of(refused):
    """How many cases were refused, by the instruction's name."""
    found = Counter()
    for (name, _), count in refused.items():
        found[name] += count
    return found


def main():
    path, folder, *run = sys.argv[1:]
    with open(path, encoding="ascii") as file:
        found = compare({tuple(it.split("\t")) for it in file.read().splitlines()}, folder, run)
    for (text, what), count in found.failed.items():
        print(f"{text}: {what} differs in {count} cases")
    for (_, why), count in found.refused.items():
        print(f"not run: {why} ({count})")
    print(f"{len(found.names)} names, {found.kinds} kinds, {found.instructions} instructions, "
          f"{found.cases} cases, {len(found.failed)} failures; left out: {dict(found.left)}")
    sys.exit(bool(found.failed))


if __name__ == "__main__":
    main()
