#!/usr/bin/env python3
# SPDX-License-Identifier: ISC
"""Changes the machine code of a library, and tries whether the check refuses it:

    verify/mutations.py [--jobs N] [--flips COUNT] LIBRARY

Plants faults that a compiler or an assembler could make, and flips COUNT random bits in the code of
kernels. What isn't refused has to compute the same: the changed functions are then run by the
processor, over many inputs, beside the unchanged ones. The last line is 'N passed, M failed'.
It needs gcc's assembler of the library's processor; what isn't refused in a library for 64-bit ARM
runs under qemu-aarch64.
"""

import argparse
import multiprocessing
import os
import random
import re
import resource
import signal
import subprocess
import sys
import tempfile
from collections import namedtuple

sys.dont_write_bytecode = True
import emulated
import kernels
import native
from elf import ARM, X86, Library
from machine import Refused

# What is planted: in the kernels whose line begins so, one of the instructions that match is
# replaced by others, which may be shorter. TABLE flips a bit of a constant that it reads. `inside`
# is a function that the kernel calls, where the fault isn't in the kernel's own.
Fault = namedtuple("Fault", "what kernels old new inside", defaults=[None])
TABLE = "a bit of the table"
AHEAD = ["SHA-1 v2 (run_ahead", "SHA-1 v3 (run_ahead", "SHA-256 v2 (run_ahead",
         "SHA-256 v3 (run_ahead", "SHA-512 v2 (run_ahead", "SHA-512 v3 (run_ahead"]
MESSAGE = ["SHA-1 over a message v2", "SHA-256 over a message v3", "SHA-512 over a message v3"]
BY_INSTRUCTION = ["SHA-1 by instructions of 5", "SHA-256 by instructions of 8"]
LANES = ["SHA-1 in 4 lanes of 5 words v3 (sha1", "SHA-256 in 4 lanes of 8 words v2 (block",
         "SHA-256 in 8 lanes of 8 words v3 (block"]
BLOCKS = ["SHA-1 in 8 lanes over blocks v3", "SHA-256 in 4 lanes over blocks v2",
          "SHA-512 in 4 lanes over blocks v3"]
ITERATES = ["PBKDF2 by SHA-1 of 5 words v2", "PBKDF2 by SHA-256 by instructions of 8 words v2"]
R, D = r"%\w+", r"-?0x[0-9a-f]+"
OF_BLOCKS = rf"(v?pinsrd \$\w+,|vmovq |vmovsd )({D})(\(%rsi.*)"
OF_X86 = [
    Fault("a rotation by another count", AHEAD,
          rf"(shld|shrd|rorx|rol|ror) \$(0x\w+),({R}.*)", lambda it: f"{it[1]} "
          f"${int(it[2], 16) % 31 + 1},{it[3]}"),
    Fault("another register", AHEAD, rf"(xor|and|add) (%r\w+|%e\w+),(%r\w+|%e\w+)",
          lambda it: f"{it[1]} {it[3]},{it[3]}"),
    Fault("a missing add", AHEAD + LANES, rf"(add {R},{R}|v?paddd .*|v?paddq .*)", lambda it: ""),
    Fault("a missing xor", AHEAD + LANES, rf"(xor {R},{R}|v?pxor {R},.*)", lambda it: ""),
    Fault("an add in the place of an and", AHEAD, rf"and ({R},{R})", lambda it: f"add {it[1]}"),
    Fault("constants of another round", AHEAD + BY_INSTRUCTION, r".*\(%rip\).*", TABLE),
    Fault("another table", LANES, r"v?(paddd|movdqa|movaps|pbroadcast[dq]) .*\(%rip\).*", TABLE),
    Fault("a register that isn't restored", AHEAD[:4] + LANES[:1],
          r"pop %(r12|rbx|r13|r14|r15|rbp)", lambda it: "pop %rax"),
    Fault("a write past the state", AHEAD, rf"(mov|add) ({R}),(0x1c|0x38|0x10)\((%rsi|%r\w+)\)",
          lambda it: f"mov {it[2]},0x48({it[4]})"),
    Fault("a read of another word", BY_INSTRUCTION + LANES,
          rf"(v?mov[du]q[au]|v?movups|v?movdqu) (0x[0-9a-f]*0)\((%rsi)\),(.*)",
          lambda it: f"{it[1]} {int(it[2], 16) - 4}({it[3]}),{it[4]}"),
    Fault("other words of a shuffle", BY_INSTRUCTION, r"pshufd \$(\w+),(.*)",
          lambda it: f"pshufd ${int(it[1], 16) ^ 1},{it[2]}"),
    Fault("rounds by another number", BY_INSTRUCTION[:1], r"sha1rnds4 \$0x(\d),(.*)",
          lambda it: f"sha1rnds4 ${(int(it[1]) + 1) % 4},{it[2]}"),
    Fault("msg2 in the place of msg1", BY_INSTRUCTION, r"(sha\d+msg)1 (.*)",
          lambda it: f"{it[1]}2 {it[2]}"),
    Fault("a shift by another count in lanes", LANES, r"(v?ps[rl]l[dq]) \$0x(\w+),(.*)",
          lambda it: f"{it[1]} ${int(it[2], 16) % 29 + 1},{it[3]}"),
    Fault("an and in the place of andn", LANES, r"(v?pand)n (.*)", lambda it: f"{it[1]} {it[2]}"),
    Fault("a block of another lane", BLOCKS, OF_BLOCKS,
          lambda it: f"{it[1]}{int(it[2], 16) ^ 0x80}{it[3]}"),
    Fault("a read past the blocks", BLOCKS, OF_BLOCKS,
          lambda it: f"{it[1]}{int(it[2], 16) + 0x200}{it[3]}"),
    Fault("bytes that aren't reversed", BLOCKS, r"v?pshufb .*", lambda it: ""),
    Fault("a loop that ends early", MESSAGE, r"shr \$0x([67]),(.*)",
          lambda it: f"shr ${int(it[1]) + 1},{it[2]}"),
    Fault("a wrong rest", MESSAGE, rf"and \$(0xf*[c8]0),({R})",
          lambda it: f"and ${int(it[1], 16) - (1 << 64) - 64},{it[2]}"),
    Fault("half a block further", MESSAGE, rf"(add|sub) \$(0x40|0xffffffffffffff80),({R})",
          lambda it: f"{it[1]} $32,{it[3]}"),
    Fault("a count that goes up", MESSAGE + ITERATES, rf"dec ({R})", lambda it: f"inc {it[1]}"),
    Fault("a read that has to be aligned", MESSAGE,
          rf"(v?)mov(dqu|ups) ({D}\(%r.*\)),(%[xy]mm\d+)",
          lambda it: f"{it[1]}movdqa {it[3]},{it[4]}"),
    Fault("a read past the block", MESSAGE[:2], rf"(v?movdqu|v?movups) -0x10\((%r.*)\),(%xmm\d+)",
          lambda it: f"{it[1]} 1({it[2]}),{it[3]}"),
    Fault("a branch on a secret", AHEAD, r"nop.*|cs nop.*", lambda it: "test %r10,%r10; je . + 2"),
    Fault("an address by a secret", AHEAD[2:], rf"mov ({D})\(%rsp\),(%r\w+)",
          lambda it: f"mov (%rsp,{it[2]}),%al"),
    Fault("a write below the red zone", AHEAD[:4], rf"mov ({R}),({D})\(%rsp\)",
          lambda it: f"mov {it[1]},-0x100(%rsp)"),
    Fault("an iterate that isn't added", ITERATES, rf"(xor {D}\(%rsp\),{R}|pxor .*\(%rsp\),.*)",
          lambda it: ""),
    Fault("the inner key for the outer", ITERATES, rf"(mov[du]\w+) (0x24\w)\(%rsi\),(%xmm\d+)",
          lambda it: f"{it[1]} {int(it[2], 16) - 0x240}(%rsi),{it[3]}"),
    Fault("one iteration fewer", ITERATES, r"cmp \$0x2,(%\w+)", lambda it: f"cmp $3,{it[1]}"),
]
# The same of 64-bit ARM.
ARM_AHEAD = ["SHA-1 (run_ahead", "SHA-256 (run_ahead", "SHA-512 (run_ahead"]
ARM_MESSAGE = ["SHA-1 over a message", "SHA-256 over a message", "SHA-512 over a message"]
ARM_BY_INSTRUCTION = ["SHA-1 by instructions of 5", "SHA-256 by instructions of 8"]
ARM_BLOCKS = ["SHA-1 in 4 lanes over blocks", "SHA-256 in 4 lanes over blocks"]
ARM_LANES = ["SHA-1 in 4 lanes of 5 words (sha1", "SHA-256 in 4 lanes of 8 words (block"]
ARM_ITERATES = ["PBKDF2 by SHA-1 of 5 words", "PBKDF2 by SHA-256 by instructions of 8 words"]
W = r"[wx]\d+"
OF_ARM = [
    Fault("a rotation by another count", ARM_AHEAD, r"(eor|ror) (.*)#(\d+)",
          lambda it: f"{it[1]} {it[2]}#{int(it[3]) % 31 + 1}"),
    Fault("another register", ARM_AHEAD, rf"(bic|and|add) ({W}), ({W}), ({W})",
          lambda it: f"{it[1]} {it[2]}, {it[3]}, {it[3]}"),
    Fault("a missing add", ARM_AHEAD + ARM_LANES, rf"add (v.*|{W}, {W}, {W})", lambda it: "nop"),
    Fault("a missing eor", ARM_AHEAD + ARM_LANES, rf"eor (v.*|{W}, {W}, {W})", lambda it: "nop"),
    Fault("an add in the place of an and", ARM_AHEAD, rf"and ({W}, {W}, {W})",
          lambda it: f"add {it[1]}"),
    Fault("words in another order", ARM_AHEAD + ARM_BLOCKS, r"(zip|uzp|trn)([12]) (.*)",
          lambda it: f"{it[1]}{3 - int(it[2])} {it[3]}"),
    Fault("other words of a vector", ARM_AHEAD + ARM_BY_INSTRUCTION, r"ext (.*)#(\d+)",
          lambda it: f"ext {it[1]}#{int(it[2]) ^ 8 or 4}"),
    Fault("a shift by another count", ARM_AHEAD + ARM_LANES, r"(u?s[hr][lra]+) (v.*)#(\d+)",
          lambda it: f"{it[1]} {it[2]}#{int(it[3]) % 29 + 1}"),
    Fault("a read past the block", ARM_MESSAGE, r"ldp (q\d+), (q\d+), \[(x\d+), #(-?\d+)\]",
          lambda it: f"ldp {it[1]}, {it[2]}, [{it[3]}, #{int(it[4]) + 112}]"),
    Fault("a write past the state", ARM_AHEAD, r"(stp|str) (\w+, )+\[x1.*\]",
          lambda it: "stp x1, x2, [x1, #56]"),
    Fault("a count by two", ["SHA-1 by instructions over a message",
                             "SHA-256 by instructions over a message"],
          r"subs (x\d+), \1, #0x1", lambda it: f"subs {it[1]}, {it[1]}, #0x2"),
    Fault("a count that goes up", ARM_MESSAGE + ARM_ITERATES, r"subs (\w+), \1, #0x1",
          lambda it: f"adds {it[1]}, {it[1]}, #0x1"),
    Fault("a loop that ends early", ARM_MESSAGE, r"lsr (x\d+), (x\d+), #([67])",
          lambda it: f"lsr {it[1]}, {it[2]}, #{int(it[3]) + 1}"),
    Fault("h2 in the place of h", ARM_BY_INSTRUCTION[1:], r"sha256h (.*)",
          lambda it: f"sha256h2 {it[1]}"),
    Fault("sha1p in the place of sha1m", ARM_BY_INSTRUCTION[:1], r"sha1m (.*)",
          lambda it: f"sha1p {it[1]}"),
    Fault("eor in the place of bsl in lanes", ARM_LANES, r"bsl (.*)", lambda it: f"eor {it[1]}"),
    Fault("bytes that aren't reversed", ARM_BLOCKS, r"rev32 (.*)", lambda it: f"mov {it[1]}"),
    Fault("a register that isn't restored", ARM_AHEAD[2:] + ARM_MESSAGE,
          r"ldp x20, x19, \[sp(.*)", lambda it: f"ldp x19, x20, [sp{it[1]}"),
    Fault("constants of another round", ARM_AHEAD[1:] + ARM_BY_INSTRUCTION,
          r"adrp .*", TABLE),
    Fault("a branch on a secret", ARM_AHEAD, rf"eor ({W}), .*", lambda it: f"cbz {it[1]}, . + 4"),
    Fault("an address by a secret", ARM_AHEAD, r"eor w(\d+), .*|eor x(\d+), .*",
          lambda it: f"ldrb w{it[1] or it[2]}, [x{it[1] or it[2]}]"),
    Fault("a write below the stack pointer", ARM_AHEAD, rf"eor ({W}), .*",
          lambda it: f"str {it[1]}, [sp, #-256]"),
    Fault("an iterate that isn't added", ARM_ITERATES[1:], r"eor v\d+\.16b, .*", lambda it: "nop"),
    Fault("one iteration fewer", ARM_ITERATES, r"(cmp|subs) (w\d+, .*#|w\d+, #)0x([12])",
          lambda it: f"{it[1]} {it[2]}0x{int(it[3]) + 1}"),
]
INLINED = BLOCKS[2:]  # kernels.IF_NOT_INLINED
FAULTS = {X86: OF_X86, ARM: OF_ARM}
FLIPPED = {X86: AHEAD + BY_INSTRUCTION, ARM: ARM_AHEAD + ARM_BY_INSTRUCTION}
NOP = {X86: b"\x90", ARM: bytes.fromhex("1f2003d5")}
# What is changed: of a kernel, by its number, the bytes from an address on.
Change = namedtuple("Change", "what kernel address old new")
KERNELS, LIBRARY = [], []  # which the processes below have from this one
MEMORY, SECONDS = 3 << 29, 200


def assembled(text, machine):
    """The bytes of instructions, or None where there are no such ones."""
    cross, first = ("aarch64-linux-gnu-", ".arch_extension sha2\n") if machine == ARM else ("", "")
    with tempfile.TemporaryDirectory() as room:
        done = subprocess.run([f"{cross}as", "-", "-o", f"{room}/fault.o"], check=False, text=True,
                              input=first + text.replace("; ", "\n") + "\n", capture_output=True)
        if done.returncode:
            return None
        subprocess.run([f"{cross}objcopy", "-O", "binary", "-j", ".text", f"{room}/fault.o",
                        f"{room}/fault"], check=True)
        with open(f"{room}/fault", "rb") as file:
            return file.read()


def read_by(library, line):
    """The address of the constant that an instruction reads, or that of 64-bit ARM which follows
    it; or None."""
    if library.machine == X86:
        displacement = int(re.search(r"(-?0x[0-9a-f]+)\(%rip\)", line.text)[1], 16)
        return line.at + len(line.raw) + displacement
    base, page = re.fullmatch(r"adrp (x\d+), ([0-9a-f]+)", line.text).groups()
    for at in range(line.at + 4, line.at + 40, 4):
        text = library.lines[at].text if at in library.lines else ""
        if (it := re.fullmatch(rf"(?:ldr q\d+, \[{base}(?:, #(\d+))?\]|"
                               rf"add x\d+, {base}, #(0x[0-9a-f]+))", text)):
            return int(page, 16) + int(it[1] or it[2] or "0", 0)
    return None


def change_of(library, line, new):
    """The address and the bytes that replace an instruction's, or None."""
    if new is TABLE:
        there = read_by(library, line)
        return there and (there, bytes([library.bytes_at(there, there + 1)[0] ^ 1]))
    code = assembled(new, library.machine)
    if code is None:
        return None
    room, at = len(line.raw), line.at
    while room < len(code):  # the next instructions go too
        following = library.lines.get(at + room)
        if following is None:
            return None
        room += len(following.raw)
    nop = NOP[library.machine]
    return at, code + nop * ((room - len(code)) // len(nop))


def file_offset(library, address):
    return library.file_offset(address)


def planted(library, fault, _):
    """The library's bytes with a fault of mutate_calls.py, and the line that was replaced."""
    symbol = library.functions(re.escape(fault.function))[fault.build]
    library.read_lines(symbol)
    lines = [it for address, it in sorted(library.lines.items())
             if symbol.start <= address < symbol.start + symbol.size
             and re.fullmatch(fault.old, it.text)]
    line = lines[fault.which]
    new = fault.new if fault.new is TABLE else fault.new.replace(
        "OPERANDS", re.sub(r"^\S+ (\$\w+,)?", "", line.text) if "$" in fault.new else
        line.text.partition(" ")[2])
    address, code = change_of(library, line, new)
    return changed_data(library, Change(fault.what, None, address, line.text, code)), line


def chosen_changes(library, used, source):
    """A change for each fault and kernel that has such an instruction among those that it runs."""
    for fault in FAULTS[library.machine]:
        for name in fault.kernels:
            number = next((i for i, it in enumerate(KERNELS) if it.name.startswith(name)), None)
            if number is None and name in INLINED:
                continue
            if number is None:
                yield Change(f"{fault.what}: no kernel {name}", None, 0, "", b"")
                continue
            lines = [it for it in used[number] if re.fullmatch(fault.old, it.text)]
            source.shuffle(lines)
            for line in lines:
                new = fault.new if fault.new is TABLE else \
                    fault.new(re.fullmatch(fault.old, line.text))
                found = change_of(library, line, new)
                if found and found[1] != library.bytes_at(found[0], found[0] + len(found[1])):
                    was = f"{line.at:x}: {line.text}"
                    yield Change(fault.what, number, found[0], was, found[1])
                    break


def flipped(library, count, source):
    """Random bits of the code of kernels that are checked in a second."""
    own = [i for i, it in enumerate(KERNELS) if it.symbol and any(
        it.name.startswith(name) for name in FLIPPED[library.machine])]
    for i in range(count):
        symbol = KERNELS[own[i % len(own)]].symbol
        address = symbol.start + source.randrange(symbol.size)
        bit = 1 << source.randrange(8)
        new = bytes([library.bytes_at(address, address + 1)[0] ^ bit])
        line = max((at for at in library.lines if at <= address), default=address)
        yield Change(f"bit {bit:#x} at {address:x}", own[i % len(own)], address,
                     f"{line:x}: {library.lines[line].text}", new)


def changed_data(library, change):
    data = bytearray(library.data)
    offset = library.file_offset(change.address)
    data[offset:offset + len(change.new)] = change.new
    return bytes(data)


def refusal(change):
    """Why a kernel is refused with a change, or an empty text."""
    resource.setrlimit(resource.RLIMIT_AS, (MEMORY, MEMORY))
    signal.signal(signal.SIGPROF, lambda *_: (_ for _ in ()).throw(Refused("it takes too long")))
    signal.setitimer(signal.ITIMER_PROF, SECONDS)  # of processor
    library = LIBRARY[0]
    library.data, library.lines, library.decoded = changed_data(library, change), {}, {}
    try:
        KERNELS[change.kernel].check()
    except Refused as why:
        return str(why) or "?"
    except MemoryError:
        return "too much memory"
    except Exception as fault:  # what the checker doesn't foresee is a fault of it
        return f"!{type(fault).__name__}: {fault}"
    return ""


def used_lines(number):
    """The instructions that a kernel runs."""
    _, used = KERNELS[number].check()
    return [LIBRARY[0].lines[at] for at in sorted(used)]


def try_changes(changes, jobs):
    """Prints what became of each change; gives how many passed and failed."""
    passed = failed = 0
    runs = native if LIBRARY[0].machine == X86 else emulated
    with multiprocessing.get_context("fork").Pool(jobs, maxtasksperchild=1) as pool:
        for change, why in zip(changes, pool.imap(refusal, changes, 1)):
            name = KERNELS[change.kernel].name
            if why and why[0] != "!":
                passed += 1
                print(f"refused: {change.what}, {change.old}, in {name}: {why}", flush=True)
            elif not why and KERNELS[change.kernel].is_quick and runs.computes_the_same(
                    LIBRARY[0], changed_data(LIBRARY[0], change)):
                passed += 1
                print(f"equal: {change.what}, {change.old}, in {name}", flush=True)
            else:
                failed += 1
                print(f"FAIL {change.what}, {change.old}, in {name}: {why or 'not refused'}",
                      flush=True)
    return passed, failed


def try_all(library, flips, jobs):
    """Plants all faults, and flips bits. Gives how many passed and failed."""
    LIBRARY.append(library)
    KERNELS.extend(kernels.of(library))
    source = random.Random(1)
    names = {name for fault in FAULTS[library.machine]
             for name in fault.kernels}
    wanted = [i for i, it in enumerate(KERNELS) if any(it.name.startswith(of) for of in names)]
    with multiprocessing.get_context("fork").Pool(jobs, maxtasksperchild=1) as pool:
        used = dict(zip(wanted, pool.map(used_lines, wanted, 1)))
    for lines in used.values():
        library.lines.update((it.at, it) for it in lines)
    changes = list(chosen_changes(library, used, source))
    missing = [it for it in changes if it.kernel is None]
    for it in missing:
        print(f"FAIL {it.what}")
    changes = [it for it in changes if it.kernel is not None]
    print(f"{len(changes)} faults, {flips} bits")
    passed, failed = try_changes(changes + list(flipped(library, flips, source)), jobs)
    if len(changes) < 60:
        print(f"FAIL only {len(changes)} faults could be planted")
        failed += 1
    return passed, failed + len(missing)


def main():
    parser = argparse.ArgumentParser(usage=__doc__.split("\n\n")[1].strip())
    parser.add_argument("--jobs", type=int, default=min(4, len(os.sched_getaffinity(0))))
    parser.add_argument("--flips", type=int, default=300)
    parser.add_argument("library")
    given = parser.parse_args()
    passed, failed = try_all(Library(given.library), given.flips, given.jobs)
    print(f"{passed} passed, {failed} failed")
    return failed > 0


if __name__ == "__main__":
    sys.exit(main())
