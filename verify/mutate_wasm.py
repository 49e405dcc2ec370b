#!/usr/bin/env python3
# SPDX-License-Identifier: ISC
"""Changes the code of a module of WebAssembly, and tries whether the check refuses it:

    verify/mutate_wasm.py [--jobs N] [--flips COUNT] [--only TEXT] MODULE

As mutations.py: plants faults, and flips COUNT random bits in the instructions of kernels. What
isn't refused has to compute the same by node. --only takes the changes that have TEXT in their
line. The last line is 'N passed, M failed'.
"""

import argparse
import multiprocessing
import os
import random
import re
import resource
import signal
import sys
from collections import namedtuple
from functools import partial

sys.dont_write_bytecode = True
import by_node
import kernels_wasm
from machine import Refused
from wasm_module import Module, opened

# What is planted: in the kernels whose line begins so, one of the instructions that match, with the
# text of the next one behind `; `, is replaced by others. These are given by the match and a
# function of a type, which gives a local of that type.
Fault = namedtuple("Fault", "what kernels old new")
MESSAGE = ["SHA-1 over a message", "SHA-256 over a message", "SHA-512 over a message"]
TAIL = ["SHA-256 over the padded tail"]
WORDS = ["SHA-1 of 5 words", "SHA-256 of 8 words", "SHA-512 of 8 words"]
LANES = ["SHA-1 in 4 lanes of 5 words", "SHA-256 in 4 lanes of 8 words"]
BLOCKS = ["SHA-1 in 4 lanes over blocks", "SHA-256 in 4 lanes over blocks"]
ITERATES = ["PBKDF2 by SHA-1 of 5 words"]
ALL = MESSAGE + WORDS + LANES + BLOCKS
NEXT = "; .*"


def name_of(it):
    return it[0].partition(";")[0]


def by_secret(name, more):
    """An instruction that gives a secret, and what does something by it, after a cut of 64 bits."""
    return [(name,), *([("i32.wrap_i64",)] if name[:3] == "i64" else []), *more,
            *([("i64.extend_i32_u",)] if name[:3] == "i64" else [])]


def chosen(local):
    """A choice by the number of 32 bits that is on the stack."""
    return [("local.set", local("i32")), ("i32.const", 1), ("i32.const", 2),
            ("local.get", local("i32")), ("select",)]


def other_shuffle(it):
    places = b"".join(int(word, 16).to_bytes(4, "little") for word in it[1].split())
    return [("i8x16.shuffle", *places[1:], places[0])]


XOR = r"(i32|i64)\.xor"
FAULTS = [
    Fault("a rotation to the other side", MESSAGE + WORDS, rf"(i32|i64)\.rotl{NEXT}",
          lambda it, _: [(f"{it[1]}.rotr",)]),
    Fault("a rotation by another count", MESSAGE + WORDS, r"(i32|i64)\.const (\d+); \1\.rotl",
          lambda it, _: [(f"{it[1]}.const", int(it[2]) % 31 + 1)]),
    Fault("a missing add", ALL, rf"(i32|i32x4)\.add{NEXT}|(i64)\.add; (?!i32\.wrap).*",
          lambda it, _: [("drop",)]),
    Fault("a difference in the place of a sum", WORDS + LANES, rf"(i32|i64|i32x4)\.add{NEXT}",
          lambda it, _: [(f"{it[1]}.sub",)]),
    Fault("a missing xor", ALL, rf"(i32|i64|v128)\.xor{NEXT}", lambda it, _: [("drop",)]),
    Fault("an or in the place of an and", MESSAGE + WORDS, rf"(i32|i64)\.and{NEXT}",
          lambda it, _: [(f"{it[1]}.or",)]),
    Fault("another constant", ALL, rf"(i32|i64)\.const (-?\d{{6,}}){NEXT}",
          lambda it, _: [(f"{it[1]}.const", int(it[2]) ^ 1)]),
    Fault("another local", WORDS + LANES, r"local\.get (\d+); (i32|i64)\.(xor|add|and)",
          lambda it, local: [("local.get", local(it[2]))]),
    Fault("a read of another word", MESSAGE + WORDS, rf"(i32|i64)\.load (\d) (\d+){NEXT}",
          lambda it, _: [(f"{it[1]}.load", int(it[2]), int(it[3]) + int(it[1][1:]) // 8)]),
    Fault("a write past the state", MESSAGE + WORDS, rf"(i32|i64)\.store (\d) (\d+){NEXT}",
          lambda it, _: [(f"{it[1]}.store", int(it[2]), int(it[3]) + 72)]),
    Fault("a loop that ends early", MESSAGE, r"i64\.const ([67]); i64\.shr_u",
          lambda it, _: [("i64.const", int(it[1]) + 1)]),
    Fault("a loop that goes on at the end", MESSAGE, r"i64\.ne; br_if .*",
          lambda it, _: [("i64.eq",)]),
    Fault("a count by two", MESSAGE, r"(i32|i64)\.const (-?1); \1\.add",
          lambda it, _: [(f"{it[1]}.const", 2 * int(it[2]))]),
    Fault("an iteration fewer", ITERATES, r"(i32|i64)\.const (-1|4294967295); \1\.add",
          lambda it, _: [(f"{it[1]}.const", -2)]),
    Fault("a wrong rest", MESSAGE[2:], r"i64\.const (-128|127); i64\.and",
          lambda it, _: [("i64.const", int(it[1]) // 2)]),
    Fault("half a block further", MESSAGE[:1], r"i64\.const 64; i64\.add",
          lambda it, _: [("i64.const", 32)]),
    Fault("a read past the block", MESSAGE[:2], r"i64\.const (\d*[02468]); i64\.add",
          lambda it, _: [("i64.const", int(it[1]) + 64)]),
    Fault("a branch on a secret", MESSAGE + WORDS + TAIL, XOR + NEXT, lambda it, _: by_secret(
        name_of(it), [("if", "i32"), ("i32.const", 1), ("else",), ("i32.const", 2), ("end",)])),
    Fault("an address by a secret", MESSAGE + WORDS, XOR + NEXT,
          lambda it, _: by_secret(name_of(it), [("i32.load", 2, 0)])),
    Fault("a choice by a secret", WORDS[:2], XOR + NEXT,
          lambda it, local: by_secret(name_of(it), chosen(local))),
    Fault("a write to constants", MESSAGE + LANES, rf"i64\.add{NEXT}",
          lambda it, _: [("i64.add",), ("i32.const", 65540), ("i32.const", 1),
                         ("i32.store", 2, 0)]),
    Fault("a write to the message", MESSAGE[:1], XOR + NEXT, lambda it, _: [
        ("i32.xor",), ("local.get", 1), ("i32.wrap_i64",), ("i32.const", 1), ("i32.store", 2, 0)]),
    Fault("a stack pointer that isn't restored", MESSAGE + LANES + BLOCKS,
          rf"global\.set 0{NEXT}", lambda it, _: [("drop",)]),
    Fault("an address that is no number", WORDS, XOR + NEXT, lambda it, _: [
        (name_of(it),), ("local.get", 0), ("i64.popcnt",), ("drop",)]),
    Fault("a shift to the other side in lanes", LANES + BLOCKS, rf"i32x4\.shl{NEXT}",
          lambda it, _: [("i32x4.shr_u",)]),
    Fault("an or in the place of a choice in lanes", LANES + BLOCKS, rf"v128\.bitselect{NEXT}",
          lambda it, _: [("v128.or",), ("v128.or",)]),
    Fault("other bytes of a shuffle", BLOCKS, rf"i8x16\.shuffle ([^;]*){NEXT}",
          lambda it, _: other_shuffle(it)),
    Fault("another lane", BLOCKS, rf"i32x4\.replace_lane (\d){NEXT}",
          lambda it, _: [("i32x4.replace_lane", int(it[1]) ^ 1)]),
    Fault("a vector of another place", LANES + BLOCKS, rf"v128\.load (\d) (\d+){NEXT}",
          lambda it, _: [("v128.load", int(it[1]), int(it[2]) + 16)]),
    Fault("an iterate that isn't added", ITERATES, rf"i32\.xor{NEXT}",
          lambda it, _: [("drop",)]),
    Fault("a write to another place", ITERATES, rf"i32\.store (\d) (\d+){NEXT}",
          lambda it, _: [("i32.store", int(it[1]), int(it[2]) + 4)]),
]
# What is changed: of a kernel, by its number, the module's bytes.
Change = namedtuple("Change", "what kernel old data")
KERNELS, MODULE = [], []  # which the processes below have from this one
MEMORY, SECONDS, LEAST = 3 << 29, 300, 40


def local_of(function, without):
    """What gives a local of a type, other than one."""
    def run(kind):
        return next(i for i in reversed(range(len(function.locals)))
                    if function.locals[i] == kind and i != without)
    return run


def planted(it, at, new, match):
    """A module with a fault at an address."""
    function = it.functions_[it.symbols.index(it.function_at(at))]
    line = it.lines[at]
    without = line.immediates[0] if line.name.startswith("local.") else None
    return by_node.with_instructions(it, function, {at: new(match, local_of(function, without))})


def chosen_changes(it, used, source):
    """A change for each fault and kernel that has such an instruction among those that it runs."""
    for fault in FAULTS:
        for name in fault.kernels:
            number = next((i for i, of in enumerate(KERNELS) if of.name.startswith(name)), None)
            places = [] if number is None else [
                (at, found) for at in used[number] if (following := it.lines[at].following)
                in it.lines and (found := re.fullmatch(
                    fault.old, f"{it.lines[at].text}; {it.lines[following].text}"))]
            if places:
                at, match = source.choice(places)
                yield Change(fault.what, number, f"{at:x}: {match[0]}",
                             planted(it, at, fault.new, match))


def flipped(it, count, source):
    """Random bits of the code of kernels that are checked in a second or two."""
    own = [i for i, of in enumerate(KERNELS) if of.is_quick]
    for i in range(count):
        number = own[i % len(own)]
        symbol, data = KERNELS[number].symbol, bytearray(it.data)
        at = symbol.start + source.randrange(symbol.size)
        data[at] ^= 1 << source.randrange(8)
        line = max(of for of in it.lines if of <= at)
        yield Change(f"a bit at {at:x}", number, f"{line:x}: {it.lines[line].text}", bytes(data))


def again(kernel, library):
    """A kernel in another module with the same functions."""
    check, before, symbol, *row = kernel.check.args
    symbol = library.symbols[before.symbols.index(symbol)]
    return kernel._replace(symbol=symbol, check=partial(kernels_wasm.check_of, check, library,
                                                        symbol, *row))


def changed_module(change):
    """The module of a change, and the kernel in it."""
    it = Module(change.data, [of.name for of in MODULE[0].symbols])
    return it, again(KERNELS[change.kernel], it)


def refusal(change):
    """Why a kernel is refused with a change, or an empty text."""
    resource.setrlimit(resource.RLIMIT_AS, (MEMORY, MEMORY))
    signal.signal(signal.SIGPROF, lambda *_: (_ for _ in ()).throw(Refused("it takes too long")))
    signal.setitimer(signal.ITIMER_PROF, SECONDS)  # of processor
    try:
        changed_module(change)[1].check()
    except Refused as why:
        return str(why) or "?"
    except MemoryError:
        return "too much memory"
    except Exception as fault:  # what the checker doesn't foresee is a fault of it
        return f"!{type(fault).__name__}: {fault}"
    finally:
        signal.setitimer(signal.ITIMER_PROF, 0)
    return ""


def is_equal(change):
    """Whether the kernel gives the same answers with a change, by node."""
    it, changed = changed_module(change)
    return by_node.computes_the_same(KERNELS[change.kernel], MODULE[0], changed, it)


def try_changes(changes, jobs):
    """Prints what became of each change; gives how many passed and failed."""
    passed = failed = 0
    with multiprocessing.get_context("fork").Pool(jobs, maxtasksperchild=1) as pool:
        for change, why in zip(changes, pool.imap(refusal, changes, 1)):
            what = line_of(change)
            if why and why[0] != "!":
                passed += 1
                print(f"refused: {what}: {why}", flush=True)
            elif not why and is_equal(change):
                passed += 1
                print(f"equal: {what}", flush=True)
            else:
                failed += 1
                print(f"FAIL {what}: {why or 'not refused'}", flush=True)
    return passed, failed


def used_lines(number):
    """The instructions that a kernel runs."""
    return sorted(KERNELS[number].check()[1])


def line_of(change):
    return f"{change.what}, {change.old}, in {KERNELS[change.kernel].name}"


def try_all(it, flips, jobs, only):
    """Plants all faults, and flips bits. Gives how many passed and failed."""
    MODULE.append(it)
    KERNELS.extend(kernels_wasm.of(it))
    source, names = random.Random(1), {name for fault in FAULTS for name in fault.kernels}
    wanted = [i for i, of in enumerate(KERNELS) if any(of.name.startswith(name) for name in names)]
    with multiprocessing.get_context("fork").Pool(jobs, maxtasksperchild=1) as pool:
        used = dict(zip(wanted, pool.map(used_lines, wanted, 1)))
    for index in range(len(it.functions_)):
        it.flow(index)
    changes = list(chosen_changes(it, used, source))
    print(f"{len(changes)} faults, {flips} bits", flush=True)
    are_few = len(changes) < LEAST
    changes += flipped(it, flips, source)
    passed, failed = try_changes([of for of in changes if only in line_of(of)], jobs)
    if are_few:
        print(f"FAIL fewer than {LEAST} faults could be planted")
    return passed, failed + are_few


def main():
    parser = argparse.ArgumentParser(usage=__doc__.split("\n\n")[1].strip())
    parser.add_argument("--jobs", type=int, default=min(4, len(os.sched_getaffinity(0))))
    parser.add_argument("--flips", type=int, default=100)
    parser.add_argument("--only", default="")
    parser.add_argument("module")
    given = parser.parse_args()
    passed, failed = try_all(opened(given.module), given.flips, given.jobs, given.only)
    print(f"{passed} passed, {failed} failed")
    return failed > 0


if __name__ == "__main__":
    sys.exit(main())
