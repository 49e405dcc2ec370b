# SPDX-License-Identifier: ISC
"""What yz_ask has to find out: whether the processor has x86-64-v3 and the SHA instructions, from
any answers of cpuid, xgetbv, the environment and, on ARM, getauxval. All of these are public."""

import terms
from calls import ASKED, SHA, V3
from machine import Refused, Region, at, offset_of
from standards import plain
from merkle_trees import assumed

# By what is asked, (leaf, register): the bits that x86-64-v3 needs, as the System V ABI lists it,
# and those that the code with SHA instructions needs. Leaf "xgetbv" is what the system saves.
NEEDS = {V3: {(1, "rcx"): (12, 22, 27, 28, 29),  # FMA, MOVBE, OSXSAVE, AVX, F16C
              ("xgetbv", "rax"): (1, 2), (7, "rbx"): (3, 5, 8),  # BMI, AVX2, BMI2
              (0x80000001, "rcx"): (5,)},  # LZCNT
         SHA: {(1, "rcx"): (9, 19), (7, "rbx"): (29,)}}  # SSSE3, SSE4.1, SHA
FEW_ATOMS = 1  # of what terms.py looks at by tables: a feature that is added to a number
HWCAP, HWCAP_BITS = 16, (5, 6)  # <asm/hwcap.h>: SHA1, SHA2
BASIC, EXTENDED = 0, 0x80000000  # leaves that tell the greatest one of their kind
VALUES = {None: None, "empty": plain(b"\0"), "two": [None, None]}  # of the environment's variable


class Answers:
    """What a processor answers: any words, but for the greatest leaves."""

    def __init__(self, basic, extended):
        self.greatest, self.found = {BASIC: basic, EXTENDED: extended}, {}

    def __call__(self, state, leaf, further, register):
        if leaf in self.greatest and register == "rax":
            return terms.constant(self.greatest[leaf], 32)
        if leaf != "xgetbv" and leaf not in self.greatest and not self.has(leaf):
            state.refuse(f"a leaf {leaf:x} that the processor hasn't")
        key = (leaf, further if leaf == 7 else None, register)
        if key not in self.found:
            self.found[key] = terms.fresh(f"{key}", 32, secret=False)
        return self.found[key]

    def has(self, leaf):
        return leaf <= self.greatest[leaf & EXTENDED]

    def bits(self, needs):
        """The bits that are needed, or None where a leaf lacks."""
        if any(leaf != "xgetbv" and not self.has(leaf) for leaf, _ in needs):
            return None
        words = [(self.found.get((leaf, 0 if leaf == 7 else None, register)), places)
                 for (leaf, register), places in needs.items()]
        return [word[i] if word else None for word, places in words for i in places]


def environment(calls, region):
    """getenv: a pointer to the value, or none."""
    name = b"YEZDOPIN_INSTRUCTIONS\0"

    def run(state):
        start = offset_of(state.registers[calls.cpu.ARGUMENTS[0]])
        if bytes(calls.library.constant(start + i) for i in range(len(name))) != name:
            state.refuse("another variable of the environment")
        return [at("environment") if region else terms.constant(0, 64)]
    return run


def of_system(calls, word):
    """getauxval."""
    def run(state):
        if terms.number_of(state.registers[calls.cpu.ARGUMENTS[0]]) != HWCAP:
            state.refuse("another entry than AT_HWCAP")
        return [word]
    return run


def asked(calls, answers, runs, region, places):
    """The states in which yz_ask returns, where the processor and other libraries answer so."""
    program, summaries = calls.program, dict(calls.program.summaries)
    summaries.update((address, runs[name]) for address, name in calls.library.imports.items()
                     if name in runs)
    before = program.summaries, program.lacking
    program.summaries, program.lacking, program.answers = summaries, None, answers
    calls.others, calls.writable = [region] if region else [], set(places.values())
    try:
        return calls.call("yz_ask")
    finally:
        program.summaries, program.lacking = before
        calls.others, calls.writable = [], set()


def ask(calls, _, basic, extended, value):
    """Of a processor with these greatest leaves, and a value of YEZDOPIN_INSTRUCTIONS: what is
    answered and remembered are the features, on each path."""
    answers, aux = Answers(basic, extended), terms.fresh("AT_HWCAP", 64, secret=False)
    region = None if value is None else Region("environment", 0, len(VALUES[value]))
    if region:
        region.cells.update((i, it or terms.fresh(f"value[{i}]", 8, secret=False))
                            for i, it in enumerate(VALUES[value]))
    places = {it.name: it.start for it in calls.library.objects
              if it.name in ("yz_known", "yz_instructions")}
    runs = {"getenv": environment(calls, region), "getauxval": of_system(calls, aux)}
    is_x86 = "rax" in calls.cpu.RESULTS
    for end in asked(calls, answers, runs, region, places):
        zeros, ones = assumed(end.path)
        image = end.regions["image"]
        known, instructions = (image.cell(places[it]) for it in ("yz_known", "yz_instructions"))
        refused = region_is(region, zeros, ones) if region else 0
        sha = answers.bits(NEEDS[SHA]) if is_x86 else [aux[i] for i in HWCAP_BITS]
        v3 = answers.bits(NEEDS[V3]) if is_x86 else None
        takes_sha = 0 if refused == 1 else terms.both(all_of(sha, zeros, ones),
                                                      terms.xor(1, refused))
        expected = {V3: all_of(v3, zeros, ones), SHA: takes_sha, ASKED: 1}
        if known != tuple(expected.get(1 << i, 0) for i in range(8)):
            raise Refused("yz_known is not what the processor has")
        if instructions != (takes_sha,) + (0,) * 7:
            raise Refused("yz_instructions is not whether the SHA instructions are taken")
        if end.registers[end.program.result][:8] != known:
            raise Refused("yz_ask answers by something else")


def all_of(bits, zeros, ones):
    """Whether all of these bits are 1, as a bit, under what a path assumes."""
    if bits is None:
        return 0
    lacking = {None if it is None else terms.xor(it, 1) for it in bits}
    if any(of <= lacking for of in ones):
        return 0
    result = 1
    for it in lacking - zeros:
        if it is None:
            raise Refused("a feature that was never asked for")
        result = terms.both(result, terms.xor(it, 1))
    return result


def region_is(region, zeros, ones):
    """Whether the variable's value is 0, as a bit, under what a path assumes."""
    if region.high < 2:
        return 0
    differ = {bit for i, it in enumerate(plain(b"0\0"))
              for bit in terms.xor_words(region.cells[i], it) if bit}
    if any(of <= differ for of in ones):
        return 0
    left = differ - zeros
    return terms.xor(1, terms.or_of(left)) if left else 1
