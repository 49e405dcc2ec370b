#!/usr/bin/env python3
# SPDX-License-Identifier: ISC
"""Puts a processor's instructions in the place of the functions that define them:

    instructions.py [--only NAME] PROCESSOR MODULE CHANGED

MODULE is the LLVM module of a proved crate as text, before any optimisation. A function of TABLE
takes vectors by address and writes the result to its first argument. Its contract is what the
processor's manual says of one instruction, and so is its body. CHANGED is the module with that
instruction in the place of the body, and otherwise the same to the byte. With `--only` the other
functions of TABLE keep their bodies.

A question of TABLE has no contract, so its callers are proved for each answer. `are_there` answers
whether the processor has the instructions: it reads the byte BYTE, which C code sets.
`is_window_chosen`, in a module for JavaScript, answers that kernels over a window run one message,
and `has_rorx_and_andn`, in one for x86-64-v3, that rounds have the form for these instructions.

A module is refused, and nothing written, if it is another processor's, or if a function of TABLE is
missing, has another type, is defined twice, may be inlined, is never called, or is used but by a
call; or if it has another function beside these that is never inlined.

What is trusted is that each instruction does what its function says: `make instructions-check`
compares them.
"""

import argparse
import re
import sys
from collections import namedtuple

VECTOR, WORD, TRUTH = "<4 x i32>", "i32", "i1"
# An instruction's name in LLVM, the types of its arguments and of its result, which have the order
# of the function's, and the number that the instruction itself has, or None.
Instruction = namedtuple("Instruction", "name arguments result number", defaults=[None])
# The lines by which a function without arguments answers, and what an instruction has besides.
Question = namedtuple("Question", "answer name arguments result", defaults=[None, [], TRUTH])
# A function's definition: its first line, where that and its last line stand in the module.
Definition = namedtuple("Definition", "header first last")

BYTE = "yz_instructions"
PREFIX = "ring_core::digest::instructions"
ARE_THERE = Question([f"  %byte = load atomic i8, ptr @{BYTE} monotonic, align 1",
                      "  %new = icmp ne i8 %byte, 0", "  ret i1 %new"])
IS_CHOSEN = Question(["  ret i1 true"])
X86, ARM = "llvm.x86", "llvm.aarch64.crypto"
TWO, THREE, WITH_WORD = [VECTOR] * 2, [VECTOR] * 3, [VECTOR, WORD, VECTOR]
TABLE = {
    "x86_64": (f"{PREFIX}::x86::", {
        "are_there": ARE_THERE,
        "sha1msg1": Instruction(f"{X86}.sha1msg1", TWO, VECTOR),
        "sha1msg2": Instruction(f"{X86}.sha1msg2", TWO, VECTOR),
        "sha1nexte": Instruction(f"{X86}.sha1nexte", TWO, VECTOR),
        "sha1rnds4::<=0>": Instruction(f"{X86}.sha1rnds4", TWO, VECTOR, 0),
        "sha1rnds4::<=1>": Instruction(f"{X86}.sha1rnds4", TWO, VECTOR, 1),
        "sha1rnds4::<=2>": Instruction(f"{X86}.sha1rnds4", TWO, VECTOR, 2),
        "sha1rnds4::<=3>": Instruction(f"{X86}.sha1rnds4", TWO, VECTOR, 3),
        "sha256msg1": Instruction(f"{X86}.sha256msg1", TWO, VECTOR),
        "sha256msg2": Instruction(f"{X86}.sha256msg2", TWO, VECTOR),
        "sha256rnds2": Instruction(f"{X86}.sha256rnds2", THREE, VECTOR),
    }),
    "aarch64": (f"{PREFIX}::arm::", {
        "are_there": ARE_THERE,
        "sha1c": Instruction(f"{ARM}.sha1c", WITH_WORD, VECTOR),
        "sha1h": Instruction(f"{ARM}.sha1h", [WORD], WORD),
        "sha1m": Instruction(f"{ARM}.sha1m", WITH_WORD, VECTOR),
        "sha1p": Instruction(f"{ARM}.sha1p", WITH_WORD, VECTOR),
        "sha1su0": Instruction(f"{ARM}.sha1su0", THREE, VECTOR),
        "sha1su1": Instruction(f"{ARM}.sha1su1", TWO, VECTOR),
        "sha256h": Instruction(f"{ARM}.sha256h", THREE, VECTOR),
        "sha256h2": Instruction(f"{ARM}.sha256h2", THREE, VECTOR),
        "sha256su0": Instruction(f"{ARM}.sha256su0", TWO, VECTOR),
        "sha256su1": Instruction(f"{ARM}.sha256su1", THREE, VECTOR),
    }),
    "wasm64": ("ring_core::digest::kernel::", {"is_window_chosen": IS_CHOSEN}),
    "x86_64-v3": ("ring_core::digest::form::", {"has_rorx_and_andn": IS_CHOSEN}),
}
# What the kit marks a function with that is never inlined.
NEVER_INLINED = "noinline nounwind"


def refuse(fault):
    sys.exit(f"instructions.py: refused: {fault}")


def in_memory(type_):
    """How a value of a type is handed over: a vector by its address."""
    return "ptr" if type_ == VECTOR else type_


def header(name, it):
    """The first line of a function's definition, up to the number of its attributes."""
    if it.result == TRUTH:
        return f'define internal noundef zeroext i1 @"{name}"() #'
    places = [VECTOR] * (it.result == VECTOR) + it.arguments
    listed = ", ".join(f"{in_memory(of)} noundef %a{i}" for i, of in enumerate(places))
    result = "void" if it.result == VECTOR else f"noundef {it.result}"
    return f'define internal {result} @"{name}"({listed}) #'


def body(it):
    """The lines of a function: the arguments, the instruction, the result."""
    if it.result == TRUTH:
        return it.answer
    lines, values = [], []
    for i, of in enumerate(it.arguments, it.result == VECTOR):
        lines += [f"  %v{i} = load {of}, ptr %a{i}, align 4"] * (of == VECTOR)
        values.append(f"{of} %{'v' if of == VECTOR else 'a'}{i}")
    values += [f"i8 {it.number}"] * (it.number is not None)
    lines.append(f"  %new = call {it.result} @{it.name}({', '.join(values)})")
    if it.result == VECTOR:
        return [*lines, f"  store {it.result} %new, ptr %a0, align 4", "  ret void"]
    return [*lines, f"  ret {it.result} %new"]


def declaration(it):
    """The line that declares an instruction to LLVM."""
    types = [*it.arguments, *["i8 immarg"] * (it.number is not None)]
    return f"declare {it.result} @{it.name}({', '.join(types)})"


class Module:
    """A module's lines, and where its functions with a Rattle path stand."""

    def __init__(self, lines):
        self.lines = lines
        self.attributes = {it[1]: it[2] for line in lines
                           if (it := re.match(r"attributes #(\d+) = \{ (.*) \}$", line))}
        self.definitions = {}
        for i, line in enumerate(lines):
            if (it := re.match(r'define .*?@"([^"]+)"\(.*\{$', line)):
                if it[1] in self.definitions:
                    refuse(f"{it[1]}: defined twice")
                self.definitions[it[1]] = Definition(line, i, lines.index("}", i))

    def group(self, name):
        """The number of a function's attributes."""
        found = re.search(r" #(\d+) \{$", self.definitions[name].header)
        return found and found[1]

    def marks(self, name):
        """A function's attributes but for the strings."""
        attributes = f" {self.attributes.get(self.group(name), '')}"
        return re.sub(r' "[^"]*"(="[^"]*")?', "", attributes).strip()

    def check_whole(self, processor):
        """The module is the processor's, and has none of the names that are put into it."""
        family, _, level = processor.partition("-")
        if not any(it.startswith(f'target triple = "{family}-') for it in self.lines):
            refuse(f"no module for {processor}")
        if level and any(f'"target-cpu"="x86-64-{level}"' not in it
                         for it in self.attributes.values() if '"target-cpu"=' in it):
            refuse(f"a function for another processor than {processor}")
        taken = re.compile(rf"@({BYTE}\b|{re.escape(X86)}\.sha|{re.escape(ARM)}\.sha)")
        if (line := next(filter(taken.search, self.lines), None)):
            refuse(f"the module has such a name already: {line}")

    def check_definition(self, name, it):
        """A function is there, of the wanted type, and never inlined."""
        if name not in self.definitions:
            refuse(f"{name}: missing")
        found, wanted = self.definitions[name].header, header(name, it)
        if not re.fullmatch(re.escape(wanted) + r"\d+ \{", found):
            refuse(f"{name}: another type than wanted:\n{found}\n{wanted}")
        if self.marks(name) != NEVER_INLINED:
            refuse(f"{name}: not marked to be never inlined, and so alone: {self.marks(name)}")

    def check_others(self, prefix, table):
        """No further function beside those of the table is never inlined, and all of these have the
        same attributes."""
        if (other := next((it for it in table if self.group(it) != self.group(min(table))), None)):
            refuse(f"{other}: other attributes than {min(table)}")
        for name in self.definitions.keys() - table.keys():
            if name.startswith(prefix) and "noinline" in self.marks(name):
                refuse(f"{name}: never inlined, and no instruction of the table")

    def check_uses(self, table):
        """Each function of the table is called, with the wanted types, and not used otherwise."""
        dropped = {i for name in table for i in range(*self.definitions[name][1:])}
        calls = dict.fromkeys(table, 0)
        for i, line in enumerate(self.lines):
            for name in set(re.findall(r'@"([^"]+)"', line)) & table.keys():
                if i in dropped:
                    continue
                if not re.fullmatch(call(name, table[name]), line):
                    refuse(f"{name}: used but by a call of its type:\n{line}")
                calls[name] += 1
        if (unused := [name for name, count in calls.items() if not count]):
            refuse(f"{', '.join(unused)}: never called")


def call(name, it):
    """What a line is that calls a function, as a pattern."""
    places = [VECTOR] * (it.result == VECTOR) + it.arguments
    listed = ", ".join(rf"{in_memory(of)} [%\w.-]+" for of in places)
    result = {VECTOR: "call void", TRUTH: r"%r\d+ = call (zeroext )?i1"}
    result = result.get(it.result, rf"%r\d+ = call {it.result}")
    return rf'  {result} @"{re.escape(name)}"\({listed}\)(, !\w+ !\d+)*'


def exchanged(module, table):
    """The module's lines with the bodies of the table's functions exchanged."""
    new = max(map(int, module.attributes)) + 1
    starts = {module.definitions[name].first: name for name in table}
    at = 0
    while at < len(module.lines):
        if (name := starts.get(at)) is None:
            yield module.lines[at]
            at += 1
            continue
        yield f"{header(name, table[name])}{new} {{"
        yield from body(table[name])
        at = module.definitions[name].last
    yield ""
    if ARE_THERE in table.values():
        yield f"@{BYTE} = external hidden global i8"
    yield from sorted({declaration(it) for it in table.values() if it.name})
    marks = module.attributes[module.group(min(table))]
    marks = marks.replace(NEVER_INLINED, "alwaysinline nounwind")
    yield f"attributes #{new} = {{ {marks} }}"


def main():
    parser = argparse.ArgumentParser(usage=__doc__.split("\n\n")[1].strip())
    parser.add_argument("--only")
    parser.add_argument("processor", choices=TABLE)
    parser.add_argument("module")
    parser.add_argument("changed")
    given = parser.parse_args()
    prefix, functions = TABLE[given.processor]
    table = {prefix + name: it for name, it in functions.items()}
    with open(given.module, encoding="utf-8") as file:
        module = Module(file.read().split("\n")[:-1])
    module.check_whole(given.processor)
    for name, it in table.items():
        module.check_definition(name, it)
    module.check_others(prefix, table)
    module.check_uses(table)
    kept = {name: it for name, it in table.items() if given.only in (None, name[len(prefix):])}
    made = list(exchanged(module, kept))
    with open(given.changed, "w", encoding="utf-8") as file:
        file.writelines(f"{it}\n" for it in made)


if __name__ == "__main__":
    main()
