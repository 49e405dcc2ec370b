#!/usr/bin/env python3
# SPDX-License-Identifier: ISC
"""Compiles a proved program that chooses the width of its vectors when it runs:

    wide.py KIT OBJECT

KIT is a folder of kit.sh that built the program. Its clang compiles the same module once more into
OBJECT. Changed in the module are

- the functions that the call WIDE reaches, of which it also has copies for processors with
  x86-64-v3: the same text, with other attributes;
- the function ASKER, which calls the copy;
- the function QUESTION, which has no contract, so that ASKER is proved for each answer. It reads
  the byte BYTE, which c/processor.c sets.

All other lines are the same to the byte. A module is refused, and nothing written, if one of these
functions is missing, may be inlined, or is used elsewhere, or if a function to copy is not for
x86-64-v2 or is seen from outside the module.
"""

import pathlib
import re
import subprocess
import sys

import instructions
import windows

ASKER = "ring_sums::wide::update_each"
QUESTION = "ring_sums::wide::is_v3_there"
WIDE = "ring::digest::updates::update_each_in::<=256>"
# What is known of the processor, and the bit for x86-64-v3: YZ_FEATURE_V3 of yezdopin.h.
BYTE, BIT = "yz_known", 1
ANSWER = instructions.Question([f"  %byte = load atomic i8, ptr @{BYTE} monotonic, align 1",
                                f"  %bit = and i8 %byte, {BIT}", "  %new = icmp ne i8 %bit, 0",
                                "  ret i1 %new"])
OLDER, NEWER = '"target-cpu"="x86-64-v2"', '"target-cpu"="x86-64-v3"'
NAME = re.compile(r'@"([^"]+)"')


def refuse(fault):
    sys.exit(f"wide.py: refused: {fault}")


def copy_of(name):
    return f"{name}::v3"


def lines_of(module, name):
    """The lines of a function."""
    found = module.definitions[name]
    return module.lines[found.first:found.last + 1]


def reached_from(module, name):
    """The functions that a function reaches, itself among them."""
    found, left = set(), [name]
    while left:
        it = left.pop()
        if it not in found:
            found.add(it)
            named = NAME.findall("\n".join(lines_of(module, it)))
            left += [other for other in named if other in module.definitions]
    return found


def check_use(module, name):
    """A line of ASKER names the function, and no other one but that which defines it."""
    asker, own = module.definitions[ASKER], module.definitions[name].first
    used = [at for at, line in enumerate(module.lines) if at != own and name in NAME.findall(line)]
    if len(used) != 1 or not asker.first < used[0] < asker.last:
        refuse(f"{name}: used but once, by {ASKER}")


def check(module):
    """The module is one in which the width can be chosen."""
    for name in (ASKER, QUESTION, WIDE):
        if name not in module.definitions:
            refuse(f"{name}: missing")
    for name in (QUESTION, WIDE):
        check_use(module, name)
    if any(re.search(rf"@{BYTE}\b", line) for line in module.lines):
        refuse(f"the module has the name {BYTE} already")
    module.check_definition(QUESTION, ANSWER)
    module.check_uses({QUESTION: ANSWER})


def copies(module, names, first):
    """The lines of the copies, whose attributes get numbers from the first on."""
    numbers = {}
    for name in sorted(names):
        header, *body = lines_of(module, name)
        group = module.group(name)
        if not header.startswith("define internal ") or OLDER not in module.attributes[group]:
            refuse(f"{name}: no function of the module's own for x86-64-v2")
        number = numbers.setdefault(group, first + len(numbers))
        yield from ["", re.sub(rf" #{group} {{$", f" #{number} {{", renamed(header, names))]
        yield from (renamed(line, names) for line in body)
    yield ""
    for group, number in numbers.items():
        yield f"attributes #{number} = {{ {module.attributes[group].replace(OLDER, NEWER)} }}"


def renamed(line, names):
    """A line that names copies where it names the functions."""
    return NAME.sub(lambda it: f'@"{copy_of(it[1]) if it[1] in names else it[1]}"', line)


def changed(module):
    """The lines of the changed module."""
    check(module)
    names = reached_from(module, WIDE)
    if QUESTION in names or ASKER in names:
        refuse(f"{WIDE} reaches its own caller")
    after = max(map(int, module.attributes)) + 2  # `exchanged` takes one
    asker = module.definitions[ASKER]
    lines = list(copies(module, names, after))
    for at in range(asker.first, asker.last):
        module.lines[at] = renamed(module.lines[at], {WIDE})
    yield from instructions.exchanged(module, {QUESTION: ANSWER})
    yield f"@{BYTE} = external hidden global i8"
    yield from lines


def main():
    if len(sys.argv) != 3:
        sys.exit(__doc__)
    kit, target = map(pathlib.Path, sys.argv[1:])
    module = instructions.Module(windows.module_of(kit).split("\n")[:-1])
    text = kit / "wide.ll"
    text.write_text("".join(f"{it}\n" for it in changed(module)))
    places = {"module.bc": text, "module.o": target}
    flags = (kit / "flags").read_text().split("\n")[:-1]
    command = [f"{kit}/toolchain/bin/clang", *(str(places.get(it, it)) for it in flags)]
    subprocess.run(command, check=True)


if __name__ == "__main__":
    main()
