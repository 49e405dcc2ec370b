# SPDX-License-Identifier: ISC
"""Where instructions have addresses that a linker fills in."""

import re
import struct
from collections import namedtuple

from elf import X86

# Of an instruction: which of its bits are filled in, as a number over its bytes, and what gives the
# address of the constant that it reads, or None. That is a function of what gives the bytes between
# two addresses, and of how far the code is moved.
Filled = namedtuple("Filled", "line mask constant")
# Of 64-bit ARM. A linker writes `adrp` at a page's end as `adr`, for the sake of the Cortex-A53.
BRANCH, PAGE, IN_PAGE = 0x03ffffff, 0xe0ffffe0, 0x003ffc00


def filled(library, lines, symbol):
    """Of each instruction of a function what is filled in."""
    return list((of_x86 if library.machine == X86 else of_arm)(lines, symbol))


def leaves(line, symbol):
    """Whether an instruction goes to another function."""
    it = re.fullmatch(r"(?:call|j\w+|bl?) ([0-9a-f]+)", line.text)
    return it and not symbol.start <= int(it[1], 16) < symbol.start + symbol.size


def of_x86(lines, symbol):
    for line in lines:
        if (it := re.search(r"(-?)(0x[0-9a-f]+)\(%rip\)", line.text)):
            number = int(it[2], 16) * (-1 if it[1] else 1)
            place = line.raw.rindex(struct.pack("<i", number))
            yield Filled(line, 0xffffffff << 8 * place, constant_of_x86(line, place))
        else:
            at_end = 8 * (len(line.raw) - 4)
            yield Filled(line, 0xffffffff << at_end if leaves(line, symbol) else 0, None)


def constant_of_x86(line, place):
    following = line.at + len(line.raw)

    def run(bytes_at, moved):
        raw = bytes_at(line.at + moved, following + moved)
        return following + moved + struct.unpack_from("<i", raw, place)[0]
    return run


def of_arm(lines, symbol):
    pages = {}  # by a register: the instruction that has put a page's address there
    for line in lines:
        if (it := re.fullmatch(r"adr(?:p (x\d+), .*| (x\d+), [0-9a-f]*000)", line.text)):
            pages[it[1] or it[2]] = line
            yield Filled(line, PAGE, None)
            continue
        it = re.fullmatch(r"(?:ldrb? \w+, \[(x\d+).*\]|add x\d+, (x\d+), #.*)", line.text)
        page = it and pages.get(it[1] or it[2])
        if page:
            yield Filled(line, IN_PAGE, constant_of_arm(page, line))
        else:
            yield Filled(line, BRANCH if leaves(line, symbol) else 0, None)
        if (it := re.fullmatch(r"mov (x\d+), (x\d+)", line.text)) and it[2] in pages:
            pages[it[1]] = pages[it[2]]
        elif (it := re.match(r"(?!st|cmp|cb|tst)\w+ [xw](\d+)(?:, [xw](\d+), \[)?", line.text)):
            for number in it.groups():
                pages.pop(f"x{number}", None)


def constant_of_arm(page, line):
    def run(bytes_at, moved):
        of_page, of_line = (int.from_bytes(bytes_at(it.at + moved, it.at + moved + 4), "little")
                            for it in (page, line))
        pages = (of_page >> 5 & 0x7ffff) << 2 | of_page >> 29 & 3
        pages -= pages >> 20 << 21
        offset = of_line >> 10 & 0xfff
        if line.text.startswith("ldr "):
            offset *= {"q": 16, "d": 8, "x": 8, "s": 4, "w": 4}[line.text[4]]
        if not of_page >> 31:
            return page.at + moved + pages + offset
        return (page.at + moved & -4096) + (pages << 12) + offset
    return run
