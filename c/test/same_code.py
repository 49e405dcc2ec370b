#!/usr/bin/env python3
# SPDX-License-Identifier: ISC
"""Compares each function of an ELF object with that of a Mach-O object of the same text:

    same_code.py ELF MACHO

All bits must be the same but for those that a linker fills in, by the relocations of either.
"""

import pathlib
import struct
import sys

sys.path.insert(0, str(pathlib.Path(__file__).resolve().parents[2] / "generated/make"))
from assembly import ARM, FUNC, Elf, plain

# What a linker fills in of an instruction of ARM: a branch, a page, or a place in a page.
BRANCH, PAGE, IN_PAGE = 0x03FFFFFF, 0x60FFFFE0, 0x003FFC00
FILLED_BY_ELF = {282: BRANCH, 283: BRANCH, 275: PAGE}
FILLED_BY_ELF |= dict.fromkeys((277, 278, 284, 285, 286, 299), IN_PAGE)
FILLED_BY_MACHO = {2: BRANCH, 3: PAGE, 4: IN_PAGE}
# As <mach-o/loader.h> has them.
MAGIC, OBJECT, SYMBOLS, SEGMENT = 0xFEEDFACF, 1, 2, 0x19


class Macho:
    """The code of an object of 64 bits, the places of its names, and the types of relocations."""

    def __init__(self, path):
        self.data = pathlib.Path(path).read_bytes()
        magic, _, _, kind, count = struct.unpack_from("<IIIII", self.data)
        if (magic, kind) != (MAGIC, OBJECT):
            sys.exit(f"{path}: not a Mach-O object of 64 bits")
        self.code, self.names, self.relocations = b"", {}, {}
        at = 32
        for _ in range(count):
            kind, size = struct.unpack_from("<II", self.data, at)
            if kind == SEGMENT:
                self.read_code(at)
            if kind == SYMBOLS:
                self.read_names(*struct.unpack_from("<III", self.data, at + 8))
            at += size

    def read_code(self, at):
        """The section of code, which is the first one of all objects."""
        it = struct.unpack_from("<16s16sQQIIII", self.data, at + 72)
        if it[0].rstrip(b"\0") != b"__text":
            sys.exit("the first section is not code")
        self.code = self.data[it[4]:it[4] + it[3]]
        for i in range(it[7]):
            place, info = struct.unpack_from("<iI", self.data, it[6] + 8 * i)
            self.relocations[place] = info >> 28

    def read_names(self, symbols, count, texts):
        for i in range(count):
            text, _, section, _, value = struct.unpack_from("<IBBHQ", self.data, symbols + 16 * i)
            if section == 1:
                end = self.data.index(0, texts + text)
                self.names[self.data[texts + text:end].decode()] = value


def filled(name, machine, ours, theirs):
    """The bits that either linker fills in of four bytes."""
    if machine != ARM:
        return 0xFFFFFFFF
    masks = {FILLED_BY_ELF[ours]} if ours else set()
    masks |= {FILLED_BY_MACHO[theirs]} if theirs else set()
    return masks.pop() if len(masks) == 1 else sys.exit(f"{name}: unlike relocations")


def compare(elf, macho, it):
    """One function in both objects; how many bytes it has."""
    name = plain(it.name)
    start = macho.names["_" + name if "_" + name in macho.names else name]
    ours = bytearray(elf.sections[it.section].data[it.value:it.value + it.size])
    theirs = bytearray(macho.code[start:start + it.size])
    by_elf = {at - it.value: one.type for at, one in elf.relocations.get(it.section, {}).items()
              if it.value <= at < it.value + it.size}
    by_macho = {at - start: kind for at, kind in macho.relocations.items()
                if start <= at < start + it.size}
    for at in {*by_elf, *by_macho}:
        mask = filled(name, elf.machine, by_elf.get(at), by_macho.get(at))
        for code in (ours, theirs):
            word = int.from_bytes(code[at:at + 4], "little") & ~mask
            code[at:at + 4] = word.to_bytes(4, "little")
    if ours != theirs:
        at = next(i for i, (a, b) in enumerate(zip(ours, theirs)) if a != b)
        sys.exit(f"{name}: other code at {at:#x}")
    return it.size


def main():
    if len(sys.argv) != 3:
        sys.exit(__doc__)
    elf, macho = Elf(sys.argv[1]), Macho(sys.argv[2])
    sizes = [compare(elf, macho, it) for it in elf.named if it.type == FUNC and it.section]
    print(f"{len(sizes)} functions, {sum(sizes)} bytes: the same code")


if __name__ == "__main__":
    main()
