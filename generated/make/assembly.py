#!/usr/bin/env python3
# SPDX-License-Identifier: ISC
"""Writes the code and the constants of a relocatable ELF object as assembly text, with NOTEs above:

    assembly.py OBJECT TEXT [NOTE..]

The text is for objects of ELF and, by macros of C's preprocessor, of Mach-O: macOS has the calling
conventions of Linux.

objdump reads the instructions. Where an assembler has a choice, the text has the encoding of the
object. Nothing here is trusted: `make generated-check` compares the library that an assembler makes
of the text with the one that the kit makes, and `generated/make/programs check` the programs.
"""

import re
import struct
import subprocess
import sys
from collections import Counter, namedtuple

Section = namedtuple("Section", "name type flags align entry link info size data")
Symbol = namedtuple("Symbol", "name value size type bind visibility section")
Relocation = namedtuple("Relocation", "type symbol addend")
Instruction = namedtuple("Instruction", "section at raw text")
X86, ARM = 62, 183
MACHINES = {X86: ("objdump", "defined(__x86_64__) && defined(__LP64__)"),
            ARM: ("aarch64-linux-gnu-objdump", "defined(__aarch64__)")}
ADDRESS = {X86: 1, ARM: 257}  # the relocation of 64 bits that is an address
# How the directives differ between ELF and Mach-O: labels that no object keeps, sections, the kind
# and the size of a name, names that only the library sees, a name before tables of differences,
# which Mach-O counts from names alone, and the two parts of an address on ARM.
MACROS = """\
#ifdef __APPLE__
#define L(NAME) L##NAME
#define CODE(NAME) .text
#define CONSTANTS(NAME, ...) .section __TEXT,__const
#define ADDRESSES(NAME) .section __DATA,__const
#define TYPE(NAME, KIND)
#define SIZE(NAME, BYTES)
#define HIDDEN(NAME) .private_extern NAME
#define NAMED(NAME) NAME:
#define PAGE(NAME) NAME@PAGE
#define IN_PAGE(NAME) NAME@PAGEOFF
{names}
#else
#define L(NAME) .L##NAME
#define CODE(NAME) .section .text.NAME,"ax",%progbits
#define CONSTANTS(NAME, ...) .section .rodata.NAME,__VA_ARGS__
#define ADDRESSES(NAME) .section .data.rel.ro.NAME,"aw",%progbits
#define TYPE(NAME, KIND) .type NAME, KIND
#define SIZE(NAME, BYTES) .size NAME, BYTES
#define HIDDEN(NAME) .hidden NAME
#define NAMED(NAME)
#define PAGE(NAME) NAME
#define IN_PAGE(NAME) :lo12:NAME
#endif"""
SYMBOLS, RELA, REL = 2, 4, 9  # types of sections
WRITE, ALLOC, EXEC, MERGE, STRINGS = 1, 2, 4, 16, 32  # flags of sections
GLOBAL, HIDDEN = 1, 2
OBJECT, FUNC, SECTION, FILE = 1, 2, 3, 4  # types of symbols


def plain(name):
    """A name without the signs that an assembler may refuse: ring::a::<=4> is ring.a.4."""
    return re.sub(r"[^\w.$]+\.?", ".", name).rstrip(".")


class Elf:
    """A relocatable object of 64 bits, little endian."""

    def __init__(self, path):
        with open(path, "rb") as file:
            data = file.read()
        if data[:6] != b"\x7fELF\x02\x01" or data[16] != 1:
            sys.exit(f"{path}: not a relocatable ELF object of 64 bits, little endian")
        self.path = path
        self.machine, = struct.unpack_from("<H", data, 18)
        start, = struct.unpack_from("<Q", data, 40)
        size, count, names = struct.unpack_from("<HHH", data, 58)
        headers = [struct.unpack_from("<IIQQQQIIQQ", data, start + size * i) for i in range(count)]

        def text(table, at):
            at += headers[table][4]
            return data[at:data.index(0, at)].decode()

        self.sections = [
            Section(text(names, it[0]), it[1], it[2], it[8], it[9], it[6], it[7], it[5],
                    data[it[4]:it[4] + it[5]]) for it in headers]
        self.symbols = [
            Symbol(text(table.link, it[0]), it[4], it[5], it[1] & 15, it[1] >> 4, it[2] & 3, it[3])
            for table in self.sections if table.type == SYMBOLS
            for it in struct.iter_unpack("<IBBHQQ", table.data)]
        # By the number of the section, and then by the place in it.
        self.relocations = {
            it.info: {at: Relocation(info & 0xFFFFFFFF, self.symbols[info >> 32], addend)
                      for at, info, addend in struct.iter_unpack("<QQq", it.data)}
            for it in self.sections if it.type == RELA}
        # The sections that a program has, by number.
        self.loaded = {i: it for i, it in enumerate(self.sections) if it.flags & ALLOC}
        # The symbols that somebody named: not those of sections and files, nor AArch64's `$x`.
        self.named = [it for it in self.symbols[1:]
                      if it.type not in (SECTION, FILE) and not it.name.startswith("$")]

    def comments(self):
        """What the kit says of itself in the object."""
        return {it.decode() for section in self.sections if section.name == ".comment"
                for it in section.data.split(b"\0") if it.startswith(b"rattle")}


def is_table(section):
    """Whether a section has constants with addresses, which are filled in where code is loaded."""
    return section.name.startswith(".data.rel.ro.")


class Writer:
    def __init__(self, elf):
        self.elf = elf
        if any(it.type == REL or it.flags & WRITE and it.size and not is_table(it)
               for it in elf.sections):
            sys.exit(f"{elf.path}: more than code, constants and relocations with addends")
        self.listing = list(self.instructions())
        # By section and offset: the names of places, and what first points at a place.
        self.labels = {(it.section, it.value): plain(it.name) for it in elf.named if it.section}
        self.pointed = {}
        for it in self.listing:
            self.operand_named(it)
        for number, section in elf.loaded.items():
            if not section.flags & EXEC:
                list(self.entries(number))
        self.labels = {it: name for it, name in self.labels.items()
                       if it in self.pointed or not name.startswith(".L")}
        count = Counter()
        for section, offset in sorted(self.pointed.keys() - self.labels.keys()):
            name = elf.sections[section].name
            if not offset and name.startswith(".rodata..L"):
                self.labels[section, offset] = plain(name[8:])
            else:
                self.labels[section, offset] = f".L{section}_{count[section]}"
                count[section] += 1

    def label(self, section, offset, user):
        self.pointed.setdefault((section, offset), user)
        return self.labels.get((section, offset), "?")

    def target(self, relocation, more, user):
        """What a relocation points at, as an operand says it."""
        _, symbol, addend = relocation
        if symbol.bind != GLOBAL:
            return self.label(symbol.section, symbol.value + addend + more, user)
        return plain(symbol.name) + (f"{addend + more:+}" if addend + more else "")

    def entries(self, number):
        """(offset, (size, text)) of the entries of tables: addresses, and those of jump tables,
        which count from the start of theirs."""
        start = 0
        for at, it in self.elf.relocations.get(number, {}).items():
            if it.type == ADDRESS[self.elf.machine]:
                yield at, (8, f".quad {self.target(it, 0, '.quad')}")
                continue
            start = at if (number, at) in self.pointed else start
            to, table = self.target(it, start - at, ".long"), self.labels.get((number, start))
            yield at, (4, f".long {to}-{table}")

    def instructions(self):
        """The instructions as objdump reads them."""
        listing = subprocess.run([MACHINES[self.elf.machine][0], "-dwz", self.elf.path], check=True,
                                 capture_output=True, text=True).stdout
        numbers = {it.name: i for i, it in self.elf.loaded.items()}
        for line in listing.splitlines():
            if line.startswith("Disassembly of section "):
                section = numbers[line[23:-1]]
            elif (it := re.match(r" *([0-9a-f]+):\t([0-9a-f ]+)\t(.*)", line)):
                raw = bytes.fromhex(it[2])[::-1 if self.elf.machine == ARM else 1]
                text = re.sub(r"\s*(#(?= [0-9a-f])|//).*", "", it[3])
                yield Instruction(section, int(it[1], 16), raw, " ".join(text.split()))

    def operand_named(self, it):
        """The text of an instruction, with names for what it points at."""
        section, at, raw, text = it
        relocations = self.elf.relocations.get(section, {})
        place = next((i for i in range(at, at + len(raw)) if i in relocations), None)
        if place is None:
            return re.sub(r"(?<![\w$#])([0-9a-f]+) <.*>$",
                          lambda jump: self.label(section, int(jump[1], 16), ""), text)
        # On x86 the processor counts from the end of the instruction.
        more = at + len(raw) - place if self.elf.machine == X86 else 0
        to = self.target(relocations[place], more, text.split()[0])
        if text.endswith(">"):
            to = f"PAGE({to})" if text.startswith("adrp") else to
            return re.sub(r"[0-9a-f]+ <.*>$", to, text)
        if self.elf.machine == X86:
            return re.sub(r"0x0(?=\(%rip\))", to, text)
        return re.sub(r", #0x0$|(?=\]$)", f", IN_PAGE({to})", text)

    def encoded(self, it):
        """The same, with the encoding of the object where an assembler would take a shorter one."""
        text, raw = self.operand_named(it), it.raw
        if self.elf.machine == X86 and " .L" in text and len(raw) > 4 and text[0] == "j":
            way = int.from_bytes(raw[-4:], "little", signed=True)
            if -128 <= way + (len(raw) - 2 if way < 0 else 0) <= 127:
                return f"{{disp32}} {text}"
        if re.match("nop[lw] 0x0", text):
            return f"{{disp{32 if raw.endswith(bytes(4)) else 8}}} {text}"
        if " nop" in text:
            return f".byte {', '.join(f'0x{it:02x}' for it in raw)} /* {text} */"
        return text

    def constants(self, number, section):
        """The lines of a section of constants."""
        marks = {at: name for (of, at), name in self.labels.items() if of == number}
        tables, data, at = dict(self.entries(number)), section.data, 0
        width = min(section.align, 8)
        for end in sorted({*marks, *tables, len(data), *(at + it[0] for at, it in tables.items())}):
            if end > at:
                if (end - at) % width:
                    width = 1
                step = 4 * max(width, 4)
                for i in range(at, end, step):
                    items = [int.from_bytes(data[j:j + width], "little")
                             for j in range(i, min(i + step, end), width)]
                    kind = {1: "byte", 2: "short", 4: "long", 8: "quad"}[width]
                    yield f"\t.{kind} " + ", ".join(f"0x{it:0{2 * width}x}" for it in items)
            at = end
            if at in marks:
                yield f"{marks[at]}:"
                user = self.pointed.get((number, at), "")
                width = (1 if user.endswith("pshufb") else 8 if user.endswith("q") else
                         4 if section.align > 8 else section.align)
            if at in tables:
                yield f"\t{tables[at][1]}"
                at += tables[at][0]

    def lines(self, notes):
        names = sorted({it.name for it in self.elf.named if it.bind == GLOBAL})
        yield from ("/*", *(f" * {it}".rstrip() for it in notes), " */", "")
        yield f"#if {MACHINES[self.elf.machine][1]} && (defined(__ELF__) || defined(__APPLE__))"
        yield MACROS.format(names="\n".join(f"#define {it} _{it}" for it in names))
        if self.elf.machine == ARM and any(re.match("sha(1|256)", it.text) for it in self.listing):
            yield "\t.arch_extension sha2"
        for it in self.body():
            yield it if it.startswith("/*") else re.sub(r"(?<![\w.])\.L([\w.$]+)", r"L(\1)", it)
        yield from ("", "#ifdef __ELF__")
        yield from (f'\t.ident "{it}"' for it in sorted(self.elf.comments()))
        yield from ("#endif", "#endif")
        yield from ("#ifdef __ELF__", '\t.section .note.GNU-stack,"",%progbits', "#endif")

    def start(self, number, section):
        """The directive that begins a section, and a name before jump tables."""
        it = re.fullmatch(r"\.(text|rodata|data\.rel\.ro)\.+(.+)", plain(section.name))
        if not it:
            sys.exit(f"{self.elf.path}: section {section.name}")
        kind, name = it.groups()
        if kind != "rodata":
            yield f"\n\t{'CODE' if kind == 'text' else 'ADDRESSES'}({name})"
            return
        letters = {MERGE: "M", STRINGS: "S"}
        flags = "a" + "".join(it for flag, it in letters.items() if section.flags & flag)
        size = f",{section.entry}" if section.flags & MERGE else ""
        yield f'\n\tCONSTANTS({name},"{flags}",%progbits{size})'
        if any(text.startswith(".long") for _, (_, text) in self.entries(number)):
            yield f"NAMED({name}.tables)"

    def body(self):
        """The sections, with labels as ELF has them."""
        code = {}
        for it in self.listing:
            code.setdefault(it.section, []).append(it)
        for number, section in self.elf.loaded.items():
            if not section.size and not any(of == number for of, _ in self.labels):
                continue
            yield from self.start(number, section)
            yield f"\t.p2align {section.align.bit_length() - 1}"
            named = [(it, plain(it.name)) for it in self.elf.named
                     if it.section == number and (number, it.value) in self.labels]
            for it, name in named:
                yield from [f"/* {it.name} */"] * (name != it.name)
                yield from [f"\t.globl {name}"] * (it.bind == GLOBAL)
                # dispatch.c alone calls the names of one of several builds.
                is_own = it.visibility == HIDDEN or re.match("v[0-9]_", name)
                yield from [f"\tHIDDEN({name})"] * bool(is_own)
                yield from [f"\tTYPE({name}, %function)"] * (it.type == FUNC)
                yield from [f"\tTYPE({name}, %object)"] * (it.type == OBJECT)
            for it in code.get(number, []):
                if (number, it.at) in self.labels:
                    yield f"{self.labels[number, it.at]}:"
                yield "\t" + self.encoded(it)
            if number not in code:
                yield from self.constants(number, section)
            for it, name in named:
                yield from [f"\tSIZE({name}, {it.size})"] * (it.type in (OBJECT, FUNC))


def main():
    if len(sys.argv) < 3:
        sys.exit(__doc__)
    _, path, text, *notes = sys.argv
    with open(text, "w", encoding="ascii") as file:
        file.writelines(it + "\n" for it in Writer(Elf(path)).lines(notes))


if __name__ == "__main__":
    main()
