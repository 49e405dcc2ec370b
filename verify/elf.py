# SPDX-License-Identifier: ISC
"""A finished ELF library of 64 bits, little endian: its bytes, its names, its instructions."""

import re
import struct
import subprocess
from collections import namedtuple

import decode_arm
import decode_x86

Segment = namedtuple("Segment", "start end flags offset size")
Symbol = namedtuple("Symbol", "name start size")
Line = namedtuple("Line", "at raw text")
EXECUTE, WRITE, READ = 1, 2, 4
X86, ARM = 62, 183
OBJDUMP = {X86: "objdump", ARM: "aarch64-linux-gnu-objdump"}


class WrongFile(Exception):
    """A file that is no library that can be checked."""


class Library:
    system = "Linux"

    def __init__(self, path, by_objdump=False, stripped=False):
        """`by_objdump` has objdump read the instructions, for a comparison. One that may be
        `stripped` needs no names."""
        self.path, self.by_objdump = path, by_objdump
        with open(path, "rb") as file:
            self.data = file.read()
        try:
            self._read_file()
        except (struct.error, ValueError, IndexError):
            raise WrongFile("it is cut off or damaged") from None
        if not self.symbols and not stripped:
            raise WrongFile("it has no names of its functions: it is stripped")
        self.lines, self.decoded = {}, {}  # by address; what the latter are for a program

    def _read_file(self):
        data = self.data
        if data[:6] != b"\x7fELF\x02\x01" or len(data) < 64:
            raise WrongFile("it is no ELF file of 64 bits, little endian")
        kind, self.machine = struct.unpack_from("<HH", data, 16)
        if self.machine not in OBJDUMP:
            raise WrongFile("it is for another processor than x86-64 and 64-bit ARM")
        if kind != 3:
            raise WrongFile("it is no shared library, but an object or a program")
        programs, sections = struct.unpack_from("<QQ", data, 32)
        _, count, _, section_count, _ = struct.unpack_from("<HHHHH", data, 54)
        self.segments = []
        for i in range(count):
            kind, flags, offset, start, _, size, in_memory, _ = struct.unpack_from(
                "<IIQQQQQQ", data, programs + 56 * i)
            if kind == 1:
                self.segments.append(Segment(start, start + in_memory, flags, offset, size))
        if any(it.offset + it.size > len(data) for it in self.segments):
            raise ValueError
        if not any(it.size and it.flags & EXECUTE for it in self.segments):
            raise WrongFile("it has no code, but data or names alone")
        headers = [struct.unpack_from("<IIQQQQIIQQ", data, sections + 64 * i)
                   for i in range(section_count)]
        self.symbols, self.objects = [], []  # functions and variables
        self.relocated = {}  # by the address of a place: the address that a loader puts there
        self._read_relocations(headers)
        for it in headers:
            if it[1] == 2:
                names = headers[it[6]][4]
                for at in range(it[4], it[4] + it[5], 24):
                    name, info, _, section, value, size = struct.unpack_from("<IBBHQQ", data, at)
                    end = data.index(0, names + name)
                    symbol = Symbol(data[names + name:end].decode(), value, size)
                    if section and info & 15 == 2:
                        self.symbols.append(symbol)
                    elif section and info & 15 in (0, 1):
                        self.objects.append(symbol)

    def _read_relocations(self, headers):
        """What a loader writes: addresses of the library's own, and other libraries' functions."""
        data, slots = self.data, {}
        for it in headers:
            if it[1] != 4:
                continue
            symbols = headers[it[6]]
            for at in range(it[4], it[4] + it[5], 24):
                place, info, addend = struct.unpack_from("<QQq", data, at)
                kind = info & 0xffffffff
                if kind in (8, 1027):
                    self.relocated[place] = addend
                elif kind in (7, 1026):
                    name, _, _, section, value, _ = struct.unpack_from(
                        "<IBBHQQ", data, symbols[4] + 24 * (info >> 32))
                    start = headers[symbols[6]][4] + name
                    slots[place] = (data[start:data.index(0, start)].decode(), section and value)
        self.imports, self.own = {}, {}  # by the address of a stub: a name; an own function
        for stub, place in self._stubs():
            if place in slots:
                name, own = slots[place]
                if own:
                    self.own[stub] = own
                else:
                    self.imports[stub] = name

    def _stubs(self):
        """What jumps to the function that a loader has written down, and where it has."""
        data, code = self.data, next(it for it in self.segments if it.flags & EXECUTE)
        if self.machine == X86:
            for offset in range(code.offset, code.offset + code.size - 6):
                if data[offset:offset + 2] == b"\xff\x25":
                    stub = code.start + offset - code.offset
                    yield stub, stub + 6 + struct.unpack_from("<i", data, offset + 2)[0]
            return
        for offset in range(code.offset, code.offset + code.size - 16, 4):
            page, load, _, jump = struct.unpack_from("<IIII", data, offset)
            # adrp x16; ldr x17, [x16, #..]; add; br x17
            if (page & 0x9f00001f, load & 0xffc003ff, jump) == (0x90000010, 0xf9400211, 0xd61f0220):
                stub = code.start + offset - code.offset
                pages = (page >> 5 & 0x7ffff) << 2 | page >> 29 & 3
                yield stub, (stub & -4096) + (pages << 12) + (load >> 10 & 0xfff) * 8

    def constant(self, address):
        """A byte that no one can change: of a segment that isn't writable."""
        for it in self.segments:
            if it.start <= address < it.start + it.size and not it.flags & WRITE:
                return self.data[it.offset + address - it.start]
        raise KeyError(address)

    def functions(self, pattern):
        """The functions with a name, in the order in which they stand: of each build one."""
        return sorted((it for it in self.symbols if re.fullmatch(pattern, it.name)),
                      key=lambda it: it.start)

    def instructions(self, are_used):
        """The variable by which the library chooses SHA instructions, by its address: its value."""
        return {it.start: int(are_used) for it in self.objects if it.name == "yz_instructions"}

    def file_offset(self, address):
        """Where the file has an address."""
        for it in self.segments:
            if it.start <= address < it.start + it.size:
                return it.offset + address - it.start
        raise KeyError(address)

    def bytes_at(self, start, end):
        """The file's bytes of these addresses."""
        for it in self.segments:
            if it.start <= start and end <= it.start + it.size:
                return self.data[it.offset + start - it.start:it.offset + end - it.start]
        raise KeyError(start)

    def read_lines(self, function):
        """Reads the instructions of a function, in order, as far as they can be read."""
        if self.by_objdump:
            self._read_by_objdump(function)
            return
        at, end = function.start, function.start + function.size
        while at < end:
            line = self._read_line(at, end)
            if line.text[0] == "(" and self.machine == X86:  # where the next one is isn't known
                return
            at += len(line.raw)

    def _read_line(self, at, end):
        if at not in self.lines:
            data = self.bytes_at(at, min(end, at + (15 if self.machine == X86 else 4)))
            try:
                size, text = decode_x86.read(data, at) if self.machine == X86 else \
                    (4, decode_arm.read(data, at))
            except decode_x86.Unreadable as why:
                size, text = 1, f"({data.hex()}) {why}"
            except decode_arm.Unreadable as why:
                size, text = 4, f"({data.hex()}) {why}"
            self.lines[at] = Line(at, data[:size], text)
        return self.lines[at]

    def _read_by_objdump(self, function):
        listing = subprocess.run(
            [OBJDUMP[self.machine], "-dwz", f"--start-address={function.start}",
             f"--stop-address={function.start + function.size}", self.path],
            check=True, capture_output=True, text=True).stdout
        for line in listing.splitlines():
            if (it := re.match(r" *([0-9a-f]+):\t([0-9a-f ]+?)\s*\t(.*)", line)):
                raw = bytes.fromhex(it[2])
                if self.machine == ARM:
                    raw = raw[::-1]
                text = re.sub(r"\s*(<|#(?= [0-9a-f]+ <)|//).*", "", it[3])
                self.lines[int(it[1], 16)] = Line(int(it[1], 16), raw, " ".join(text.split()))

    def line(self, address):
        """The instruction at an address, or None."""
        if address not in self.lines and (function := self.function_at(address)):
            if not self.by_objdump:
                return self._read_line(address, function.start + function.size)
            self.read_lines(function)
        return self.lines.get(address)

    def function_at(self, address):
        for it in self.symbols:
            if it.start <= address < it.start + it.size:
                return it
        return None
