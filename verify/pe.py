# SPDX-License-Identifier: ISC
"""A finished DLL of 64-bit Windows, as elf.py has a library of Linux: its bytes, its names, its
instructions. Addresses are those from where it is loaded."""

import struct

from elf import EXECUTE, READ, WRITE, X86, Library, Segment, Symbol, WrongFile

# As Microsoft's "PE Format" has them.
X86_64, PE32_PLUS, IS_DLL = 0x8664, 0x20b, 0x2000
FLAGS = {0x20000000: EXECUTE, 0x40000000: READ, 0x80000000: WRITE}


def is_dll(path):
    with open(path, "rb") as file:
        return file.read(2) == b"MZ"


class Dll(Library):
    system = "Windows"

    def _read_file(self):
        data = self.data
        header, = struct.unpack_from("<I", data, 0x3c)
        if data[header:header + 4] != b"PE\0\0":
            raise WrongFile("it is no file of Windows")
        machine, count, _, symbols, symbol_count, size, kind = struct.unpack_from(
            "<HHIIIHH", data, header + 4)
        magic, = struct.unpack_from("<H", data, header + 24)
        if (machine, magic) != (X86_64, PE32_PLUS) or not kind & IS_DLL:
            raise WrongFile("it is no DLL for x86-64")
        self.machine, self.relocated, self.imports, self.own = X86, {}, {}, {}
        self.segments = []
        for at in range(header + 24 + size, header + 24 + size + 40 * count, 40):
            in_memory, start, in_file, offset = struct.unpack_from("<IIII", data, at + 8)
            flags, = struct.unpack_from("<I", data, at + 36)
            self.segments.append(Segment(start, start + in_memory, sum(
                ours for theirs, ours in FLAGS.items() if flags & theirs), offset,
                min(in_memory, in_file)))
        self._read_symbols(symbols, symbol_count)

    def _read_symbols(self, start, count):
        """The names of functions and variables. A size isn't there: it is up to the next name."""
        data, found, i = self.data, [], 0
        names = start + 18 * count
        while i < count:
            raw, value, section, _, _, more = struct.unpack_from("<8sIhHBB", data, start + 18 * i)
            if raw[:4] == b"\0\0\0\0":
                at = names + struct.unpack_from("<I", raw, 4)[0]
                raw = data[at:data.index(0, at)]
            name = raw.rstrip(b"\0").decode()
            if section > 0 and name and name[0] != ".":
                found.append((self.segments[section - 1], value, name))
            i += 1 + more
        self.symbols, self.objects = [], []
        for segment, value, name in found:
            address = segment.start + value
            end = min((of.start + at for of, at, _ in found
                       if of is segment and of.start + at > address), default=segment.end)
            (self.symbols if segment.flags & EXECUTE else self.objects).append(
                Symbol(name, address, end - address))
