# SPDX-License-Identifier: ISC
"""A finished Mach-O library of 64 bits, as same_code.py reads it: its segments and its bytes. Of a
universal one the part for a processor."""

import struct

from elf import ARM, EXECUTE, READ, WRITE, X86, Segment, WrongFile

# As <mach-o/loader.h>, <mach-o/fat.h> and <mach/machine.h> have them.
MAGIC, UNIVERSAL, SEGMENT, DYLIB = b"\xcf\xfa\xed\xfe", b"\xca\xfe\xba\xbe", 0x19, 6
PROCESSORS = {X86: 0x01000007, ARM: 0x0100000c}
PROTECTIONS = {1: READ, 2: WRITE, 4: EXECUTE}


def is_macho(data):
    return data[:4] in (MAGIC, UNIVERSAL)


class Dylib:
    def __init__(self, data, machine):
        try:
            self.data = part_for(data, machine) if data[:4] == UNIVERSAL else data
            self.segments = list(self._segments(machine))
        except (struct.error, IndexError):
            raise WrongFile("it is cut off or damaged") from None
        if any(it.offset + it.size > len(self.data) for it in self.segments):
            raise WrongFile("it is cut off or damaged")

    def _segments(self, machine):
        magic, processor, _, kind, count = struct.unpack_from("<4sIIII", self.data)
        if (magic, processor, kind) != (MAGIC, PROCESSORS[machine], DYLIB):
            raise WrongFile("it is no library for macOS on the same processor")
        at = 32
        for _ in range(count):
            command, size = struct.unpack_from("<II", self.data, at)
            if command == SEGMENT:
                start, in_memory, offset, in_file, _, protection = struct.unpack_from(
                    "<QQQQII", self.data, at + 24)
                flags = sum(ours for theirs, ours in PROTECTIONS.items() if protection & theirs)
                yield Segment(start, start + in_memory, flags, offset, in_file)
            at += size

    def bytes_at(self, start, end):
        """The file's bytes of these addresses."""
        for it in self.segments:
            if it.start <= start and end <= it.start + it.size:
                return self.data[it.offset + start - it.start:it.offset + end - it.start]
        raise KeyError(start)


def part_for(data, machine):
    """The part of a universal file for a processor."""
    count, = struct.unpack_from(">I", data, 4)
    for at in range(8, 8 + 20 * count, 20):
        processor, _, offset, size, _ = struct.unpack_from(">IIIII", data, at)
        if processor == PROCESSORS[machine]:
            return data[offset:offset + size]
    raise WrongFile("it has no part for the same processor")
