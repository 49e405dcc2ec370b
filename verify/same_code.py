#!/usr/bin/env python3
# SPDX-License-Identifier: ISC
"""Says whether another file has the code that was shown in a library, with its constants:

    verify/same_code.py LIBRARY FILE..

LIBRARY is one that verify/check has shown, with the names of its functions. FILE is a shared
library or a program of Linux for the same processor, which may be stripped, or a dylib of macOS:
the bytes of each function are looked for. Where an instruction has an address, its bits may differ,
but not the constants that stand there. The status is 1 where a file doesn't have the code, and 2
where nothing could be compared.
"""

import re
import sys
from functools import cache

sys.dont_write_bytecode = True
import fips180_4
import kernels
from addresses import filled
from elf import EXECUTE, WRITE, Library, WrongFile
from macho import Dylib, is_macho

# The constants of all rounds, and those from the seventeenth on, which some functions have alone.
TABLES = [b"".join(it.to_bytes(family.width // 8, "little") for it in family.K[first:])
          for first in (0, 16) for family in (fips180_4.SHA256, fips180_4.SHA512)]
SIZES = {"movd": 4, "movss": 4, "movq": 8, "movsd": 8, "pbroadcastd": 4, "broadcastss": 4,
         "pbroadcastq": 8, "broadcastsd": 8, "pinsrd": 4, "pinsrq": 8, "broadcasti128": 16,
         "pmovzxdq": 8, "movzbl": 1, "cmpb": 1}
ARM_SIZES = {"q": 16, "d": 8, "x": 8, "s": 4, "w": 4}  # by the first letter of a register


def lines_of(library, symbol):
    library.read_lines(symbol)
    at, end = symbol.start, symbol.start + symbol.size
    while at < end and at in library.lines:
        yield library.lines[at]
        at += len(library.lines[at].raw)


def shown(library):
    """The functions that are shown, with those that they call, by their symbols."""
    waiting = [it for kind, _ in kernels.KINDS for it in library.functions(kind.names)]
    found = {}
    while waiting:
        symbol = waiting.pop()
        if symbol in found:
            continue
        found[symbol] = list(lines_of(library, symbol))
        for line in found[symbol]:
            if (it := re.fullmatch(r"(?:call|j\w+|bl?) ([0-9a-f]+)", line.text)):
                called = library.function_at(int(it[1], 16))
                if called and "ring" in called.name:
                    waiting.append(called)
    return found


def pattern_of(parts):
    """What the bytes of a function have to match. Of one that is filled in partly it is any."""
    found = []
    for line, mask, _ in parts:
        masks = mask.to_bytes(len(line.raw), "little")
        found += [b"(?s:.)" if of else re.escape(bytes([it])) for it, of in zip(line.raw, masks)]
    return re.compile(b"".join(found))


def extent(library, address, text):
    """Where the constant begins that an instruction reads at an address, and how many bytes it has:
    of a table all."""
    name = text.split()[0]
    if name in ("lea", "add"):
        return next(((start, size) for start, size in tables(library)
                     if start <= address < start + size), (address, 16))
    if name in ("ldr", "ldrb"):
        return address, 1 if name == "ldrb" else ARM_SIZES[text[4]]
    name = name[1:] if name[0] == "v" else name
    return address, SIZES.get(name, 32 if "%ymm" in text else 16 if "%xmm" in text else 4)


@cache
def tables(library):
    """Where the library has tables of constants, and how many bytes each has."""
    return [(segment.start + it.start() - segment.offset, len(table))
            for table in TABLES for it in re.finditer(re.escape(table), library.data)
            for segment in library.segments
            if segment.offset <= it.start() < segment.offset + segment.size]


def data_at(library, address, count):
    """Bytes of a segment that isn't written to, or None where it is one that is."""
    for it in library.segments:
        if it.start <= address < it.start + it.size:
            start = it.offset + address - it.start
            return None if it.flags & WRITE else library.data[start:start + count]
    return None


def difference(library, parts, other, start):
    """What of a function is another in a library that has it at an address, or None."""
    moved = start - parts[0].line.at
    for line, mask, constant in parts:
        raw = other.bytes_at(line.at + moved, line.at + moved + len(line.raw))
        if (int.from_bytes(raw, "little") ^ int.from_bytes(line.raw, "little")) & ~mask:
            return f"another instruction at {line.text}"
        if constant:
            address = constant(library.bytes_at, 0)
            start, count = extent(library, address, line.text)
            expected = data_at(library, start, count)
            there = constant(other.bytes_at, moved) + start - address
            if expected and expected != data_at(other, there, count):
                return f"another constant at {line.text}"
    return None


def read_other(path, machine):
    with open(path, "rb") as file:
        data = file.read()
    if is_macho(data):
        return Dylib(data, machine)
    found = Library(path, stripped=True)
    if found.machine != machine:
        raise WrongFile("it is for another processor than the library")
    return found


def fault(library, functions, path):
    """What of the shown functions another file doesn't have, or None."""
    other = read_other(path, library.machine)
    code = [it for it in other.segments if it.flags & EXECUTE]
    for symbol, lines in functions.items():
        parts, why = filled(library, lines, symbol), "its code isn't there"
        pattern = pattern_of(parts)
        for segment in code:
            data = other.data[segment.offset:segment.offset + segment.size]
            for it in pattern.finditer(data):
                why = difference(library, parts, other, segment.start + it.start())
                if why is None:
                    break
            if why is None:
                break
        if why:
            return f"{symbol.name} at {symbol.start:x}: {why}"
    return None


def reason(why):
    """Why a file can't be read."""
    return why.strerror if isinstance(why, OSError) else str(why)


def read_library(path):
    """The library whose code was shown, and its functions that are."""
    library = Library(path)
    functions = shown(library)
    if not functions:
        raise WrongFile("it has none of the functions of libyezdopin")
    return library, functions


def main():
    if len(sys.argv) < 3:
        print("usage: verify/same_code.py LIBRARY FILE..", file=sys.stderr)
        return 2
    try:
        library, functions = read_library(sys.argv[1])
    except (OSError, WrongFile) as why:
        print(f"verify/same_code.py: {sys.argv[1]}: {reason(why)}", file=sys.stderr)
        return 2
    status = 0
    for path in sys.argv[2:]:
        try:
            why = fault(library, functions, path)
        except (OSError, WrongFile) as failed:
            why = reason(failed)
        print(f"{path}: {why or f'has the code of {len(functions)} functions'}")
        status |= why is not None
    return status


if __name__ == "__main__":
    sys.exit(main())
