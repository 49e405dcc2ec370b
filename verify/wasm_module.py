# SPDX-License-Identifier: ISC
"""A module of WebAssembly: its sections, its functions' names and bodies (its core specification,
5.5), its constants. An address of code is a place in the module's bytes, one of a constant is a
place in memory. A text of generated/ has the names of the functions; a module has those of the
text in generated/ whose bytes are the same, or of its own section of names."""

import pathlib
import re
from collections import namedtuple

import flow_wasm
from decode_wasm import CONSTANTS, Reader, Unreadable, read
from elf import Symbol, WrongFile
from machine import Refused

MAGIC = b"\0asm\1\0\0\0"
WASM = "wasm"
TYPES_SECTION, FUNCTIONS, MEMORY, GLOBALS, EXPORTS, CODE, DATA = 1, 3, 5, 6, 7, 10, 11
SECTIONS = TYPES_SECTION, FUNCTIONS, MEMORY, GLOBALS, EXPORTS, CODE, DATA
GENERATED = pathlib.Path(__file__).resolve().parent.parent / "generated"
Type = namedtuple("Type", "parameters results")
Global = namedtuple("Global", "type is_mutable value")
# A function: its type, its locals' types, parameters first, and where its instructions are.
Function = namedtuple("Function", "index type locals first end")
FUNCTION_TYPE, END, KIND_FUNCTION, NAMES_OF_FUNCTIONS = 0x60, 0x0b, 0, 1


def is_module(path):
    """Whether a file is a module or a text of one."""
    with open(path, "rb") as file:
        return file.read(4) == MAGIC[:4] or str(path).endswith(".hex")


def of_text(text):
    """The bytes of a text of generated/, and the names of the functions, in their order."""
    data, names, is_code = [], [], False
    for line in text.splitlines():
        if line[:2] != "# ":
            data.append(line.removeprefix("#"))
        elif re.fullmatch(r"# code of \d+ functions", line):
            is_code = True
        elif line == "# data":
            is_code = False
        elif is_code:
            names.append(line[2:])
    try:
        return bytes.fromhex("".join(data)), names
    except ValueError:
        raise WrongFile("it is no text of a module: not bytes in hex") from None


def opened(path):
    """The module that a file is or is a text of."""
    with open(path, "rb") as file:
        data = file.read()
    if data[:4] == MAGIC[:4]:
        return Module(data)
    return Module(*of_text(data.decode("ascii", "replace")))


def as_in_a_library(name):
    """A function's name as a library has it: `a::b::<#1f>` is `a.b.1f`, `a::<=8>` is `a_8`."""
    return re.sub(r"::<=(\w+)>", r"_\1", re.sub(r"<#(\w+)>", r"\1", name)).replace("::", ".")


class Module:
    machine = WASM

    def __init__(self, data, names=None):
        self.data = data
        try:
            self._read_sections()
            self._name_functions(names or self._names())
        except Unreadable as why:
            raise WrongFile(f"it is no module that can be read: {why}") from None
        has_vectors = any("v128" in it.locals for it in self.functions_)
        self.system = "WebAssembly SIMD" if has_vectors else "WebAssembly"
        self.relocated, self.imports, self.own = {}, {}, {}  # as of a library
        self.lines, self.decoded, self.flows = {}, {}, {}

    def _read_sections(self):
        source, found, last = Reader(self.data), {}, 0
        if source.take(len(MAGIC)) != MAGIC:
            raise Unreadable("0: it begins otherwise")
        while source.at < len(self.data):
            start, number = source.at, source.byte()
            size = source.number()
            if number and (number not in SECTIONS or number <= last):
                raise Unreadable(f"{start:x}: section {number} has no meaning here")
            if number:
                found[number], last = Reader(self.data, source.at, source.at + size), number
            source.take(size)
        if (*found,) != SECTIONS:
            raise Unreadable(f"0: it has the sections {[*found]}, not {[*SECTIONS]}")
        self.sections = {number: self.data[it.at:it.end] for number, it in found.items()}
        self.types = self._each(found[TYPES_SECTION], self._type)
        indices = self._each(found[FUNCTIONS], Reader.number)
        self.pages, = self._each(found[MEMORY], self._memory)
        self.globals = self._each(found[GLOBALS], self._global)
        self.exports = dict(self._each(found[EXPORTS], self._export))
        self.bodies = self._each(found[CODE], self._body)
        if len(self.bodies) != len(indices):
            raise Unreadable("0: it has other counts of functions and of bodies")
        self.functions_ = [self._function(*it) for it in enumerate(zip(indices, self.bodies))]
        self.constants = self._each(found[DATA], self._data)

    @staticmethod
    def _each(source, part):
        """The parts of a section, which end where it ends."""
        found = [part(source) for _ in range(source.number())]
        if source.at != source.end:
            raise Unreadable(f"{source.at:x}: bytes past the end of a section")
        return found

    @staticmethod
    def _type(source):
        start = source.at
        if source.byte() != FUNCTION_TYPE:
            raise Unreadable(f"{start:x}: a type that is no function's")
        return Type(*([source.type() for _ in range(source.number())] for _ in range(2)))

    @staticmethod
    def _memory(source):
        start, kind = source.at, source.byte()
        if kind > 1:
            raise Unreadable(f"{start:x}: byte {kind:02x} is no memory of 32-bit addresses")
        return [source.number() for _ in range(kind + 1)][0]

    @staticmethod
    def _value(source, wanted=None):
        """A constant that a module writes down: its type, and its number."""
        start, code = source.at, source.byte()
        if code not in CONSTANTS:
            raise Unreadable(f"{start:x}: byte {code:02x} is no constant")
        name, width = CONSTANTS[code]
        value = source.signed(width) & (1 << width) - 1
        if source.byte() != END or wanted not in (None, name[:3]):
            raise Unreadable(f"{start:x}: a constant of another form")
        return value

    def _global(self, source):
        kind, is_mutable = source.type(), source.byte()
        if is_mutable > 1:
            raise Unreadable(f"{source.at - 1:x}: byte {is_mutable:02x} says no mutability")
        return Global(kind, bool(is_mutable), self._value(source, kind))

    @staticmethod
    def _export(source):
        name = source.name()
        return name, (source.byte(), source.number())

    @staticmethod
    def _body(source):
        size = source.number()
        start = source.at
        source.take(size)
        return start, source.at

    def _function(self, index, it):
        of, (start, end) = it
        source = Reader(self.data, start, end)
        if of >= len(self.types):
            raise Unreadable(f"{start:x}: a function of a type that isn't there")
        kinds = [*self.types[of].parameters]
        for _ in range(source.number()):
            count, kind = source.number(), source.type()
            if len(kinds) + count > 50_000:
                raise Unreadable(f"{start:x}: too many locals")
            kinds += [kind] * count
        return Function(index, self.types[of], kinds, source.at, end)

    def _data(self, source):
        start = source.at
        if source.number() != 0:
            raise Unreadable(f"{start:x}: data without a place")
        place, size = self._value(source, "i32"), source.number()
        return place, source.take(size)

    # Names.

    def _names(self):
        """The names of the functions: of the text with the same bytes, or of the module's own."""
        for path in sorted(GENERATED.glob("*_wasm.hex")):
            data, names = of_text(path.read_text("ascii"))
            if data == self.data:
                return names
        return self._own_names()

    def _own_names(self):
        found, source = {}, Reader(self.data, len(MAGIC))
        while source.at < len(self.data):
            number, size = source.byte(), source.number()
            part = Reader(self.data, source.at, source.at + size)
            source.take(size)
            if number == 0 and part.name() == "name":
                while part.at < part.end:
                    kind, length = part.byte(), part.number()
                    of = Reader(self.data, part.at, part.at + length)
                    part.take(length)
                    if kind == NAMES_OF_FUNCTIONS:
                        found.update((of.number(), of.name()) for _ in range(of.number()))
        return [found.get(i, f"function {i}") for i in range(len(self.functions_))] if found else []

    def _name_functions(self, names):
        if not names:
            raise WrongFile("it has no names of its functions, and is no module of generated/")
        if len(names) != len(self.functions_):
            raise WrongFile("it has other counts of functions and of names")
        self.symbols = [Symbol(as_in_a_library(name), it.first, it.end - it.first)
                        for name, it in zip(names, self.functions_)]

    # As of a library.

    def functions(self, pattern):
        """The functions with a name that have a body, and no trap in its place."""
        return [it for it in self.symbols if re.fullmatch(pattern, it.name)
                and not self.is_trap(it)]

    def is_trap(self, symbol):
        return self.data[symbol.start:symbol.start + symbol.size] == bytes([0, END])

    def function_at(self, address):
        for it in self.symbols:
            if it.start <= address < it.start + it.size:
                return it
        return None

    def constant(self, address):
        """A byte of memory that the module brings."""
        for start, data in self.constants:
            if start <= address < start + len(data):
                return data[address - start]
        raise KeyError(address)

    def instructions(self, _):
        """No variable chooses the processor's instructions."""
        return {}

    def bytes_at(self, start, end):
        return self.data[start:end]

    def file_offset(self, address):
        return address

    def flow(self, index):
        """The instructions of a function, by their addresses."""
        if index not in self.flows:
            function = self.functions_[index]
            try:
                self.flows[index] = found = flow_wasm.Flow(self, function).steps
            except Unreadable as why:
                raise Refused(str(why)) from None
            self.lines.update(found)
        return self.flows[index]

    def read_lines(self, symbol):
        self.flow(self.symbols.index(symbol))

    def line(self, address):
        """The instruction at an address, or None."""
        if address not in self.lines and (symbol := self.function_at(address)):
            self.read_lines(symbol)
        return self.lines.get(address)

    def read_all(self, function):
        """The instructions of a function as they stand: pairs of an address and what is read."""
        at = function.first
        while at < function.end:
            it = read(self.data, at, function.end)
            yield at, it
            at += it.size

