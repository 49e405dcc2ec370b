# SPDX-License-Identifier: ISC
"""Turns a WebAssembly module whose memory has 64-bit addresses into one with 32-bit addresses:

    python3 lower.py [--simd] MODULE64 MODULE32 EXPORT..

Every instruction stays, and an address is cut to its lower 32 bits where it is used, as is the
length of a copy and of a fill: a load gets an `i32.wrap_i64` before it; a store, a copy and a fill
keep what lies above their addresses on the stack in locals that are added for that. Types of
functions stay, so that addresses are passed as 64 bits.

So an access of addresses or lengths from 2^32 on, where the module with 64-bit addresses traps, is
one elsewhere in the memory. Callers must stay below: calls.js gives a call half of that at most.

This program is trusted, so it refuses what it doesn't list: each section, instruction, type and
export, and vectors without `--simd`. Lengths are read to the last byte. The module keeps the named
exports and the bodies that these reach. Other bodies are not read, and become a trap, so that
indices stay. Sections of names are dropped.
"""

import sys

MAGIC = b"\0asm\1\0\0\0"
# The sections of a module, in their order: no imports, no tables, no elements and no start.
SECTIONS = TYPES, FUNCTIONS, MEMORY, GLOBALS, EXPORTS, CODE, DATA = 1, 3, 5, 6, 7, 10, 11
I32, I64, V128 = 0x7F, 0x7E, 0x7B
NUMBERS, WITH_VECTORS = (I32, I64), (I32, I64, V128)
NO_RESULT = 0x40
KIND_FUNCTION, KIND_MEMORY, KIND_GLOBAL = 0, 2, 3
MOST_PAGES = 0x10000

# Instructions, all of whole numbers.
END, CALL, GET, SET, WRAP, UNREACHABLE = 0x0B, 0x10, 0x20, 0x21, 0xA7, 0x00
BLOCK, LOOP, IF, ELSE, BRANCH, BRANCH_IF, BRANCH_TABLE = 0x02, 0x03, 0x04, 0x05, 0x0C, 0x0D, 0x0E
RETURN, DROP, SELECT, TEE, GLOBAL_GET, GLOBAL_SET = 0x0F, 0x1A, 0x1B, 0x22, 0x23, 0x24
I32_CONST, I64_CONST = 0x41, 0x42
BLOCKS = {BLOCK, LOOP, IF}
CONSTANTS = {I32_CONST, I64_CONST}
INDEXED = {BRANCH, BRANCH_IF, CALL, GET, SET, TEE, GLOBAL_GET, GLOBAL_SET}
PLAIN = {UNREACHABLE, ELSE, END, RETURN, DROP, SELECT}
PLAIN |= {*range(0x45, 0x5B)}  # comparisons
PLAIN |= {*range(0x67, 0x8B)} - {*range(0x6C, 0x71), *range(0x7F, 0x83)}  # arithmetic: no division
PLAIN |= {WRAP, 0xAC, 0xAD, *range(0xC0, 0xC5)}  # conversions
# What only the calls of texts reach may also multiply and divide numbers without a sign. In
# password hashes and tokens these are lengths and iterations, in a header of Stripe's its time,
# which are no secrets. In one-time passwords one of them is the number whose last digits are the
# password.
OF_TEXTS = b"yz_password_hash_", b"yz_jws_", b"yz_hotp", b"yz_totp", b"yz_webhook_verify_stripe"
OF_TEXTS_PLAIN = PLAIN | {0x6C, 0x6E, 0x70, 0x80}
# The bytes that each access spans, as the power of two that its alignment may not pass.
LOADS = {0x28: 2, 0x29: 3, 0x2C: 0, 0x2D: 0, 0x2E: 1, 0x2F: 1}
LOADS |= {0x30: 0, 0x31: 0, 0x32: 1, 0x33: 1, 0x34: 2, 0x35: 2}
STORES = {0x36: 2, 0x37: 3, 0x3A: 0, 0x3B: 1, 0x3C: 0, 0x3D: 1, 0x3E: 2}
STORED = {0x36: I32, 0x37: I64, 0x3A: I32, 0x3B: I32, 0x3C: I64, 0x3D: I64, 0x3E: I64}
MANY = 0xFC
COPY, FILL = 10, 11
# Instructions of vectors of whole numbers, by their numbers behind this byte. Accesses are as above.
# One of a single lane has the vector above its address, and the lane's number behind its offset.
VECTOR = 0xFD
VECTOR_LOADS = {0x00: 4, 0x07: 0, 0x08: 1, 0x09: 2, 0x0A: 3, 0x5C: 2, 0x5D: 3}
VECTOR_LOADS |= dict.fromkeys(range(0x01, 0x07), 3)
VECTOR_STORES = {0x0B: 4}
LANE_ACCESSES = {0x54: 0, 0x55: 1, 0x56: 2, 0x57: 3, 0x58: 0, 0x59: 1, 0x5A: 2, 0x5B: 3}
# The others, each with how many bytes are behind it: a constant, the places of a shuffle, a lane;
# copies to each lane, comparisons, of bits; and of each size of lanes negation, whether all are
# others than 0, the highest bits, shifts, sums, differences and conversions, but no products.
VECTOR_PLAIN = {0x0C: 16, 0x0D: 16, **dict.fromkeys(range(0x15, 0x1F), 1)}
VECTOR_PLAIN |= dict.fromkeys([*range(0x0F, 0x13), *range(0x23, 0x41), *range(0xD6, 0xDC)], 0)
VECTOR_PLAIN |= dict.fromkeys(range(0x4D, 0x54), 0)
OF_SIZE, OF_HALVES = (0x1, 0x3, 0x4, 0xB, 0xC, 0xD, 0xE, 0x11), (0x7, 0x8, 0x9, 0xA)
VECTOR_PLAIN |= {it + at: 0 for it in (0x60, 0x80, 0xA0, 0xC0) for at in OF_SIZE}
VECTOR_PLAIN |= {it + at: 0 for it in (0x80, 0xA0, 0xC0) for at in OF_HALVES}


def refuse(what):
    """Ends the program."""
    sys.exit(f"lower.py: refused: {what}")


class Reader:
    """Bytes, read from the first to the last."""

    def __init__(self, data):
        self.data, self.at = data, 0

    def is_at_end(self):
        return self.at == len(self.data)

    def take(self, count):
        """The next bytes."""
        self.at += count
        if self.at > len(self.data):
            refuse("a module that is cut off")
        return self.data[self.at - count : self.at]

    def byte(self):
        return self.take(1)[0]

    def number(self):
        """A number without a sign, of at most 64 bits."""
        value = 0
        for shift in range(0, 70, 7):
            byte = self.byte()
            value |= (byte & 0x7F) << shift
            if byte < 0x80 and value < 1 << 64:
                return value
        refuse("a number of over 64 bits")

    def signed(self):
        """A constant's bytes as they stand, of at most 64 bits."""
        start = self.at
        while self.byte() >= 0x80:
            if self.at - start > 9:
                refuse("a constant of over 64 bits")
        return self.data[start : self.at]

    def counted(self):
        """For each part of a vector, which must end where the bytes end."""
        yield from range(self.number())
        if not self.is_at_end():
            refuse("bytes past the end of a section")

    def kind(self, kinds=NUMBERS):
        """A type of values."""
        kind = self.byte()
        if kind not in kinds:
            refuse(f"type {kind:#x}")
        return kind

    def name(self):
        return self.take(self.number())


def number(value):
    """A number without a sign, as its bytes."""
    out = bytearray()
    while value >= 0x80:
        out.append(value & 0x7F | 0x80)
        value >>= 7
    return bytes([*out, value])


def vector(parts):
    """The bytes of a vector."""
    return number(len(parts)) + b"".join(parts)


def sized(data):
    """Bytes behind their length."""
    return number(len(data)) + data


def op(code, *indices):
    """The bytes of an instruction."""
    return bytes([code]) + b"".join(map(number, indices))


class Body:
    """A function's body, and the functions that it calls."""

    # What an address goes through before it is used.
    ADDRESS = op(WRAP)

    def __init__(self, data, param_count, plain, kinds=NUMBERS):
        self.code, self.out, self.calls = Reader(data), bytearray(), set()
        self.plain, self.kinds = plain, kinds
        groups, count = [], param_count
        for _ in range(self.code.number()):
            size, kind = self.code.number(), self.code.kind(kinds)
            groups.append(number(size) + bytes([kind]))
            count += size
        # Locals for what lies above an address: one of each type, and one for a length.
        self.above = {kind: count + at for at, kind in enumerate(kinds)}
        self.length = count + len(kinds)
        groups += [bytes([1, kind]) for kind in (*kinds, I32)]
        self.head = vector(groups)
        while not self.code.is_at_end():
            self.instruction(self.code.byte())
        if self.out[-1:] != op(END):
            refuse("a body without an end")

    def bytes(self):
        return self.head + bytes(self.out)

    def offset(self, code, most, *more):
        """An access's instruction with its alignment and its offset."""
        alignment, offset = self.code.number(), self.code.number()
        if alignment > most or offset >= 1 << 32:
            refuse(f"an access aligned to 2^{alignment} with the offset {offset}")
        return op(code, *more, alignment, offset)

    def below(self, kind):
        """What turns the address below a value of a type."""
        value = self.above[kind]
        return op(SET, value) + self.ADDRESS + op(GET, value)

    def instruction(self, code):
        """Writes an instruction over 32-bit addresses."""
        if code in LOADS:
            self.out += self.ADDRESS + self.offset(code, LOADS[code])
        elif code in STORES:
            self.out += self.below(STORED[code]) + self.offset(code, STORES[code])
        elif code in self.plain:
            self.out += op(code)
        elif code in INDEXED:
            index = self.code.number()
            if code == CALL:
                self.calls.add(index)
            self.out += op(code, index)
        elif code in BLOCKS:
            kind = self.code.byte()
            if kind not in (*self.kinds, NO_RESULT):
                refuse(f"a block of type {kind:#x}")
            self.out += bytes([code, kind])
        elif code in CONSTANTS:
            self.out += op(code) + self.code.signed()
        elif code == BRANCH_TABLE:
            labels = [number(self.code.number()) for _ in range(self.code.number())]
            self.out += op(code) + vector(labels) + number(self.code.number())
        elif code == MANY:
            self.many(self.code.number())
        elif code == VECTOR and V128 in self.kinds:
            self.vector(self.code.number())
        else:
            refuse(f"instruction {code:#x}")

    def many(self, code):
        """Writes a copy, whose source lies below its length, or a fill, whose byte does."""
        between, address = self.above[I32], self.ADDRESS
        if code == COPY and self.code.take(2) == b"\0\0":
            self.out += address + op(SET, self.length) + address + op(SET, between) + address
            self.out += op(GET, between) + op(GET, self.length) + op(MANY, COPY, 0, 0)
        elif code == FILL and self.code.take(1) == b"\0":
            self.out += address + op(SET, self.length) + op(SET, between) + address
            self.out += op(GET, between) + op(GET, self.length) + op(MANY, FILL, 0)
        else:
            refuse(f"instruction {MANY:#x} {code}")

    def vector(self, code):
        """Writes an instruction of vectors."""
        if code in VECTOR_LOADS:
            self.out += self.ADDRESS + self.offset(VECTOR, VECTOR_LOADS[code], code)
        elif code in VECTOR_STORES:
            self.out += self.below(V128) + self.offset(VECTOR, VECTOR_STORES[code], code)
        elif code in LANE_ACCESSES:
            self.out += self.below(V128) + self.offset(VECTOR, LANE_ACCESSES[code], code)
            self.out += self.code.take(1)
        elif code in VECTOR_PLAIN:
            self.out += op(VECTOR, code) + self.code.take(VECTOR_PLAIN[code])
        else:
            refuse(f"instruction {VECTOR:#x} {code:#x}")


def sections(data):
    """The sections by their numbers, without those of names."""
    module, found = Reader(data), {}
    if module.take(len(MAGIC)) != MAGIC:
        refuse("what is no module")
    while not module.is_at_end():
        section = module.byte()
        content = module.name()
        if section == 0:
            continue
        if section in found or section not in SECTIONS:
            refuse(f"section {section}")
        found[section] = content
    if (*found,) != SECTIONS:
        refuse(f"the sections {[*found]} in place of {[*SECTIONS]}")
    return found


def param_counts(types, functions, kinds=NUMBERS):
    """How many parameters each function has."""
    reader, counts = Reader(types), []
    for _ in reader.counted():
        if reader.byte() != 0x60:
            refuse("a type that is no function's")
        counts.append(len([reader.kind(kinds) for _ in range(reader.number())]))
        for _ in range(reader.number()):
            reader.kind(kinds)
    reader = Reader(functions)
    return [counts[reader.number()] for _ in reader.counted()]


def lowered_memory(content):
    """A memory of 32-bit addresses, with the same pages."""
    reader, memories = Reader(content), []
    for _ in reader.counted():
        has_most = {4: False, 5: True}.get(reader.byte())
        if has_most is None:
            refuse("a memory without 64-bit addresses")
        limits = [reader.number() for _ in range(2 if has_most else 1)]
        if max(limits) > MOST_PAGES:
            refuse("a memory of more pages than 32 bits address")
        memories.append(bytes([has_most]) + b"".join(map(number, limits)))
    if len(memories) != 1:
        refuse("a module without a single memory")
    return vector(memories)


def test_globals(content):
    """Refuses globals that are not whole numbers with a constant."""
    reader = Reader(content)
    for _ in reader.counted():
        kind, is_mutable, code = reader.kind(), reader.byte(), reader.byte()
        reader.signed()
        if is_mutable > 1 or code != {I32: I32_CONST, I64: I64_CONST}[kind] or reader.byte() != END:
            refuse("a global that is no constant")


def lowered_exports(content, wanted):
    """The named exports, and the functions among them: those of texts, and before them others."""
    reader, kept, roots, of_texts = Reader(content), {}, [], []
    for _ in reader.counted():
        name, kind, index = reader.name(), reader.byte(), reader.number()
        if kind not in (KIND_FUNCTION, KIND_MEMORY, KIND_GLOBAL):
            refuse(f"an export of kind {kind}")
        if name.decode() in wanted:
            kept[name.decode()] = sized(name) + bytes([kind]) + number(index)
            if kind == KIND_FUNCTION:
                (of_texts if name.startswith(OF_TEXTS) else roots).append(index)
    if {*kept} != {*wanted}:
        refuse(f"a module that does not export {', '.join({*wanted} - {*kept})}")
    return vector([*kept.values()]), (roots, of_texts)


def lowered_code(content, counts, roots, kinds):
    """The bodies that the roots reach, and in place of each other, which is not read, a trap."""
    reader = Reader(content)
    sources = [reader.name() for _ in reader.counted()]
    if len(sources) != len(counts):
        refuse("functions without bodies")
    bodies = {}
    for group, plain in zip(roots, (PLAIN, OF_TEXTS_PLAIN)):
        left = [*group]
        while left:
            index = left.pop()
            if index not in bodies:
                bodies[index] = Body(sources[index], counts[index], plain, kinds)
                left += bodies[index].calls
    trap = number(0) + op(UNREACHABLE) + op(END)
    return vector([
        sized(bodies[index].bytes() if index in bodies else trap) for index in range(len(sources))
    ]), len(bodies)


def lowered_data(content):
    """Constants at the same places of memory."""
    reader, parts = Reader(content), []
    for _ in reader.counted():
        if reader.number() != 0 or reader.byte() != I64_CONST:
            refuse("data without a constant place")
        place = reader.signed()
        # At most 2^27 - 1, which both kinds of constants write in the same bytes.
        if len(place) > 4 or place[-1] & 0x40 or reader.byte() != END:
            refuse("data at this place")
        parts.append(b"\0" + op(I32_CONST) + place + op(END) + sized(reader.name()))
    return vector(parts)


def lowered(data, wanted, kinds=NUMBERS):
    """The module over 32-bit addresses, and what it has."""
    found = sections(data)
    counts = param_counts(found[TYPES], found[FUNCTIONS], kinds)
    found[MEMORY] = lowered_memory(found[MEMORY])
    test_globals(found[GLOBALS])
    found[EXPORTS], roots = lowered_exports(found[EXPORTS], wanted)
    found[CODE], reached = lowered_code(found[CODE], counts, roots, kinds)
    found[DATA] = lowered_data(found[DATA])
    module = MAGIC + b"".join(bytes([it]) + sized(content) for it, content in found.items())
    return module, f"{len(wanted)} exports, {reached} of {len(counts)} bodies, {len(module)} bytes"


def main(*words):
    """Lowers a file."""
    kinds, (source, target, *wanted) = NUMBERS, words
    if source == "--simd":
        kinds, (source, target, *wanted) = WITH_VECTORS, words[1:]
    with open(source, "rb") as file:
        module, summary = lowered(file.read(), wanted, kinds)
    with open(target, "wb") as file:
        file.write(module)
    print(f"{target}: {summary}")


if __name__ == "__main__":
    main(*sys.argv[1:])
