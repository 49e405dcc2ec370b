# SPDX-License-Identifier: ISC
"""Gives a lowered module imports that each address and each condition is told to, in their order:

    python3 traced.py MODULE32 TRACED PLANTED

That is what loads, stores, copies and fills are passed, what branches, tables of branches, `if` and
`select` decide by, and what is multiplied and divided, since that may take longer for some numbers.
The import `it.told` gives each number of 32 bits back, and `it.told_long` each of 64. PLANTED gets
a module that leaks.
"""

import pathlib
import sys

sys.path.insert(0, str(pathlib.Path(__file__).resolve().parents[2] / "generated/make"))
from lower import (  # noqa: E402
    BLOCK, BRANCH_IF, BRANCH_TABLE, CALL, CODE, COPY, DATA, DROP, ELSE, END, EXPORTS, FILL,
    FUNCTIONS, GET, GLOBALS, I32, I32_CONST, I64, IF, KIND_FUNCTION, KIND_MEMORY, MAGIC, MANY,
    MEMORY, NO_RESULT, OF_TEXTS, OF_TEXTS_PLAIN, PLAIN, SELECT, SET, TYPES, VECTOR, WITH_VECTORS,
    Body, Reader, lowered, number, op, param_counts, sections, sized, vector,
)

IMPORTS, TELL, TELL_LONG = 2, op(CALL, 0), op(CALL, 1)
IMPORTED = {b"told": I32, b"told_long": I64}
# The products and quotients, from this one on of 64 bits.
OF_NUMBERS, LONG = OF_TEXTS_PLAIN - PLAIN, 0x7E


class ToldBody(Body):
    """A body that tells."""

    ADDRESS = TELL

    def instruction(self, code):
        if code in OF_NUMBERS:
            tell, last = (TELL_LONG, I64) if code >= LONG else (TELL, I32)
            self.out += op(SET, self.above[last]) + tell + op(GET, self.above[last]) + tell
            self.out += op(code)
        elif code == CALL:
            self.out += op(CALL, self.code.number() + len(IMPORTED))
        else:
            self.out += TELL if code in (BRANCH_IF, BRANCH_TABLE, IF, SELECT) else b""
            super().instruction(code)


def with_more(content, more):
    """A vector with parts behind the others, and the index of the first of them."""
    reader = Reader(content)
    count = reader.number()
    return number(count + len(more)) + content[reader.at :] + b"".join(more), count


def moved_exports(content):
    """The exports, whose functions are behind the imports."""
    reader, parts = Reader(content), []
    for _ in reader.counted():
        name, kind, index = reader.name(), reader.byte(), reader.number()
        place = index + (len(IMPORTED) if kind == KIND_FUNCTION else 0)
        parts.append(sized(name) + bytes([kind]) + number(place))
    return vector(parts)


def traced(data):
    """The module that tells."""
    found = sections(data)
    counts = param_counts(found[TYPES], found[FUNCTIONS], WITH_VECTORS)
    bodies = Reader(found[CODE])
    found[CODE] = vector([
        sized(ToldBody(bodies.name(), counts[index], OF_TEXTS_PLAIN, WITH_VECTORS).bytes())
        for index in bodies.counted()
    ])
    found[EXPORTS] = moved_exports(found[EXPORTS])
    kinds = [vector([bytes([kind])]) for kind in IMPORTED.values()]
    types, first = with_more(found.pop(TYPES), [b"\x60" + it + it for it in kinds])
    imports = vector([
        sized(b"it") + sized(name) + bytes([KIND_FUNCTION]) + number(first + at)
        for at, name in enumerate(IMPORTED)
    ])
    parts = {TYPES: types, IMPORTS: imports, **found}
    return MAGIC + b"".join(bytes([it]) + sized(content) for it, content in parts.items())


# Bodies that leak the bytes at two places, each by another kind of instruction.
LOAD_BYTE, STORE_BYTE, AND, XOR, ADD, EXTEND = 0x2D, 0x3A, 0x71, 0x73, 0x7C, 0xAD
ADD32, MULTIPLY, DIVIDE, REMAIN, DIVIDE_LONG, CUT = 0x6A, 0x6C, 0x6E, 0x70, 0x80, 0xA7
ONE, TWO = op(I32_CONST) + b"\1", op(I32_CONST) + b"\2"
FIRST, SECOND = (op(GET, it) + op(LOAD_BYTE, 0, 0) for it in (0, 1))
BIT = FIRST + ONE + op(AND)
ZEROS = op(VECTOR, 0x0C) + bytes(16)
PLACE = op(GET, 1) + FIRST + op(EXTEND) + op(ADD)
BEGIN = op(BLOCK, NO_RESULT)
PLANTED = {
    "load": PLACE + op(LOAD_BYTE, 0, 0),
    "vector's load": PLACE + op(VECTOR, 0, 0, 0) + op(DROP) + ONE,
    "vector's store": PLACE + ZEROS + op(VECTOR, 0x0B, 0, 0) + ONE,
    "lane's load": PLACE + ZEROS + op(VECTOR, 0x56, 0, 0, 3) + op(DROP) + ONE,
    "lane's store": PLACE + ZEROS + op(VECTOR, 0x5A, 0, 0, 3) + ONE,
    "store": PLACE + ONE + op(STORE_BYTE, 0, 0) + ONE,
    "copy": op(GET, 1) + op(GET, 0) + FIRST + op(EXTEND) + op(MANY, COPY, 0, 0) + ONE,
    "fill": op(GET, 1) + ONE + FIRST + op(EXTEND) + op(MANY, FILL, 0) + ONE,
    "branch": BEGIN + FIRST + SECOND + op(XOR) + op(BRANCH_IF, 0) + op(END) + ONE,
    "table": BEGIN + FIRST + op(BRANCH_TABLE, 1, 0, 0) + op(END) + ONE,
    "if": BIT + op(IF, I32) + ONE + op(ELSE) + TWO + op(END),
    "select": ONE + TWO + BIT + op(SELECT),
    "product": FIRST + TWO + op(MULTIPLY),
    "quotient": ONE + FIRST + ONE + op(ADD32) + op(DIVIDE),
    "remainder": FIRST + TWO + op(REMAIN),
    "long quotient": FIRST + op(EXTEND) + op(GET, 1) + op(DIVIDE_LONG) + op(CUT),
}
# These stand where products and quotients are taken.
OF_TEXTS_ONLY = {"product", "quotient", "remainder", "long quotient"}


def planted():
    """A module of 64-bit addresses with the bodies above, lowered and traced as the other."""
    names = [(OF_TEXTS[0].decode() if it in OF_TEXTS_ONLY else "") + it for it in PLANTED]
    exports = [sized(b"memory") + bytes([KIND_MEMORY, 0])]
    exports += [
        sized(name.encode()) + bytes([KIND_FUNCTION, at]) for at, name in enumerate(names)
    ]
    found = {
        TYPES: vector([b"\x60" + vector([bytes([I64])] * 2) + vector([bytes([I32])])]),
        FUNCTIONS: vector([b"\0"] * len(PLANTED)),
        MEMORY: vector([b"\4\1"]),
        GLOBALS: vector([]),
        EXPORTS: vector(exports),
        CODE: vector([sized(b"\0" + it + op(END)) for it in PLANTED.values()]),
        DATA: vector([]),
    }
    module = MAGIC + b"".join(bytes([it]) + sized(content) for it, content in found.items())
    return traced(lowered(module, ["memory", *names], WITH_VECTORS)[0])


def main(source, target, leaking):
    """Writes both modules."""
    pathlib.Path(target).write_bytes(traced(pathlib.Path(source).read_bytes()))
    pathlib.Path(leaking).write_bytes(planted())


if __name__ == "__main__":
    main(*sys.argv[1:])
