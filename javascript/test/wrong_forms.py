# SPDX-License-Identifier: ISC
"""That wrong forms of generated/make/lower.py are found, and that it refuses what it doesn't list:

    NODE=node python3 wrong_forms.py MODULE64 SIMD64 FOLDER NODE_FLAG EXPORT..

Each wrong form is an edit of the program. It must lower the module, which has vectors where the
form is one of these, and the comparison of both modules (lowered.mjs) must end as is said of it.
Each refused module is the right one with a part changed. A form that is too wide must take one of
these.
"""

import os
import pathlib
import re
import subprocess
import sys

HERE = pathlib.Path(__file__).resolve().parent
LOWER = HERE.parents[1] / "generated/make/lower.py"
sys.path.insert(0, str(LOWER.parent))
import lower  # noqa: E402

TURNS = "1000"
NOT_COMPILED = r"CompileError"
DIFFERENT = r"the modules differ: yz_\w+\(.*\) (answers|leaves)"
TRAPPED = r"RuntimeError: unreachable"
OUT_OF_BOUNDS = r"RuntimeError: memory access out of bounds"
# A trap of any kind: the right module has none.
DIFFERENT_OR_TRAPPED = f"{DIFFERENT}|RuntimeError"

# What an edit does, the text that it replaces, which stands once, the new one, and how it is found.
FORMS = [
    ("a load left wide", "self.ADDRESS + self.offset(code, LOADS[code])",
     "self.offset(code, LOADS[code])", NOT_COMPILED),
    ("a store left wide", "op(SET, value) + self.ADDRESS + op(GET, value)",
     "op(SET, value) + op(GET, value)", NOT_COMPILED),
    ("a copy's source left wide",
     "op(SET, self.length) + address + op(SET, between) + address",
     "op(SET, self.length) + op(SET, between) + address", NOT_COMPILED),
    ("an address cut to 16 bits", "self.ADDRESS + self.offset(code, LOADS[code])",
     "self.ADDRESS + op(I32_CONST) + b'\\xff\\xff\\3' + op(0x71) + self.offset(code, LOADS[code])",
     DIFFERENT),
    ("an offset cut to 7 bits", "op(code, *more, alignment, offset)",
     "op(code, *more, alignment, offset & 0x7F)", DIFFERENT),
    ("a load of 64 bits as one of 32", "op(code, *more, alignment, offset)",
     "op(0x35 if code == 0x29 else code, min(alignment, 2), offset)", DIFFERENT),
    ("a store of 64 bits as one of 32", "op(code, *more, alignment, offset)",
     "op(0x3E if code == 0x37 else code, min(alignment, 2), offset)", DIFFERENT_OR_TRAPPED),
    ("a copy's source and length exchanged",
     "op(GET, between) + op(GET, self.length) + op(MANY, COPY, 0, 0)",
     "op(GET, self.length) + op(GET, between) + op(MANY, COPY, 0, 0)", OUT_OF_BOUNDS),
    ("a fill's byte and length exchanged",
     "op(GET, between) + op(GET, self.length) + op(MANY, FILL, 0)",
     "op(GET, self.length) + op(GET, between) + op(MANY, FILL, 0)", DIFFERENT_OR_TRAPPED),
    ("an export dropped", "vector([*kept.values()])", "vector([*kept.values()][:-1])",
     r"the modules differ: exports"),
    ("a body dropped that is reached", "left += bodies[index].calls", "left += []", TRAPPED),
    ("constants moved by 8 bytes", "op(I32_CONST) + place + op(END)",
     "op(I32_CONST) + bytes([place[0] ^ 8]) + place[1:] + op(END)",
     r"the modules differ: the memories before any call"),
    ("a page of the memory dropped", 'b"".join(map(number, limits))', "number(limits[0] - 1)",
     r"(CompileError|RuntimeError|the modules differ)"),
]


# The same of vectors.
SIMD_FORMS = [
    ("a vector's load left wide", "self.ADDRESS + self.offset(VECTOR, VECTOR_LOADS[code], code)",
     "self.offset(VECTOR, VECTOR_LOADS[code], code)", NOT_COMPILED),
    ("a vector's load of another offset",
     "self.ADDRESS + self.offset(VECTOR, VECTOR_LOADS[code], code)",
     "self.ADDRESS + op(I32_CONST, 4) + op(0x6A) + self.offset(VECTOR, VECTOR_LOADS[code], code)",
     DIFFERENT_OR_TRAPPED),
    ("a constant turned", "op(VECTOR, code) + self.code.take(VECTOR_PLAIN[code])",
     "op(VECTOR, code) + self.code.take(VECTOR_PLAIN[code])[::-1]", DIFFERENT_OR_TRAPPED),
    ("a sum of words of 32 bits as one of 64",
     "op(VECTOR, code) + self.code.take(VECTOR_PLAIN[code])",
     "op(VECTOR, 0xCE if code == 0xAE else code) + self.code.take(VECTOR_PLAIN[code])", DIFFERENT),
]


# Forms that refuse too little.
GROUPS = "zip(roots, (PLAIN, OF_TEXTS_PLAIN))"
WIDER = [
    ("a quotient of what is a secret", GROUPS, "zip(roots, (OF_TEXTS_PLAIN, OF_TEXTS_PLAIN))"),
    ("a quotient of what calls of secrets reach too", GROUPS,
     "zip(roots[::-1], (OF_TEXTS_PLAIN, PLAIN))"),
    ("a block of any type", "if kind not in (*self.kinds, NO_RESULT):", "if False:"),
]


def edited(text, old, new):
    """The program with an edit."""
    program = {"__name__": "wrong_form"}
    exec(compile(text.replace(old, new), "wrong_form", "exec"), program)
    return program


def fault_of(text, edit, compared, *words):
    """Why a wrong form is not found as it should be, or None."""
    old, new, wanted = edit
    module64, module32, command = compared
    if text.count(old) != 1:
        return "the text to edit does not stand once"
    program = edited(text, old, new)
    module32.write_bytes(program["lowered"](module64.read_bytes(), *words)[0])
    run = subprocess.run(command, capture_output=True, text=True, check=False)
    said = run.stdout + run.stderr
    return None if run.returncode and re.search(wanted, said) else said[-400:] or "no difference"


# Bodies that are refused: what they have, and the message.
CODES = [
    ("memory.size", b"\x3f\0\x1a", "instruction 0x3f"),
    ("memory.grow", b"\x42\0\x40\0\x1a", "instruction 0x40"),
    ("memory.init", b"\xfc\x08\0\0", "instruction 0xfc 8"),
    ("call_indirect", b"\x11\0\0", "instruction 0x11"),
    ("f64.const", b"\x44" + bytes(8), "instruction 0x44"),
    ("f32.load", b"\x2a\2\0", "instruction 0x2a"),
    ("f32.add", b"\x92", "instruction 0x92"),
    ("i32.div_u", b"\x6e", "instruction 0x6e"),
    ("i32.rem_u", b"\x70", "instruction 0x70"),
    ("i64.rem_u", b"\x82", "instruction 0x82"),
    ("a vector", b"\xfd\0\0\0", "instruction 0xfd"),
    ("an atomic access", b"\xfe\0\0\0", "instruction 0xfe"),
    ("ref.null", b"\xd0\x70", "instruction 0xd0"),
    ("a copy between memories", b"\xfc\x0a\0\1", "instruction 0xfc 10"),
    ("a block of a type's number", b"\2\0\x0b", "a block of type 0x0"),
    ("an offset of 33 bits", b"\x28\2\x80\x80\x80\x80\x10", "an access aligned to 2^2 with"),
    ("an access aligned past its size", b"\x28\3\0", "an access aligned to 2^3 with"),
    ("a number that does not end", b"\x20" + b"\xff" * 11, "a number of over 64 bits"),
    ("a constant that does not end", b"\x42" + b"\xff" * 11, "a constant of over 64 bits"),
]
# Bodies that are refused in place of the first one.
BODIES = [
    ("a body without an end", b"\0\x41\0", "a body without an end"),
    ("a local of a vector's type", b"\1\1\x7b\x0b", "type 0x7b"),
]
# Sections that are refused in place of the right ones.
CONTENTS = [
    ("too few bodies", lower.CODE, b"\0", "functions without bodies"),
    ("bytes past the end", lower.MEMORY, b"\1\4\2\0", "bytes past the end of a section"),
    ("a memory of 32-bit addresses", lower.MEMORY, b"\1\0\2", "a memory without 64-bit"),
    ("a shared memory", lower.MEMORY, b"\1\7\2\2", "a memory without 64-bit"),
    ("two memories", lower.MEMORY, b"\2\4\2\4\2", "a module without a single memory"),
    ("a memory past 32 bits", lower.MEMORY, b"\1\4\x81\x80\4", "a memory of more pages"),
    ("a type of structures", lower.TYPES, b"\1\x5f\0", "a type that is no function's"),
    ("a type with a reference", lower.TYPES, b"\1\x60\1\x70\0", "type 0x70"),
    ("a global of another global", lower.GLOBALS, b"\1\x7e\0\x23\0\x0b", "a global that is no"),
    ("an exported table", lower.EXPORTS, b"\1\1t\1\0", "an export of kind 1"),
    ("an export missing", lower.EXPORTS, b"\0", "a module that does not export"),
    ("data without a place", lower.DATA, b"\1\1\1a", "data without a constant place"),
    ("data at a negative place", lower.DATA, b"\1\0\x42\x7f\x0b\1a", "data at this place"),
    ("data past 2^27", lower.DATA, b"\1\0\x42\x80\x80\x80\x80\1\x0b\1a", "data at this"),
]


def refused_modules(module):
    """The right module with a part changed: what is wrong in it, the message and the module."""
    sections = lower.sections(module)

    def written(parts):
        return lower.MAGIC + b"".join(bytes([it]) + lower.sized(data) for it, data in parts)

    bodies = lower.Reader(sections[lower.CODE])
    count, _ = bodies.number(), bodies.name()
    rest = bodies.data[bodies.at:]
    wrong_codes = [(name, b"\0" + code + b"\x0b", reason) for name, code, reason in CODES]
    for name, body, reason in [*wrong_codes, *BODIES]:
        content = lower.number(count) + lower.sized(body) + rest
        yield name, reason, written({**sections, lower.CODE: content}.items())
    for name, section, content, reason in CONTENTS:
        yield name, reason, written({**sections, section: content}.items())
    for section in (2, 4, 8, 9, 12, 13, 14):
        reason = f"section {section}"
        yield reason, reason, written([*sections.items(), (section, b"\0")])
    twice = [*sections.items(), (lower.DATA, sections[lower.DATA])]
    yield "a section twice", f"section {lower.DATA}", written(twice)
    yield "another order of sections", "the sections [11,", written(reversed(sections.items()))
    yield "a section missing", "the sections [1,", written([*sections.items()][:-1])
    yield "no module", "what is no module", b"\0asm\2\0\0\0" + module[8:]
    yield "a module that is cut off", "a module that is cut off", module[:-1]


def reason_of_refusal(module, exports, lowered=lower.lowered):
    """With what message the program refuses a module, or None."""
    try:
        lowered(module, exports)
    except SystemExit as end:
        return str(end).removeprefix("lower.py: refused: ")
    return None


def try_forms(module64, folder, flag, forms, *words):
    """Tries each form over a module, and gives how many are not found."""
    text, faults = LOWER.read_text(encoding="utf-8"), 0
    module32 = pathlib.Path(folder) / "wrong_form.wasm"
    node = [os.environ.get("NODE", "node"), *flag.split()]
    compared = module64, module32, [*node, HERE / "lowered.mjs", module64, module32, TURNS]
    for name, *edit in forms:
        fault = fault_of(text, edit, compared, *words)
        faults += fault is not None
        print(f"NOT FOUND: {name}: {fault}" if fault else f"found: {name}")
    return faults


def main(module64, simd64, folder, flag, *exports):
    """Tries each form and each module."""
    text, module64 = LOWER.read_text(encoding="utf-8"), pathlib.Path(module64)
    faults = try_forms(module64, folder, flag, FORMS, exports)
    faults += try_forms(pathlib.Path(simd64), folder, flag, SIMD_FORMS, exports, lower.WITH_VECTORS)
    count = 0
    for count, (name, wanted, changed) in enumerate(refused_modules(module64.read_bytes()), 1):
        reason = reason_of_refusal(changed, exports)
        if reason is None or not reason.startswith(wanted):
            faults += 1
            print(f"NOT REFUSED: {name}: {reason}")
    for name, old, new in WIDER:
        lowered = edited(text, old, new)["lowered"]
        taken = [it for it, _, changed in refused_modules(module64.read_bytes())
                 if reason_of_refusal(changed, exports, lowered) is None]
        faults += text.count(old) != 1 or not taken
        print(f"found: {name}: {', '.join(taken)}" if taken else f"NOT FOUND: {name}")
    forms = len(FORMS) + len(SIMD_FORMS) + len(WIDER)
    print(f"{forms} wrong forms, {count} modules to refuse, {faults} faults")
    return faults != 0


if __name__ == "__main__":
    sys.exit(main(*sys.argv[1:]))
