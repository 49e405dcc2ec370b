#!/usr/bin/env python3
# SPDX-License-Identifier: ISC
"""Writes the proved crate as assembly text for 64-bit Windows, with NOTEs above:

    windows.py KIT PREFIX RENAMED NAMES TEXT [NOTE..]

KIT is a folder of kit.sh that built the crate for x86-64. Its clang compiles the same module once
more, for Windows. The calls in the file RENAMED get the PREFIX, those in NAMES keep their names,
and what neither reaches is left out. Changed in the module are the system, the names, and that it
has tables for unwinding and no tail calls; what changes in the compiler's text is said at
`unwindable`, `line_of` and `lines`.
"""

import pathlib
import re
import subprocess
import sys

SYSTEM = "x86_64-w64-windows-gnu"
# The layout of data differs in how symbols are named alone.
MANGLING = "e-m:e-", "e-m:w-"
# Windows has a function in the place of these probes of the stack; probe.S has it by another name.
PROBE = "___chkstk_ms", "yz_probe_stack"
PROBES = '"probe-stack"="inline-asm" "stack-probe-size"="3072"'
# Behind a frame that is taken down, wine takes a jump to another function for no epilogue, and
# unwinds a thread that stops there wrongly.
IN_THEIR_PLACE = 'uwtable "disable-tail-calls"="true"'
# Arguments of the kit for the other system, and those with a value behind them.
LEFT_OUT = r"--target=.*|--sysroot=.*|-ffunction-sections|-fdata-sections|-c|-fPIC|module\.bc"
WITH_VALUE = {"-x", "-o"}

KEPT = r"p2align|byte|short|long|quad|zero|ascii|asciz|seh_\w+|globl|text"
DROPPED = r"file|ident|addrsig|addrsig_sym|seh_startepilogue|seh_endepilogue|def|scl|type|endef"
EPILOGUE = r"\t\.seh_startepilogue\n(?:\t(?:addq|leaq|popq)\b.*\n)*\t\.seh_endepilogue\n"


def refuse(fault):
    sys.exit(f"windows.py: refused: {fault}")


def run(kit, *arguments):
    """What the kit's clang writes."""
    command = [f"{kit}/toolchain/bin/clang", *arguments]
    return subprocess.run(command, check=True, capture_output=True, text=True).stdout


def arguments_of(kit):
    """The kit's arguments but for those for the other system."""
    words = iter((kit / "flags").read_text().split("\n")[:-1])
    return [it for it in words if not (it in WITH_VALUE and next(words))
            and not re.fullmatch(LEFT_OUT, it)]


def module_of(kit):
    """The text of the module that the kit's clang compiled."""
    if (kit / "changed.ll").is_file():
        return (kit / "changed.ll").read_text()
    as_text = ["-S", "-emit-llvm", "-Xclang", "-disable-llvm-passes", "-o", "-"]
    return run(kit, "--target=x86_64-unknown-linux-gnu", "-x", "ir", kit / "module.bc", *as_text)


def for_windows(module, prefix, renamed, names):
    """The lines of the module for Windows."""
    for line in module.splitlines():
        if line.startswith("target triple"):
            line = f'target triple = "{SYSTEM}"'
        elif line.startswith("target datalayout"):
            line = line.replace(*MANGLING)
        elif line.startswith("attributes #") and "target-cpu" in line:
            if PROBES not in line:
                refuse(line)
            line = line.replace(PROBES, IN_THEIR_PLACE)
        elif (it := re.match(r"define (?!internal|private)[^@]*@(\w+)\(", line)):
            if it[1] not in renamed | names:
                line = line.replace("define ", "define internal ", 1)
        yield re.sub(r"(?<=@)yz_\w+", lambda it: prefix * (it[0] in renamed) + it[0], line)


def plain(name):
    """A name without the signs that an assembler may refuse: ring::a::<=4> is ring.a.4."""
    return re.sub(r"[^\w.$]+\.?", ".", name).rstrip(".")


def unwindable(text):
    """The text with `vzeroupper` above an epilogue and not behind it, where Windows would not take
    the epilogue for one, and unwind a thread that stops in it wrongly. An epilogue touches no
    vector. No other instruction moves."""
    text = re.sub(rf"({EPILOGUE})(\tvzeroupper\n)", r"\2\1", text)
    ends = re.findall(r"\.seh_endepilogue\n\t(.*)", text)
    if (other := next((it for it in ends if not re.match(r"ret|jmp|rex64 jmp", it)), None)):
        refuse(f"an epilogue before {other}")
    return text


def line_of(line):
    """A line in the form that assemblers of 2022 know, or None: no comments, no types of symbols,
    no marks of epilogues, and one section of constants."""
    if not re.match(r"\t\.asci", line):
        line = re.sub(r'"([^"\s]+)"', lambda it: plain(it[1]) if ":" in it[1] else it[0], line)
        line = re.sub(r"\s*#.*", "", line)
    it = re.match(r"\s*\.(\w+)\s*([^:]*)$", line)
    if not line or it and (re.fullmatch(DROPPED, it[1]) or it[1] == "globl" and ".L" in line):
        return None
    if it and it[1] == "section" and it[2].startswith(".rdata"):
        return '\t.section .rdata,"dr"'
    if it and not re.fullmatch(KEPT, it[1]):
        refuse(line)
    return re.sub(r"(?<=\S)\t", " ", line)


def lines(text):
    """The lines of the text for assemblers of 2022 too. A constant that linkers would merge with
    another object's is this one's own."""
    text = unwindable(text).replace(*PROBE)
    text = re.sub(r'\t\.globl\t"?@feat\.00"?\n"?@feat\.00"? = \d+\n', "", text)
    merged = re.findall(r"^(__\w+@\w+):", text, re.M)
    if merged:
        own = {it: f".L{it[2:].replace('@', '_')}" for it in merged}
        text = re.sub("|".join(map(re.escape, own)), lambda it: own[it[0]], text)
    yield from filter(None, map(line_of, text.splitlines()))


def main():
    if len(sys.argv) < 6:
        sys.exit(__doc__)
    kit, target = pathlib.Path(sys.argv[1]), pathlib.Path(sys.argv[5])
    prefix, notes = sys.argv[2], sys.argv[6:]
    renamed, names = (set(pathlib.Path(it).read_text().split()) for it in sys.argv[3:5])
    module = for_windows(module_of(kit), prefix, renamed, names)
    changed = target.with_suffix(".ll")
    changed.write_text("\n".join(module) + "\n")
    text = run(kit, f"--target={SYSTEM}", *arguments_of(kit), "-S", "-x", "ir", changed, "-o", "-")
    head = ["/*", *(f" * {it}".rstrip() for it in notes), " */", ""]
    guard = "#if defined(__x86_64__) && defined(_WIN32)"
    target.write_text("\n".join([*head, guard, *lines(text), "#endif"]) + "\n")


if __name__ == "__main__":
    main()
