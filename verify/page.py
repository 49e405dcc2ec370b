#!/usr/bin/env python3
# SPDX-License-Identifier: ISC
"""Writes the tables of docs/VERIFY.md: the functions that are shown, and the lines of the checker.

    verify/page.py [--write] LIBRARY..

Without --write it says whether the page has them. The functions are those of the libraries'
processors and systems: the columns of others stay as they are.
"""

import pathlib
import re
import sys

sys.dont_write_bytecode = True
import kernels
import kernels_wasm
import wasm_module
from elf import ARM, X86, Library
from pe import Dll, is_dll
from wasm_module import WASM

ROOT = pathlib.Path(__file__).resolve().parent.parent
PAGE = ROOT / "docs/VERIFY.md"
BEGIN, END = "<!-- {}: made by verify/page.py -->\n", "<!-- /{} -->"
# What a verdict on a kernel rests on, and what finds the kernels. A verdict on a whole call rests
# on these and on further ones.
TRUSTED = ["fips180_4.py", "kernels.py", "loops.py", "machine.py", "program.py", "terms.py",
           "apart.py", "elf.py", "identify.py", "check"]
OF_X86 = ["x86.py", "operands_x86.py", "vectors_x86.py", "sha_x86.py", "decode_x86.py"]
OF_ARM = ["arm.py", "operands_arm.py", "vectors_arm.py", "decode_arm.py"]
OF_CALLS = ["standards.py", "lengths.py", "summaries.py", "calls.py", "functions.py",
            "merkle_trees.py", "texts.py", "sundry.py", "asking.py", "cases.py", "check_calls"]
OF_WINDOWS = ["x86_windows.py", "pe.py"]
OF_WASM = ["wasm.py", "operands_wasm.py", "vectors_wasm.py", "decode_wasm.py", "flow_wasm.py",
           "wasm_module.py", "kernels_wasm.py"]
COLUMNS = {(X86, "Linux"): ["Linux v2", "Linux SHA", "Linux v3"],
           (X86, "Windows"): ["Windows v2", "Windows SHA", "Windows v3"],
           (ARM, "Linux"): ["ARM", "ARM SHA"],
           **{(WASM, it): [it] for it in kernels_wasm.BOTH}}
ALL_COLUMNS = [it for columns in COLUMNS.values() for it in columns]
# A cell has the numbers of lanes that are shown, 1 for a function without lanes, and `no 4` where
# the library lacks the function in 4. Rows that differ by their words alone are one, as
# `of 4/6/8 words`.
LANES = re.compile(r" in (\d+) lanes")
WORDS = re.compile(r" of ([\d/]+) words")


def column(kernel, columns):
    if "by instructions" in kernel.what:
        return columns[1]
    return columns[2] if kernel.build == "v3" else columns[0]


def functions(library):
    """What functions compute, each with the columns of the library that have some, and in how many
    lanes."""
    rows, columns = {}, COLUMNS[library.machine, library.system]
    of = kernels_wasm.of if library.machine == WASM else kernels.of
    for it in of(library):
        what = it.what.replace(" by instructions", "")
        lanes = (LANES.search(what) or ["", "1"])[1]
        cells = rows.setdefault(LANES.sub("", what), {}).setdefault(column(it, columns), [])
        cells.append(lanes if it.symbol else f"no {lanes}")
    return {what: {name: "/".join(sorted(set(it))) for name, it in cells.items()}
            for what, cells in rows.items()}


def rows_of(table):
    """The rows of a table of the page, as `functions` gives them."""
    rows = {}
    for line in table.splitlines()[2:]:
        what, *cells = line[1:-1].split("|")
        for words in (WORDS.search(what) or ["", ""])[1].split("/"):
            rows[WORDS.sub(f" of {words} words", what)] = dict(zip(ALL_COLUMNS, cells))
    return rows


def lines_of_rows(rows):
    """The lines of a table, one for rows that differ by their words alone."""
    merged = {}
    for what, row in sorted(rows.items()):
        cells = "|".join(row.get(it, "") for it in ALL_COLUMNS)
        words = (WORDS.search(what) or ["", ""])[1]
        if any(row.values()):
            merged.setdefault((WORDS.sub(" of {} words", what), cells), []).append(words)
    return [f"|{what.format('/'.join(words))}|{cells}|" for (what, cells), words in merged.items()]


def with_functions(table, library):
    """A table of the page with the columns of a library as they have to be."""
    rows, made = rows_of(table), functions(library)
    for cells in rows.values():
        for it in COLUMNS[library.machine, library.system]:
            cells[it] = ""
    for what, cells in made.items():
        rows.setdefault(what, {}).update(cells)
    head = ["|What|" + "|".join(ALL_COLUMNS) + "|", "|-|" + "-|" * len(ALL_COLUMNS)]
    return "\n".join(head + lines_of_rows(rows)) + "\n"


def lines():
    """The lines of the checker's files: of kernels, and of whole calls, which are of x86-64."""
    rows = ["|For|Lines|", "|-|-|"]
    for of, files in (("kernels of x86-64", TRUSTED + OF_X86),
                      ("kernels of Windows", TRUSTED + OF_X86 + OF_WINDOWS),
                      ("kernels of 64-bit ARM", TRUSTED + OF_ARM),
                      ("kernels of WebAssembly", TRUSTED + OF_WASM),
                      ("whole calls", TRUSTED + OF_X86 + OF_CALLS)):
        count = sum((ROOT / "verify" / it).read_text().count("\n") for it in files)
        rows.append(f"|{of}|{count}|")
    return "\n".join(rows) + "\n"


def put(text, name, make):
    """The page with another table of a name: what is made of the one that it has."""
    before, begin, rest = text.partition(BEGIN.format(name))
    table, end, after = rest.partition(END.format(name))
    if not begin or not end:
        sys.exit(f"{PAGE}: no table {name}")
    return before + begin + make(table) + end + after


def with_tables(text, libraries):
    """The page with its tables as they have to be."""
    for it in libraries:
        text = put(text, "functions", lambda table, it=it: with_functions(table, it))
    return put(text, "lines", lambda _: lines())


def opened(path):
    if wasm_module.is_module(path):
        return wasm_module.opened(path)
    return (Dll if is_dll(path) else Library)(path)


def main():
    words = [it for it in sys.argv[1:] if it != "--write"]
    if not words:
        sys.exit(__doc__)
    text = PAGE.read_text()
    made = with_tables(text, map(opened, words))
    if "--write" in sys.argv:
        PAGE.write_text(made)
    elif made != text:
        sys.exit("the tables of docs/VERIFY.md are others: verify/page.py --write LIBRARY..")


if __name__ == "__main__":
    main()
