#!/usr/bin/env python3
# SPDX-License-Identifier: ISC
"""Compares the examples of README.md, of docs/ and of the libraries' pages with proved callers, and
looks for a caller of each call.

An example is a block of Rattle code: in Markdown one that is marked `rust`, in the `//!` lines of a
source file one that has no mark; a program of the reader's is none. Its lines must stand one after
another, letter by letter but for the indentation of the whole, in a file of CALLERS, which the gate
proves.

The calls are the public functions and methods of `ring`, of what `ring` gives again of
`ring_core`, and of `ring_password_hash`, but for NOT_CALLED. The name of each, or of its form with
`_counted`, must stand in CALLERS as a call: behind a dot where it is a method, and behind its type
where it is one without a receiver. The last line is 'N passed, M failed'.
"""

import pathlib
import re
import sys
import textwrap

sys.dont_write_bytecode = True
sys.path.append(str(pathlib.Path(__file__).resolve().parent / "lib"))
import rattle_items

ROOT = rattle_items.ROOT
CALLERS = sorted(ROOT.glob("crates/ring_examples/src/*.rt"))
CALLERS.append(ROOT / "crates/ring_schedules/src/example.rt")
LIBRARIES = ("ring_core", "ring", "ring_store", "ring_store_text", "ring_password_hash")
CALLED = ("ring_core", "ring", "ring_password_hash")
PAGES = [path for name in LIBRARIES for path in sorted(ROOT.glob(f"crates/{name}/src/**/*.rt"))]
# Modules that need no caller: the block functions and their words, and what errors and views of
# slices have.
NOT_CALLED = ("ring_core::digest", "ring_core::error", "ring_core::polyfill")
# What is no call: comments, and the lines that a contract begins with.
NO_CODE = re.compile(r"^\s*(?://|ghost use|ensures|requires).*$", re.M)


def examples(text, mark):
    """The number of the first line, and the lines, of each block of a page that has this mark."""
    for block in re.finditer(r"^```([^\n]*)\n(.*?)^```$", text, re.M | re.S):
        if block.group(1) == mark:
            yield text.count("\n", 0, block.start(2)) + 1, block.group(2)


def page_of(text):
    """The `//!` lines at the head of a source file, as they are read."""
    lines = re.match(r"(?:// SPDX.*\n)?((?://!.*\n)*)", text).group(1)
    return re.sub(r"^//! ?", "", lines, flags=re.M)


def stands_in(example, text):
    """Whether the example's lines stand in the text one after another, at one indentation."""
    wanted, lines = textwrap.dedent(example).splitlines(), text.splitlines()
    return any(
        textwrap.dedent("\n".join(lines[at : at + len(wanted)])).splitlines() == wanted
        for at in range(len(lines) - len(wanted) + 1)
    )


def calls(sources):
    """Each call: its module and name, and what a caller of it matches. A law without parameters is
    a fact about the definitions, and no call."""
    for page in sources.pages:
        if page.name.startswith(NOT_CALLED):
            continue
        for item in sources.shown_at(page):
            if item.kind == "fn" and item.parameters:
                yield f"{page.name}::{item.name}", caller_of(r"(?<!\.)\b", item)
            for it in sources.members(item) if item.kind in ("struct", "enum") else ():
                if it.kind == "fn":
                    is_method = re.search(r"\(\s*(?:&(?:'\w+ )?)?(?:mut )?self\b", it.signature)
                    front = r"\." if is_method else rf"\b{item.name}(?:::<.*?>)?::"
                    yield f"{page.name}::{item.name}::{it.name}", caller_of(front, it)


def caller_of(front, call):
    """What a call of a function matches, plain or counted."""
    return re.compile(rf"{front}{call.name.removesuffix('_counted')}(?:_counted)?(?:::<.*?>)?\(")


def main():
    callers = [path.read_text() for path in CALLERS]
    pages = [ROOT / "README.md", *sorted(ROOT.glob("docs/*.md"))]
    marked = [(page, *it) for page in pages for it in examples(page.read_text(), "rust")]
    found = [it for it in marked if "fn main(" not in it[2]]
    found += [(path, *it) for path in PAGES for it in examples(page_of(path.read_text()), "")]
    failed = 0
    for path, line, example in found:
        is_caller = bool(example.strip()) and any(stands_in(example, text) for text in callers)
        failed += not is_caller
        verdict = "ok" if is_caller else "FAILED: not a proved caller"
        print(f"{verdict}: {path.relative_to(ROOT)}:{line}")
    code = NO_CODE.sub("", "\n".join(callers))
    called = list(calls(rattle_items.Sources(CALLED)))
    for name, pattern in called:
        if not pattern.search(code):
            failed += 1
            print(f"FAILED: no caller: {name}")
    print(f"{len(found) + len(called) - failed} passed, {failed} failed")
    return failed != 0 or not found or not called


if __name__ == "__main__":
    sys.exit(main())
