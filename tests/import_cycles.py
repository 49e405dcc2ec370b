#!/usr/bin/env python3
# SPDX-License-Identifier: ISC
"""Tests that the modules of each crate import from each other in no circle.

A module is a file of `src/`, and parents and children are no exception. A planted circle, of a
child that imports from its parent, must be found. The last line is 'N passed, M failed'.
"""

import graphlib
import pathlib
import re
import sys

ROOT = pathlib.Path(__file__).resolve().parent.parent
IMPORT = re.compile(r"^ *(?:pub(?:\([^)]*\))? )?use ((?:crate|self|super)::[^;]*);", re.M)
PLANTED = {
    (): "pub use crate::a::D;", ("a",): "pub use crate::{\n    a::b::{self, c::{D, E}},\n};",
    ("a", "b"): "", ("a", "b", "c"): "use super::super::F as G;",
}


def paths_of(names):
    """The paths of an import, of which braces may hold several."""
    head, _, rest = names.partition("{")
    inner = re.findall(r"(?:[^,{}\s]|\{[^}]*\})+", re.sub(r" as \w+", "", rest[:rest.rfind("}")]))
    return [path for it in inner for path in paths_of(head + it)] or [head.split(" as ")[0]]


def named(path, module, modules):
    """The module that a path names where another module has it: its longest part that is one."""
    first, *words = path.split("::")
    place = {"crate": (), "self": module, "super": module[:-1]}[first]
    for word in words:
        place = place[:-1] if word == "super" else (*place, word)
    while place not in modules:
        place = place[:-1]
    return place


def circle_in(modules):
    """A circle of imports among texts of modules, or an empty text."""
    graph = {module: {named(path, module, modules) for names in IMPORT.findall(text)
                      for path in paths_of(names)} - {module} for module, text in modules.items()}
    try:
        graphlib.TopologicalSorter(graph).prepare()
    except graphlib.CycleError as error:
        return " -> ".join("::".join(("crate", *it)) for it in reversed(error.args[1]))
    return ""


def modules_of(source):
    """The texts of a crate's modules, by their paths."""
    paths = {file: file.relative_to(source).with_suffix("").parts for file in source.rglob("*.rt")}
    return {() if path in (("lib",), ("main",)) else path: file.read_text()
            for file, path in sorted(paths.items())}


def main():
    circles = {it.parent.name: circle_in(modules_of(it)) for it in (ROOT / "crates").glob("*/src")}
    failed = [f"{name}: {circle}" for name, circle in sorted(circles.items()) if circle]
    failed += [] if circle_in(PLANTED) else ["the planted circle is not found"]
    print("".join(f"FAILED: {it}\n" for it in failed), end="")
    print(f"{len(circles) + 1 - len(failed)} passed, {len(failed)} failed")
    return failed != [] or not circles


if __name__ == "__main__":
    sys.exit(main())
