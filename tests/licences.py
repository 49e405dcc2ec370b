#!/usr/bin/env python3
# SPDX-License-Identifier: ISC
"""Tests that all places name the same licences, and counts the code for which the kit names none.

    tests/licences.py            # tests
    tests/licences.py --write    # writes the programs' shares into LICENSE and their pages
    tests/licences.py --names    # prints the functions that no licence is named for

A function is of the crate that begins its name in generated/*.S, and inlined code counts for the
function that it is in. No licence is named for the kit's own libraries: core, libc, os and those
whose names begin with `std`. The library may have none of their functions. The last line is
'N passed, M failed'.
"""

import pathlib
import re
import sys

sys.dont_write_bytecode = True
ROOT = pathlib.Path(__file__).resolve().parent.parent
sys.path.append(str(ROOT / "tests/lib"))
import counted

# Ports of Rust crates, whose notices are in LICENSE.
MIT = {"base64", "hex", "itoa", "memchr"}
UNNAMED = re.compile(r"core|libc|os|std\w*")
# The texts of programs, each with the page that has its share.
PAGES = {
    "ring_bench_main": "docs/LINES.md",
    "ring_passwords": "docs/PASSWORDS.md",
    "ring_sums_main": "docs/SUMS.md",
}
SHARE = r"[Oo]f the code of {} (\d+) per cent"
COMPILED = "ISC AND MIT"
# Where the licence of what is compiled is named, and of what is not.
NAMED = {
    "python/pyproject.toml": (r'^license = "([^"]*)"', COMPILED),
    "rust/Cargo.toml": (r'^license = "([^"]*)"', COMPILED),
    "rust/rustcrypto/Cargo.toml": (r'^license = "(.*)"$', "ISC"),
    "javascript/package/package.json": (r'^  "license": "(.*)",$', COMPILED),
    "packaging/origin": (r'^    "licenseConcluded": "(.*)",$', COMPILED),
    "packaging/debian/copyright": (r"^License: (.*)$", "ISC and Expat"),
}


def functions(text):
    """The functions of some assembly text, with their bytes; those for Windows have no size."""
    words = [re.split(r"[(),\s]+", it.strip()) for it in text.splitlines()]
    code = {it[1] for it in words if it[0] in (".type", "TYPE") and "%function" in it}
    sizes = {it[1]: int(it[2]) for it in words
             if it[0] in (".size", "SIZE") and it[1] in code and it[2].isdigit()}
    return sizes or dict.fromkeys(re.findall(r"^([\w$][\w.$]*):$", text, re.M), 0)


def unnamed(text):
    """Those of a crate for which no licence is named."""
    return {name: size for name, size in functions(text).items()
            if UNNAMED.fullmatch(name.partition(".")[0]) and "." in name}


def texts(pattern):
    """Texts of generated/, by their names."""
    return {it.stem: it.read_text() for it in sorted((ROOT / "generated").glob(pattern))}


def share(text):
    """The share in whole per cent."""
    return round(100 * sum(unnamed(text).values()) / sum(functions(text).values()))


def of_the_kit(found):
    """The functions in some texts for which no licence is named, and the texts without ours."""
    for name, text in found.items():
        if not any(it.startswith("ring_core.") for it in functions(text)):
            yield name, "no function of ring_core: the names are read wrongly"
        yield from ((name, it) for it in unnamed(text))


def library_has_none():
    """The library's texts have no function for which no licence is named."""
    found = texts("yezdopin_*.S")
    return [*of_the_kit(found)] if found else [("generated", "has no text of the library")]


def planted_function_of_the_library_is_found():
    """In each text of the library a function of the kit's that is planted there is found."""
    wrong = []
    for name, text in texts("yezdopin_*.S").items():
        own = min(it for it in functions(text) if it.startswith("ring_core."))
        planted = text.replace(own, "core.slice.planted")
        if (name, "core.slice.planted") not in of_the_kit({name: planted}):
            wrong.append((name, "core.slice.planted is not found"))
    return wrong


def pages_have_the_shares():
    """LICENSE and the programs' pages have the programs' shares."""
    wrong = []
    for program, page in PAGES.items():
        wanted = share(texts(f"{program}.S")[program])
        for name in (page, "LICENSE"):
            said = " ".join((ROOT / name).read_text().replace("`", "").split())
            found = re.findall(SHARE.format(program), said)
            if found != [str(wanted)]:
                wrong.append((f"{name}: {program} has {wanted} per cent", str(found)))
    return wrong


def write_shares():
    """Puts the programs' shares into the pages, where another number stands."""
    for program, page in PAGES.items():
        number = share(texts(f"{program}.S")[program])
        for path in (ROOT / page, ROOT / "LICENSE"):
            wanted = rf"([Oo]f\s+the\s+code\s+of\s+`?{program}`?\s+)\d+(\s+per\s+cent)"
            path.write_text(re.sub(wanted, rf"\g<1>{number}\2", path.read_text()))


def places_name_the_same():
    """Each package names its licence as the others do."""
    wrong = []
    for name, (pattern, wanted) in NAMED.items():
        found = re.findall(pattern, (ROOT / name).read_text(), re.M)
        if not found or set(found) != {wanted}:
            wrong.append((f"{name}: wants {wanted}", str(found)))
    return wrong


def planted_functions_are_found():
    """A planted function of the kit's, in either form of the text, is found with its size."""
    text = """
	TYPE(std.io.planted, %function)
	SIZE(std.io.planted, 17)
	.type core.planted, %function
	.size core.planted, 4
	.type core.constants, %object
	.size core.constants, 400
	.type ring_core.ours, %function
	.size ring_core.ours, 9
	.type memchr.under_mit, %function
	.size memchr.under_mit, 9
"""
    found = unnamed(text)
    return [] if found == {"std.io.planted": 17, "core.planted": 4} else [("planted", str(found))]


def main():
    if sys.argv[1:] == ["--names"]:
        for name, text in {**texts("yezdopin_*.S"), **texts("ring_*.S")}.items():
            found, whole = unnamed(text), sum(functions(text).values())
            print(f"{name}: {len(found)} functions, {sum(found.values())} of {whole} bytes")
            print("".join(f"    {size:6} {it}\n" for it, size in sorted(found.items())), end="")
        return 0
    if sys.argv[1:] == ["--write"]:
        write_shares()
        return 0
    cases = [library_has_none, planted_function_of_the_library_is_found, pages_have_the_shares,
             places_name_the_same, planted_functions_are_found]
    return counted.report(*counted.run_answered((it, "") for it in cases))


if __name__ == "__main__":
    sys.exit(main())
