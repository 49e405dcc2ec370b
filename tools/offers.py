# SPDX-License-Identifier: ISC
"""What each package offers its callers by the names in its sources, for README's table of packages.

A row of docs/figures.json has a cell for each package: a list of names that the package has to
offer, for yes, or a pattern that none of its names may match in any case of letters, for no. A
comment offers nothing. The names are written as callers write them: `yz_digest`, `hmac.Key` in
Python, `hkdf::Salt::extract` in Rust, `ring::hkdf::Salt::extract` in Rattle, and in JavaScript
`digest` and `Hash.copy`. Of the provider for OpenSSL they are the words of its code, in which
stand the names of algorithms and modes.
"""

import ast
import pathlib
import re
import sys

sys.path.append(str(pathlib.Path(__file__).resolve().parent.parent / "tests/lib"))
import rattle_items

ROOT = rattle_items.ROOT
SLASHES = re.compile(r"/\*.*?\*/|//[^\n]*", re.S)
# An `impl` for a type, or what is public.
RUST = re.compile(
    r"^impl(?:<[^>]*>)? (?:[^{;]*? for )?(?P<type>\w+)"
    r"|^(?P<inside> *)pub (?:const |unsafe )*(?:fn|struct|enum|trait|const|static) (?P<name>\w+)",
    re.M,
)


def of_c(texts):
    """The functions and types that the header declares."""
    header = SLASHES.sub("", texts["c/include/yezdopin.h"])
    return set(re.findall(r"^(?:(?:\w+ )+\*?|\} )(yz_\w+)(?=[(;])", header, re.M))


def of_python(texts):
    """What `__all__` lists in the public modules, each with its module but for the package's."""
    for path, text in texts.items():
        lists = [it.value for it in ast.parse(text).body if isinstance(it, ast.Assign)
                 and getattr(it.targets[0], "id", "") == "__all__"]
        module = path.rpartition("/")[2].removesuffix(".py")
        front = "" if module == "__init__" else f"{module}."
        yield from (front + name for it in lists for name in ast.literal_eval(it))


def modules_of_rust(texts, above=""):
    """The paths of the crate's public modules, or of those in one of them."""
    text = texts[f"rust/src/{above.rstrip('/') or 'lib'}.rs"]
    for name in re.findall(r"^pub mod (\w+);", text, re.M):
        yield above + name
        yield from modules_of_rust(texts, f"{above}{name}/")


def of_rust(texts):
    """What is public in the crate's public modules: functions, types, and methods behind types."""
    for path in modules_of_rust(texts):
        module, subject = path.replace("/", "::"), ""
        for it in RUST.finditer(SLASHES.sub("", texts[f"rust/src/{path}.rs"])):
            subject = it["type"] or subject
            if it["name"]:
                yield "::".join([module, *([subject] if it["inside"] else []), it["name"]])


def of_javascript(texts):
    """What the types export in browsers, and the members of interfaces behind their names."""
    for text in (SLASHES.sub("", it) for it in texts.values()):
        yield from re.findall(r"^export const (\w+)", text, re.M)
        for name, body in re.findall(r"^export interface (\w+)[^{]*\{(.*?)\}$", text, re.M | re.S):
            yield from (f"{name}.{it}" for it in re.findall(r'(?:^  "?|^ )(\w+)"?\(', body, re.M))


def of_openssl(texts):
    """The words of the provider's code."""
    return {word for text in texts.values() for word in re.findall(r"\w+", SLASHES.sub("", text))}


def of_rattle(_texts):
    """The public items of the libraries, and their public members."""
    sources = rattle_items.Sources()
    for page, item in sources.shown.values():
        yield f"{page.name}::{item.name}"
        yield from (f"{page.name}::{item.name}::{it.name}" for it in sources.members(item))


# Where each package's names stand, and what reads them there.
PACKAGES = {
    "C": (of_c, ["c/include/yezdopin.h"]),
    "Python": (of_python, [f"python/src/yezdopin/{it}.py" for it in ("__init__", "[a-z]*")]),
    "Rust": (of_rust, ["rust/src/**/*.rs"]),
    "JavaScript": (
        of_javascript, ["javascript/package/browser.d.ts", "javascript/package/types.d.ts"]),
    "OpenSSL": (of_openssl, ["openssl/*.c", "openssl/*.h"]),
    "Rattle": (of_rattle, []),
}


def texts_of(package):
    """The files that a package's names stand in, each with its text."""
    paths = [path for pattern in PACKAGES[package][1] for path in sorted(ROOT.glob(pattern))]
    return {str(path.relative_to(ROOT)): path.read_text() for path in paths}


def names_of(package, texts=None):
    """The names that a package offers, by its files or by other texts for them."""
    return set(PACKAGES[package][0](texts_of(package) if texts is None else texts))


def fault_of(cell, names):
    """What a cell says against the names that its package offers, or None."""
    if isinstance(cell, list):
        missing = [it for it in cell if it not in names]
        return f"yes, without {', '.join(missing)}" if missing else None
    found = sorted(it for it in names if re.search(cell, it, re.I))
    return f"no, but there is {', '.join(found)}" if found else None


def faults(rows, names):
    """The cells of the table that are wrong by the names that each package offers."""
    cells = ((row, package) for row in rows for package in PACKAGES)
    told = ((row, package, fault_of(row[package], names[package])) for row, package in cells)
    return [f"{row['what']}: {package}: {fault}" for row, package, fault in told if fault]
