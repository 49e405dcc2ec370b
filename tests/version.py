#!/usr/bin/env python3
# SPDX-License-Identifier: ISC
"""The version, which stands in c/include/yezdopin.h, and in every other place must be the same.

PLACES are the files that have to state it. Beside them a package or a program with a version behind
its name, as in `NAME-1.2.3.crate`, and the shared library with its major number are looked for in
all files and their names, but for the pages of HISTORY, which speak of other versions too. Then
another version is planted wherever this one stands, in any file, and must be found there, so that
no place is left out. The same is tried of the texts as tools/new_version raises them. The last line
is 'N passed, M failed'.
"""

import pathlib
import re
import runpy
import subprocess
import sys

ROOT = pathlib.Path(__file__).resolve().parent.parent
HEADER = "c/include/yezdopin.h"
HISTORY = ("CHANGELOG.md", "docs/VERSIONS.md")
# What states no version: other projects' outputs, machine code as text, and this test; what has the
# version of each symbol, with its test; and what has a next version for an example.
NOT_READ = (":!vectors", ":!generated", ":!tests/version.py", ":!tests/symbols.py",
            ":!packaging/debian/*.symbols", ":!docs/RELEASING.md", ":!tools/new_version")

# The files that must state the version, and how: the first that the pattern finds is read.
PLACES = (
    (r'^version = "(.+)"$', "python/pyproject.toml", "rust/Cargo.toml",
     "rust/Cargo.lock", "rust/rustcrypto/Cargo.toml"),
    (r'^  "version": "(.+)",$', "javascript/package.json", "javascript/package/package.json"),
    (r"^    version: (.+)$", "openssl/README.md"),
    (r"^## (.+) - \d{4}-\d\d-\d\d$", "CHANGELOG.md"),
    (r"^YZ_VERSION = (\d+) \* 2 \^ 16 \+ (\d+) \* 2 \^ 8 \+ (\d+)$",
     "crates/ring_c/specs/Version.antt"),
    (r"^pub\(crate\) const VERSION: u32 = 0x(\w+);$", "crates/ring_c/src/version.rt"),
    (r"library_version\(\), 0x(\w+)\)", "packaging/test/packages"),
)
ANYWHERE = (
    r"(?:yezdopin|passwords|sums|bench)[\w()-]*?[-_ ]\(?(?:>= )?(\d+\.\d+(?:\.\d+)?)",
    r"(?:libyezdopin(?:\.so\.)?|YEZDOPIN_)(\d+)",
)
# Beside these, places whose number is planted one higher.
RAISED = (
    (HEADER, r"#define YZ_VERSION_MINOR (\d+)"),
    ("crates/ring_c/specs/Version.antt", r"\+ (\d+) \* 2 \^ 8 \+"),
    ("crates/ring_c/src/version.rt", r"VERSION: u32 = 0x(\w+)"),
    ("packaging/test/packages", r"library_version\(\), 0x(\d+)"),
    ("packaging/test/packages", r"find_package\(yezdopin \d+\.(\d+)"),
    ("c/exports.map", r"YEZDOPIN_(\d+)"),
    ("c/README.md", r"libyezdopin\.so\.(\d+)"),
)


def texts_of_repository():
    """The files that git knows, each with its text."""
    listed = subprocess.run(
        ["git", "ls-files", "--cached", "--others", "--exclude-standard", "--", ".", *NOT_READ],
        cwd=ROOT, capture_output=True, text=True, check=True,
    )
    files = (name for name in listed.stdout.splitlines() if (ROOT / name).is_file())
    return {name: (ROOT / name).read_text(errors="replace") for name in files}


def numbers(match, pattern):
    """The major number, the minor one and the patch, or as many of them as stand there."""
    if "0x" in pattern:
        number = int(match[1].replace("_", ""), 16)
        return number >> 16, number >> 8 & 0xFF, number & 0xFF
    return tuple(map(int, ".".join(match.groups()).split(".")))


def version_of(texts):
    """The header's version."""
    parts = (re.search(rf"^#define YZ_VERSION_{it} (\d+)$", texts[HEADER], re.M)
             for it in ("MAJOR", "MINOR", "PATCH"))
    return tuple(int(it[1]) for it in parts)


def places(texts):
    """Each place with the version that stands there, which is None where it is missing."""
    for pattern, *files in PLACES:
        for name in files:
            match = re.search(pattern, texts[name], re.M)
            yield name, match and numbers(match, pattern)
    for name, text in texts.items():
        read = f"{name}\n{text}" if name not in HISTORY else ""
        for pattern in ANYWHERE:
            yield from ((name, numbers(it, pattern)) for it in re.finditer(pattern, read))


def outcomes(texts):
    """Of each place None, or what is wrong with it."""
    version = version_of(texts)
    for name, found in places(texts):
        right = found is not None and found == version[: len(found)]
        yield None if right else f"{name}: the version is {found}, and in {HEADER} {version}"


def with_other(text, span, other):
    """A text with another one in the place of a part."""
    return text[: span[0]] + other + text[span[1] :]


def literals(texts):
    """Another version in each place where this one stands."""
    version = version_of(texts)
    literal = re.compile(rf"(?<![\d.]){re.escape('.'.join(map(str, version)))}(?!\.?\d)")
    other = ".".join(map(str, (*version[:-1], version[-1] + 1)))
    for name, text in texts.items():
        for match in literal.finditer(text):
            yield name, with_other(text, match.span(), other)


def planted(texts):
    """Beside those of `literals`, no version in PLACES, and those of RAISED."""
    for pattern, *files in PLACES:
        for name in files:
            match = re.search(pattern, texts[name], re.M)
            yield name, with_other(texts[name], match.span() if match else (0, 0), "")
    for name, pattern in RAISED:
        match = re.search(pattern, texts[name])
        raised = str(int(match[1]) + 1) if match else ""
        yield name, with_other(texts[name], match.span(1) if match else (0, 0), raised)


def missed_faults(texts, faults):
    """The planted faults that are not found."""
    for name, text in faults:
        if text == texts[name] or not any(outcomes({**texts, name: text})):
            yield f"planted in {name}, and no pattern reads it"


def raised(texts):
    """The texts of the next version, which begins with a change of the interface."""
    tool = runpy.run_path(str(ROOT / "tools/new_version"))
    major, minor, patch = version_of(texts)
    changed = {**texts, "CHANGELOG.md": "## Unreleased\n" + texts["CHANGELOG.md"]}
    return {name: tool["replaced"](name, text, f"{major}.{minor}.{patch}", f"{major}.{minor + 1}.0")
            for name, text in changed.items()}


def main():
    texts = texts_of_repository()
    later = raised(texts)
    count, failed = 0, []
    for it, faults in ((texts, [*literals(texts), *planted(texts)]), (later, [*literals(later)])):
        found = list(outcomes(it))
        count += len(found) + len(faults)
        failed += [why for why in found if why] + list(missed_faults(it, faults))
    for it in failed:
        print(f"FAILED: {it}")
    print(f"{count - len(failed)} passed, {len(failed)} failed")
    return bool(failed)


if __name__ == "__main__":
    sys.exit(main())
