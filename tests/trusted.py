#!/usr/bin/env python3
# SPDX-License-Identifier: ISC
"""Names each file of code that users run and no proof covers: docs/uncovered.txt lists it with its
lines, and docs/PROVED.md each folder, so that none is added or grows in silence.

    tests/trusted.py
    tests/trusted.py --write    renews the list and the table of the page

A file of code counts where git has it, unless it is below the crates, which are proved, is text
that a program made of proved code, or is a test, an example or a tool. The last line is 'N passed,
M failed'.
"""

import collections
import pathlib
import re
import subprocess
import sys

ROOT = pathlib.Path(__file__).resolve().parent.parent
PAGE, LIST = ROOT / "docs/PROVED.md", ROOT / "docs/uncovered.txt"
BEGIN, END = "<!-- uncovered: made by tests/trusted.py --write -->", "<!-- /uncovered -->"
SUFFIXES = {".c", ".h", ".S", ".py", ".rs", ".js", ".mjs", ".cjs", ".sh", ".awk"}
# What is proved, and what no user's program is made of or runs.
OTHER_TREES = {"crates", "docs", "speed", "tests", "tools", "vectors", "verify"}
OTHER_FOLDERS = {"demo", "examples", "man", "peers", "speed", "test", "tests"}
# Machine code of the proved crates as text.
MADE = re.compile(r"^generated/\w+\.S$")


def is_code(path):
    """Whether a file is code: by its suffix, or, without one, by its first line."""
    file = ROOT / path
    return path.suffix in SUFFIXES or (
        not path.suffix and file.is_file() and file.read_bytes().startswith(b"#!")
    )


def counts_in(path):
    """Whether no proof covers a file that git has."""
    folders = path.parts[:-1]
    is_other = folders[:1] and folders[0] in OTHER_TREES or OTHER_FOLDERS.intersection(folders)
    is_hidden = any(it.startswith(".") for it in path.parts)
    is_other = is_other or path.stem.endswith("_test")
    return not is_other and not is_hidden and not MADE.search(str(path)) and is_code(path)


def uncovered():
    """The files by folder, each with its lines."""
    command = ["git", "-C", ROOT, "ls-files", "--cached", "--others", "--exclude-standard"]
    listed = subprocess.run(command, check=True, capture_output=True, text=True).stdout.split("\n")
    found = collections.defaultdict(dict)
    for path in sorted(pathlib.Path(it) for it in listed if it and (ROOT / it).is_file()):
        if counts_in(path):
            lines = (ROOT / path).read_text().count("\n")
            found[str(path.parent)][path.name] = lines
    return found


def table(found):
    """The rows of the page: the folders, each with its lines."""
    sums = {folder: sum(files.values()) for folder, files in sorted(found.items())}
    rows = [f"|{'the top folder' if it == '.' else f'`{it}`'}|{count}|"
            for it, count in sums.items()]
    return ["|In|Lines|", "|-|-|", *rows, f"|all|{sum(sums.values())}|"]


def lines(found):
    """The lines of the list: the files, each with its lines."""
    return [f"{count:5} {pathlib.PurePath(folder, name)}"
            for folder, files in sorted(found.items()) for name, count in files.items()]


def differences(place, made, shown):
    """What a place has and should not have, and the reverse."""
    for row in sorted(set(made).symmetric_difference(shown)):
        side = "isn't there" if row in made else "isn't so"
        yield f"{place.relative_to(ROOT)}: {side}: {row[:200]}"


def main():
    before, _, rest = PAGE.read_text().partition(f"{BEGIN}\n")
    shown, _, after = rest.partition(f"\n{END}")
    found, listed = uncovered(), LIST.read_text() if LIST.is_file() else ""
    if sys.argv[1:] == ["--write"]:
        made = "\n".join(table(found))
        PAGE.write_text(f"{before}{BEGIN}\n{made}\n{END}{after}")
        LIST.write_text("\n".join(lines(found)) + "\n")
        return 0
    wrong = [*differences(PAGE, table(found), shown.split("\n")),
             *differences(LIST, lines(found), listed.splitlines())]
    # A page whose table is out of place, or a listing that found nothing, names nothing.
    names = [name for files in found.values() for name in files]
    for name in ("dispatch.c", "processor.c", "status.c", "probe.S", "windows.py", "runtime.c"):
        if name not in names:
            wrong.append(f"{name} isn't found")
    for it in wrong:
        print(f"FAILED: {it}")
    if wrong:
        print("`tests/trusted.py --write` renews both: read what it adds.")
    print(f"{len(names) - min(len(wrong), len(names))} passed, {len(wrong)} failed")
    return bool(wrong)


if __name__ == "__main__":
    sys.exit(main())
