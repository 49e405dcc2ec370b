#!/usr/bin/env python3
# SPDX-License-Identifier: ISC
"""Tests that Debian's file of symbols has each call of the C library with the version it came in.

packaging/debian/libyezdopin0.symbols is compared with the header, and with the header's history:
the header as it stood at the end of the day of each release, which CHANGELOG.md dates, has the
calls of that version. A call of no release has the header's version, or, until it is raised, the
next one. Without git's history that part is left out. The last line is 'N passed, M failed', or
'N passed, M failed, K skipped'.
"""

import pathlib
import re
import subprocess
import sys

sys.dont_write_bytecode = True
ROOT = pathlib.Path(__file__).resolve().parent.parent
sys.path.append(str(ROOT / "tests/lib"))
import counted

SYMBOLS = ROOT / "packaging/debian/libyezdopin0.symbols"
# The header, and where it stood before.
HEADERS = ("c/include/yezdopin.h", "capi/include/yezdopin.h")


def calls(header):
    """The calls that a header declares, without those that it defines itself."""
    text = re.sub(r"^static.*", "", header, flags=re.M)
    return set(re.findall(r"\b(yz_[a-z0-9_]*)\(", text))


def listed(text):
    """The symbols of a file for Debian, with their versions."""
    return dict(re.findall(r"^ (\S+)@YEZDOPIN_0 (\S+)$", text, re.M))


def numbers(version):
    """A version that can be compared."""
    return tuple(map(int, version.split(".")))


def current():
    """The header's version."""
    text = (ROOT / HEADERS[0]).read_text()
    return ".".join(re.search(rf"VERSION_{it} (\d+)", text)[1]
                    for it in ("MAJOR", "MINOR", "PATCH"))


def git(*arguments):
    """What git writes, or nothing where it fails."""
    run = subprocess.run(["git", "-C", ROOT, *arguments], capture_output=True, text=True,
                         check=False)
    return run.stdout if run.returncode == 0 else ""


def released(date):
    """The calls of the header at the end of a day, or nothing without the history."""
    commit = git("rev-list", "-1", f"--before={date} 23:59:59 +0000", "HEAD").strip()
    texts = (git("show", f"{commit}:{it}") for it in HEADERS if commit)
    return calls(next(filter(None, texts), ""))


def by_history(changelog, calls_of):
    """The version in which each call came, oldest first, by the dates of CHANGELOG's headings."""
    came = {}
    for version, date in reversed(re.findall(r"^## (\S+) - (\S+)$", changelog, re.M)):
        for call in calls_of(date):
            came.setdefault(call, version)
    return came


def wrong(symbols, came, version):
    """The symbols with another version than the history has, or a version before its time."""
    for name, said in symbols.items():
        if name in came and said != came[name]:
            yield name, f"{said}, and it came with {came[name]}"
        elif name not in came and name.startswith("yz_") and numbers(said) <= numbers(version):
            if said != version or version in came.values():
                yield name, f"{said}, and no release has it"


def names_are_the_headers():
    """The symbols are the header's calls, and that of the version."""
    names = calls((ROOT / HEADERS[0]).read_text()) | {"YEZDOPIN_0"}
    return [(it, "in one place alone") for it in names ^ set(listed(SYMBOLS.read_text()))]


def versions_are_the_historys():
    """Each symbol has the version of the first release whose header declares it."""
    came = by_history((ROOT / "CHANGELOG.md").read_text(), released)
    return list(wrong(listed(SYMBOLS.read_text()), came, current()))


def planted_versions_are_found():
    """A symbol that is too old, one that is too new and one that no release has are found."""
    changelog = "## 0.2.0 - 2026-02-02\n## 0.1.0 - 2026-01-01\n"
    history = {"2026-01-01": {"yz_a"}, "2026-02-02": {"yz_a", "yz_b"}}
    came = by_history(changelog, history.get)
    right = {"yz_a": "0.1.0", "yz_b": "0.2.0", "yz_c": "0.3.0"}
    planted = ({"yz_a": "0.2.0"}, {"yz_b": "0.1.0"}, {"yz_c": "0.1.0"}, {"yz_c": "0.2.0"})
    found = [list(wrong({**right, **it}, came, "0.2.0")) for it in ({}, *planted)]
    return [] if list(map(len, found)) == [0, 1, 1, 1, 1] else [("planted", str(found))]


if __name__ == "__main__":
    lacking = "" if released("2026-11-26") else "git's history"
    sys.exit(counted.report(*counted.run_answered([
        (names_are_the_headers, ""), (versions_are_the_historys, lacking),
        (planted_versions_are_found, "")])))
