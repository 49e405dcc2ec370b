#!/usr/bin/env python3
# SPDX-License-Identifier: ISC
"""Tests that no call says that memory is wanting where there is plenty.

A contract admits that error wherever memory may be wanting: it can't say of an allocator how much
it has. So the code of the crates is searched first. An error of memory is made in the conversion
from `AllocError`, or where a call gave one: behind `Err(..::OutOfMemory) =>`, but not `Err(_) =>`,
which takes other errors for it, or behind `let Ok(..) = .. else`. What makes one in another place
stands in MADE, with its reason. The search is repeated, each time with one planted body that it has
to find. Then ./bench, ./passwords and ./sums answer lines and read texts of up to some MB, with
fields of odd lengths and many records, pieces and arguments.
The last line is 'N passed, M failed'.
"""

import hashlib
import hmac
import itertools
import pathlib
import re
import sys
import tempfile

sys.dont_write_bytecode = True
HERE = pathlib.Path(__file__).resolve().parent
sys.path += [str(HERE / "lib"), str(HERE.parent / "tools")]
import counted
import rattle_text
import store_text
from planted_memory import PLANTED
from rows import KEYED
from run import ROOT, built, ended

# The lengths that are tried: around powers of two and of ten, to some MB.
LENGTHS = sorted({
    at + by for at in (0, 64, 4096, 65_536, 100_000, 1_048_576, 2_000_000, 4_194_304)
    for by in (-1, 0, 1, 2) if at + by >= 0
})  # fmt: skip
# What makes an error of memory beside the answer to a call's own, and how often.
MADE = {
    # `is_header` has no other error.
    "crates/ring_tokens/src/jws.rt: verify_counted": 1,
    # A token longer than any block of memory.
    "crates/ring_tokens/src/jws.rt: sign_counted": 1,
    # A push that was refused is undone first.
    "crates/ring_sums/src/lanes.rt: Lanes::begin": 1,
    # An argument that is longer than all memory.
    "crates/ring_sums/src/program.rt: argument": 1,
    # Behind 2^64 - 1 reads of a directory, and as many directories.
    "crates/ring_sums/src/tree.rt: Walk::read": 1,
    "crates/ring_sums/src/tree.rt: Walk::append_tree": 1,
}
# An error of memory where it is a value, and the patterns that are answered with one.
MEMORY = re.compile(r"\b(?:AllocError|(?:Self|\w*(?:Error|Fault|Failure))::Memory)\b")
PATTERN = re.compile(r"\)*(?:\s+if\b[^=]*)?\s*(?:=>|\||=[^=])")
ANSWERS = re.compile(
    r"(?<!\| )\b(?:Err\([\w:]*(?:Memory|AllocError)\)|\w+::Memory)\s*=>\s*(?:return\s+)?(?:Err\()?$"
    r"|\.map_err\($"
)
LET_ELSE = re.compile(r"\blet Ok\([^;{}]*=[^;{}]*\belse \{\s*(?:return\s+)?(?:Err\()?$")


# --- the search ---


def sources():
    """The code of each crate that is no test, without contracts, by the files' paths."""
    found = {}
    for path in sorted((ROOT / "crates").glob("*/src/**/*.rt")):
        crate = path.relative_to(ROOT).parts[1]
        if not crate.endswith("_tests") and crate != "ring_test_lines":
            found[str(path.relative_to(ROOT))] = rattle_text.without_clauses(path.read_text())
    return found


def made_in(function):
    """The errors of memory that a function makes by itself."""
    is_conversion = function.name == "from" and "AllocError" in function.signature
    for it in MEMORY.finditer(function.body):
        before, behind = function.body[: it.start()], function.body[it.end() :]
        answers = is_conversion or ANSWERS.search(before) or LET_ELSE.search(before)
        if not PATTERN.match(behind) and not answers:
            yield it.group()


def faults(codes):
    """The functions that make an error of memory by themselves, and are not listed."""
    for path, code in codes.items():
        for it in rattle_text.functions(code):
            name = f"{path}: {'::'.join(filter(None, (it.owner, it.name)))}"
            count = len(list(made_in(it)))
            if count != MADE.get(name, 0):
                yield f"{name} makes {count} errors of memory"


def is_found(codes, path, old, new):
    """Whether the search finds a body that is planted in a file."""
    text = (ROOT / path).read_text()
    planted = {path: rattle_text.without_clauses(text.replace(old, new))}
    return text.count(old) == 1 and bool(list(faults(planted)))


def search():
    """errors of memory are made only where a call gave an error"""
    codes = sources()
    missed = [name for name, body in PLANTED.items() if not is_found(codes, *body)]
    return [(it, "") for it in faults(codes)] + [(it, "not found") for it in missed]


# --- the programs ---


def digits(data):
    """A field of a line."""
    return data.hex() or "-"


def bench_answers():
    """./bench answers lines with fields of each length and with many pieces"""
    rows, key = [], bytes(range(200))
    for length, keyed in zip(LENGTHS, itertools.cycle(it.name for it in KEYED)):
        data = bytes(it * 7 % 256 for it in range(length))
        field = digits(data)
        front = data[: 37 * 5000]
        pieces = ",".join(front[at : at + 37].hex() for at in range(0, len(front), 37))
        rows += [
            (f"digest SHA512 {field}", hashlib.sha512(data)),
            (f"digest SHA256 {pieces or '-'}", hashlib.sha256(front)),
            (f"hmac {keyed} {digits(key)} {field}", hmac.new(key, data, keyed.lower())),
            (f"hmac SHA256 {field} {digits(key)}", hmac.new(data, key, "sha256")),
        ]
    text = "".join(f"{line}\n" for line, _ in rows).encode()
    status, output, told = ended(built("ring_bench_main"), given=text)
    found = [it.partition(" ")[0] for it in output.decode().split("\n")[:-1]]
    wrong = [(line, it) for (line, want), it in zip(rows, found) if it != want.hexdigest()]
    ends_well = status == 0 and not told and len(found) == len(rows)
    return wrong if ends_well else [*wrong, ("", f"{status} {told!r}, {len(found)} answers")]


def long_lists_are_read():
    """./passwords reads and lists stores of up to 60,000 names"""
    for count in (0, 1, 1000, 60_000):
        names = sorted({hashlib.sha256(b"%d" % it).hexdigest()[: it % 64 + 1].encode()
                        for it in range(count)})
        records = {it: (1, b"00" * 32) for it in names}
        with tempfile.NamedTemporaryFile() as file:
            file.write(store_text.text_of(bytes(16), 1, records))
            file.flush()
            found = ended(built("ring_passwords"), file.name, "list")
        if found != (0, b"".join(it + b"\n" for it in names), b""):
            yield f"{count} names", str(found)[:200]


def sums_are_checked():
    """./sums checks lists of up to 60,000 lines, and sums as many files as arguments name"""
    empty = hashlib.sha256().hexdigest()
    with tempfile.TemporaryDirectory() as folder:
        file = pathlib.Path(folder, "n" * 200)
        file.touch()
        for count in (1, 1000, 60_000):
            line = f"{empty}  {file}\n"
            text = (line * count).encode()
            found = ended(built("ring_sums_main"), "--check", "--quiet", "-", given=text)
            if found != (0, b"", b""):
                yield f"a list of {count} lines", str(found)[:200]
        found = ended(built("ring_sums_main"), *[str(file)] * 5000)
        if found != (0, line.encode() * 5000, b""):
            yield "5000 arguments", str(found)[:200]


def listed(case):
    """A case that gives a list."""

    def run():
        return list(case())

    run.__doc__ = case.__doc__
    return run


def main():
    cases = [search, bench_answers, listed(long_lists_are_read), listed(sums_are_checked)]
    return counted.report(*counted.run_answered((it, "") for it in cases))


if __name__ == "__main__":
    sys.exit(main())
