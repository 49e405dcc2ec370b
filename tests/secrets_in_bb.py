#!/usr/bin/env python3
# SPDX-License-Identifier: ISC
"""Tests that keys, tags, secrets and passwords are compared in `bb` alone, and index nothing.

Neither a clause nor a meter sees a second comparison beside the one that counts its pairs: one that
ends at the first byte that differs. So the code is searched. Secret is what is named or typed as a
key, a tag, a secret or a password, and what is made of it: by `let`, by assignment, in the buffer
that a call fills, and in the parameters of the functions that it is handed to. No such value stands
beside `==` or another comparison, in a condition, before a pattern with a literal, in a method that
compares, in an index, or in the bounds of a loop, and no type of such values derives a comparison.
Public are lengths, numbers in fields, and what a call answers that gives a bool or no value, since
it is searched itself. `ring_core` and the digests of `ring` are not searched: `bb` stands there,
and of the rest the traces of the C library see all. What stands in ALLOWED is known, with its
reason. The search is repeated, each time with one planted body that it has to find. The last line
is 'N passed, M failed'.
"""

import pathlib
import re
import sys

sys.dont_write_bytecode = True
sys.path.append(str(pathlib.Path(__file__).resolve().parent / "lib"))
import rattle_text
import secret_flow
from planted_leaks import PLANTED

ROOT = pathlib.Path(__file__).resolve().parent.parent
CRATES = (
    "ring", "ring_text", "ring_store", "ring_store_text", "ring_password_hash", "ring_schedules",
    "ring_tokens", "ring_c", "ring_passwords", "ring_examples",
)  # fmt: skip
DIGESTS = "crates/ring/src/digest"
# What is secret by its name, and the types whose values are. In the methods of these types what
# they are made of is, under whatever name.
NAMED = re.compile(
    r"(?:\w+_)?(?:key|secret|tag|password|prk|psk|credential|shared|keying_material|mac|derived"
    r"|kept)s?"
)
MADE_OF = ("value", "key_value", "bytes", "master")
TYPED = re.compile(
    r"\b(?:Key|Tag|Prk|Okm|Secret|SharedSecret|HashValue|TrafficSecret|FinishedKey|EarlySecret"
    r"|HandshakeSecret|MasterSecret|ExporterSecret|ResumptionSecret|TokenMaker|RawKey|TagContext"
    r"|RawTagContext)\b"
)
# The types of fields that hold no secret: numbers, and what chooses an algorithm or a form.
PUBLIC = re.compile(
    r"usize|u32|u64|u128|bool|NonZero\w+|(?:\w+::)*(?:Algorithm|Alg|Hash|Scheme|Encoding|M|L)"
)
# And of results: a call that gives one of these tells nothing of its arguments that no rule sees.
RESULTS = re.compile(
    r"|usize|i32|bool|\(\)|Option<(?:usize|u64)>|(?:\w+::)*(?:Algorithm|Alg|Hash|Scheme)"
    r"|(?:\w+::)*Result<(?:\(\)|bool|usize)(?:, [\w:]+)?>"
)
COMPARISONS = re.compile(r"#\[derive\(([^)]*)\)\]\s*(?:pub(?:\(\w+\))? )?(?:struct|enum) (\w+)")
# What depends on a secret by a standard's own words: RFC 4226, section 5.3, takes four bytes from a
# place that the tag says, and RFC 5802, section 2.2, prepares a password that is not of ASCII. And
# a password that is typed ends with its line.
ALLOWED = {
    "crates/ring_passwords/src/password.rt: read_line",
    "crates/ring_tokens/src/otp.rt: truncate",
    "crates/ring_examples/src/hotp.rt: truncate",
    "crates/ring_password_hash/src/preparation.rt: needs_preparation",
}


def sources():
    """The code of each file of the crates that is no test and no example, without contracts, by its
    path."""
    found = {}
    for crate in sorted((ROOT / "crates").glob("*/src")):
        texts = {path: path.read_text() for path in sorted(crate.rglob("*.rt"))}
        of_tests = rattle_text.files_of_tests(texts.values())
        for path, text in texts.items():
            if path.name not in {"tests.rt", "examples.rt", *of_tests}:
                found[str(path.relative_to(ROOT))] = rattle_text.without_clauses(text)
    return found


def is_searched(path):
    """Whether a file is searched."""
    return path.split("/")[1] in CRATES and not path.startswith(DIGESTS)


class Facts:
    """What is known of the crates: the fields that hold no secret, and what functions give."""

    def __init__(self, codes):
        fields, self.results = {}, {}
        for path, code in codes.items():
            for it in re.finditer(r"\bstruct \w+[^{;]*\{([^}]*)\}", code):
                for name, _, kind in (them.partition(": ") for them in secret_flow.parts(it[1])):
                    fields.setdefault(name.split()[-1], []).append(kind)
            for it in secret_flow.functions(path, code):
                self.results.setdefault(it.name, set()).add(it.result)
        self.fields = {name for name, kinds in fields.items() if all(map(PUBLIC.fullmatch, kinds))}


def is_named(function, name):
    """Whether a parameter or a field is secret by its name."""
    of_secret = function is not None and TYPED.fullmatch(function.owner) and name in MADE_OF
    return bool(of_secret or NAMED.fullmatch(name))


def is_typed(kind):
    """Whether a value of a type is secret."""
    return bool(TYPED.search(kind))


def leaks(codes, facts):
    """What depends on a secret value in some files."""
    codes = {path: code for path, code in codes.items() if is_searched(path)}
    found = [it for path, code in codes.items() for it in secret_flow.functions(path, code)]
    flow = secret_flow.Flow(
        found, facts.results, facts.fields, is_named, is_typed, RESULTS.fullmatch
    )
    for it in found:
        if str(it) not in ALLOWED:
            yield from (f"{it} {' '.join(leak.split())}" for leak in secret_flow.leaks(flow, it))
    for path, code in codes.items():
        for derived, name in COMPARISONS.findall(code):
            if TYPED.fullmatch(name) and re.search(r"\b(?:PartialEq|PartialOrd|Hash)\b", derived):
                yield f"{path}: {name} derives a comparison"


def of_crate(codes, path):
    """The files of a file's crate, and of the one whose calls read texts."""
    near = (path.split("/")[1], "ring_text")
    return {it: code for it, code in codes.items() if it.split("/")[1] in near}


def is_found(codes, facts, known, path, *texts):
    """Whether the search finds a body that is planted in a file, among those of its crate, where
    without it so much is known."""
    text = (ROOT / path).read_text()
    for old, new in zip(texts[::2], texts[1::2]):
        if text.count(old) != 1:
            return False
        text = text.replace(old, new)
    planted = {**of_crate(codes, path), path: rattle_text.without_clauses(text)}
    return not known.issuperset(leaks(planted, facts))


def main():
    codes = sources()
    facts = Facts(codes)
    found = list(leaks(codes, facts))
    print("\n".join(f"FAILED: {it}" for it in found) or f"ok: {len(codes)} files")
    known = {path: set(leaks(of_crate(codes, path), facts))
             for path in {path for path, *_ in PLANTED.values()}}
    missed = [name for name, (path, *texts) in PLANTED.items()
              if not is_found(codes, facts, known[path], path, *texts)]
    print("\n".join(f"FAILED: not found: {name}" for name in missed) or "ok: each planted body")
    passed = len(PLANTED) - len(missed) + (not found)
    print(f"{passed} passed, {len(missed) + bool(found)} failed")
    return bool(found or missed)


if __name__ == "__main__":
    sys.exit(main())
