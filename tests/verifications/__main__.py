#!/usr/bin/env python3
# SPDX-License-Identifier: ISC
"""Tests that each package answers each verification of one table of calls, and that none verifies
by a call that its program for the table lacks.

    tests/verifications
    tests/verifications --write FILE    writes the table

The table has each verification over the right value and over values near it: each cut of it, each
byte changed, longer ones and none, at the lengths where a package goes another way. `make
verifications`, `python`, `rust`, `rustcrypto`, `js-test` and `openssl-verifications` write it to
out/verifications.txt and answer it. A line `let NAME HEX` names bytes. The field of bytes is hex
digits, `-` for none, or `@NAME` with at most one edit: `=PLACE:HEX` for another byte there,
`<LENGTH` for the first bytes, `>LENGTH` for what is behind them, `+HEX` for more. Below each call,
behind `#= `, stands what must come: `match` or `mismatch`, and of a call that finds something
`mismatch`, or else the field of a payload or a counter.

The last line is 'N passed, M failed'.
"""

import os
import pathlib
import re
import sys

sys.dont_write_bytecode = True
HERE = pathlib.Path(__file__).resolve().parent
ROOT = HERE.parents[1]
sys.path[:0] = [str(HERE), str(HERE.parent), str(HERE.parent / "lib")]
import calls

WORDS = [
    "hmac-verify", "pbkdf2-verify", "jws-verify", "hotp-find", "totp-find", "merkle-inclusion",
    "merkle-inclusion-of-other-lengths", "merkle-consistency",
    "merkle-consistency-of-other-lengths", "password-verify", "webhook-hex", "webhook-github",
    "webhook-stripe", "tls13-finished", "equal",
]
OTHER_LENGTHS = [it for it in WORDS if it.endswith("-of-other-lengths")]
# Of each package the program that answers the table, and the makefile that runs it.
PROGRAMS = {
    "C": ("c/test/verifications.c", "c/c.mk"),
    "Python": ("python/test/test_verifications.py", "python/python.mk"),
    "Rust": ("rust/tests/verifications.rs", "rust/rust.mk"),
    "RustCrypto": ("rust/rustcrypto/tests/verifications.rs", "rust/rust.mk"),
    "JavaScript": ("javascript/test/verifications.test.mjs", "javascript/javascript.mk"),
    "OpenSSL": ("openssl/test/verifications.c", "openssl/openssl.mk"),
}
# Why a package's program lacks a verification.
LACKING = {
    "C": dict.fromkeys(OTHER_LENGTHS, "a hash is a struct of 32 bytes"),
    "Rust": dict.fromkeys(OTHER_LENGTHS, "a hash is an array of 32 bytes"),
    "RustCrypto": {
        **dict.fromkeys(WORDS, "RustCrypto has no trait for it"),
        "pbkdf2-verify": "its crate `pbkdf2` derives, and compares nothing",
        "equal": "its crate `subtle` compares",
    },
    "OpenSSL": {
        **dict.fromkeys(WORDS, "OpenSSL's providers have no such operation"),
        "equal": "CRYPTO_memcmp is OpenSSL's own",
    },
}
for it in ("hmac-verify", "password-verify"):
    del LACKING["RustCrypto"][it]
for it in ("hmac-verify", "pbkdf2-verify"):
    del LACKING["OpenSSL"][it]
VERIFYING = r"\w*(?:[Vv]erify|find|[Ee]qual|compare)\w*"


def text_of(path):
    return (ROOT / path).read_text()


def found_in(paths, pattern):
    """What a pattern finds in files, with each file."""
    for path in sorted(ROOT.glob(paths)):
        for match in re.findall(pattern, path.read_text(), re.M):
            yield path, match


def calls_of_c():
    """The calls of the header that verify, as a program names them."""
    return {name + "(" for _, name in found_in("c/include/yezdopin.h", rf"\b(yz_{VERIFYING})\(")}


def calls_of_python():
    """Those that the modules export, and the methods of `Key`."""
    modules = {"__init__": "yezdopin", "hmac": "tags"}
    for path, names in found_in("python/src/yezdopin/*.py", r"^__all__ = \[([^]]*)\]"):
        for name in re.findall(rf'"({VERIFYING})"', names):
            # `yezdopin.compare_digest` is that of `hmac`.
            module = "tags" if name == "compare_digest" else modules.get(path.stem, path.stem)
            yield f"{module}.{name}"
    for _, name in found_in("python/src/yezdopin/_native.pyi", rf"^    def ({VERIFYING})\(self"):
        yield f").{name}("


def calls_of_rust():
    """The public functions that verify, by their modules."""
    for path, name in found_in("rust/src/**/*.rs", rf"^pub fn ({VERIFYING})\b"):
        is_alone = path.stem == "constant_time"
        yield f"{name}(" if is_alone else f"{path.stem}::{name}("


def calls_of_javascript():
    """The methods that verify, by the interfaces of the types."""
    objects = {it.capitalize(): it for it in ("subtle", "otp", "jws", "merkle", "webhook", "tls13")}
    holder = ""
    for _, (interface, name) in found_in(
        "javascript/package/types.d.ts", rf"^export interface (\w+)|^  ({VERIFYING})[(<]"
    ):
        holder = interface or holder
        if name:
            holding = {**objects, "PasswordHash": "passwordHash"}.get(holder)
            yield f"yz.{holding}.{name}" if holding else f"yz.{name}"


def lacking_calls():
    """The packages' own calls that verify, and that their programs lack; how many there are."""
    count, lacking = 0, []
    for package, names in (
        ("C", calls_of_c()), ("Python", calls_of_python()), ("Rust", calls_of_rust()),
        ("JavaScript", calls_of_javascript()),
    ):
        program, names = PROGRAMS[package][0], set(names)
        count += len(names)
        lacking += [f"{program} lacks {it}" for it in sorted(names) if it not in text_of(program)]
        if len(names) < 9:
            lacking.append(f"{package}: only {len(names)} calls that verify are found")
    return count, lacking


def lacking_words():
    """The words of the table that programs lack without a reason, and reasons for what they have;
    how many words there are."""
    counted = {}
    for line in calls.lines():
        if not line.startswith(("#= ", "let ")):
            word = line.split(" ", 1)[0]
            counted[word] = counted.get(word, 0) + 1
    lacking = [f"the table has other words: {sorted(counted)}"] * (set(counted) != set(WORDS))
    for package, (program, makefile) in PROGRAMS.items():
        text, reasons = text_of(program), LACKING.get(package, {})
        if "VERIFICATIONS" not in text_of(makefile):
            lacking.append(f"{makefile} doesn't give the table to {program}")
        for word in WORDS:
            # Some programs know such words by their ends.
            has_it = f'"{word}"' in text or word in OTHER_LENGTHS and "CALLS[`" in text
            has_it = has_it or re.search(rf"^  {word}: \(", text, re.M) is not None
            if has_it == (word in reasons):
                lacking.append(f"{program}: {word}, {reasons.get(word, 'without a reason')}")
    for word in WORDS:
        print(f"{counted.get(word, 0):6} calls of {word}")
    return len(PROGRAMS) * len(WORDS), lacking


def main():
    if sys.argv[1:2] == ["--write"]:
        place = pathlib.Path(sys.argv[2])
        room = place.with_name(f"{place.name}.{os.getpid()}")
        room.write_text("".join(f"{it}\n" for it in calls.lines()))
        room.replace(place)
        return 0
    count = failed = 0
    for tried in (lacking_words, lacking_calls):
        more, lacking = tried()
        count, failed = count + more, failed + len(lacking)
        for it in lacking:
            print(f"FAILED: {it}")
    print(f"{count - min(failed, count)} passed, {failed} failed")
    return failed != 0


if __name__ == "__main__":
    sys.exit(main())
