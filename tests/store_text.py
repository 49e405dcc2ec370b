#!/usr/bin/env python3
# SPDX-License-Identifier: ISC
"""Reads the text of a password store over `hashlib` alone, and holds ./passwords to it.

`Store` below is the reader. It verifies each password that the program set, in the text that the
program wrote, and refuses others; what it writes of the records is that text byte for byte. The
other way round, the program verifies the passwords in a text that is made here. The last line is
'N passed, M failed'.
"""

import hashlib
import os
import pathlib
import re
import sys
import tempfile

sys.dont_write_bytecode = True
sys.path.append(str(pathlib.Path(__file__).resolve().parent / "lib"))
import counted
import run as programs

HEAD = re.compile(rb"ring_store 1 ([0-9a-f]{32}) ([1-9][0-9]*)")
RECORD = re.compile(rb"((?:[0-9a-f]{2}){1,64}) ([1-9][0-9]*) ([0-9a-f]{64})")


class Store:
    """A store: its salt, its iterations, and of each name the iterations and the credential."""

    def __init__(self, text):
        head, *lines, end = text.split(b"\n")
        salt, self.iterations = HEAD.fullmatch(head).groups()
        self.salt = bytes.fromhex(salt.decode())
        rows = [RECORD.fullmatch(line).groups() for line in lines]
        self.records = {
            bytes.fromhex(name.decode()): (int(count), credential)
            for name, count, credential in rows
        }
        if end or list(self.records) != sorted(self.records) or len(self.records) != len(rows):
            raise ValueError("not the text of a store")

    def verify(self, name, password):
        """Whether this is the password of the name."""
        count, credential = self.records.get(name, (1, b""))
        return credential_of(self.salt, name, password, count) == credential


def credential_of(salt, name, password, count):
    """A credential in hex: PBKDF2 with HMAC-SHA-256, with the store's salt and the name as salt."""
    return hashlib.pbkdf2_hmac("sha256", password, salt + name, count).hex().encode()


def text_of(salt, iterations, records):
    """The text of a store."""
    rows = [
        f"{name.hex()} {count} {credential.decode()}\n"
        for name, (count, credential) in sorted(records.items())
    ]
    return f"ring_store 1 {salt.hex()} {iterations}\n{''.join(rows)}".encode()


# Names and passwords, with the iterations that they are set with.
ROWS = [
    (b"alice", b"correct horse", 600_000),
    (b"bob", b"", 1),
    ("Zoë Müller".encode(), "Größe".encode(), 2),
    (b"n" * 64, b"x" * 1000, 3),
    (b"a b", bytes(range(1, 10)) + b"\xff\x80", 1000),
    (b"A", b"p" * 64, 4),
    (b"line\nfeed", b"p" * 65, 5),
    (b"\\", b" spaces ", 4_096),
]


def runs(file, action, name, password, *options):
    """The status of a run of the program."""
    words = (programs.ROOT / "passwords", file, action, name, *options)
    return programs.ended(*words, given=password + b"\n", timeout=3600)[0]


def written(folder):
    """The text that the program writes of the rows."""
    file = pathlib.Path(folder) / "written"
    statuses = [
        runs(file, "set", name, password, "--iterations", str(count))
        for name, password, count in ROWS
    ]
    return file.read_bytes() if set(statuses) == {0} else b""


def is_verified(text):
    """The reader verifies each password in the program's text, with the iterations asked for."""
    store = Store(text)
    return all(
        store.verify(name, password) and store.records[name][0] == count
        for name, password, count in ROWS
    )


def refuses_others(text):
    """The reader refuses other passwords, another case, a byte more or less, and unknown names."""
    store = Store(text)
    others = [(name, password + b"x") for name, password, _ in ROWS]
    others += [(name, password[:-1] + b"y") for name, password, _ in ROWS]
    others += [(name, other[1]) for name, _, _ in ROWS for other in ROWS if other[0] != name]
    others += [(name, password) for _, password, _ in ROWS for name in (b"nobody", b"Alice", b"")]
    return not any(store.verify(name, password) for name, password in others)


def is_written_again(text):
    """What the reader found is written again byte for byte."""
    store = Store(text)
    again = text_of(store.salt, store.iterations.decode(), store.records)
    return again == text and len(store.records) == len(ROWS)


def program_verifies(folder):
    """The program verifies the reader's passwords and no others, and leaves its text as it is."""
    salt, file = os.urandom(16), pathlib.Path(folder) / "made"
    text = text_of(salt, 7, {row[0]: (row[2], credential_of(salt, *row)) for row in ROWS})
    file.write_bytes(text)
    right = [runs(file, "verify", name, password) for name, password, _ in ROWS]
    wrong = [runs(file, "verify", name, password + b"x") for name, password, _ in ROWS]
    return set(right) == {0} and set(wrong) == {1} and file.read_bytes() == text


def program_writes_back(folder):
    """A name that is added to the reader's text and removed again leaves it byte for byte."""
    salt, file = os.urandom(16), pathlib.Path(folder) / "changed"
    text = text_of(salt, 9, {row[0]: (row[2], credential_of(salt, *row)) for row in ROWS})
    file.write_bytes(text)
    is_set = runs(file, "set", b"bobby", b"x") == 0
    added = is_set and Store(file.read_bytes()).verify(b"bobby", b"x")
    return added and runs(file, "remove", b"bobby", b"") == 0 and file.read_bytes() == text


def main():
    programs.built("ring_passwords")
    passed = failed = 0
    with tempfile.TemporaryDirectory(prefix="store_text.") as folder:
        text = written(folder)
        cases = [(case, text) for case in (is_verified, refuses_others, is_written_again)]
        for case, given in [*cases, (program_verifies, folder), (program_writes_back, folder)]:
            holds = bool(text) and case(given)
            print(f"{'ok' if holds else 'FAILED'}: {case.__doc__}", flush=True)
            passed, failed = passed + holds, failed + (not holds)
    return counted.report(passed, failed, 0)


if __name__ == "__main__":
    sys.exit(main())
