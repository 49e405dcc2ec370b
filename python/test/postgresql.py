#!/usr/bin/env python3
# SPDX-License-Identifier: ISC
"""Passwords that are not ASCII, beside a PostgreSQL server of the test's own: each that ALTER ROLE
derives is verified here, and a client logs in with those that are derived here.

Characters whose neighbour is in other tables of RFC 3454 (all that are from right to left, and all
prohibited ones that NFKC changes, too) are tried one by one. The others stand 64 in a password. The
last line is 'N passed, M failed'.
"""

import concurrent.futures
import pathlib
import stringprep
import subprocess
import sys
import tempfile
import unicodedata

sys.dont_write_bytecode = True
sys.path.append(str(pathlib.Path(__file__).resolve().parents[2] / "tests"))
import password_hashes as peers
from yezdopin import password_hash

# Removed from a password that is prepared, and kept in one that is prohibited.
SOFT_HYPHEN = "\u00ad"
HEBREW = "\u05d0"
TABLES = [
    getattr(stringprep, f"in_table_{it}")
    for it in ("a1", "b1", "c12", "c21_c22", "c3", "c4", "c6", "c7", "c8", "c9", "d1", "d2")
]
PROHIBITED = [it for it in TABLES if it.__name__[9] in "ac" and not it.__name__.endswith("c12")]
SESSIONS = 4
IN_ONE_PASSWORD = 64
LOGINS = 240
ITERATIONS = 4096  # the server's own


def is_character(code):
    return code != 0 and not 0xD800 <= code < 0xE000


def tables_of(code):
    return tuple(table(chr(code)) for table in TABLES)


def is_prohibited(code):
    return any(table(chr(code)) for table in PROHIBITED)


def is_tried_alone(code):
    """Whether a character with neighbours of the same tables is tried one by one nevertheless."""
    symbol = chr(code)
    if stringprep.in_table_d1(symbol) and not stringprep.in_table_a1(symbol):
        return True
    return is_prohibited(code) and unicodedata.normalize("NFKC", symbol) != symbol


def codes_alone():
    """The codes on both sides of each border between tables, and those of `is_tried_alone`."""
    found, before = set(), None
    for code in filter(is_character, range(sys.maxunicode + 1)):
        tables = tables_of(code)
        if tables != before:
            found |= {code - 1, code}
        before = tables
        if is_tried_alone(code):
            found.add(code)
    return sorted(filter(is_character, found))


def passwords_alone(codes):
    """Each by itself, between Latin letters, and between Hebrew ones."""
    for symbol in map(chr, codes):
        yield symbol
        yield f"a{symbol}{SOFT_HYPHEN}a"
        yield f"{HEBREW}{symbol}{SOFT_HYPHEN}{HEBREW}"


def passwords_together():
    """All that nothing prohibits: those from right to left between Hebrew letters, the others
    between Latin ones, and those of no direction between both."""
    allowed = [
        chr(it) for it in range(1, sys.maxunicode + 1) if is_character(it) and not is_prohibited(it)
    ]
    to_left = [it for it in allowed if stringprep.in_table_d1(it)]
    to_right = [it for it in allowed if stringprep.in_table_d2(it)]
    neither = sorted({*allowed}.difference(to_left, to_right))
    for end, symbols in (
        (HEBREW, to_left), ("a", to_right), (HEBREW, neither), ("a", neither),
    ):
        for at in range(0, len(symbols), IN_ONE_PASSWORD):
            yield end + "".join(symbols[at : at + IN_ONE_PASSWORD]) + SOFT_HYPHEN + end


def quoted(password):
    """The password as a constant of SQL."""
    return "U&'" + "".join(f"\\+{ord(it):06X}" for it in password) + "'"


def derived_by(server, name, passwords):
    """What the server keeps of each password."""
    commands = [f"CREATE ROLE {name} LOGIN;"]
    for it in passwords:
        commands += [
            f"ALTER ROLE {name} PASSWORD {quoted(it)};",
            f"SELECT rolpassword FROM pg_authid WHERE rolname = '{name}';",
        ]
    run = server.script("\n".join(commands))
    texts = run.stdout.decode().split()
    if run.returncode or len(texts) != len(passwords):
        raise SystemExit(f"{len(texts)} of {len(passwords)} passwords: {run.stderr.decode()}")
    return texts


def shown(password):
    return " ".join(f"U+{ord(it):04X}" for it in password)


def refused_of_theirs(server, name, passwords):
    """The passwords that are not verified by what the server keeps of them."""
    texts = derived_by(server, name, passwords)
    return [
        f"not verified: {shown(it)}" for it, text in zip(passwords, texts)
        if not password_hash.verify(text, it.encode(), max_iterations=ITERATIONS)
    ]


def refused_of_ours(server, name, passwords):
    """The passwords that do not log in by what is derived of them here."""
    wrong = []
    server.script(f"CREATE ROLE {name} LOGIN")
    for it in passwords:
        text = password_hash.new("postgresql", it.encode(), iterations=ITERATIONS)
        server.script(f"ALTER ROLE {name} PASSWORD '{text}'")
        if server.ask(name, it, "SELECT 1") != "1":
            wrong.append(f"no login: {shown(it)}")
    return wrong


def in_sessions(call, server, name, passwords):
    """What a call finds wrong with passwords, which some sessions share."""
    shares = [passwords[at::SESSIONS] for at in range(SESSIONS)]
    with concurrent.futures.ThreadPoolExecutor(SESSIONS) as pool:
        runs = [pool.submit(call, server, f"{name}{at}", it) for at, it in enumerate(shares)]
    return [fault for run in runs for fault in run.result()]


class Server(peers.Server):
    def script(self, commands):
        """Runs commands as the superuser."""
        command = ["psql", "-h", self.folder, "-U", "super", "-d", "postgres", "-AtqX"]
        environment = dict(peers.os.environ, PGPASSWORD="super")
        return subprocess.run(
            [*command, "-v", "ON_ERROR_STOP=1"], input=commands.encode(), env=environment,
            capture_output=True, check=False,
        )


def main():
    alone = list(passwords_alone(codes_alone()))
    theirs = [*alone, *passwords_together()]
    ours = alone[:: len(alone) // LOGINS]
    with tempfile.TemporaryDirectory(prefix="postgresql.") as folder:
        server = Server(folder)
        try:
            wrong = in_sessions(refused_of_theirs, server, "theirs", theirs)
            wrong += in_sessions(refused_of_ours, server, "ours", ours)
        finally:
            server.stop()
    for fault in wrong[:40]:
        print(f"FAILED: {fault}")
    print(f"{len(theirs) + len(ours) - len(wrong)} passed, {len(wrong)} failed")
    return bool(wrong)


if __name__ == "__main__":
    sys.exit(main())
