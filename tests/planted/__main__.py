#!/usr/bin/env python3
# SPDX-License-Identifier: ISC
"""Plants faulty bodies in the code that no proof covers, each of which a named test must find.

    python3 tests/planted
    python3 tests/planted [--anew] [DOOR | BODY ..]    some of them; --anew also what passed before

A table beside this file has the bodies of one door. A body has a name, a `file`, the lines `old`,
which stand once in it, the lines `new` in their place, and the `test` that must fail: one that is
built and run in a copy of the repository. A line `also` names a test that must find it too. Without
an edit each test passes there, which is tried first. What was found is kept for the user of this
machine by the sum of the body and of the door's files, and not tried again.

The last line is 'N passed, M failed', and ', K skipped' where a door lacks a tool.
"""

import concurrent.futures
import functools
import hashlib
import itertools
import os
import pathlib
import platform
import re
import resource
import shutil
import subprocess
import sys
import tempfile
import time

sys.dont_write_bytecode = True
TABLES = pathlib.Path(__file__).resolve().parent
sys.path += [str(TABLES.parent), str(TABLES.parent / "lib")]
import c_library
import javascript
import openssl_provider
from trials import DOORS, ROOT, Body, Malformed, copied_to, fault_of, run_in

# What each door needs, and the test that knows whether it is there.
NEEDED = {
    "c": (c_library, ["cc", "make"]),
    "python": (c_library, ["cc", "Python.h"]),
    "javascript": (javascript, javascript.NEEDED),
    "rust": (c_library, ["cc", "cargo"]),
    "rustcrypto": (
        c_library, ["cc", "cargo", "librust-digest-dev", "librust-password-hash-dev"],
    ),
    "openssl": (openssl_provider, openssl_provider.NEEDED["x86_64"]),
    "programs": (c_library, ["cc", "qemu-x86_64"]),
    "instructions": (c_library, ["python3"]),
}
KEPT = pathlib.Path(os.environ.get("XDG_CACHE_HOME") or "~/.cache").expanduser() / "yezdopin"


def bodies_of(table):
    """The bodies of a table: paragraphs of lines, each with a word before a colon."""
    for paragraph in re.split(r"\n\n+", table.read_text().strip("\n")):
        body = None
        for line in paragraph.split("\n"):
            word, _, rest = line.partition(":")
            rest = rest[1:]
            if word.startswith("#"):
                continue
            if word == "body":
                body = Body(table.stem, rest)
            elif word == "file":
                body.file = rest
            elif word in ("test", "also"):
                body.tests.append(rest)
            elif word in ("old", "new"):
                getattr(body, word).append(rest)
            else:
                raise Malformed(f"{table.name}: {line}")
        if body is not None:
            yield body


@functools.lru_cache(None)
def sum_of(folders):
    """The sum of all files of some folders that git has."""
    command = ["git", "-C", ROOT, "ls-files", "-z", "--cached", "--others", "--exclude-standard",
               "--", *folders, "tests/planted/trials.py", "tests/verifications", "Makefile"]
    listed = subprocess.run(command, check=True, capture_output=True).stdout.decode().split("\0")
    found = hashlib.sha256()
    for name in sorted(it for it in listed if it and (ROOT / it).is_file()):
        found.update(f"{name}\0".encode() + hashlib.sha256((ROOT / name).read_bytes()).digest())
    return found.hexdigest()


def kept_as(body):
    """Where it is kept that a body was found."""
    of = f"{body}\0{sum_of(DOORS[body.door].folders)}"
    return KEPT / f"planted.{hashlib.sha256(of.encode()).hexdigest()}"


def tried(room, body, seen):
    """What is wrong with the trial of a body in a copy, whose tests pass without it, or None."""
    door = DOORS[body.door]
    for test in body.tests:
        if test not in seen:
            seen[test] = run_in(room, door, test)
        passed, said = seen[test]
        if not passed:
            return f"{test} fails without it:\n{said[-1500:]}"
    return fault_of(room, door, body)


def try_share(bodies):
    """Tries some bodies in a copy: each with its fault and the seconds that it took."""
    results, room = [], pathlib.Path(tempfile.mkdtemp(prefix="planted."))
    try:
        copied_to(room)
        seen = {it.door: {} for it in bodies}
        for body in bodies:
            began = time.monotonic()
            fault = tried(room, body, seen[body.door])
            if fault is None:
                KEPT.mkdir(parents=True, exist_ok=True)
                kept_as(body).touch()
            results.append((body, fault, time.monotonic() - began))
    finally:
        shutil.rmtree(room, ignore_errors=True)
    return results


def shares_of(bodies, count):
    """Bodies in shares, those of one door beside each other."""
    ordered = sorted(bodies, key=lambda it: (it.door, it.tests))
    size = max(1, -(-len(ordered) // count))
    return [ordered[at : at + size] for at in range(0, len(ordered), size)]


@functools.lru_cache(None)
def lacking(door):
    """What a door needs and this machine lacks, as the door's own test has it, or None."""
    of, tools = NEEDED[door]
    if door in ("c", "programs") and platform.machine() != "x86_64":
        return "x86-64"
    return next((it for it in tools if not of.is_there(it)), None)


def try_all(bodies):
    """Tries bodies in shares side by side, and gives how many were found, and how many not."""
    subprocess.run(["make", "-s", "-C", ROOT, "all", "out/verifications.txt"], check=True,
                   stdout=subprocess.DEVNULL)
    passed = failed = 0
    workers = min(4, len(os.sched_getaffinity(0)))
    with concurrent.futures.ThreadPoolExecutor(workers) as pool:
        shares = [pool.submit(try_share, it) for it in shares_of(bodies, 4 * workers)]
        for share in concurrent.futures.as_completed(shares):
            for body, fault, seconds in share.result():
                name = f"{body.door}: {body.name}"
                if fault is None:
                    print(f"ok: {name}, {seconds:.0f} seconds", flush=True)
                    passed += 1
                else:
                    print(f"FAILED: {name}: {fault}", flush=True)
                    failed += 1
    return passed, failed


def main():
    words = [it for it in sys.argv[1:] if it != "--anew"]
    bodies, before, skipped = [], 0, 0
    for body in itertools.chain.from_iterable(map(bodies_of, sorted(TABLES.glob("*.txt")))):
        body.text()
        if words and body.door not in words and body.name not in words:
            continue
        if lacking(body.door):
            print(f"left out: {body.door}: {body.name}, without {lacking(body.door)}")
            skipped += 1
        elif "--anew" not in sys.argv and kept_as(body).exists():
            before += 1
        else:
            bodies.append(body)
    print(f"{before} were found before, and {len(bodies)} are tried", flush=True)
    passed, failed = try_all(bodies) if bodies else (0, 0)
    used = [resource.getrusage(it) for it in (resource.RUSAGE_SELF, resource.RUSAGE_CHILDREN)]
    print(f"of processor: {sum(it.ru_utime + it.ru_stime for it in used):.0f} seconds")
    passed += before
    print(f"{passed} passed, {failed} failed" + (f", {skipped} skipped" if skipped else ""))
    return failed != 0 or passed + skipped == 0


if __name__ == "__main__":
    sys.exit(main())
