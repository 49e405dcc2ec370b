# SPDX-License-Identifier: ISC
"""Runs the programs that tests try: over words, over lines, and with preload.c loaded into them."""

import functools
import itertools
import os
import pathlib
import shutil
import subprocess
import sys
import tempfile
import unittest

ROOT = pathlib.Path(__file__).resolve().parents[2]
# What `rt run` is given besides, where a program needs words to end with status 0.
WORDS = {
    "ring_passwords": ("--", "data/passwords.txt", "list"),
    "ring_sums_main": ("--", "--version"),
}
COMPILER = next(filter(None, map(shutil.which, ("cc", "gcc", "clang"))), None)


@functools.lru_cache(None)
def built(crate):
    """The path of a crate's program, which is built where it is missing or older than what it is
    made of. Where it can't be built, the test ends."""
    command = [ROOT / "programs/built", crate, "rt", "run", *WORDS.get(crate, ())]
    made = subprocess.run(command, stdin=subprocess.DEVNULL, stdout=subprocess.PIPE, text=True)
    if made.returncode:
        sys.stdout.flush()
        unbuilt, name = ROOT / "tests/lib/unbuilt", pathlib.Path(sys.argv[0]).resolve()
        os.execv(unbuilt, [unbuilt, name.relative_to(ROOT), str(made.returncode)])
    return pathlib.Path(made.stdout.rstrip("\n"))


def ended(program, *words, given=b"", **settings):
    """How a run ends: its status, its output and its messages."""
    settings = {"stdout": subprocess.PIPE, "stderr": subprocess.PIPE, "timeout": 600, **settings}
    if "stdin" not in settings:
        settings["input"] = given
    run = subprocess.run([program, *words], **settings)
    return run.returncode, run.stdout, run.stderr


# --- the program of test lines ---


def over_lines(lines, **settings):
    """How a run of the program of test lines ends: its status, and its answers."""
    text = "".join(f"{line}\n" for line in lines).encode()
    status, output, _ = ended(built("ring_test_lines"), given=text, **settings)
    return status, output.decode().split("\n")[:-1]


def answers(lines, **settings):
    """The answers of the program of test lines."""
    return over_lines(lines, **settings)[1]


def differing(wanted, **settings):
    """Of pairs of a line and its answer: those that the program answers otherwise."""
    found = answers([line for line, _ in wanted], **settings)
    if not wanted or len(found) != len(wanted):
        return [("", f"{len(found)} answers to {len(wanted)} lines")]
    return [(line, answer) for (line, want), answer in zip(wanted, found) if want != answer]


def rows_of(file):
    """The lines of a file of vectors, each with its answer."""
    lines = [it for it in file.read_text().split("\n") if it and not it.startswith("# ")]
    return [(line, answer.partition("#= ")[2]) for line, answer in zip(lines[::2], lines[1::2])]


def file_case(file):
    """A case with a file of vectors."""

    def run():
        return differing(rows_of(file))

    run.__doc__ = f"the lines of {file.relative_to(ROOT)}"
    return run


# --- calls and requests for memory that fail ---


class Preload:
    """preload.c, compiled into a folder."""

    def __init__(self, folder):
        self.library = pathlib.Path(folder) / "preload.so"
        source = pathlib.Path(__file__).with_name("preload.c")
        command = [COMPILER, "-O1", "-shared", "-fPIC", "-o", self.library, source]
        subprocess.run(command, check=True)

    def environment(self, **asked):
        """The environment of a run in which it does what is asked."""
        return {"LD_PRELOAD": str(self.library), **{name: str(it) for name, it in asked.items()}}

    def watched(self, run, **asked):
        """What `run` gives, which makes a run by settings, the names of the counted calls, and the
        count of requests for memory: none where the run is killed."""
        with tempfile.TemporaryFile() as report:
            number = report.fileno()
            environment = self.environment(REPORT_TO=number, **asked)
            found = run(pass_fds=[number], env=environment)
            report.seek(0)
            lines = report.read().decode().split()
        requests = int(lines.pop()) if lines and lines[-1].isdigit() else None
        return found, lines, requests


NO_MEMORY = "out of memory"


def fault_of(status, found, wanted):
    """What is wrong with a run of that program that is short of memory once, or None."""
    others = [it for it in zip(found, wanted) if it[0] not in (it[1], NO_MEMORY)]
    # The program's own requests end it, behind right answers; those of a call are of its line
    # alone.
    ended = status != 0 and len(found) < len(wanted) and NO_MEMORY not in found
    whole = status == 0 and len(found) == len(wanted) and found.count(NO_MEMORY) <= 1
    return None if not others and (ended or whole) else f"{status}, {found}"


def short_of_memory(rows):
    """What is wrong where each request for memory is refused in turn, over lines with their
    answers. Of each line some request is refused."""
    lines, wanted = zip(*rows)
    with tempfile.TemporaryDirectory() as folder:
        preload, run = Preload(folder), functools.partial(over_lines, lines)
        wrong, told = [], set()
        for request in itertools.count(1):
            (status, found), _, made = preload.watched(run, REFUSED_REQUEST=request)
            if made < request:
                break
            told |= {at for at, answer in enumerate(found) if answer == NO_MEMORY}
            fault = fault_of(status, found, wanted)
            wrong += [(f"request {request}", fault)] if fault else []
    untold = [(lines[at], "no request was refused") for at in range(len(lines)) if at not in told]
    return wrong + untold + differing(rows)


class Case(unittest.TestCase):
    """A case whose tests have folders of their own."""

    def new_path(self):
        """A new folder, which is removed when the test ends."""
        room = tempfile.TemporaryDirectory(prefix=f"{type(self).__name__}.")
        self.addCleanup(room.cleanup)
        return pathlib.Path(room.name)

    def new_preload(self):
        """preload.c, compiled into a new folder; without a C compiler the test is skipped."""
        return Preload(self.new_path()) if COMPILER else self.skipTest("a C compiler")
