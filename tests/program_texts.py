#!/usr/bin/env python3
# SPDX-License-Identifier: ISC
"""That the programs' text in generated/ is what the kit makes of the proved crates, to the byte,
and that the launchers run programs that are built from it.

With the kit, `generated/make/programs check` links each text and the kit's object of the same
program, and compares what comes of them; that it would see another instruction, constant or address
is tried by planted ones. generated/make/wide_test.py tries what makes the object of ./sums. The
launchers are run in a copy of the repository, without the kit. The last line is 'N passed, M
failed', or 'N passed, M failed, K skipped' without the kit or a C compiler.

    tests/program_texts.py [WORD..]     all, or those with one of these words in their names
"""

import os
import pathlib
import re
import resource
import shutil
import subprocess
import sys
import tempfile
import unittest

sys.dont_write_bytecode = True
sys.path.append(str(pathlib.Path(__file__).resolve().parent / "lib"))
import counted
from run import COMPILER, ROOT

PROGRAMS = ["ring_bench_main", "ring_passwords", "ring_sums_main"]
COPIED = ["bench", "passwords", "sums", "crates.txt", "c", "generated", "programs"]
# FIPS 180-2, appendix B.1: the digest of "abc".
DIGEST = "ba7816bf8f01cfea414140de5dae2223b00361a396177a9cb410ff61f20015ad"
# What is changed in the middle one of the lines of a text that have it.
PLANTED = {
    "an instruction": (r"^\tj(n?)e ", lambda it: "\tje " if it[1] else "\tjne "),
    "a constant": (r"(?<=^\t\.quad 0x)\w", lambda it: f"{int(it[0], 16) ^ 1:x}"),
    "an entry of a table": (r"^\t\.(quad|long) (?=\.?L)", lambda it: it[0] + "1+"),
}
# The most of a processor's time that a first answer may take.
SECONDS = 10


def processor_time():
    """The seconds of all programs that were waited for, also where others slow them down."""
    used = resource.getrusage(resource.RUSAGE_CHILDREN)
    return used.ru_utime + used.ru_stime


def linked(code, folder):
    """The program of a text or of an object, without the names of places."""
    flags = {"LDFLAGS": "-s -Wl,--build-id=none"}
    file = folder / "program"
    subprocess.run([folder / "programs/build", code, file], env={**os.environ, **flags}, check=True)
    return file.read_bytes()


@unittest.skipUnless(COMPILER, "a C compiler")
class Texts(unittest.TestCase):
    """A copy of what the launchers need, in a folder whose name has a space and a line feed."""

    @classmethod
    def setUpClass(cls):
        room = tempfile.TemporaryDirectory(prefix="program_texts.")
        cls.addClassCleanup(room.cleanup)
        cls.copy = pathlib.Path(room.name) / "a\ncopy "
        cls.copy.mkdir()
        sources = [it.relative_to(ROOT) for it in ROOT.glob("crates/*/src")]
        leave_out = shutil.ignore_patterns("out", "__pycache__")
        for it in [*COPIED, *sources]:
            is_folder = (ROOT / it).is_dir()
            copy = shutil.copytree if is_folder else shutil.copy2
            (cls.copy / it).parent.mkdir(parents=True, exist_ok=True)
            copy(ROOT / it, cls.copy / it, **({"ignore": leave_out} if is_folder else {}))

    def run_of(self, launcher, *words, given="", **environment):
        """How a launcher ends without the kit: its status, its output and its messages."""
        before = processor_time()
        ended = subprocess.run(
            [f"./{launcher}", *words], cwd=self.copy, input=given, capture_output=True, text=True,
            env={**os.environ, "RT": "no-kit", **environment}, check=False)
        self.assertLess(processor_time() - before, SECONDS)
        return ended.returncode, ended.stdout, ended.stderr

    def first_run_of(self, launcher, crate, *words, **settings):
        """How a launcher ends that builds the program of a crate first: its status, its output."""
        shutil.rmtree(self.copy / "out/built", ignore_errors=True)
        status, output, error = self.run_of(launcher, *words, **settings)
        self.assertRegex(
            error, rf"\A({crate}): building the program from generated/\1\.S first\n")
        return status, output


class Launchers(Texts):
    """The launchers without the kit."""

    def test_bench(self):
        """`./bench` answers lines."""
        found = self.first_run_of("bench", "ring_bench_main", given="digest SHA256 616263\n")
        self.assertEqual(found, (0, f"{DIGEST} 1\n"))

    def test_sums(self):
        """`./sums` writes a list and checks it."""
        (self.copy / "it").write_text("abc")
        found = self.first_run_of("sums", "ring_sums_main", "it")
        self.assertEqual(found, (0, f"{DIGEST}  it\n"))
        self.assertEqual(self.run_of("sums", "-c", given=f"{DIGEST}  it\n"), (0, "it: OK\n", ""))

    def test_passwords(self):
        """`./passwords` keeps a password."""
        self.assertEqual(self.first_run_of("passwords", "ring_passwords", "s", "list"), (2, ""))
        rows = [(("set", "anna"), "right\n", (0, "")), (("verify", "anna"), "right\n", (0, "")),
                (("verify", "anna"), "wrong\n", (1, "")), (("list",), "", (0, "anna\n"))]
        for words, given, wanted in rows:
            self.assertEqual(self.run_of("passwords", "s", *words, given=given)[:2], wanted, words)

    def test_another_source(self):
        """Where a source is changed none runs, with one line that says why."""
        source = self.copy / "crates/ring_core/src/lib.rt"
        text = source.read_bytes()
        source.write_bytes(text + b"\n")
        self.addCleanup(source.write_bytes, text)
        for launcher in ("bench", "passwords", "sums"):
            status, output, error = self.run_of(launcher, "x")
            self.assertEqual((status, output, error.count("\n")), (3, "", 1))
            self.assertIn(": a source differs from generated/SOURCES, so the program must", error)


class Planted(Texts):
    """What the comparison of bytes sees."""

    def test_it_sees_what_is_changed(self):
        """With another instruction, constant or entry of a table it is another program."""
        for name in PROGRAMS:
            text = self.copy / f"generated/{name}.S"
            whole = text.read_text()
            lines = whole.split("\n")
            wanted = linked(name, self.copy)
            self.assertEqual(linked(name, self.copy), wanted)
            for what, (pattern, change) in PLANTED.items():
                places = [at for at, line in enumerate(lines) if re.search(pattern, line)]
                at = places[len(places) // 2]
                changed = re.sub(pattern, change, lines[at])
                text.write_text("\n".join([*lines[:at], changed, *lines[at + 1:]]))
                with self.subTest(name=name, what=what, line=at + 1, changed=changed):
                    self.assertNotEqual(linked(name, self.copy), wanted)
            text.write_text(whole)


def compared_with_kit():
    """The counts of the comparison of the texts with what the kit makes."""
    if not COMPILER or not shutil.which(os.environ.get("RT", "rt")):
        print("left out: whether the text is what the kit makes, without the Rattle kit")
        return 0, 0, 1
    return counts_of(ROOT / "generated/make/programs", "check")


def counts_of(*command):
    """The counts in a command's last line."""
    ended = subprocess.run(command, stdout=subprocess.PIPE, text=True, check=False)
    print(ended.stdout, end="", flush=True)
    counts = re.search(r"^(\d+) passed, (\d+) failed\n\Z", ended.stdout, re.M)
    return (int(counts[1]), int(counts[2]), 0) if counts else (0, 1, 0)


def main():
    words = sys.argv[1:]
    others = [] if words else [counts_of(sys.executable, ROOT / "generated/make/wide_test.py"),
                               compared_with_kit()]
    tried = counted.run(counted.suite([Launchers, Planted], words), sys.stdout).counts()
    return counted.report(*map(sum, zip(*others, tried)))


if __name__ == "__main__":
    sys.exit(main())
