# SPDX-License-Identifier: ISC
"""The programs: the kernels that each has in its builds, and copies with faults."""

import shutil
import subprocess
import unittest

import kernels
from elf import Library
from machine_code import ROOT, compare_with_objdump
from refused import SEVENTEENTH, check, check_flipped, check_without

TEXTS = sorted((ROOT / "generated").glob("ring_*.S"))
PROGRAMS = {it.stem: ROOT / "out/programs" / it.stem for it in TEXTS}
SUMS, PASSWORDS = (PROGRAMS[it] for it in ("ring_sums_main", "ring_passwords"))


@unittest.skipUnless(shutil.which("gcc"), "gcc")
class Programs(unittest.TestCase):
    @classmethod
    def setUpClass(cls):
        wanted = [it.relative_to(ROOT) for it in PROGRAMS.values()]
        made = subprocess.run(["make", "-C", ROOT, *wanted], stdin=subprocess.DEVNULL, check=False,
                              capture_output=True, text=True)
        assert made.returncode == 0, made.stderr[-2000:]

    def test_listed(self):
        """Each program that is generated is listed with what it has, and with nothing else."""
        self.assertEqual(set(PROGRAMS), set(kernels.PROGRAMS))
        for name, path in PROGRAMS.items():
            found = {}
            for row in kernels.rows(Library(path)):
                self.assertIsNotNone(row.symbol, row)
                found.setdefault(row.build, set()).add(row.check)
            listed = {build: set(checks) for build, checks in kernels.PROGRAMS[name].items()}
            self.assertEqual(found, listed, name)

    def test_shown(self):
        """Each function of each program is shown."""
        for path in PROGRAMS.values():
            status, output, messages = check(path)
            self.assertEqual(status, 0, output + messages)
            self.assertRegex(output.splitlines()[-1], r"^[1-9]\d* functions shown, 0 refused$")

    @unittest.skipUnless(shutil.which("objdump"), "objdump")
    def test_objdump(self):
        """Each instruction of the programs that has a meaning is read as objdump reads it."""
        for path in PROGRAMS.values():
            self.assertGreater(compare_with_objdump(self, path), 10_000)

    def test_flipped(self):
        """A flipped bit of a program's constants is refused, in the build that reads it."""
        for path, builds in ((SUMS, ("v2", "v3")), (PASSWORDS, ("v2",))):
            for build in builds:
                line = f"SHA-512 {build} (run_ahead"
                status, output, _ = check_flipped(path, SEVENTEENTH, line)
                self.assertEqual(status, 1)
                self.assertIn(f"REFUSED {line}", output)
                self.assertEqual(output.splitlines()[-1], "0 functions shown, 1 refused")

    def test_missing(self):
        """A program without one of its functions is refused, and the line says which."""
        for path, name, line in ((SUMS, b"sha1.by_fours.run_ahead.v3", "SHA-1 v3"),
                                 (SUMS, b"output_after", "SHA-1 over the padded tail v2"),
                                 (PASSWORDS, b"xor_iterates", "PBKDF2 by SHA-1 of 5 words v2")):
            with self.subTest(line):
                status, output, _ = check_without(path, name, line)
                self.assertEqual(status, 1)
                self.assertIn(f"REFUSED {line}: there is no function for", output)

    def test_each_missing(self):
        """Whichever function `sums` lacks, that one is missed, and no other."""
        for row in kernels.rows(Library(SUMS)):
            library = Library(SUMS)
            library.symbols.remove(row.symbol)
            missed = [it for it in kernels.rows(library) if it.symbol is None]
            self.assertEqual(missed, [row._replace(symbol=None)])

    def test_other_program(self):
        """A program that isn't listed has to have all that the library has."""
        status, output, _ = check_without(SUMS, b"ring_sums_main.main.start", "PBKDF2 by SHA-1")
        self.assertEqual(status, 1)
        self.assertIn("REFUSED PBKDF2 by SHA-1 of 5 words v2: there is no function for", output)


CASES = (Programs,)
