# SPDX-License-Identifier: ISC
"""Over which vectors the program runs on each processor, by traces of qemu-user."""

import shutil

from lists import ENVIRONMENT, FEATURES, TAGS, digest_of, made
from run import Case, ended

QEMU = shutil.which("qemu-x86_64")
# How the code for vectors of 256 bits is named in the program.
WIDE = b".v3\n"
FILES = {f"file {count}": bytes(range(1, 251)) * count for count in range(12, 21)}


class Processors(Case):
    """The program on processors that qemu-user knows."""

    def setUp(self):
        if QEMU is None:
            self.skipTest("qemu-x86_64")
        self.path = self.new_path()
        for name, content in FILES.items():
            (self.path / name).write_bytes(content)

    def run_on(self, processor, program, algorithm="sha256"):
        """How a run ends, and whether it came to code for vectors of 256 bits."""
        trace = self.path / "trace"
        words = ["-cpu", processor, "-d", "in_asm", "-D", trace, program, "-a", algorithm, *FILES]
        status, output, _ = ended(QEMU, *words, cwd=self.path, env=ENVIRONMENT)
        return status, output, WIDE in trace.read_bytes()

    def whole(self, is_wide, algorithm="sha256"):
        """The run that has the right lines."""
        lines = (f"{digest_of(algorithm, it).decode()}  {name}\n" for name, it in FILES.items())
        return 0, "".join(lines).encode(), is_wide

    def test_choice(self):
        """Vectors of 256 bits are taken exactly where the processor has all of x86-64-v3."""
        if self.run_on("max", made("-DFORCED=3", "wide")) != self.whole(True):
            self.skipTest("AVX2 of qemu 7.2")
        program = made("", "program")
        for algorithm in TAGS:
            with self.subTest(algorithm=algorithm):
                for processor, is_wide in (("max", True), ("Nehalem", False)):
                    found = self.run_on(processor, program, algorithm)
                    self.assertEqual(found, self.whole(is_wide, algorithm), processor)
        for feature in FEATURES:
            with self.subTest(feature=feature):
                self.assertEqual(self.run_on(f"max,-{feature}", program), self.whole(False))

    def test_forced_widths(self):
        """Forced to 128 bits it takes no wider ones; forced to 256 it ends where there are none."""
        found = self.run_on("max", made("-DFORCED=2", "narrow"))
        self.assertEqual(found, self.whole(False))
        self.assertNotEqual(self.run_on("Nehalem", made("-DFORCED=3", "wide"))[0], 0)
