# SPDX-License-Identifier: ISC
"""What the launcher answers in the program's place."""

import pathlib
import tempfile
import unittest

from lists import BUILDS, LAUNCHER, run


class Launcher(unittest.TestCase):
    """The launcher, which builds nothing for what the program tells of itself."""

    def test_it_tells_what_the_program_tells(self):
        """`--help` and `--version`, alone, are answered as by the program of that name."""
        with tempfile.TemporaryDirectory() as room:
            link = pathlib.Path(room) / "sha512 sums"
            link.symlink_to(LAUNCHER)
            for name in (LAUNCHER, link):
                for word in ("--help", "--version"):
                    found = run(name, [word], room, name=str(name))
                    for build in BUILDS:
                        self.assertEqual(found, run(build, [word], room, name=str(name)))
