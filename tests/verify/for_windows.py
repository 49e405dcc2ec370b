# SPDX-License-Identifier: ISC
"""The library for Windows: its kernels, under Microsoft's convention."""

import pathlib
import re
import shutil
import subprocess
import sys
import tempfile
import unittest

import fips180_4
import kernels
import x86_windows
from elf import WRITE
from machine import Refused
from machine_code import ROOT
from pe import Dll

NAMED, SHIPPED = (ROOT / "out/windows" / it for it in ("named/yezdopin-0.dll", "yezdopin-0.dll"))
MINGW = shutil.which("x86_64-w64-mingw32-gcc")
# Of the block function of SHA-1 for x86-64-v2: an instruction, and the bytes in its place.
FAULTS = {
    "rdi isn't restored": (r"pop %rdi", "58"),
    "xmm6 isn't restored": (r"movaps \(%rsp\),%xmm6", "0f1f4000"),
    "another vector is read": (r"mov 0x90\(%rsp\),%rax", "488b842498000000"),
    "below the stack": (r"movaps %xmm6,\(%rsp\)", "0f117424f0"),
}


def check_first(library):
    """Checks the block function of SHA-1; gives its symbol."""
    symbol = library.functions(r"ring_core\.digest\.sha1\.by_fours\.run_ahead")[0]
    kernels.run_ahead(x86_windows, library, symbol, fips180_4.FUNCTIONS["SHA-1"])
    return symbol


@unittest.skipUnless(MINGW, "gcc-mingw-w64-x86-64")
class Windows(unittest.TestCase):
    @classmethod
    def setUpClass(cls):
        made = subprocess.run(["make", "-C", ROOT, "windows", NAMED.relative_to(ROOT)], check=False,
                              stdin=subprocess.DEVNULL, capture_output=True, text=True)
        assert made.returncode == 0, made.stderr[-2000:]

    def test_shipped(self):
        """The DLL that is shipped has the code and the constants of the one with names."""
        named, shipped = Dll(str(NAMED)), Dll(str(SHIPPED), stripped=True)
        parts = [list(parts_of(it)) for it in (named, shipped)]
        self.assertGreater(sum(len(data) for _, data in parts[0]), 300_000)
        self.assertEqual(*parts)

    def test_library(self):
        """Each function of the library for Windows is shown."""
        done = subprocess.run([ROOT / "verify/check", NAMED], capture_output=True, text=True,
                              check=False)
        self.assertEqual(done.returncode, 0, done.stdout + done.stderr)
        self.assertRegex(done.stdout.splitlines()[-1], r"^[1-9]\d* functions shown, 0 refused$")

    def test_page(self):
        """The table of docs/VERIFY.md is that of the library for Windows."""
        done = subprocess.run([sys.executable, ROOT / "verify/page.py", NAMED],
                              capture_output=True, text=True, check=False)
        self.assertEqual(done.returncode, 0, done.stderr)

    def test_faults(self):
        """What Microsoft's convention keeps, and where arguments and the stack are, is checked."""
        library = Dll(str(NAMED))
        library.read_lines(check_first(library))
        for what, (old, new) in FAULTS.items():
            line = next(it for it in library.lines.values() if re.fullmatch(old, it.text))
            data, code = bytearray(library.data), bytes.fromhex(new)
            at, size = library.file_offset(line.at), max(len(line.raw), len(code))
            data[at:at + size] = code.ljust(size, b"\x90")
            with self.subTest(what), tempfile.TemporaryDirectory() as room:
                path = pathlib.Path(room, "faulty.dll")
                path.write_bytes(data)
                with self.assertRaises(Refused):
                    check_first(Dll(str(path)))


def parts_of(dll):
    """The parts of a DLL that aren't written to: where each stands, and its bytes."""
    for it in dll.segments:
        if not it.flags & WRITE:
            yield it.start, dll.data[it.offset:it.offset + it.size]


CASES = (Windows,)
