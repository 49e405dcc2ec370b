# SPDX-License-Identifier: ISC
"""What the check has to refuse: wrong arguments and files, and faults in the machine code."""

import pathlib
import re
import shutil
import struct
import subprocess
import sys
import tempfile
import unittest

from machine_code import LIBRARY, ROOT

# SHA-512's constant of the seventeenth round: run_ahead's callers add the first sixteen.
SEVENTEENTH = 0xe49b69c19ef14ad2


def check(*words):
    """How a check ends: its status, its output, its messages."""
    done = subprocess.run([ROOT / "verify/check", *words], capture_output=True, text=True,
                          check=False)
    return done.returncode, done.stdout, done.stderr


def check_changed(path, old, new, line):
    """How a check of some lines ends, in a copy of a file with other bytes in the place of some."""
    data = path.read_bytes()
    with tempfile.TemporaryDirectory() as room:
        copy = pathlib.Path(room, "changed")
        copy.write_bytes(data.replace(old, new))
        return check("--only", line, copy)


def check_without(path, name, line):
    """The same of a copy that has no function of a name."""
    return check_changed(path, name, b"X" + name[1:], line)


def check_flipped(path, constant, line):
    """The same of a copy with a flipped bit of a constant, a number of 64 bits."""
    old = constant.to_bytes(8, "little")
    return check_changed(path, old, bytes([old[0] ^ 1]) + old[1:], line)


def with_long_segments(data):
    """A library whose segments are longer than the file."""
    found = bytearray(data)
    start, = struct.unpack_from("<Q", data, 32)
    count, = struct.unpack_from("<H", data, 56)
    for at in range(start, start + 56 * count, 56):
        struct.pack_into("<Q", found, at + 32, 1 << 40)
    return found


class Arguments(unittest.TestCase):
    def test_words(self):
        """Wrong arguments are refused with status 2 and how to call it."""
        for words in ((), ("--jobs", "0", LIBRARY), ("--memory", "0", LIBRARY),
                      ("--other", LIBRARY), (LIBRARY, LIBRARY)):
            status, output, messages = check(*words)
            self.assertEqual((status, output), (2, ""))
            self.assertIn("usage: verify/check", messages)

    def test_files(self):
        """A file that is no such library is refused with status 2 and the reason."""
        with tempfile.TemporaryDirectory() as room:
            cut, text = pathlib.Path(room, "cut"), pathlib.Path(room, "text")
            long = pathlib.Path(room, "long")
            cut.write_bytes(LIBRARY.read_bytes()[:5000])
            text.write_text("no library\n")
            long.write_bytes(with_long_segments(LIBRARY.read_bytes()))
            for path in (cut, text, long, pathlib.Path(room), pathlib.Path(room, "none"), "/bin/sh",
                         sys.executable):
                status, output, messages = check(path)
                self.assertEqual((status, output), (2, ""), path)
                self.assertRegex(messages, r"^verify/check: \S+: \w.*\n$")

    @unittest.skipUnless(shutil.which("strip"), "strip")
    def test_stripped(self):
        """A stripped library is refused, and one of names alone, and the message says so."""
        with tempfile.TemporaryDirectory() as room:
            for words, message in ((["-s"], "it is stripped"),
                                   (["--only-keep-debug"], "it has no code")):
                subprocess.run(["strip", *words, "-o", f"{room}/other.so", LIBRARY], check=True)
                status, output, messages = check(f"{room}/other.so")
                self.assertEqual((status, output), (2, ""))
                self.assertIn(message, messages)
                self.assertEqual(messages.count("\n"), 1)

    @unittest.skipUnless(shutil.which("unshare") and not subprocess.call(["unshare", "-rm", "true"],
                         stderr=subprocess.DEVNULL), "unshare")
    def test_no_locks(self):
        """Where its processes can make no locks, the message doesn't blame the library."""
        mounted = 'mount -t tmpfs -o ro none /dev/shm && exec "$0" "$1"'
        words = ["unshare", "-rm", "sh", "-c", mounted, ROOT / "verify/check", LIBRARY]
        done = subprocess.run(words, capture_output=True, text=True, check=False)
        self.assertEqual((done.returncode, done.stdout), (2, ""))
        self.assertIn(": its processes need a /dev/shm that they may write to: ", done.stderr)

    def test_other_line(self):
        """--only with a text that no line has is refused, rather than nothing shown."""
        status, output, messages = check("--only", "SHA-3", LIBRARY)
        self.assertEqual((status, output), (2, ""))
        self.assertIn("no line has 'SHA-3'", messages)


class Memory(unittest.TestCase):
    def test_limit(self):
        """A check that takes more memory than it may is refused, and the line says so."""
        status, output, _ = check("--memory", "60", "--only", "SHA-512 over a message v3", LIBRARY)
        self.assertEqual(status, 1)
        self.assertIn(": the check takes more than 60 MB of memory\n", output)
        self.assertEqual(output.splitlines()[-1], "0 functions shown, 1 refused")


class Lacking(unittest.TestCase):
    def test_function(self):
        """A library without one of the functions is refused, and the line says which."""
        line = "SHA-1 in 4 lanes over blocks"
        status, output, _ = check_without(LIBRARY, b"Sha1RunBlocks64", line)
        self.assertEqual(status, 1)
        self.assertIn("REFUSED SHA-1 in 4 lanes over blocks v2: there is no function for", output)

    def test_inlined(self):
        """A function that may be inlined isn't asked for, and is no line then."""
        line = "SHA-512 in 4 lanes over"
        status, output, messages = check_without(LIBRARY, b"RunBlocks128", line)
        self.assertEqual((status, output), (2, ""))
        self.assertIn("no line has 'SHA-512 in 4 lanes over'", messages)


class Faults(unittest.TestCase):
    def test_one(self):
        """A flipped bit of a block function's constants is refused with status 1 and the word."""
        status, output, _ = check_flipped(LIBRARY, SEVENTEENTH, "SHA-512 v3 (run_ahead")
        self.assertEqual(status, 1)
        self.assertRegex(output, r"REFUSED SHA-512 v3 .*: chaining word \d is not the "
                                 r"standard's, .*; last written at [0-9a-f]+: \S+ \S+")
        self.assertEqual(output.splitlines()[-1], "0 functions shown, 1 refused")

    @unittest.skipUnless(shutil.which("gcc"), "gcc")
    def test_planted(self):
        """Each of 60 planted faults and 300 flipped bits is refused, or computes the same."""
        done = subprocess.run([sys.executable, ROOT / "verify/mutations.py", LIBRARY],
                              capture_output=True, text=True, check=False)
        failed = [it for it in done.stdout.splitlines() if it.startswith("FAIL")]
        self.assertEqual((done.returncode, failed), (0, []), done.stderr)
        passed = int(re.match(r"(\d+) passed, 0 failed$", done.stdout.splitlines()[-1])[1])
        self.assertGreaterEqual(passed, 360)


CASES = (Arguments, Memory, Lacking, Faults)
