# SPDX-License-Identifier: ISC
"""The same of the modules of WebAssembly: the reader beside wasm-objdump and node, the meanings
beside node, the modules themselves and copies with faults."""

import pathlib
import random
import re
import shutil
import struct
import subprocess
import sys
import tempfile
import unittest

import test_wasm
import vectors_wasm
import wasm
from elf import WrongFile
from machine import Refused
from wasm_module import Module, opened

ROOT = pathlib.Path(__file__).resolve().parent.parent.parent
TEXTS = [ROOT / f"generated/{it}_wasm.hex" for it in ("yezdopin", "yezdopin_simd")]
NODE, OBJDUMP = shutil.which("node"), shutil.which("wasm-objdump")
# Takes modules behind their lengths, and says of each whether node takes it.
VALIDATE = r"""
const input = require("fs").readFileSync(0), output = [];
for (let at = 0; at < input.length;) {
    const size = input.readUInt32LE(at);
    output.push(+WebAssembly.validate(input.subarray(at + 4, at + 4 + size)));
    at += 4 + size;
}
console.log(output.join(""));
"""


def read_by_objdump(data):
    """Each instruction's text, by its address."""
    with tempfile.NamedTemporaryFile(suffix=".wasm") as file:
        file.write(data)
        file.flush()
        listing = subprocess.run([OBJDUMP, "-d", file.name], check=True, capture_output=True,
                                 text=True).stdout
    found = {}
    for line in listing.splitlines():
        it = re.match(r" ([0-9a-f]{6}): [0-9a-f ]+\| *(\S.*)", line)
        if it and not re.match(r"local\[\d", it[2]):
            # A call has the name of what it calls, behind its number.
            found[int(it[1], 16)] = re.sub(r" <.*>$", "", it[2]).rstrip()
    return found


def validated(modules):
    """Whether node takes each of these modules."""
    given = b"".join(struct.pack("<I", len(it)) + it for it in modules)
    done = subprocess.run([NODE, "-e", VALIDATE], input=given, capture_output=True, check=True)
    return [it == "1" for it in done.stdout.decode().strip()]


def flipped(it, source):
    """A module with a bit of a function's instructions changed; and the function's number."""
    of = source.choice([of for of in it.functions_ if 20 < of.end - of.first < 3000])
    data = bytearray(it.data)
    data[source.randrange(of.first, of.end)] ^= 1 << source.randrange(8)
    return bytes(data), of.index


class WasmReader(unittest.TestCase):
    maxDiff = None

    @unittest.skipUnless(OBJDUMP, "wasm-objdump")
    def test_objdump(self):
        """Each instruction of both modules is read as wasm-objdump reads it."""
        for path in TEXTS:
            it = opened(path)
            read = {at: line.text for of in range(len(it.functions_))
                    for at, line in it.flow(of).items()}
            self.assertEqual(read, read_by_objdump(it.data))
            self.assertGreater(len(read), 50_000)

    @unittest.skipUnless(NODE, "node")
    def test_flipped(self):
        """A module with a bit flipped is taken as node takes it, or an instruction of it isn't
        read."""
        source, modules, refused = random.Random(5), [], []
        names = [str(i) for i in range(len(opened(TEXTS[1]).functions_))]
        flips = 400
        for _ in range(flips):
            data, index = flipped(opened_once(TEXTS[1]), source)
            modules.append(data)
            try:
                Module(data, names).flow(index)
                refused.append(None)
            except Refused as why:
                refused.append(str(why))
        for data, is_taken, why in zip(modules, validated(modules), refused):
            if why is None or not re.search("no instruction is known by|is no type", why):
                self.assertEqual(why is None, is_taken, why)
        self.assertGreater(refused.count(None), flips // 5)

    def test_wrong_files(self):
        """A module that is cut off, of other sections or without names is refused."""
        data = opened(TEXTS[0]).data
        for wrong in (data[:1000], data[:8], b"\0asm\2" + data[5:], data[:-1],
                      data[:8] + data[10:]):
            with self.assertRaises(WrongFile):
                Module(wrong)
        changed = data[:-1] + bytes([data[-1] ^ 1])
        with self.assertRaisesRegex(WrongFile, "no names of its functions"):
            Module(changed)


def opened_once(path, kept={}):
    if path not in kept:
        kept[path] = opened(path)
    return kept[path]


class WasmMeanings(unittest.TestCase):
    @unittest.skipUnless(NODE, "node")
    def test_node(self):
        """Each meaning gives what node gives, from random operands."""
        found = test_wasm.compare()
        self.assertEqual(dict(found.failed), {})
        self.assertGreater(found.cases, 10_000)
        meanings = {*wasm.NUMBERS, *wasm.OTHERS, *wasm.CONTROL, *vectors_wasm.TABLE,
                    *vectors_wasm.MEMORY} & test_wasm.known()
        self.assertEqual(meanings - found.names, set(), "meanings that no case ran")


class WasmChecked(unittest.TestCase):
    def test_modules(self):
        """Each function of both modules is shown."""
        for path in TEXTS:
            done = subprocess.run([ROOT / "verify/check", path], capture_output=True, text=True,
                                  check=False)
            self.assertEqual(done.returncode, 0, done.stdout + done.stderr)
            self.assertRegex(done.stdout.splitlines()[-1],
                             r"^[1-9]\d* functions shown, 0 refused$")

    def test_bytes(self):
        """A module has the names of the text with the same bytes, and one with others none."""
        data = opened(TEXTS[0]).data
        for content, status in ((data, 0), (data + b"\0\1\0", 2)):
            with tempfile.NamedTemporaryFile(suffix=".wasm") as file:
                file.write(content)
                file.flush()
                done = subprocess.run([ROOT / "verify/check", "--only", "SHA-1 of 5 words",
                                       file.name], capture_output=True, text=True, check=False)
            self.assertEqual(done.returncode, status, done.stdout + done.stderr)

    def test_page(self):
        """The table of docs/VERIFY.md is that of the modules."""
        done = subprocess.run([sys.executable, ROOT / "verify/page.py", *TEXTS],
                              capture_output=True, text=True, check=False)
        self.assertEqual(done.returncode, 0, done.stderr)

    @unittest.skipUnless(NODE, "node")
    def test_shipped(self):
        """The package's modules have the bytes that are checked."""
        with tempfile.TemporaryDirectory() as room:
            for path in TEXTS:
                made = pathlib.Path(room, "made.wasm")
                subprocess.run([NODE, ROOT / "javascript/build/text.mjs", "read", path, made],
                               check=True)
                self.assertEqual(made.read_bytes(), opened(path).data)

    def test_missing(self):
        """A module that lacks a function by its name is refused, and the line says which."""
        text = TEXTS[0].read_text("ascii")
        with tempfile.NamedTemporaryFile("w", suffix=".hex", encoding="ascii") as file:
            file.write(text.replace("BlockContext::output_after", "other"))
            file.flush()
            done = subprocess.run([ROOT / "verify/check", "--only", "SHA-1 over the padded tail",
                                   file.name], capture_output=True, text=True, check=False)
        self.assertEqual(done.returncode, 1, done.stdout + done.stderr)
        self.assertIn("REFUSED SHA-1 over the padded tail: there is no function for", done.stdout)


class WasmFaults(unittest.TestCase):
    @unittest.skipUnless(NODE, "node")
    def test_planted(self):
        """Each of 100 planted faults and 100 flipped bits in the modules is refused, or computes
        the same."""
        passed = 0
        for path in TEXTS:
            done = subprocess.run([sys.executable, ROOT / "verify/mutate_wasm.py", "--flips", "50",
                                   path], capture_output=True, text=True, check=False)
            failed = [it for it in done.stdout.splitlines() if it.startswith("FAIL")]
            self.assertEqual((done.returncode, failed), (0, []), done.stderr)
            passed += int(re.match(r"(\d+) passed, 0 failed$", done.stdout.splitlines()[-1])[1])
        self.assertGreaterEqual(passed, 200)


CASES = (WasmReader, WasmMeanings, WasmChecked, WasmFaults)
