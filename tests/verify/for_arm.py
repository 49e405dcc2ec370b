# SPDX-License-Identifier: ISC
"""The same of the library for 64-bit ARM: its reader, its meanings under qemu, the library itself
and copies with faults. It is built by a cross compiler, and left out without one."""

import pathlib
import random
import re
import shutil
import subprocess
import sys
import tempfile
import unittest

import arm
import decode_arm
import test_arm
from elf import Library

ROOT = pathlib.Path(__file__).resolve().parent.parent.parent
LIBRARY = ROOT / "out/aarch64/libyezdopin.so.0"
EMULATOR = ["qemu-aarch64", "-cpu", "max"]
HAS_COMPILER = shutil.which("aarch64-linux-gnu-gcc")
HAS_BOTH = HAS_COMPILER and shutil.which(EMULATOR[0])
# Instructions that have a meaning, and of whose names the kernels may have none.
FURTHER = """
    tst x1, x2; tst w1, #0xff; bic w1, w2, w3; fmov d1, x2; fmov w1, s2; fmov s1, s2; nop
    adds w1, w2, w3; adds x1, x2, #0x10; subs w1, w2, w3; cmp x1, x2, lsl #3; movi v1.16b, #0x81
    uzp1 v1.4s, v2.4s, v3.4s; uzp2 v1.2d, v2.2d, v3.2d; trn1 v1.4s, v2.4s, v3.4s
    trn2 v1.2d, v2.2d, v3.2d; lsr w1, w2, #3; rev64 v1.16b, v2.16b; mov v1.s[1], v2.s[3]
    orr x1, x2, x3, lsr #7; and x1, x2, x3, ror #9; eor w1, w2, #0xff00ff; ldrb w1, [x2, #5]
    ldr x1, [x2], #8; str q1, [x2, #-16]!; ldur x1, [x2, #-3]; ld1 {v1.d}[1], [x2]
    adc x1, x2, x3; sbc x1, x2, x3; sbcs w1, w2, w3; csel x1, x2, x3, le; csel w1, w2, w3, ge
    csinc w1, w2, w3, hi; csinv x1, x2, x3, lt; cset w1, gt; cinc x1, x2, ls; cset x1, ne
    extr w1, w2, w3, #5; lsl w1, w2, w3; lsr x1, x2, x3; rev w1, w2; rev x1, x2; sxtb x1, w2
    madd w1, w2, w3, w4; msub x1, x2, x3, x4; mul x1, x2, x3; umulh x1, x2, x3
    ldurh w1, [x2, #-3]; ldrh w1, [x2, #6]; strh w1, [x2]; sturh w1, [x2, #-5]
    sturb w1, [x2, #-5]; ldurb w1, [x2, #-5]; strb w1, [x2, x3]; ldrb w1, [x2, w3, uxtw]
    ldr w1, [x2, w3, uxtw #2]; str q1, [x2, x3, lsl #4]; ldr x1, [x2, x3, lsl #3]
    ccmp x1, x2, #4, eq; ccmp w1, #3, #2, hi; ccmp x1, x2, #2, ne; adcs x1, x2, x3
    umov w1, v2.b[7]; mov b1, v2.b[9]; mov v1.b[3], w2; mov v1.b[3], v2.b[4]; csinv w1, w2, w3, cc
    ushl v1.2d, v2.2d, v3.2d; uxtl v1.2d, v2.2s; rev64 v1.8b, v2.8b; eor v1.8b, v2.8b, v3.8b
    orr v1.8b, v2.8b, v3.8b; bic v1.8b, v2.8b, v3.8b; bsl v1.8b, v2.8b, v3.8b; tst x1, #0xf0
    ld1r {v1.2d}, [x2]; sha1h s1, s2; movi v1.2d, #0xff00ff00ff00ff00; movi v1.4s, #0x1, lsl #8
    uxtb w1, w2; uxth w1, w2; sxth w1, w2; sxth x1, w2; sxtw x1, w2; asr x1, x2, #5; asr w1, w2, #3
    ubfx w1, w2, #3, #7; ubfiz x1, x2, #3, #7; sbfx x1, x2, #3, #7; sbfx w1, w2, #9, #20
    sbfiz w1, w2, #3, #7; sbfiz x1, x2, #40, #9; bfi w1, w2, #3, #7; bfi x1, x2, #40, #9
    bfxil w1, w2, #3, #7; bfxil x1, x2, #40, #9; eon x1, x2, x3; eon w1, w2, w3, asr #4
    orn w1, w2, w3, ror #3; bics x1, x2, x3, lsl #2; ands w1, w2, w3, lsr #3; ands x1, x2, #0xff0
    mvn w1, w2, lsl #3; mvn x1, x2; neg w1, w2; neg x1, x2, asr #3; cmn x1, x2; cmn w1, #0x4
    cmp w1, w2, uxtb; cmp x1, w2, sxtw; add x1, x2, w3, sxth #2; subs w1, w2, w3, uxth #1
    clz w1, w2; rbit w1, w2; udiv x1, x2, x3; udiv w1, w2, w3; umull x1, w2, w3
    ldrsb x1, [x2]; ldrsb w1, [x2, x3]; ldrsh w1, [x2, #6]; ldrsh x1, [x2]; ldrsw x1, [x2, #8]
    ldursb w1, [x2, #-3]; ldursh x1, [x2, #-3]; ldursw x1, [x2, #-5]; ldrsw x1, [x2, w3, uxtw #2]
    cmeq v1.4s, v2.4s, v3.4s; cmeq v1.2d, v2.2d, #0; cmeq v1.8h, v2.8h, #0; addp v1.8h, v2.8h, v3.8h
    addp v1.2d, v2.2d, v3.2d; addv b1, v2.16b; addv s1, v2.4s; umaxv h1, v2.8h; umaxv s1, v2.4s
    mvn v1.16b, v2.16b; orn v1.16b, v2.16b, v3.16b; bif v1.16b, v2.16b, v3.16b
"""


def further(room):
    """The bytes and the texts of FURTHER."""
    subprocess.run(["aarch64-linux-gnu-as", "-march=armv8-a+crypto", "-", "-o",
                    f"{room}/further.o"], input=FURTHER, text=True, check=True)
    subprocess.run(["aarch64-linux-gnu-objcopy", "-O", "binary", "-j", ".text",
                    f"{room}/further.o", f"{room}/further"], check=True)
    data = pathlib.Path(room, "further").read_bytes()
    return {(data[at:at + 4].hex(), decode_arm.read(data[at:at + 4], at))
            for at in range(0, len(data), 4)}


def meaningful(library):
    """The instructions of all functions that are read, as pairs of bytes and text."""
    for symbol in library.symbols:
        library.read_lines(symbol)
    return {(it.raw.hex(), it.text) for it in library.lines.values() if it.text[0] != "("}


def read_by_objdump(data):
    """The text of each four bytes."""
    with tempfile.NamedTemporaryFile() as file:
        file.write(data)
        file.flush()
        listing = subprocess.run(
            ["aarch64-linux-gnu-objdump", "-D", "-z", "-b", "binary", "-m", "aarch64", file.name],
            check=True, capture_output=True, text=True).stdout
    found = {}
    for line in listing.splitlines():
        if (it := re.match(r" *([0-9a-f]+):\t[0-9a-f]+ *\t(.*)", line)):
            text = " ".join(re.sub(r"\s*(<|//).*", "", it[2]).split())
            # Addresses of a file without names are written otherwise.
            found[int(it[1], 16)] = re.sub(r"(^|[ ,])0x", r"\1", text)
    return found


class ArmReader(unittest.TestCase):
    maxDiff = None

    @unittest.skipUnless(HAS_COMPILER, "aarch64-linux-gnu-gcc")
    def test_objdump(self):
        """Each instruction for ARM that is read is read as objdump reads it, in each function."""
        library, compared = Library(str(LIBRARY), by_objdump=True), 0
        for symbol in library.symbols:
            library.read_lines(symbol)
        for at, line in library.lines.items():
            try:
                text = decode_arm.read(line.raw, at)
            except decode_arm.Unreadable:
                continue
            self.assertEqual(text, line.text, f"{at:x}")
            compared += 1
        self.assertGreater(compared, 20_000)

    @unittest.skipUnless(HAS_COMPILER, "aarch64-linux-gnu-gcc")
    def test_random_bytes(self):
        """Instructions for ARM with a bit flipped are read as objdump reads them, or not at all."""
        source, library = random.Random(4), Library(str(LIBRARY))
        codes = sorted(int(raw, 16) for raw, _ in meaningful(library))
        data = b"".join((source.choice(codes) ^ 1 << source.randrange(32)).to_bytes(4, "big")
                        for _ in range(20_000))
        expected, compared = read_by_objdump(data), 0
        for at in range(0, len(data), 4):
            try:
                text = decode_arm.read(data[at:at + 4], at)
            except decode_arm.Unreadable:
                continue
            self.assertEqual(text, expected[at], data[at:at + 4].hex())
            compared += 1
        self.assertGreater(compared, 10_000)


class ArmMeanings(unittest.TestCase):
    @unittest.skipUnless(HAS_BOTH, "aarch64-linux-gnu-gcc and qemu-aarch64")
    def test_emulator(self):
        """Each meaning for ARM gives what qemu gives, from random states, flags too."""
        with tempfile.TemporaryDirectory() as room:
            lines = meaningful(Library(str(LIBRARY))) | further(room)
            found = test_arm.compare(lines, room, EMULATOR)
        self.assertEqual(dict(found.failed), {})
        self.assertGreater(found.cases, 9_000)
        self.assertEqual({it for it in set(arm.TABLE) - found.names
                          if not test_arm.LEFT_OUT.fullmatch(it)}, set(),
                         "meanings that no case ran")


class ArmChecked(unittest.TestCase):
    @unittest.skipUnless(HAS_COMPILER, "aarch64-linux-gnu-gcc")
    def test_library(self):
        """Each function of the library for ARM is shown."""
        done = subprocess.run([ROOT / "verify/check", LIBRARY], capture_output=True, text=True,
                              check=False)
        self.assertEqual(done.returncode, 0, done.stdout + done.stderr)
        self.assertRegex(done.stdout.splitlines()[-1], r"^[1-9]\d* functions shown, 0 refused$")

    @unittest.skipUnless(HAS_COMPILER, "aarch64-linux-gnu-gcc")
    def test_page(self):
        """The table of docs/VERIFY.md is that of the library for ARM."""
        done = subprocess.run([sys.executable, ROOT / "verify/page.py", LIBRARY],
                              capture_output=True, text=True, check=False)
        self.assertEqual(done.returncode, 0, done.stderr)


class ArmFaults(unittest.TestCase):
    @unittest.skipUnless(HAS_BOTH, "aarch64-linux-gnu-gcc and qemu-aarch64")
    def test_planted(self):
        """Each of 50 planted faults and 100 flipped bits for ARM is refused, or computes the
        same."""
        done = subprocess.run([sys.executable, ROOT / "verify/mutations.py", "--flips", "100",
                               LIBRARY], capture_output=True, text=True, check=False)
        failed = [it for it in done.stdout.splitlines() if it.startswith("FAIL")]
        self.assertEqual((done.returncode, failed), (0, []), done.stderr)
        passed = int(re.match(r"(\d+) passed, 0 failed$", done.stdout.splitlines()[-1])[1])
        self.assertGreaterEqual(passed, 150)


CASES = (ArmReader, ArmMeanings, ArmChecked, ArmFaults)
