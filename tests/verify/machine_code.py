# SPDX-License-Identifier: ISC
"""The reader of instructions, their meanings, and the library itself."""

import pathlib
import random
import re
import shutil
import subprocess
import sys
import tempfile
import unittest

import decode_x86
import native
import test_x86
import x86
from elf import Library
from machine import Unknown
from operands_x86 import SUFFIXES, decode
from vectors_x86 import PACKED, PACKED_SHIFTS, SPECIAL, WITH_NUMBER

ROOT = pathlib.Path(__file__).resolve().parent.parent.parent
LIBRARY = ROOT / "out/libyezdopin.so.0"
# What moves between instructions, and not between values, and what asks the processor.
CONTROL = re.compile(r"j\w+|call|ret|push|pop|nop|endbr64|cpuid|xgetbv")
# How the binutils of Debian 13 write that an operand is moved by one bit, without `$1` before.
MOVED_BY_ONE = re.compile(r"^((?:sh|ro|rc|sa)[lr][bwlq]?) \$1,")
# How objdump writes what this reader writes otherwise: nothing is run by it.
NOP = re.compile(r"\bnop|^xchg %ax,%ax$")


def plain(text):
    """Text without what this reader leaves out: prefixes without an effect, how a nop is long, the
    one bit by which an operand is moved."""
    text = re.sub(r"^((rex(\.\w+)?|data16) )+", "", text).replace("$0x1,", "$1,")
    return "nop" if NOP.search(text) else MOVED_BY_ONE.sub(r"\1 ", text)


def meaningful(library):
    """The instructions of all functions that have a meaning, as pairs of bytes and text."""
    found = set()
    for symbol in library.symbols:
        library.read_lines(symbol)
    for line in library.lines.values():
        try:
            it = decode(line)
            if not CONTROL.fullmatch(it.name):
                x86.meaning(it)
                found.add((line.raw.hex(), line.text))
        except Unknown:
            pass
    return found


# Instructions that have a meaning, and of whose names this library may have none.
FURTHER = """
    movsbl %al,%ecx; movzbw %al,%cx; sarx %eax,%ecx,%edx; ror $5,%ecx; rol $7,%rcx
    shrd $9,%eax,%ecx; sar $3,%rdx; movhps (%rax),%xmm1; movlps (%rcx),%xmm1; orps %xmm1,%xmm2
    andps %xmm1,%xmm2; pinsrw $3,%eax,%xmm1; pinsrb $5,%eax,%xmm1; pextrb $4,%xmm1,%eax
    pextrq $1,%xmm1,%rax; pinsrq $0,%rcx,%xmm1; pextrw $4,%xmm1,%eax
    pmovzxbw %xmm1,%xmm2; pmovzxbd %xmm1,%xmm2; pmovzxbq %xmm1,%xmm2
    pmovzxwd %xmm1,%xmm2; vpmovzxdq %xmm1,%ymm2; psrlw $3,%xmm1; psllw $3,%xmm1
    vpsrlvd %ymm1,%ymm2,%ymm3; vpsllvd %ymm1,%ymm2,%ymm3; vpsrlvq %ymm1,%ymm2,%ymm3
    vpsllvq %ymm1,%ymm2,%ymm3; vpermpd $27,%ymm1,%ymm2; insertps $0x5d,%xmm1,%xmm2
    movsbw %al,%cx; movswl %ax,%ecx; movswq %ax,%rcx; movsbq %al,%rcx; movzwl %ax,%ecx
    bswap %rcx; xchg %rax,%rcx; bt $5,%rcx; adc %rax,%rcx; sbb %rax,%rcx; not %rcx; neg %rcx
    pcmpeqb %xmm1,%xmm2; vpcmpeqb %ymm1,%ymm2,%ymm3; pmovmskb %xmm1,%ecx; vpmovmskb %ymm1,%ecx
    punpcklbw %xmm1,%xmm2; punpckhbw %xmm1,%xmm2; vpunpcklbw %ymm1,%ymm2,%ymm3
    vpunpckhbw %ymm1,%ymm2,%ymm3; vpbroadcastb %xmm1,%ymm2; mulx %rax,%rcx,%rbx
    mulx %eax,%ecx,%ebx; div %rcx; div %ecx; tzcnt %rax,%rcx; tzcnt %eax,%ecx; lzcnt %rax,%rcx
    lzcnt %eax,%ecx; bsf %rax,%rcx; bsr %rax,%rcx; bsr %eax,%ecx; blsr %rax,%rcx; blsr %eax,%ecx
    sha1rnds4 $0x41,%xmm1,%xmm2; sha1rnds4 $0x22,%xmm1,%xmm2
""" + "".join(f"{name}{condition} {operands}\n" for condition in x86.CONDITIONS
              for name, operands in (("cmov", "%rax,%rcx"), ("cmov", "%eax,%ecx"), ("set", "%cl")))


def further(room):
    """The bytes and the texts of FURTHER."""
    subprocess.run(["as", "-", "-o", f"{room}/further.o"], input=FURTHER, text=True, check=True)
    subprocess.run(["objcopy", "-O", "binary", "-j", ".text", f"{room}/further.o",
                    f"{room}/further"], check=True)
    data, found, at = pathlib.Path(room, "further").read_bytes(), set(), 0
    while at < len(data):
        size, text = decode_x86.read(data[at:at + 15], at)
        found.add((data[at:at + size].hex(), text))
        at += size
    return found


def names_with_meanings():
    """The names of all tables, without the sizes that some have at their ends."""
    vectors = {*PACKED, *PACKED_SHIFTS, *WITH_NUMBER, *SPECIAL}
    return {*x86.GENERAL, *vectors}


def names_tested(names):
    """The names of the tables that instructions of these names go by."""
    for name in names:
        yield name
        if name[0] == "v":
            yield name[1:]
        if name[-1] in SUFFIXES:
            yield name[:-1]


def compare_with_objdump(case, path):
    """Whether each instruction that has a meaning is read as objdump reads it. Gives how many."""
    library, compared = Library(str(path), by_objdump=True), 0
    for symbol in library.symbols:
        if symbol.size:
            library.read_lines(symbol)
    for at, line in library.lines.items():
        try:
            size, text = decode_x86.read(line.raw, at)
        except decode_x86.Unreadable:
            with case.assertRaises(Unknown, msg=line.text):
                x86.meaning(decode(line))
            continue
        case.assertEqual((size, plain(text)), (len(line.raw), plain(line.text)), f"{at:x}")
        compared += 1
    return compared


class Reader(unittest.TestCase):
    maxDiff = None

    @unittest.skipUnless(shutil.which("objdump"), "objdump")
    def test_objdump(self):
        """Each instruction that has a meaning is read as objdump reads it, in each function."""
        self.assertGreater(compare_with_objdump(self, LIBRARY), 50_000)

    @unittest.skipUnless(shutil.which("objdump"), "objdump")
    def test_random_bytes(self):
        """Bytes of the library with a bit flipped are read as objdump reads them, or not at all."""
        source, lines = random.Random(4), []
        library = Library(str(LIBRARY))
        for symbol in library.symbols:
            library.read_lines(symbol)
        chosen = source.sample(sorted(library.lines), 20_000)
        for at in chosen:
            raw = bytearray(library.lines[at].raw)
            raw[source.randrange(len(raw))] ^= 1 << source.randrange(8)
            raw += b"\x90" * 15
            try:
                size, text = decode_x86.read(bytes(raw), 0)
            except decode_x86.Unreadable:
                continue
            lines.append((bytes(raw[:size]), text))
        with tempfile.TemporaryDirectory() as room:
            path = pathlib.Path(room, "bytes")
            path.write_bytes(b"".join(raw.ljust(32, b"\x90") for raw, _ in lines))
            listing = subprocess.run(
                ["objdump", "-D", "-wz", "-b", "binary", "-m", "i386:x86-64", path], check=True,
                capture_output=True, text=True).stdout
        read = {}
        for line in listing.splitlines():
            if (it := re.match(r" *([0-9a-f]+):\t([0-9a-f ]+?)\s*\t(.*)", line)):
                text = re.sub(r"\s*(<|#(?= 0x[0-9a-f]+)).*", "", it[3])
                read[int(it[1], 16)] = (len(bytes.fromhex(it[2])), " ".join(text.split()))
        differ = []
        for i, (raw, text) in enumerate(lines):
            size, other = read[32 * i]
            other = plain(other)
            if re.match(r"j\w+ |call ", text) and "*" not in text:
                name, _, target = other.rpartition(" ")
                other = f"{name or text.split()[0]} {(int(target, 16) - 32 * i) % (1 << 64):x}"
            if (len(raw), plain(text)) != (size, other):
                differ.append((raw.hex(), text, other))
        self.assertEqual(differ, [])


class Meanings(unittest.TestCase):
    @unittest.skipUnless(shutil.which("gcc"), "gcc")
    def test_processor(self):
        """Each meaning gives what the processor gives, from random states, flags too. The SHA
        instructions are emulated where the processor has none."""
        with tempfile.TemporaryDirectory() as room:
            lines = meaningful(Library(str(LIBRARY))) | further(room)
            found = test_x86.compare(lines, room)
        names = found.names
        if run := native.processor():
            with tempfile.TemporaryDirectory() as room:
                chosen = {it for it in lines if it[1].startswith("sha")}
                of_sha = test_x86.compare(chosen, room, run)
            self.assertEqual(dict(of_sha.failed), {})
            names = names | of_sha.names
        self.assertEqual(dict(found.failed), {})
        self.assertGreater(found.cases, 10_000)
        untested = names_with_meanings() - set(names_tested(names))
        self.assertEqual({it for it in untested if not CONTROL.fullmatch(it)}, set(),
                         "meanings that no case ran")


class Checked(unittest.TestCase):
    def test_page(self):
        """The tables of docs/VERIFY.md are those of the library and the checker."""
        done = subprocess.run([sys.executable, ROOT / "verify/page.py", LIBRARY],
                              capture_output=True, text=True, check=False)
        self.assertEqual(done.returncode, 0, done.stderr)

    def test_library(self):
        """Each function of the library is shown."""
        done = subprocess.run([ROOT / "verify/check", LIBRARY], capture_output=True, text=True,
                              check=False)
        self.assertEqual(done.returncode, 0, done.stdout + done.stderr)
        self.assertRegex(done.stdout.splitlines()[-1], r"^[1-9]\d* functions shown, 0 refused$")
        most = max(int(it) for it in re.findall(r" s, (\d+) MB$", done.stdout, re.M))
        self.assertLess(most, 1200, "MB, of which a process may take 1536")


CASES = (Reader, Meanings, Checked)
