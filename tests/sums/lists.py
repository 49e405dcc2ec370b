# SPDX-License-Identifier: ISC
"""How the program of ./sums runs, with vectors of each width, the lines that it writes, and the
files that it reads."""

import hashlib
import os
import pathlib
import random
import subprocess
import sys
import tempfile

from run import ROOT, built, ended

sys.path.append(str(ROOT / "tools"))
import rows

LAUNCHER = ROOT / "sums"
# Without which it runs over vectors of 128 bits.
FEATURES = {"avx", "avx2", "bmi1", "bmi2", "f16c", "fma", "abm", "movbe", "xsave"}
VERSION = "9.1"
ENVIRONMENT = {"LC_ALL": "C.UTF-8", "PATH": "/usr/bin:/bin"}
TIMEOUT = 120

# The program's name, coreutils' name, the name of an option, and `hashlib`'s.
ALGORITHMS = tuple(it.name.lower() for it in rows.KEYED)
TAGS = {it.name.lower().replace("_", "-"): it.name.replace("_", "/") for it in rows.ALGORITHMS}

NAMES = [
    b"a", b"b.txt", b"with space", b"two  spaces", b" leading", b"trailing ", b"*star", b"-dash",
    b"--", b"--tag", b"it's", b"it's $5", b'"quoted"', b"back\\slash", b"line\nfeed", b"re\rturn",
    b"both\\and\n", b"all\r\\\n", b"tab\there", b"bell\x07", b"esc\x1b[31m", b"del\x7f",
    "é".encode(), "日本".encode(), "é's".encode(), b"#hash", b"a#hash", b"~home", b"a~home", b"{",
    b"}", b"{a", b"a}", b"[x]", b"a=b", b"a;b", b"a:b", b"a|b", b"a&b", b"a<b>c", b"a?b", b"a!b",
    b"a^b", b"a`b", b"a$b", b"(a)", b"a) = b", b"SHA256 (x) = y", b"a,b%c+d@e", b"endslash\\",
    b"\\n", b"\\", b"\nfirst", b"last\n", b"=", b"%", b"x" * 200, "\u0085next".encode(), b"'",
    b"''", b"'\n'", b"a'b\x01",
]
LENGTHS = [
    0, 1, 3, 55, 56, 63, 64, 65, 111, 112, 119, 120, 127, 128, 129, 1000, 65535, 65536, 65537,
    200_000,
]


def has_avx2():
    """Whether the program runs over vectors of 256 bits here."""
    lines = pathlib.Path("/proc/cpuinfo").read_text().splitlines()
    flags = next((line for line in lines if line.startswith("flags")), "")
    return FEATURES <= set(flags.split())


# Where the program is built, and what is built for a run of the tests.
PROGRAMS = pathlib.Path(os.environ.get("PROGRAMS", ROOT / "programs"))
ROOM = tempfile.TemporaryDirectory(prefix="sums.")


def made(flags, name):
    """The program of the text, whose C is compiled with flags."""
    program = pathlib.Path(ROOM.name) / name
    environment = {**os.environ, "CFLAGS": f"-O2 {flags}"}
    subprocess.run([PROGRAMS / "build", "ring_sums_main", program], env=environment, check=True)
    return program


# What the kit builds of other sources than the text's asks no processor.
PROGRAM = built("ring_sums_main")
WIDE = PROGRAM if PROGRAM.parent.name == "built" and has_avx2() else None
NARROW = made("-DFORCED=2", "narrow") if WIDE else PROGRAM
BUILDS = list(filter(None, [NARROW, WIDE]))


def run(program, words, folder, name="sums", given=b"", env=(), **settings):
    """How a run under a name ends: its status, its output and its messages."""
    settings = {"timeout": TIMEOUT, "executable": program, "cwd": folder, **settings}
    return ended(name, *words, given=given, env={**ENVIRONMENT, **dict(env)}, **settings)


class Files:
    """A folder with files that have all kinds of names, one of which cannot be read."""

    def __init__(self, path, seed):
        self.path = pathlib.Path(path)
        self.contents = {}
        draw = random.Random(seed)
        for place, name in enumerate(NAMES):
            self.write(name, draw.randbytes(LENGTHS[place % len(LENGTHS)]))
        (self.path / "folder").mkdir()
        os.symlink("a", self.path / "link")
        os.symlink("nothing", self.path / "dangling")

    def write(self, name, content):
        (self.path / os.fsdecode(name)).write_bytes(content)
        self.contents[name] = content

    def digest(self, algorithm, name):
        return hashlib.new(algorithm.replace("-", "_"), self.contents[name]).hexdigest().encode()


def escaped(name):
    """A name with its escapes, and the backslash that then begins the line."""
    if not set(name) & set(b"\\\n\r"):
        return b"", name
    return b"\\", name.replace(b"\\", b"\\\\").replace(b"\n", b"\\n").replace(b"\r", b"\\r")


def line_of(style, algorithm, digits, name):
    """A line of a list, as coreutils write it."""
    mark, shown = escaped(name)
    if style == "tag":
        return mark + TAGS[algorithm].encode() + b" (" + shown + b") = " + digits + b"\n"
    between = {"text": b"  ", "binary": b" *", "reversed": b" "}[style]
    return mark + digits + between + shown + b"\n"


def digest_of(algorithm, content):
    return hashlib.new(algorithm.replace("-", "_"), content).hexdigest().encode()
