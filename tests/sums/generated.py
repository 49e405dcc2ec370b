# SPDX-License-Identifier: ISC
"""Generated cases, beside coreutils."""

import hashlib
import itertools
import os
import random
import re
import shutil
import subprocess
import tempfile
import unittest

from lists import ALGORITHMS, BUILDS, ENVIRONMENT, NAMES, VERSION, Files, line_of, run

# How many cases of each kind are generated.
LISTINGS, CHECKS, LONG_CHECKS, PART_ENDS, WORDS = 900, 1100, 20, 200, 400


def other_digit(draw, digits):
    """Digits of which one is another."""
    place = draw.randrange(len(digits))
    digit = draw.choice([it for it in b"0123456789abcdef" if it != digits[place]])
    return digits[:place] + bytes([digit]) + digits[place + 1:]


def broken(draw, line):
    """A line that is changed somewhere."""
    place = draw.randrange(len(line))
    return draw.choice([
        lambda: line[:place] + line[place + 1:],
        lambda: line[:place] + bytes([draw.choice(b" \t\\()=*#zA0\r")]) + line[place:],
        lambda: line[:place] + bytes([draw.choice(b" \t\\()=*#zA0\r")]) + line[place + 1:],
        lambda: line.replace(b"  ", b" ", 1),
        lambda: line.replace(b" ", b"\t", 1),
        lambda: b"  \t" + line,
        lambda: b"\\" + line,
        lambda: line[:draw.randrange(len(line))] + b"\n",
        lambda: line.replace(b" = ", draw.choice([b"=", b"  =  ", b" =", b"\t=\t", b" == "]), 1),
        lambda: line.replace(b" (", draw.choice([b"(", b"  (", b" [", b"\t("]), 1),
        lambda: b"#" + line,
        lambda: line[:-1] + b" \n",
        lambda: line[:-1] + b"0\n",
    ])()


def line_for(draw, files, algorithm, style):
    """A line of a list: mostly of a file, with its digest."""
    kind = draw.random()
    others = [
        b"missing", b"no such", b"folder", b"dangling", b"link", b"it's gone", b"nothing\nhere",
    ]
    name = draw.choice([*NAMES, *NAMES, *others])
    content = files.contents.get(name, files.contents[b"a"])
    used = algorithm if draw.random() < 0.93 else draw.choice(ALGORITHMS)
    digits = hashlib.new(used, content).hexdigest().encode()
    if kind < 0.12:
        digits = other_digit(draw, digits)
    if kind > 0.9:
        digits = digits.upper()
    line = line_of(style, used, digits, name)
    if draw.random() < 0.08:
        line = broken(draw, line)
    if draw.random() < 0.05:
        line = line[:-1] + b"\r\n"
    return line


NO_LINES = [b"\n", b"# a comment\n", b"\r\n", b"nonsense\n", b" \n", b"\\\n", b"0\n"]


def list_for(draw, files, algorithm):
    """A list that a check reads."""
    styles = draw.choice([
        ["text"], ["binary"], ["tag"], ["text", "binary"], ["text", "tag", "binary"], ["reversed"],
        ["text", "reversed"], ["tag", "reversed"],
    ])
    lines = []
    for _ in range(draw.choice([0, 1, 1, 2, 3, 5, 12, 30])):
        lines.append(line_for(draw, files, algorithm, draw.choice(styles)))
        if draw.random() < 0.07:
            lines.append(draw.choice(NO_LINES))
    text = b"".join(lines)
    return text[:-1] if text and draw.random() < 0.2 else text


def listing_words(draw):
    """The words of a run that lists files, and what stands on standard input."""
    options = [b"-b", b"-t", b"--tag", b"-z", b"--zero", b"--binary", b"--text", b"-bz", b"-tz"]
    words = draw.choices(options, k=draw.choice([0, 0, 1, 1, 2]))
    count = draw.choice([0, 1, 1, 2, 3, 8, 20])
    others = [
        b"missing", b"no such", b"folder", b"dangling", b"link", b"", b"a/", b"missing\nfile",
        b"it's gone", b"-",
    ]
    operands = [draw.choice(others if draw.random() < 0.15 else NAMES) for _ in range(count)]
    if any(word.startswith(b"-") and word != b"-" for word in operands):
        return words + [b"--"] + operands
    everything = words + operands
    draw.shuffle(everything)  # options may stand behind operands
    return everything


def check_words(draw, lists):
    """The words of a run that checks lists."""
    words = [draw.choice([b"-c", b"--check", b"--ch"])]
    options = [
        b"--quiet", b"--status", b"--strict", b"--ignore-missing", b"-w", b"--warn", b"--ig",
        b"--stri",
    ]
    words += draw.choices(options, k=draw.choice([0, 0, 1, 1, 2, 3]))
    everything = words + lists
    draw.shuffle(everything)
    return everything


ODD_WORDS = [
    b"-b", b"-t", b"-c", b"-w", b"-z", b"-bc", b"-cw", b"-x", b"-bx", b"-cx", b"--", b"-", b"a",
    b"b.txt", b"missing", b"list", b"--tag", b"--ta", b"--t", b"--te", b"--text", b"--b", b"--bin",
    b"--c", b"--q", b"--qu=1", b"--quiet", b"--s", b"--st", b"--sta", b"--str", b"--strict=",
    b"--i", b"--w", b"--z", b"--zero=x", b"--foo", b"--foo=bar", b"--checks", b"--check=a",
    b"--status", b"--ignore-missing", b"--warn", b"-tb", b"--\xc3\xa9", b"--st=1", b"-=", b"-1",
    b"--strict", b"-bb",
]


def said_before(output):
    """What a check says, as coreutils said it before 9.7: only where a name has a line feed does it
    stand with escapes."""
    lines = output.split(b"\n")
    for place, line in enumerate(lines):
        if not line.startswith(b"\\"):
            assert not set(line) & set(b"\\\r"), line
            continue
        letters = {b"\\": b"\\", b"n": b"\n", b"r": b"\r"}
        plain = re.sub(rb"\\([\\nr])", lambda found: letters[found[1]], line[1:])
        lines[place] = line if b"\n" in plain else plain
    return b"\n".join(lines)


class BesideCoreutils(unittest.TestCase):
    """The generated cases, beside coreutils."""

    count = 0
    longMessage = False

    @classmethod
    def setUpClass(cls):
        if shutil.which("sha256sum") is None or f" {VERSION}\n" not in subprocess.run(
            ["sha256sum", "--version"], capture_output=True, text=True, env=ENVIRONMENT
        ).stdout:
            raise unittest.SkipTest(f"coreutils {VERSION}")
        cls.room = tempfile.TemporaryDirectory()
        cls.files = Files(cls.room.name, 1)
        cls.folder = cls.room.name

    @classmethod
    def tearDownClass(cls):
        cls.room.cleanup()

    def same(self, algorithm, words, given=b"", is_check=False):
        """Each build does as coreutils, but for the escapes of what a check says."""
        name = f"{algorithm}sum"
        wanted = run(shutil.which(name), words, self.folder, name, given)
        for build in BUILDS:
            status, output, error = run(build, words, self.folder, name, given)
            found = status, said_before(output) if is_check else output, error
            self.assertEqual(found, wanted, f"{name} {words}\n  {found}\n  {wanted}")
        BesideCoreutils.count += 1

    def test_listings(self):
        """Lines of files."""
        draw = random.Random(2)
        for case in range(LISTINGS):
            with self.subTest(case=case):
                algorithm, words = draw.choice(ALGORITHMS), listing_words(draw)
                self.same(algorithm, words, draw.randbytes(draw.choice([0, 5, 70_000])))

    def test_checks(self):
        """Checks of lists."""
        draw = random.Random(3)
        for case in range(CHECKS):
            with self.subTest(case=case):
                algorithm = draw.choice(ALGORITHMS)
                lists = []
                for place in range(draw.choice([1, 1, 1, 2, 3])):
                    name = f"list {place}" if draw.random() < 0.1 else f"list{place}"
                    (self.files.path / name).write_bytes(list_for(draw, self.files, algorithm))
                    lists.append(name.encode())
                given = b""
                if draw.random() < 0.15:
                    lists[-1] = b"-"
                    given = list_for(draw, self.files, algorithm)
                if draw.random() < 0.05:
                    lists.append(draw.choice([b"missing", b"folder", b"no such"]))
                self.same(algorithm, check_words(draw, lists), given, is_check=True)

    def test_long_checks(self):
        """Checks of lists of up to 900,000 bytes, also with a line of 700,000."""
        draw = random.Random(5)
        for case in range(LONG_CHECKS):
            with self.subTest(case=case):
                algorithm, pieces, size = draw.choice(ALGORITHMS), [], 0
                while size < draw.choice([250_000, 300_000, 900_000]):
                    # A name that is not UTF-8 is refused.
                    piece = list_for(draw, self.files, algorithm).decode(errors="ignore").encode()
                    pieces.append(piece)
                    size += len(pieces[-1])
                if draw.random() < 0.4:
                    end = draw.choice([b"", b"\n"])
                    long = b"0" * draw.choice([262_144, 700_000]) + end
                    pieces.insert(draw.randrange(len(pieces)), long)
                text = b"".join(pieces)
                (self.files.path / "list0").write_bytes(text)
                lists = draw.choice([[b"list0"], [b"-"], [b"-", b"list0"]])
                self.same(algorithm, check_words(draw, lists), text, is_check=True)

    def test_lines_at_the_end_of_a_part(self):
        """Lists of which each byte of some lines is in turn the last of the first 65,536."""
        draw = random.Random(7)
        for case in range(PART_ENDS):
            with self.subTest(case=case):
                algorithm = draw.choice(["sha1", "sha256"])
                line = line_for(draw, self.files, algorithm, draw.choice(["text", "tag"]))
                behind = list_for(draw, self.files, algorithm) + b"\nnonsense\n" + line
                rest = b"#" * draw.choice([70_000, 131_071]) + b"\n" if case % 4 == 0 else b""
                text = b"#" * (65_536 - 1 - case % (len(line) + 1)) + b"\n" + line + rest + behind
                (self.files.path / "list0").write_bytes(text[:-1] if case % 3 else text)
                words = [b"-c", b"-w", draw.choice([b"list0", b"-"])]
                given = (self.files.path / "list0").read_bytes()
                self.same(algorithm, words, given, is_check=True)

    def test_words(self):
        """Options that are right, abbreviated, unknown, or do not go together."""
        self.write_list()
        draw = random.Random(4)
        for case in range(WORDS):
            with self.subTest(case=case):
                words = draw.choices(ODD_WORDS, k=draw.choice([1, 1, 2, 2, 3, 4]))
                self.same("sha256", words, b"abc")

    def test_long_arguments(self):
        """Arguments longer than the program's first room for one, as names and as options."""
        for length in (255, 256, 257, 300, 511, 512, 513, 1025, 4000, 5000):
            name = b"./" * ((length - 1) // 2) + (b"/a" if length % 2 == 0 else b"a")
            for words in ([name], [b"a", name, b"b.txt"], [b"--" + name, b"a"], [b"-c", name]):
                with self.subTest(length=length, words=len(words)):
                    self.same("sha256", words)

    def test_standard_streams(self):
        """Closed and full streams, and standard input that is asked for twice."""
        self.same("sha256", [b"-", b"-"], random.Random(7).randbytes(200_000))
        for words in ([b"a"], [b"a", b"missing"], [b"-", b"-"], [b"-", b"a", b"-"], [b"-c", b"-"]):
            self.same("sha256", words, b"abc")
        rows = [
            [b"a"], [b"a", b"-", b"b.txt"], [b"missing", b"a"], [b"-"], [b"-", b"-"],
            [b"-c", b"list"], [b"-c"],
        ]
        for closed, words in itertools.product(range(3), rows):
            with self.subTest(closed=closed, words=words):
                self.ends_alike(words, preexec_fn=lambda: os.close(closed))
        for words in ([b"a"], [b"-c", b"list"], [b"-c", b"--status", b"list"]):
            with self.subTest(full=words), open("/dev/full", "wb") as full:
                self.ends_alike(words, stdout=full)

    def test_files_behind_a_line_that_is_not_written(self):
        """On a full disk coreutils read on, and tell of a file that is missing. Ours end."""
        words, ends = [b"a", b"missing", b"b.txt"], b"sha256sum: write error\n"
        told = b"sha256sum: missing: No such file or directory\n"
        rows = [(shutil.which("sha256sum"), told + ends), *((build, ends) for build in BUILDS)]
        for program, wanted in rows:
            with open("/dev/full", "wb") as full:
                found = run(program, words, self.folder, "sha256sum", stdout=full)
            self.assertEqual(found, (1, None, wanted))

    def write_list(self):
        """Writes the list of one file."""
        digits = self.files.digest("sha256", b"a")
        (self.files.path / "list").write_bytes(line_of("text", "sha256", digits, b"a"))

    def ends_alike(self, words, **settings):
        """As `same`, with other streams."""
        self.write_list()
        wanted = run(shutil.which("sha256sum"), words, self.folder, "sha256sum", b"", **settings)
        for build in BUILDS:
            found = run(build, words, self.folder, "sha256sum", b"", **settings)
            self.assertEqual(found, wanted, f"{words}\n  {found}\n  {wanted}")
        BesideCoreutils.count += 1
