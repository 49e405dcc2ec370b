# SPDX-License-Identifier: ISC
"""What the system refuses a run, call by call."""

import contextlib
import functools
import itertools
import os

from lists import BUILDS, digest_of, run
from run import Case

# The calls of which one fails.
COUNTED = "open statx getdents64 read write"
# Those that read.
READS = "getdents64 read"
# What is said where a run ends at once.
AT_ONCE = (b"sums: memory exhausted\n", b"sums: write error\n")


class Failing(Case):
    """Each call of the system fails in turn."""

    longMessage = False
    NAMES = ["x", "long name", "z"]

    def setUp(self):
        self.preload = self.new_preload()
        self.path = self.new_path()
        self.lines = []
        for name in self.NAMES:
            content = name.encode() * 40_000
            (self.path / name).write_bytes(content)
            self.lines.append(digest_of("sha256", content) + b"  " + name.encode() + b"\n")
        (self.path / "list").write_bytes(b"".join(self.lines))

    def run_with(self, build, words, given=b"", counted=COUNTED, **failing):
        """A run with the library loaded: how it ends, and its counted calls and requests. Standard
        input is a pipe with bytes, or the file of a name."""
        with contextlib.ExitStack() as files:
            settings = {"given": given}
            if not isinstance(given, bytes):
                settings = {"stdin": files.enter_context(open(self.path / given, "rb"))}
            run_by = functools.partial(run, build, words, self.path, **settings)
            found, calls, requests = self.preload.watched(run_by, COUNTED=counted, **failing)
        self.assertIsNotNone(requests, f"the library is not loaded: {found}")
        return found, {"FAILED_CALL": len(calls), "REFUSED_REQUEST": requests}

    def in_turn(self, which, words, holds, given=b""):
        """Fails each call or request in turn: a run is whole, or honest with status 1."""
        for build in BUILDS:
            whole, counts = self.run_with(build, words, given)
            self.assertEqual(whole[0], 0, whole)
            self.assertGreater(counts[which], 0)
            for number in range(1, counts[which] + 1):
                found, _ = self.run_with(build, words, given, **{which: number})
                with self.subTest(words=words, given=given, number=number):
                    is_told = found[0] == 1 and found[2] and holds(found)
                    self.assertTrue(found == whole or is_told, found)

    def is_honest_listing(self, found):
        """Lines are right and in order, and of each file that has none something is told."""
        _, output, error = found
        lines = output.splitlines(keepends=True)
        kept = iter(self.lines)
        is_ordered = all(line in kept for line in lines)
        pairs = zip(self.NAMES, self.lines)
        told = all(line in lines or quoted(name) in error for name, line in pairs)
        return is_ordered and (told or error in AT_ONCE)

    def is_honest_tree(self, found):
        """The same of a tree, where it may be told of a folder instead."""
        _, output, error = found
        lines = output.splitlines(keepends=True)
        kept = iter(self.tree)
        is_ordered = all(line in kept for line in lines)
        told = all(
            line in lines or any(b"sums: " + path + b": " in error for path in paths_to(line))
            for line in self.tree)
        return is_ordered and (told or error in AT_ONCE)

    def is_honest_check(self, found):
        """No file is OK that was not read."""
        _, output, error = found
        lines = output.splitlines()
        wanted = [name.encode() + b": OK" for name in self.NAMES]
        for line in lines:
            if line not in wanted and not line.endswith(b": FAILED open or read"):
                return False
        return lines != wanted or b"read error" in error or error in AT_ONCE

    def test_each_call_of_a_listing(self):
        """Each open, read, look and write fails in turn."""
        self.in_turn("FAILED_CALL", ["x", "long name", "z"], self.is_honest_listing)

    def test_each_call_of_a_check(self):
        """The same of a check."""
        self.in_turn("FAILED_CALL", ["-c", "list"], self.is_honest_check)

    def test_each_call_over_standard_input(self):
        """The same of a listing and a check of standard input, a pipe or a file."""
        text = b"".join(self.lines)
        line = digest_of("sha256", text) + b"  -\n"
        for given in (text, "list"):
            self.in_turn("FAILED_CALL", ["-"], lambda found: found[1] in (b"", line), given)
            self.in_turn("FAILED_CALL", ["-c"], self.is_honest_check, given)

    def test_no_call_behind_a_failed_write(self):
        """A run of which a write fails makes no call behind it: a listing, a tree, checks."""
        self.write_trees()
        text = b"".join(self.lines)
        rows = [
            (["x", "long name", "z"], b""), (["-r", "t", "u"], b""), (["-c", "list"], b""),
            (["-c", "list", "-", "list"], text),
        ]
        for build, (words, given) in itertools.product(BUILDS, rows):
            run_by = functools.partial(run, build, words, self.path, given=given)
            whole, calls, _ = self.preload.watched(run_by, COUNTED=COUNTED)
            lines = whole[1].splitlines(keepends=True)
            writes = [place for place, name in enumerate(calls, 1) if name == "write"]
            self.assertEqual(len(writes), len(lines))
            for line, number in enumerate(writes):
                settings = {"COUNTED": COUNTED, "FAILED_CALL": number}
                found, made, _ = self.preload.watched(run_by, **settings)
                with self.subTest(words=words, number=number):
                    self.assertEqual(made, calls[:number])
                    self.assertEqual(found, (1, b"".join(lines[:line]), b"sums: write error\n"))

    def write_trees(self):
        """Writes two trees, of which `self.tree` has the lines."""
        self.tree = []
        for name in (b"t/a", b"t/b/c", b"t/b/d/e", b"t/f", b"u/g"):
            path = self.path / os.fsdecode(name)
            path.parent.mkdir(parents=True, exist_ok=True)
            path.write_bytes(name)
            self.tree.append(digest_of("sha256", name) + b"  " + name + b"\n")

    def test_each_call_of_trees(self):
        """The same of a run with `-r`."""
        self.write_trees()
        self.in_turn("FAILED_CALL", ["-r", "t", "u"], self.is_honest_tree)

    def test_trees_that_cannot_be_opened(self):
        """A tree that cannot be opened makes the status 1, wherever it stands."""
        self.write_trees()
        first, *_, fourth, last = self.tree
        rows = [
            (["-r", "t/b", "u"], [last]), (["-r", "u", "t/b"], [last]),
            (["-r", "t/b", "t/f"], [fourth]), (["-r", "t", "u"], [first, fourth, last]),
            (["-r", "t/b"], []),
        ]
        for build in BUILDS:
            for words, lines in rows:
                found, _ = self.run_with(build, words, SHUT_PATH="t/b")
                wanted = (1, b"".join(lines), b"sums: t/b: Permission denied\n")
                self.assertEqual(found, wanted, (words, found))

    def test_files_that_vanish(self):
        """A name in a folder at which nothing stands any more is told, and makes the status 1."""
        self.write_trees()
        first, _, *rest = self.tree[:4]
        for build in BUILDS:
            found, _ = self.run_with(build, ["-r", "t"], GONE_PATH="t/b/c")
            reason = b"sums: t/b/c: No such file or directory\n"
            self.assertEqual(found, (1, b"".join([first, *rest]), reason))

    def test_file_with_the_inode_of_the_output(self):
        """`-r` leaves out the file with the device and the inode of standard output, and not one
        that has its inode on another device."""
        self.write_trees()
        for build in BUILDS:
            with open(self.path / "t/list", "wb") as output:
                run_by = functools.partial(run, build, ["-r", "t"], self.path, stdout=output)
                found, _, _ = self.preload.watched(run_by, TWIN_PATH="t/a")
            self.assertEqual(found[::2], (0, b""))
            self.assertEqual((self.path / "t/list").read_bytes(), b"".join(self.tree[:4]))

    def test_many_folders(self):
        """`-r` reads each of 65,600 folders in one, all of which wait when the next is read."""
        count = 65_600
        for place in range(count):
            os.mkdir(self.path / f"{place}")
        for build in BUILDS:
            # Of each folder some names are read, and then none.
            run_by = functools.partial(run, build, ["-r", "."], self.path, timeout=600)
            _, calls, _ = self.preload.watched(run_by, COUNTED="open getdents64")
            self.assertGreaterEqual(calls.count("getdents64"), 2 * (count + 1))

    def test_interruptions(self):
        """A run whose reads are interrupted is a whole one: each in turn, and every other one."""
        self.write_trees()
        text = b"".join(self.lines)
        rows = [
            (["x", "long name", "z"], b""), (["-c", "list"], b""), (["-r", "t", "u"], b""),
            (["x", "-", "z"], text * 500), (["-"], "long name"), (["-c"], text), (["-c"], "list"),
        ]
        for build, (words, given) in itertools.product(BUILDS, rows):
            run_with = functools.partial(self.run_with, build, words, given, READS)
            whole, counts = run_with()
            self.assertEqual(whole[0], 0, whole)
            self.assertGreater(counts["FAILED_CALL"], len(words))
            for number in range(1, counts["FAILED_CALL"] + 1):
                found, _ = run_with(INTERRUPTED_CALL=number)
                self.assertEqual(found, whole, (words, number))
            for step in (1, 997, 65_536):
                found, _ = run_with(INTERRUPTED_EVERY=2, STEP=step)
                self.assertEqual(found, whole, (words, step))

    def test_reads_of_a_long_list(self):
        """Where the reading of a list of 200,000 bytes fails the lines before are checked, and the
        status is 1: at each of its reads, and where they are short."""
        line = digest_of("sha256", b"1") + b"  s\n"
        text = line * (200_000 // len(line) + 1)
        (self.path / "s").write_bytes(b"1")
        (self.path / "long").write_bytes(text)
        for build in BUILDS:
            whole, _ = self.run_with(build, ["-c", "long"])
            self.assertEqual(whole, (0, b"s: OK\n" * text.count(b"\n"), b""))
            # Parts of 65,536 bytes, and the end. Behind each the files of its lines are read, each
            # with two reads.
            for number in range(1, 6):
                lines = text[:65_536 * (number - 1)].count(b"\n")
                failing = {"FAILED_CALL": number + 2 * lines}
                found, _ = self.run_with(build, ["-c", "long"], counted="read", **failing)
                wanted = (1, b"s: OK\n" * lines, b"sums: long: read error\n")
                self.assertEqual(found, wanted, number)
            found, _ = self.run_with(build, ["-c", "long"], counted="read", FAILED_CALL=2)
            self.assertEqual(found[0], 1)
            self.assertIn(b"s: FAILED open or read\n", found[1])
            for step in (1, 71, 4096):
                found, _ = self.run_with(build, ["-c", "long"], counted="read", STEP=step)
                self.assertEqual(found, whole, step)

    def test_each_request_for_memory(self):
        """Each request for memory is refused in turn."""
        self.in_turn("REFUSED_REQUEST", ["x", "long name", "z"], self.is_honest_listing)
        self.in_turn("REFUSED_REQUEST", ["-c", "list"], self.is_honest_check)

    def test_short_reads(self):
        """Reads of at most 1, 63, 997, 4,096 and 65,535 bytes."""
        length = sum((self.path / name).stat().st_size for name in self.NAMES)
        for build in BUILDS:
            for step in (1, 63, 997, 4096, 65_535):
                words = ["x", "long name", "z"]
                found, counts = self.run_with(build, words, counted="read", STEP=step)
                self.assertEqual(found, (0, b"".join(self.lines), b""))
                self.assertGreaterEqual(counts["FAILED_CALL"], length // step)

    def test_files_that_change(self):
        """Of a file that shrinks or grows meanwhile, the digest is that of the bytes read."""
        before = bytes(range(250)) * 4000
        for build in BUILDS:
            for length in (300_000, 65_536, 1_500_000):
                (self.path / "changing").write_bytes(before)
                changed = {"CHANGED_FILE": "changing", "CHANGED_LENGTH": length}
                found, _ = self.run_with(build, ["changing"], **changed)
                read = before[:length] + bytes(max(length - len(before), 0))
                self.assertEqual(found, (0, digest_of("sha256", read) + b"  changing\n", b""))


def paths_to(line):
    """The paths of the file that a line lists, and of the folders above it."""
    parts = line.rstrip(b"\n").split(b"  ", 1)[1].split(b"/")
    return [b"/".join(parts[:count]) for count in range(1, len(parts) + 1)]


def quoted(name):
    return f"'{name}'".encode() if " " in name else name.encode()
