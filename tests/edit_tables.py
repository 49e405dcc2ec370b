#!/usr/bin/env python3
# SPDX-License-Identifier: ISC
"""Tests that tests/wrong_bodies.py reads tables of edits whole, and says of a malformed one what is
wrong with it, by its path and line.

Each test has a copy of the script with a crate of its own. The last line is 'N passed, M failed'.

    tests/edit_tables.py [WORD..]     all tests, or those with one of these words in their names
"""

import pathlib
import shutil
import subprocess
import sys
import tempfile
import unittest

sys.dont_write_bytecode = True
sys.path.append(str(pathlib.Path(__file__).resolve().parent / "lib"))
import counted

ROOT = pathlib.Path(__file__).resolve().parent.parent
TABLE = "crates/one/wrong/part.edits"
SOURCE = "pub fn first() -> u32 {\n    1\n}\n\npub fn second() -> u32 {\n    2\n}\n"
FIRST = "file: src/part.rt\nold:     1\nnew:     3\n"
SOUND = f"""# A comment.
== first_is_three
{FIRST}
== first_is_five further
file: src/part.rt
old: 1
new: 4
# The second pair applies to what the first one made.
old: 4
new: 5
file: src/part/below.rt
old: fn third
new: fn fourth

== first_is_a_sum right
file: src/part.rt
old:     1
new:     0 + 1
"""
# The line of a block that stands behind it and an empty line.
NEXT = SOUND.count("\n") + 2


class Tables(unittest.TestCase):
    """What is said of a crate's edits."""

    def setUp(self):
        folder = tempfile.TemporaryDirectory(prefix="edit_tables.")
        self.addCleanup(folder.cleanup)
        self.root = pathlib.Path(folder.name)
        for path in ("tests/wrong_bodies.py", *sorted((ROOT / "tests/lib").glob("rattle_*.py"))):
            path = (ROOT / path).relative_to(ROOT)
            (self.root / path).parent.mkdir(exist_ok=True)
            shutil.copy(ROOT / path, self.root / path)
        self.write("crates.txt", "one:\n")
        self.write("crates/one/src/part.rt", SOURCE)
        self.write("crates/one/src/part/below.rt", "pub fn third() {}\n")

    def write(self, path, text):
        """Writes a file of the copy."""
        path = self.root / path
        path.parent.mkdir(parents=True, exist_ok=True)
        path.write_text(text)

    def said(self, *words):
        """The lines that the script prints, and its status."""
        command = [sys.executable, self.root / "tests/wrong_bodies.py", *words]
        run = subprocess.run(command, capture_output=True, text=True, check=False)
        self.assertEqual(run.stderr, "")
        return run.stdout.splitlines(), run.returncode

    def assert_refused(self, text, line, why, table=TABLE):
        """A table with this text is refused at this line, for this reason."""
        self.write(table, text)
        lines, status = self.said()
        self.assertIn(f"  {table}:{line}: {why}", lines)
        self.assertTrue(lines[-1].endswith(" passed, 1 failed"))
        self.assertEqual(status, 1)

    def test_sound_table_is_read(self):
        """Each kind of edits is counted, those of must-fail/ among them."""
        self.write(TABLE, SOUND)
        self.write("crates/one/must-fail/first_is_four.edit", FIRST.replace("3", "4"))
        said = [f"ok: one: 1 edits, {it}" for it in ("must-fail", "wrong", "further", "right")]
        self.assertEqual(self.said(), ([*said, "4 passed, 0 failed"], 0))

    def test_heads(self):
        """A block begins with a name, and perhaps a mark."""
        why = "it is not '== NAME', '== NAME further' or '.. right'"
        for head in ("==", "== ", "==name", "== Name", "== a name", "== name gate", "=== name"):
            with self.subTest(head):
                self.assert_refused(f"{SOUND}\n{head}\n{FIRST}", NEXT, why)
        why = "the table does not begin with '== NAME'"
        for text in ("", "# A comment.\n", "\n"):
            with self.subTest(text):
                self.assert_refused(text, 1, why)
        self.assert_refused(f"# A comment.\n\n{FIRST}\n{SOUND}", 3, why)

    def test_unknown_lines(self):
        """Each other line has a known key and a text."""
        why = "it is not 'file: ', 'old: ' or 'new: ' with a text"
        for line in ("older: 1", "old:", "old: ", "new:3", "a second line", " old: 1", "file"):
            with self.subTest(line):
                self.assert_refused(f"== name\n{FIRST}{line}\n", 5, why)

    def test_missing_lines(self):
        """Each file has pairs, and each pair both its lines."""
        file, old, new = FIRST.splitlines(keepends=True)
        rest = f"\n== other\n{FIRST}"
        for text, key, line in (
            ("== name\n", "file", 1), (f"== name\n{file}", "old", 2),
            (f"== name\n{file}{old}", "new", 3), (f"== name\n{FIRST}{old}", "new", 5),
            (f"== name\n{FIRST}file: src/part/below.rt\n", "old", 5),
        ):
            with self.subTest(text):
                self.assert_refused(text, line, f"'{key}' is missing behind this line")
                self.assert_refused(text + rest, line, f"'{key}' is missing behind this line")
        for text, wanted, before, line in (
            (f"{old}{new}", "file", "== NAME", 2), (f"{file}{new}", "old", "file", 3),
            (f"{file}{file}", "old", "file", 3), (f"{file}{old}{old}", "new", "old", 4),
            (f"{file}{old}{file}", "new", "old", 4),
            (f"{FIRST}{new}", "old' or 'file", "new", 5),
        ):
            with self.subTest(text):
                why = f"'{wanted}' must stand here, behind '{before}'"
                self.assert_refused(f"== name\n{text}{rest}", line, why)

    def test_edits_without_effect(self):
        """The texts of a pair differ, and a file is named once."""
        same = "== name\nfile: src/part.rt\nold: 1\nnew: 1\n"
        self.assert_refused(same, 4, "'new' is the same as 'old'")
        self.assert_refused(f"== name\n{FIRST}{FIRST}", 5, "the edit names this file twice")

    def test_names_twice(self):
        """A name stands once in a crate, in its tables and in must-fail/."""
        block = f"== first_is_three further\n{FIRST}"
        why = "first_is_three stands at crates/one/{} too"
        self.assert_refused(f"{SOUND}\n{block}", NEXT, why.format("wrong/part.edits:2"))
        self.write("crates/one/must-fail/first_is_three.edit", FIRST)
        self.assert_refused(SOUND, 2, why.format("must-fail/first_is_three.edit:1"))

    def test_old_texts(self):
        """An old text stands once in its file, which is there."""
        why = "it stands {} times in src/part.rt, not once"
        for text, count in (("    9", 0), ("u32", 2), ("1 ", 0)):
            with self.subTest(text):
                block = f"== name\nfile: src/part.rt\nold:     2\nnew: 3\nold: {text}\nnew: x\n"
                self.assert_refused(f"{SOUND}\n{block}", NEXT + 4, why.format(count))
        other = "== name\nfile: src/part/none.rt\nold: 1\nnew: 2\n"
        self.assert_refused(f"{SOUND}\n{other}", NEXT, "there is no src/part/none.rt")

    def test_other_tables(self):
        """An edit stands in the table of its module, and no other file beside the tables."""
        other = "crates/one/wrong/other.edits"
        why = "an edit of src/part.rt stands in part.edits"
        self.assert_refused(f"== name\n{FIRST}", 1, why, other)
        (self.root / other).unlink()
        why = "wrong/ has files *.edits and nothing else"
        self.assert_refused(FIRST, 1, why, "crates/one/wrong/name.edit")
        (self.root / "crates/one/wrong/name.edit").unlink()
        self.write("crates/one/wrong/further/name.edit", FIRST)
        lines, status = self.said()
        self.assertIn(f"  crates/one/wrong/further:1: {why}", lines)
        self.assertEqual(status, 1)

    def test_nothing_is_tried_of_malformed_tables(self):
        """A run that tries edits ends with what is wrong with a table, before it tries any."""
        self.write(TABLE, f"{SOUND}\n== name\n")
        for words in ((), ("one",), ("one/wrong/first_is_three",)):
            with self.subTest(words):
                lines, status = self.said("--together", *words)
                why = f"  {TABLE}:{NEXT}: 'file' is missing behind this line"
                self.assertEqual(lines[1:], [why, "0 passed, 1 failed"])
                self.assertEqual(status, 1)

    def test_unknown_words(self):
        """A run names the words that are no crate and no edit."""
        self.write(TABLE, SOUND)
        for word in ("two", "one/wrong/none", "first_is_three", "one/must-fail/first_is_three"):
            with self.subTest(word):
                lines, status = self.said("--together", word)
                self.assertEqual((lines[1:], status), ([f"  {word}", "0 passed, 1 failed"], 1))


def main():
    result = counted.run(counted.suite([Tables], sys.argv[1:]), sys.stdout)
    return counted.report(*result.counts())


if __name__ == "__main__":
    sys.exit(main())
