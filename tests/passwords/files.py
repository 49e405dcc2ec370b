# SPDX-License-Identifier: ISC
"""Which files ./passwords takes for a store's, and what it keeps of a file that it replaces."""

import itertools
import os
import stat

from store import (
    BROKEN, DENIED, DONE, FEW, LINKED, NOBODY, NO_FOLDER, TEMPORARY, Case, Folder, as_nobody,
    head_line, memory_limit, of_file, program_for_nobody, record_line, text_of,
)

COMMANDS = (("set", "a"), ("verify", "a"), ("remove", "a"), ("list",))
READING = COMMANDS[1:]

COUNTS_OF_NO_STORE = [
    b"", b"0", b"00", b"01", b"+1", b"-1", b"1e3", b"0x1", b"1.0", b"1,000", b"1_000", b"a", b"1a",
    b"1 ", b" 1", b"1\t", b"1\r", b"1\0", b"1\xff", "\u0661".encode(),
    b"4294967296", b"18446744073709551617", b"9" * 100,
]
SPACES_OF_NO_STORE = [b"", b"  ", b"\t"]
ENDS_OF_NO_STORE = [b"", b"\r\n", b"\r", b"\n\n", b" \n", b"\0"]
FOREIGN_LETTERS = [
    b"g", b"z", b"G", b"/", b":", b"@", b"`", b"-", b"+", b"x", b"\0", b"\t", b"\xff",
    "\u0661".encode(),
]


class Refused(Case):
    """What is no store's file."""

    def test_no_file_and_no_folder(self):
        """Without a file only a password can be set, and without its folder none."""
        it = self.new_folder()
        for words in READING:
            it.fails("no such file", *words, password=b"x")
        it.is_empty()
        it.file = it.path / "none" / "store"
        for words in COMMANDS:
            it.fails(NO_FOLDER, *words, password=b"x")
        it.is_empty()

    def test_other_kinds_of_files(self):
        """A folder, a link, a pipe and a device are no regular files, and stay what they are."""
        it = self.new_folder()
        (it.path / "folder").mkdir()
        (it.path / "link").symlink_to("target")
        (it.path / "good link").symlink_to("store")
        os.mkfifo(it.path / "pipe")
        it.set("a", b"x")
        text = it.file.read_bytes()
        names = ("folder", "link", "good link", "pipe", "/dev/null")
        for it.file in (it.path / name for name in names):
            before = it.file.lstat().st_mode
            # There is to be no lock beside the system's devices.
            for words in COMMANDS if it.file.parent == it.path else READING:
                it.fails("not a regular file", *words, password=b"x")
                self.assertEqual(it.file.lstat().st_mode, before)
        self.assertEqual((it.path / "store").read_bytes(), text)
        self.assertFalse((it.path / "target").exists())

    def test_names_of_temporary_files(self):
        """A file with a temporary file's name is no store's, whatever it holds."""
        it = self.new_folder()
        it.set("a", b"x")
        text = it.file.read_bytes()
        for it.file in (it.left("a"), it.path / "b.new-0123456789abcdef"):
            it.file.write_bytes(text)
            for words in COMMANDS:
                it.fails(TEMPORARY, *words, password=b"x")
            self.assertEqual(it.file.read_bytes(), text)
        for name in ("store.new", "store.new-", "store.new-0123456789abcdeF"):
            it.file = it.path / name
            it.set("a", b"x")
            it.lists(b"a")

    def test_broken_texts(self):
        """A text that no store has is refused by every command, and the file stays as it is."""
        it = self.new_folder()
        for name in ("a", "b", "N"):
            it.set(name, b"x")
        text = it.file.read_bytes()
        for bad in broken_texts(text):
            with self.subTest(text=bad[:80]):
                it.file.write_bytes(bad)
                for words in COMMANDS:
                    it.fails(BROKEN, *words, password=b"x")
                    it.holds(bad)
        it.file.write_bytes(text)
        it.lists(b"N", b"a", b"b")

    def test_broken_lines(self):
        """A line with a field that no store has is told so, and not as a want of memory."""
        it = self.new_folder()
        for good in (head_line(), head_line() + record_line(), text_of([b"a", b"jk", b"z"])):
            it.file.write_bytes(good)
            self.assertEqual(it.run("list")[0], DONE, good)
        commands = itertools.cycle((("verify", "jk"), ("set", "jk"), ("remove", "jk")))
        for bad, words in zip(broken_lines(), commands):
            with self.subTest(text=bad[-200:]):
                it.file.write_bytes(bad)
                it.fails(BROKEN, "list")
                it.fails(BROKEN, *words, password=b"x")
                it.holds(bad)


    def test_a_large_file_is_refused_at_once(self):
        """A file of 3 GB that is no store's is refused by its first bytes, with little memory."""
        it = self.new_folder()
        it.file.touch()
        os.truncate(it.file, 3 << 30)
        for words in COMMANDS:
            settings = {"preexec_fn": memory_limit(64 << 20), "timeout": 20}
            it.fails(BROKEN, *words, password=b"x", **settings)


def broken_texts(text):
    """Texts that no store has: a store's cut short, in disorder, and with other bytes."""
    head, *rows = text.splitlines(keepends=True)
    credential = rows[0].split()[2]
    yield from (b"", b"\n", text[:-1], text + b"\n", text + b"x", text.upper(), b" " + text)
    yield from (os.urandom(4096), head + rows[1] + rows[0], head + rows[0] + rows[0])
    yield from (b"".join(rows), head[:-1], rows[0] + head)
    for name in (b"", b"61" * 65):
        yield head + name + b" 1 " + credential + b"\n"
    swaps = [
        (b"ring_store 1", b"ring_store 2"), (b" 1\n", b" 01\n"), (b" 1\n", b" 0\n"),
        (b" 1 ", b"  1 "), (b" 1 ", b" 4294967296 "), (b"\n", b"\r\n"), (b"\n", b"\0"),
        (credential, credential[2:]), (credential, credential.upper()),
    ]
    yield from (text.replace(old, new) for old, new in swaps)
    stores = [head + b"".join(rows[:count]) for count in range(len(rows) + 1)]
    yield from (text[:at] for at in range(1, len(text)) if text[:at] not in stores)


def digits_of_no_store(good):
    """Upper-case digits, foreign letters and an odd number of digits, in place of good ones."""
    upper = [good[:-1] + b"B", b"A" + good[1:], good[:-2] + b"FF"]
    foreign = [good[:-len(it)] + it for it in FOREIGN_LETTERS]
    foreign += [it + good[len(it):] for it in FOREIGN_LETTERS]
    odd = [good[:-1], good[1:], good + b"a", b"a"]
    return [*upper, *foreign, *odd, b"z" * len(good), b"0x" + good[2:], b""]


def broken_lines():
    """Texts with one field that no store has, for each field of the first line and of a record."""
    salt, credential = b"5a" * 16, b"ac" * 32
    rest = {"iterations": COUNTS_OF_NO_STORE, "space": SPACES_OF_NO_STORE, "end": ENDS_OF_NO_STORE}
    heads = {
        "mark": [b"", b"ring_store", b"ring_store 2", b"ring_store 11", b"Ring_store 1", b"store"],
        "salt": [*digits_of_no_store(salt), salt[2:], salt + b"5a", salt * 2],
        **rest,
    }
    names = [digits_of_no_store(name) for name in (b"6a", b"6a6b", b"6b" * 64)]
    records = {
        "name": [*itertools.chain(*names), b"6a" * 65],
        "credential": [*digits_of_no_store(credential), credential[2:], credential + b"ac"],
        **rest,
    }
    for field, value in fields_of(heads):
        yield head_line(**{field: value}) + record_line()
    for field, value in fields_of(records):
        bad = record_line(**{field: value})
        yield head_line() + bad
        yield head_line() + record_line(name=b"61") + bad + record_line(name=b"7a")


def fields_of(table):
    return [(field, value) for field, values in table.items() for value in values]


def mode_of(path):
    return stat.S_IMODE(path.stat().st_mode)


class Kept(Case):
    """What stays of a file that is replaced, and whose it is."""

    def test_modes_of_new_and_old_files(self):
        """New files and locks are their owner's alone under any mask; nine bits of an old file's mode
        stay."""
        for mask in (0o000, 0o022, 0o077, 0o277, 0o477, 0o777):
            it = self.new_folder_of_nobody()
            settings = {"password": b"x", "preexec_fn": lambda: os.umask(mask)}
            for mode in (None, None, 0o644, 0o640, 0o660, 0o400, 0o666, 0o4755, 0o2770, 0o1640):
                if mode:
                    it.file.chmod(mode)
                it.ends(DONE, "set", "a", *FEW, **settings)
                found = (mode_of(it.file), mode_of(it.path / "store.lock"))
                self.assertEqual(found, ((mode or 0o600) & 0o777, 0o600), mask)

    def new_folder_of_nobody(self):
        """A new folder, in which the program runs without root's right to open every file."""
        nobody, room = as_nobody(self), self.new_path()
        program = program_for_nobody(room)
        it = Folder(self, room / "folder", [*nobody, program])
        it.path.mkdir()
        if nobody:
            os.chown(it.path, NOBODY, NOBODY)
        return it

    def test_another_name_of_the_file(self):
        """A file with a hard link is read, but not replaced, since the link would keep the old
        text."""
        it = self.new_folder()
        it.set("a", b"x")
        text, link = it.file.read_bytes(), it.path / "link"
        os.link(it.file, link)
        for words in (("set", "b"), ("remove", "a")):
            it.fails(LINKED, *words)  # before a password is read
        it.verifies("a", b"x")
        it.lists(b"a")
        link.unlink()
        slow = it.waiting("set", "b", *FEW)
        os.link(it.file, link)
        self.assertEqual(it.goes_on(slow, b"y\n"), (2, of_file(it.file, LINKED)))
        link.unlink()
        it.holds(text)
        it.set("b", b"y")

    def test_owner_and_group_stay(self):
        """A file that is replaced keeps its owner and its group where the system lets it."""
        if os.geteuid() != 0:
            self.skipTest("root")
        nobody, room, group = as_nobody(self), self.new_path(), NOBODY - 1
        program = program_for_nobody(room)
        (room / "folder").mkdir()
        it = Folder(self, room / "folder")
        it.set("a", b"x")
        lock = it.path / "store.lock"

        def assert_set(prefix, before, wanted):
            os.chown(it.file, *before[:2])
            it.file.chmod(before[2])
            it.program = [*prefix, program]
            error = it.run("set", "a", "--iterations", "100000", password=b"x")[0][1]
            now = it.file.stat()
            found = (error, (now.st_uid, now.st_gid, stat.S_IMODE(now.st_mode)))
            self.assertEqual(found, wanted, before)

        assert_set([], (NOBODY, group, 0o640), ("", (NOBODY, group, 0o640)))
        os.chown(it.path, NOBODY, NOBODY)
        os.chown(lock, NOBODY, NOBODY)
        of_nobody = (NOBODY, NOBODY, 0o644)
        assert_set(nobody, of_nobody, ("", of_nobody))
        assert_set(nobody, (0, NOBODY, 0o644), ("", of_nobody))
        assert_set(nobody, (0, 0, 0o644), ("", (NOBODY, NOBODY, 0o600)))
        os.chown(lock, 0, 0)
        locked = of_file(it.file, f"cannot lock the file: {DENIED}")
        assert_set(nobody, of_nobody, (locked, of_nobody))

    def test_an_open_file_has_the_old_text(self):
        """A change gives a new file, so that an open one still has the old text."""
        it = self.new_folder()
        it.set("a", b"x")
        text = it.file.read_bytes()
        with open(it.file, "rb") as old:
            it.set("b", b"x")
            self.assertEqual(old.read(), text)
        self.assertNotEqual(it.file.read_bytes(), text)
        it.lists(b"a", b"b")

    def test_reading_changes_nothing(self):
        """Neither verifying nor listing writes anything: not a byte of the file, and no lock."""
        it = self.new_folder()
        it.set("a", b"x", "--iterations", "1")
        it.set("b", b"x", "--iterations", "2")
        lock = it.path / "store.lock"
        lock.unlink()
        text, before = it.file.read_bytes(), it.file.stat()
        it.verifies("a", b"x")
        it.refuses("a", b"y")
        it.run("list")
        after = it.file.stat()
        it.holds(text)
        self.assertEqual((after.st_mtime_ns, after.st_ino), (before.st_mtime_ns, before.st_ino))
        self.assertFalse(lock.exists())

    def test_a_folder_that_cannot_be_written(self):
        """In a folder that can't be written nothing changes, and passwords are verified."""
        nobody, room = as_nobody(self), self.new_path()
        program = program_for_nobody(room)
        folder = room / "folder"
        folder.mkdir()
        it = Folder(self, folder)
        it.set("a", b"x")
        lock = folder / "store.lock"
        for path in (folder, it.file, lock) if nobody else ():
            os.chown(path, NOBODY, NOBODY)
        it.program = [*nobody, program]
        self.addCleanup(folder.chmod, 0o755)
        text = it.file.read_bytes()
        folder.chmod(0o555)
        for words in (("set", "b"), ("remove", "a")):
            it.fails(f"cannot replace the file: {DENIED}", *words, password=b"x")
        it.verifies("a", b"x")
        it.lists(b"a")
        it.holds(text)
        folder.chmod(0o755)
        lock.unlink()
        folder.chmod(0o555)
        it.fails(f"cannot lock the file: {DENIED}", "set", "b", password=b"x")
        it.file.chmod(0o000)
        it.fails(f"cannot read the file: {DENIED}", "list", password=b"x")
        it.file.chmod(0o600)
        it.holds(text)
