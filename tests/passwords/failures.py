# SPDX-License-Identifier: ISC
"""What ./passwords does where the system refuses it something: room, memory, or a call."""

import contextlib
import functools
import itertools
import os
import resource
import signal
import subprocess

from store import (
    DENIED, DONE, FEW, IS_FOLDER, NO_MEMORY, NO_SPACE, WARNED, Case, Folder, bare, limit,
    memory_limit, of_file, text_of,
)


class Room(Case):
    """Too little room for a file, for memory, and for what is written."""

    def test_a_file_that_is_too_large(self):
        """Where the new file may not be as large as it must, the old one stays."""

        def limited():
            signal.signal(signal.SIGXFSZ, signal.SIG_IGN)
            limit(resource.RLIMIT_FSIZE, 100)()

        it = self.new_folder()
        it.set("a", b"x")
        text = it.file.read_bytes()
        message = "cannot replace the file: File too large (os error 27)"
        it.fails(message, "set", "b", *FEW, password=b"x", preexec_fn=limited)
        it.holds(text)
        it.set("b", b"x")

    def test_a_full_disk(self):
        """On a full disk nothing changes, and once there is room again everything does."""
        it = Folder(self, self.small_disk())
        it.set("a", b"x")
        text = it.file.read_bytes()
        filler = it.path / "filler"
        with contextlib.suppress(OSError), open(filler, "wb", buffering=0) as full:
            while True:
                full.write(bytes(4096))
        wanted = f"cannot replace the file: {NO_SPACE}"
        it.fails(wanted, "set", "b", *FEW, password=b"x")
        it.fails(wanted, "remove", "a")
        filler.unlink()
        it.holds(text)
        it.set("b", b"x")
        it.lists(b"a", b"b")

    def small_disk(self):
        """A folder on a disk of 64 KiB."""
        path = self.new_path()
        mount = ["mount", "-t", "tmpfs", "-o", "size=64k", "none", path]
        if os.geteuid() != 0 or subprocess.run(mount, capture_output=True).returncode != 0:
            self.skipTest("the right to mount a small disk")
        self.addCleanup(subprocess.run, ["umount", path], check=True)
        return path

    def test_a_full_device(self):
        """Where the names can't be written, the status says so."""
        it = self.new_folder()
        it.set("a", b"x")
        ended = bare(it.file, "list", stdout=self.full_device(), timeout=60)
        self.assertEqual(ended[:2], (2, f"cannot write the names: {NO_SPACE}"))

    def test_a_folder_as_input(self):
        """A folder as standard input holds no password."""
        it = self.new_folder()
        source = os.open(it.path, os.O_RDONLY)
        self.addCleanup(os.close, source)
        ended = bare(it.file, "set", "a", stdin=source, timeout=60)
        self.assertEqual(ended[:2], (2, f"cannot read the password: {IS_FOLDER}"))
        it.is_empty()

    def test_no_memory_for_a_password(self):
        """Where one request for memory is refused, in turn, the file stays as it is."""
        preload, it, messages = self.new_preload(), self.new_folder(), set()
        it.set("a", b"x")
        text, run = it.file.read_bytes(), functools.partial(it.run, "verify", "a", password=b"x")
        for request in itertools.count(1):
            (ended, _), _, made = preload.watched(run, REFUSED_REQUEST=request)
            it.holds(text)
            if made < request:
                break
            messages.add(ended)
        steps = (f"cannot read the {what}: {NO_MEMORY}" for what in ("arguments", "password"))
        read = of_file(it.file, f"cannot read the file: {NO_MEMORY}")
        wanted = {(2, message) for message in (*steps, read, NO_MEMORY)}
        # Where the program is started, a refused request may change nothing.
        self.assertEqual(messages - {DONE}, wanted)
        self.assertEqual(ended, DONE)

    def test_little_memory_for_a_store(self):
        """Where memory is wanting for the names of a store the file stays as it is."""
        it = self.new_folder()
        text = text_of(f"name {number:05}".encode() for number in range(50_000))
        it.file.write_bytes(text)
        messages, ended = set(), None
        for megabytes in range(4, 60, 2):
            ended, _ = it.run("remove", "name 00000", preexec_fn=memory_limit(megabytes << 20))
            if ended == DONE:
                break
            messages.add(ended[1])
            it.holds(text)
        wanting = {NO_MEMORY, of_file(it.file, f"cannot read the file: {NO_MEMORY}")}
        self.assertEqual({message for message in messages if "memory" in message}, wanting)
        self.assertEqual(ended, DONE)


# The calls that change files.
COUNTED = "open flock getentropy unlink write fchmod fsync rename syncdir"
# What a run cannot do where a call fails; None is a call without which it goes on.
READ, LOCK = "cannot read the file", "cannot lock the file"
REPLACE = "cannot replace the file"
SYNC = "replaced the file, but cannot sync its folder"
# The calls of each run. The folder is opened to sync it, and again to look for what killed runs
# left in it.
REPLACING = [
    ("open", REPLACE), ("open", None), ("getentropy", REPLACE), ("open", REPLACE),
    ("flock", REPLACE), ("fchmod", REPLACE), ("write", REPLACE),
]
REPLACED = [("fsync", REPLACE), ("rename", REPLACE), ("syncdir", SYNC)]
NEW_FILE = [
    ("open", LOCK), ("fchmod", LOCK), ("flock", LOCK), ("getentropy", "cannot get random bytes"),
    *REPLACING, *REPLACED,
]
REMOVAL = [
    ("open", LOCK), ("open", LOCK), ("flock", LOCK), ("open", READ), *REPLACING,
    ("fchmod", REPLACE), *REPLACED,
]
# The file is read before the password is, and again once it is locked.
CHANGE = [("open", READ), *REMOVAL]
# The names that are known before a run, its words, the calls that it makes, and the names after it.
ROWS = [
    ([], ("set", "b", *FEW), NEW_FILE, [b"b"]),
    (["a"], ("set", "b", *FEW), CHANGE, [b"a", b"b"]),
    (["a", "b"], ("remove", "b"), REMOVAL, [b"a"]),
]


class Calls(Case):
    """For a new file, a change and a removal: each call fails, or is the last."""

    def setUp(self):
        self.preload = self.new_preload()

    def in_turn(self, holds, only=None):
        """Tries what a test says for each call of each run, or for those of one name."""
        for known, words, calls, after in ROWS:
            for number, (name, _) in enumerate(calls, 1):
                if only not in (None, name):
                    continue
                with self.subTest(words=words, number=number, name=name):
                    it = self.new_folder()
                    for one in known:
                        it.set(one, b"x")
                    holds(it, words, calls, number, after)

    def run_with(self, folder, *words, **asked):
        """How a run with the library ends, and the calls that it made."""
        run = functools.partial(folder.run, *words, password=b"y")
        (ended, _), made, _ = self.preload.watched(run, COUNTED=COUNTED, **asked)
        return ended, made

    def assert_old_or_new(self, it, text, after, is_replaced):
        """The file is the old one byte for byte, or none; or it has the names of the new one."""
        if is_replaced:
            self.assertEqual(it.names(), after)
        else:
            self.assertEqual(text_in(it), text)

    def assert_goes_on(self, it):
        """The next run works, and leaves nothing beside the file."""
        it.set("b", b"z")
        it.verifies("b", b"z")
        self.assertEqual(it.beside(), set())

    def test_each_call_fails(self):
        """Each call fails in turn: the file is the old one, unless it was replaced."""

        def holds(it, words, calls, number, after):
            text, (name, step) = text_in(it), calls[number - 1]
            ended, made = self.run_with(it, *words, FAILED_CALL=number)
            reason = DENIED if name == "open" else NO_SPACE
            message = f"{step}: {reason}"
            wanted = (2, message if name == "getentropy" and step != REPLACE
                      else of_file(it.file, message))
            if step is None:
                wanted = WARNED if words[0] == "set" else DONE
            self.assertEqual(ended, wanted)
            self.assertEqual(made[:number], [name for name, _ in calls[:number]])
            self.assertEqual(it.beside(), set())
            self.assert_old_or_new(it, text, after, step in (None, SYNC))
            self.assert_goes_on(it)

        self.in_turn(holds)

    def test_each_call_is_the_last(self):
        """A process is killed before each call in turn: the old file or the new one."""

        def holds(it, words, calls, number, after):
            text = text_in(it)
            ended, made = self.run_with(it, *words, KILLED_CALL=number)
            self.assertEqual(ended[0], -signal.SIGKILL)
            self.assertEqual(made, [name for name, _ in calls[:number]])
            self.assert_old_or_new(it, text, after, number == len(calls))
            self.assertTrue(text is None or it.names() is not None)
            self.assert_goes_on(it)

        self.in_turn(holds)

    def test_a_torn_write_is_the_last(self):
        """A process is killed when half of the new file is written: the old file stays."""

        def holds(it, words, _, number, after):
            text = text_in(it)
            ended, _ = self.run_with(it, *words, TORN_WRITE=number)
            self.assertEqual(ended[0], -signal.SIGKILL)
            [left] = it.beside()
            self.assertRegex(left, "^store[.]new-[0-9a-f]{16}$")
            self.assertGreater((it.path / left).stat().st_size, 0)
            self.assert_old_or_new(it, text, after, False)
            self.assert_goes_on(it)

        self.in_turn(holds, "write")


def text_in(folder):
    """The text of a folder's file, if there is one."""
    return folder.file.read_bytes() if folder.file.exists() else None
