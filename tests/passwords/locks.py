# SPDX-License-Identifier: ISC
"""Several processes of ./passwords on one file, and such as are killed."""

import concurrent.futures
import os
import pathlib
import random
import signal
import subprocess
import time

from store import (
    BAD_LOCK, DONE, FEW, NOBODY, WARNED, WRONG, Case, held_lock, of_file,
)


class Together(Case):
    """Processes at once."""

    def test_writers_at_once(self):
        """Of many processes at once, each of which sets a name of its own, no record is lost."""
        for workers in (2, 2, 2, 2, 2, 2, 2, 2, 16):
            it, names = self.new_folder(), [f"name {number:03}" for number in range(5 * workers)]
            with concurrent.futures.ThreadPoolExecutor(workers) as pool:
                list(pool.map(lambda name: it.set(name, name.encode()), names))
                self.assertEqual(it.names(), [name.encode() for name in names])
                for name in random.sample(names, 5):
                    it.verifies(name, name.encode())
                list(pool.map(lambda name: it.ends(DONE, "remove", name), names[1:]))
                it.lists(names[0].encode())

    def test_readers_at_once(self):
        """Who reads while others write finds a whole store each time, and what was set before."""
        it = self.new_folder()
        it.set("first", b"x")
        with concurrent.futures.ThreadPoolExecutor(4) as pool:
            writing = [pool.submit(it.set, f"name {number}", b"y") for number in range(60)]
            while not all(job.done() for job in writing):
                it.verifies("first", b"x")
                self.assertIn(b"first", it.names() or [])
            for job in writing:
                job.result()
        self.assertEqual(len(it.names()), 61)

    def test_a_held_lock_is_waited_for(self):
        """A process waits while another holds the lock, and goes on once that lets go."""
        flock, it = self.tool("flock"), self.new_folder()
        it.set("a", b"x")
        holding = subprocess.Popen([flock, it.path / "store.lock", "sleep", "2"])
        time.sleep(0.5)
        start = time.monotonic()
        it.verifies("a", b"x")
        self.assertLess(time.monotonic() - start, 1)
        it.set("b", b"x")
        self.assertGreater(time.monotonic() - start, 1)
        self.assertEqual(holding.wait(), 0)
        it.lists(b"a", b"b")

    def test_typing_holds_nobody_up(self):
        """While a process waits for its password, another one sets its own; neither is lost."""
        it = self.new_folder()
        it.set("a", b"x")
        slow = it.start("set", "slow", *FEW)
        arguments, start = pathlib.Path(f"/proc/{slow.pid}/cmdline"), time.monotonic()
        while b"slow" not in arguments.read_bytes() and time.monotonic() - start < 10:
            time.sleep(0.1)
        time.sleep(0.5)
        start = time.monotonic()
        it.set("quick", b"x")
        self.assertLess(time.monotonic() - start, 10)
        slow.communicate(b"x\n")
        self.assertEqual(slow.returncode, 0)
        it.lists(b"a", b"quick", b"slow")

    def test_killed_at_any_time(self):
        """A process that is killed leaves the old store or the new one, and the next run works."""
        it = self.new_folder()
        it.set("first", b"x")
        kept, lost = {b"first"}, 0
        for name in (f"name {number}" for number in range(60)):
            if self.killed(it, name) == 0:
                kept.add(name.encode())
            names = it.names()
            self.assertIsNotNone(names)
            self.assertLessEqual(kept, set(names))
            it.verifies("first", b"x")
            lost += name.encode() not in names
            kept = set(names)
        print(f"  {lost} of 60 were killed before the file was replaced")
        it.set("last", b"x")
        self.assertEqual(set(it.names()), kept | {b"last"})
        it.holds(it.file.read_bytes())

    def killed(self, folder, name):
        """The status of a process that sets a name and is killed within 10 milliseconds."""
        running = folder.start("set", name, *FEW)
        running.stdin.write(b"y\n")
        running.stdin.flush()
        time.sleep(random.uniform(0, 0.01))
        running.kill()
        status = running.wait()
        running.stdin.close()
        return status


class Beside(Case):
    """What stands beside the file: its lock, and what killed runs left."""

    def test_a_store_with_another_ending_stays(self):
        """A change of `users` leaves the stores `users.new` and `users.tmp` as they are."""
        it = self.new_folder()
        for name in ("users.new", "users.tmp", "users"):
            it.file = it.path / name
            it.set("keep", b"x")
        for name in ("users.new", "users.tmp"):
            it.file = it.path / name
            it.verifies("keep", b"x")

    def test_only_what_a_run_left_is_removed(self):
        """Of the files beside the store's one, a change removes but those with the name of a
        temporary file of this store that no process has locked."""
        flock, it = self.tool("flock"), self.new_folder()
        it.set("a", b"x")
        names = ("store.new", "store.new-1", "store.new-00000000000000GG", "x.new-0000000000000001")
        others = {it.path / name for name in names}
        for other in others:
            other.write_bytes(b"x")
        special = {it.path / f"store.new-{number:016}" for number in range(3)}
        folder, pipe, link = sorted(special)
        folder.mkdir()
        os.mkfifo(pipe)
        link.symlink_to("store")
        held, left = it.left("a"), [it.left("b"), it.left("c")]
        holding = subprocess.Popen([flock, held, "sleep", "100"], start_new_session=True)
        self.addCleanup(holding.wait)
        self.addCleanup(os.killpg, holding.pid, signal.SIGKILL)
        time.sleep(0.5)
        for words in (("set", "b", *FEW), ("remove", "b")):
            it.ends(DONE, *words, password=b"x", timeout=20)
            found = {it.path / name for name in it.beside()}
            self.assertEqual(found, others | special | {held})
            left[-1].write_bytes(b"")
        self.assertTrue(link.is_symlink() and pipe.is_fifo() and folder.is_dir())

    def test_a_file_that_vanishes(self):
        """`set` in a file that is gone once the password is read makes no new one; in a file that
        is new then, the password is set."""
        it = self.new_folder()
        it.set("a", b"x")
        slow = it.waiting("set", "b", *FEW)
        it.file.unlink()
        self.assertEqual(it.goes_on(slow, b"y\n"), (2, of_file(it.file, "no such file")))
        self.assertFalse(it.file.exists())
        slow = it.waiting("set", "b", *FEW)
        it.set("a", b"x")
        self.assertEqual(it.goes_on(slow, b"y\n"), WARNED)
        it.lists(b"a", b"b")

    def test_a_password_is_tested_by_the_newest_text(self):
        """`verify` takes the text that stands in the file when its password is read."""
        it = self.new_folder()
        it.set("a", b"x")
        for password, wanted in ((b"x\n", WRONG), (b"y\n", DONE)):
            it.set("a", b"x")
            slow = it.waiting("verify", "a")
            it.set("a", b"y")
            self.assertEqual(it.goes_on(slow, password), wanted)

    def test_other_kinds_of_locks(self):
        """A pipe, a link, a folder or a file with text in place of the lock is refused at once, and
        stays; what a link names is not made."""
        it = self.new_folder()
        it.set("a", b"x")
        text, lock = it.file.read_bytes(), it.path / "store.lock"
        kinds = {
            "a pipe": lambda: os.mkfifo(lock), "a folder": lock.mkdir,
            "a link": lambda: lock.symlink_to("victim"),
            "a link to a file": lambda: lock.symlink_to("store"),
            "a text": lambda: lock.write_bytes(b"x"),
        }
        for kind, make in kinds.items():
            lock.unlink()
            make()
            before = lock.lstat()
            for words in (("set", "b", *FEW), ("remove", "a")):
                with self.subTest(kind=kind, words=words):
                    it.fails(BAD_LOCK, *words, password=b"x", timeout=20)
                    self.assertEqual(lock.lstat()[:6], before[:6])
                    it.holds(text)
            it.verifies("a", b"x")
            if kind == "a folder":
                lock.rmdir()
                lock.touch()

    def test_locks_of_other_users(self):
        """A lock that belongs to neither this user nor the folder's owner is refused."""
        if os.geteuid() != 0:
            self.skipTest("root")
        it = self.new_folder()
        it.set("a", b"x")
        text, lock = it.file.read_bytes(), it.path / "store.lock"
        os.chown(lock, NOBODY, NOBODY)
        it.fails(BAD_LOCK, "set", "b", *FEW, password=b"x")
        it.holds(text)
        os.chown(it.path, NOBODY, NOBODY)
        it.set("b", b"x")

    def test_a_lock_that_is_replaced(self):
        """Who has waited for a lock that is no longer the one beside the file changes nothing."""
        it = self.new_folder()
        it.set("a", b"x")
        text, lock = it.file.read_bytes(), it.path / "store.lock"
        with held_lock(it):
            slow = it.start("set", "b", *FEW, stderr=subprocess.PIPE)
            slow.stdin.write(b"x\n")
            slow.stdin.close()
            slow.stdin = None
            time.sleep(0.5)
            lock.unlink()
            lock.touch()
        self.assertEqual(it.goes_on(slow, None), (2, of_file(it.file, BAD_LOCK)))
        it.holds(text)


class GivenUp(Case):
    """A run that waits for a minute."""

    def test_a_held_lock_is_given_up(self):
        """A lock that is held for a minute and more ends the run then, and nothing changes."""
        it = self.new_folder()
        it.set("a", b"x")
        text = it.file.read_bytes()
        with held_lock(it):
            start = time.monotonic()
            it.fails("another process has locked the file", "set", "b", *FEW, password=b"x")
            waited = time.monotonic() - start
        self.assertTrue(55 < waited < 80, waited)
        it.holds(text)
