# SPDX-License-Identifier: ISC
"""What the launcher does off a terminal."""

import contextlib
import os
import pathlib
import shutil
import subprocess
import time

from store import COMMANDS, DONE, LAUNCHER, PROGRAM, ROOT, WRONG, Case, bare, of_file, told


class Launcher(Case):
    """The launcher, which runs the program and builds it where it is missing."""

    def test_it_is_the_program(self):
        """Its status, its output and its input are the program's, from any folder."""
        it = self.new_folder()
        it.set("a", b"\n")
        no_command = (2, of_file("store", f"no command{COMMANDS}"))
        rows = [
            (("list",), b"x", (DONE, b"a\n")), (("verify", "b"), b"x", (WRONG, b"")),
            (("verify", "a"), b"\n", (DONE, b"")), ((), b"x", (no_command, b"")),
        ]
        settings = {"cwd": it.path, "capture_output": True, "timeout": 60}
        for words, line, wanted in rows:
            ended = subprocess.run([LAUNCHER, "store", *words], input=line, **settings)
            found = ((ended.returncode, told(ended.stderr)), ended.stdout)
            self.assertEqual(found, wanted, words)
        command = [LAUNCHER, "store", "verify", "a"]
        waiting = subprocess.Popen(command, cwd=it.path, stdin=subprocess.PIPE)
        is_program = becomes(waiting, PROGRAM)
        waiting.communicate(b"\n")
        self.assertEqual((is_program, waiting.returncode), (True, 0))

    def test_it_tells_what_the_program_tells(self):
        """`--help` and `--version`, alone, for which it builds nothing, are answered alike."""
        for word in ("--help", "--version"):
            ended = subprocess.run([LAUNCHER, word], capture_output=True, timeout=60)
            found = ended.returncode, told(ended.stderr), ended.stdout
            self.assertEqual(found, bare(word))

    def test_it_tells_that_it_cannot_build(self):
        """A launcher that can't build the program ends with status 3, and says why."""
        room = self.new_path()
        for name in ("programs", "generated/make", "crates/ring_passwords", "kit"):
            (room / name).mkdir(parents=True)
        (room / "crates.txt").write_text("ring_passwords:\n")
        for name in ("passwords", "programs/built", "generated/make/progress.py"):
            shutil.copy(ROOT / name, room / name)
        (room / "kit/rt").write_text("#!/bin/sh\necho the reason\nexit 1\n")
        (room / "kit/rt").chmod(0o755)
        path = f"{room / 'kit'}:{os.environ['PATH']}"
        environment = {**os.environ, "RT": "rt", "PATH": path}
        settings = {"env": environment, "capture_output": True, "timeout": 60}
        ended = subprocess.run([room / "passwords", "store", "list"], **settings)
        found = (ended.returncode, ended.stderr.splitlines()[-1:], ended.stdout)
        self.assertEqual(found, (3, [b"the reason"], b""))


def becomes(process, program):
    """Whether a process runs a program within ten seconds."""
    start = time.monotonic()
    while time.monotonic() - start < 10:
        with contextlib.suppress(OSError):
            if pathlib.Path(f"/proc/{process.pid}/exe").resolve() == program:
                return True
        time.sleep(0.1)
    return False
