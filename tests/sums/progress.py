# SPDX-License-Identifier: ISC
"""What --progress shows."""

import contextlib
import os
import pty
import subprocess
import threading

from lists import BUILDS, ENVIRONMENT, TIMEOUT, digest_of, run
from run import Case

# What clears a line of a terminal from the cursor on.
CLEAR = b"\x1b[K"
# The bytes of a read of a file.
PIECE = 65_536
UNITS = [(10 ** 12, "TB"), (10 ** 9, "GB"), (10 ** 6, "MB"), (10 ** 3, "kB")]


class Progress(Case):
    """What is shown on a terminal, by a clock that goes on by equal steps at each read."""

    longMessage = False

    def setUp(self):
        self.preload = self.new_preload()
        self.path = self.new_path()

    def write(self, name, length):
        """Writes a file of zeros, and gives its line."""
        (self.path / name).write_bytes(bytes(length))
        return digest_of("sha256", bytes(length)) + b"  " + name.encode() + b"\n"

    def calls(self, step):
        """The environment in which the clock goes on by a step, in milliseconds."""
        return self.preload.environment(CLOCK_STEP=step)

    def shown(self, build, words, step, environment=(), **settings):
        """What a run shows one after another, and its output. At its end nothing is left of it."""
        calls = {**self.calls(step), **dict(environment)}
        words = ["--progress", *words]
        terminal, output = on_a_terminal(build, words, self.path, calls, **settings)
        if terminal and "stop" not in settings:
            self.assertTrue(terminal.endswith(CLEAR + b"\r" + CLEAR), terminal[-80:])
        texts = terminal.split(CLEAR)
        self.assertTrue(all(it.startswith(b"\r") for it in texts[:-1]), texts)
        return [it[1:].decode() for it in texts[:-1] if it != b"\r"], output

    def test_one_file(self):
        """Each look at a file of 1,000,000 bytes, whose reads are ten seconds apart."""
        line = self.write("x", 1_000_000)
        for build in BUILDS:
            shown, output = self.shown(build, ["x"], 10_000)
            self.assertEqual(output, line)
            self.assertEqual(shown[:2], [
                "131.0 kB of 1.0 MB, 13.1 kB/s, 0:01:06 left",
                "196.6 kB of 1.0 MB, 9.8 kB/s, 0:01:21 left"])
            self.assertEqual(shown[-2:], [
                "983.0 kB of 1.0 MB, 7.0 kB/s, 0:00:02 left",
                "1.0 MB of 1.0 MB, 6.6 kB/s, 0:00:00 left"])
            wanted = [text_of(min(place * PIECE, 1_000_000), 1_000_000, 10_000 * (place - 1))
                      for place in range(2, 17)]
            self.assertEqual(shown, wanted)

    def test_amounts(self):
        """Bytes in each unit, and hours: the first look at files of these lengths."""
        rows = [
            ([400, 599], 500, "999 B of 999 B, 1.9 kB/s, 0:00:00 left"),
            ([400, 600], 1000, "1.0 kB of 1.0 kB, 1.0 kB/s, 0:00:00 left"),
            ([999_999], 250, "131.0 kB of 999.9 kB, 524.2 kB/s, 0:00:01 left"),
            ([3_000_000_000], 250, "131.0 kB of 3.0 GB, 524.2 kB/s, 1:35:21 left"),
            ([400_000_000_000], 1000, "131.0 kB of 400.0 GB, 131.0 kB/s, 847:42:36 left"),
            ([4_000_000_000_000], 1000, "131.0 kB of 4.0 TB, 131.0 kB/s, 8477:06:17 left"),
        ]
        for lengths, step, wanted in rows:
            names = [f"x{place}" for place in range(len(lengths))]
            for name, length in zip(names, lengths):
                with open(self.path / name, "wb") as file:
                    file.truncate(length)
            for build in BUILDS:
                shown, _ = self.shown(build, names, step, stop=1)
                self.assertEqual(shown[0], wanted)
                done = min(2 * PIECE, sum(lengths))
                self.assertEqual(wanted, text_of(done, sum(lengths), step))

    def test_few_times_a_second(self):
        """20,000 files are shown each 250 ms, by the set clock and by the system's."""
        for place in range(20_000):
            self.write(f"f{place}", 100)
        names = [f"f{place}" for place in range(20_000)]
        for build in BUILDS:
            shown, output = self.shown(build, names, 1)
            self.assertEqual(output.count(b"\n"), 20_000)
            wanted = [text_of(100 * (place + 1), 2_000_000, place)
                      for place in range(250, 20_000, 250)]
            self.assertEqual(shown, wanted)
            shown, output = self.shown(build, names, 0)
            self.assertEqual(output.count(b"\n"), 20_000)
            self.assertLess(len(shown), 100)

    def test_check(self):
        """A check shows how far it is in the files of its lists, and the lists are not counted."""
        lines = [self.write(name, 500_000) for name in ("x", "y")]
        (self.path / "list").write_bytes(lines[0])
        (self.path / "more").write_bytes(lines[1])
        for build in BUILDS:
            shown, output = self.shown(build, ["-c", "list", "more"], 250)
            self.assertEqual(output, b"x: OK\ny: OK\n")
            wanted = [(min(place * PIECE, 500_000), 500_000) for place in range(2, 9)]
            wanted += [(500_000 + min(place * PIECE, 500_000), 1_000_000) for place in range(1, 9)]
            wanted = [text_of(*it, 250 * place) for place, it in enumerate(wanted, 1)]
            self.assertEqual(shown, wanted)

    def test_unknown_lengths(self):
        """Beside standard input or a pipe no total is shown and no time left."""
        self.write("x", 300_000)
        os.mkfifo(self.path / "p")
        for build in BUILDS:
            with open(self.path / "x", "rb") as given:
                shown, _ = self.shown(build, ["-"], 1000, stdin=given)
            self.assertEqual(shown, [
                "131.0 kB, 131.0 kB/s", "196.6 kB, 98.3 kB/s", "262.1 kB, 87.3 kB/s",
                "300.0 kB, 75.0 kB/s"])
            feeder = threading.Thread(target=(self.path / "p").write_bytes, args=[bytes(300_000)])
            feeder.start()
            shown, output = self.shown(build, ["x", "p"], 1000)
            feeder.join(TIMEOUT)
            self.assertEqual(output.count(b"\n"), 2)
            self.assertFalse([it for it in shown if "of" in it or "left" in it])
            self.assertTrue(shown[-1].startswith("600.0 kB, "), shown[-1])

    def test_lengths_that_are_not_kept(self):
        """What a file does not give is taken off the total, and what it gives more is put on."""
        self.write("z", 700_000)
        for build in BUILDS:
            for length, total in ((131_072, "831.0 kB"), (3_000_000, "3.7 MB")):
                self.write("x", 1_000_000)
                changes = {"CHANGED_FILE": "x", "CHANGED_LENGTH": length}
                changes = {name: str(value) for name, value in changes.items()}
                shown, _ = self.shown(build, ["x", "z"], 250, changes)
                self.assertIn(f"{total} of {total}, ", shown[-1])
            calls = {**self.calls(250), "SHUT_PATH": "x"}
            terminal, _ = on_a_terminal(build, ["--progress", "x", "z"], self.path, calls)
            self.assertEqual(left_on(terminal), b"sums: x: Permission denied\n")
            self.assertIn(b"700.0 kB of 700.0 kB, ", terminal)

    def test_lines_and_messages_are_whole(self):
        """What is shown is taken away before a message, and before a line on the same terminal."""
        lines = [self.write(f"x{place}", 200_000) for place in range(4)]
        names = ["x0", "x1", "missing", "x2", "x3"]
        reason = b"sums: missing: No such file or directory\n"
        calls = self.calls(250)
        words = ["--progress", *names]
        for build in BUILDS:
            terminal, output = on_a_terminal(build, words, self.path, calls)
            self.assertEqual(output, b"".join(lines))
            self.assertEqual(left_on(terminal), reason)
            terminal, output = on_a_terminal(build, words, self.path, calls, is_shared=True)
            self.assertEqual(left_on(terminal), b"".join([*lines[:2], reason, *lines[2:]]))

    def test_elsewhere(self):
        """Nothing is shown where standard error is no terminal, or without --progress."""
        line = self.write("x", 1_000_000)
        calls = self.calls(1000)
        for build in BUILDS:
            found = run(build, ["--progress", "x"], self.path, env=calls)
            self.assertEqual(found, (0, line, b""))
            self.assertEqual(on_a_terminal(build, ["x"], self.path, calls), (b"", line))


def amount_of(count):
    """A number of bytes in its unit, cut to tenths."""
    for unit, name in UNITS:
        if count >= unit:
            return f"{count * 10 // unit / 10:.1f} {name}"
    return f"{count} B"


def text_of(done, total, millis):
    """What is shown once so much of the total is read in so many milliseconds."""
    left = (total - done) * millis // (done * 1000)
    clock = f"{left // 3600}:{left // 60 % 60:02}:{left % 60:02}"
    rate = amount_of(done * 1000 // millis)
    return f"{amount_of(done)} of {amount_of(total)}, {rate}/s, {clock} left"


def left_on(terminal):
    """The lines that stand on a terminal in the end."""
    lines = terminal.replace(b"\r\n", b"\n").split(b"\n")
    return b"\n".join(line.rsplit(CLEAR, 1)[-1].rsplit(b"\r", 1)[-1] for line in lines)


def on_a_terminal(program, words, folder, environment, stop=None, is_shared=False, stdin=None):
    """What a run writes on a terminal that is its standard error, and its output, which may go to
    the same terminal. After `stop` texts on the terminal the run is ended."""
    terminal, its_end = pty.openpty()
    running = subprocess.Popen(
        ["sums", *words], executable=program, cwd=folder, env={**ENVIRONMENT, **environment},
        stdin=stdin, stdout=its_end if is_shared else subprocess.PIPE, stderr=its_end)
    os.close(its_end)
    shown = []

    def watch():
        with contextlib.suppress(OSError):
            while part := os.read(terminal, 4096):
                shown.append(part)
                if stop and b"".join(shown).count(CLEAR) >= stop:
                    running.kill()

    watcher = threading.Thread(target=watch, daemon=True)
    watcher.start()
    output, _ = running.communicate(timeout=TIMEOUT)
    watcher.join(TIMEOUT)
    os.close(terminal)
    return b"".join(shown), output
