# SPDX-License-Identifier: ISC
"""What has no second source but `hashlib`."""

import contextlib
import os
import pathlib
import re
import select
import subprocess
import threading

from lists import BUILDS, ENVIRONMENT, LAUNCHER, TAGS, TIMEOUT, digest_of, line_of, run
from run import ROOT, Case


class Alone(Case):
    """What has no second source but `hashlib`."""

    longMessage = False

    def setUp(self):
        self.path = self.new_path()

    def run_all(self, words, given=b"", name="sums", **settings):
        """What all builds do alike."""
        found = [run(build, words, self.path, name, given, **settings) for build in BUILDS]
        self.assertTrue(all(it == found[0] for it in found), f"the builds differ: {words}")
        return found[0]

    def write(self, name, content=b""):
        path = self.path / name
        path.parent.mkdir(parents=True, exist_ok=True)
        path.write_bytes(content)
        return path

    def lines(self, names, algorithm="sha256", folder=None):
        """The lines of files."""
        folder, lines = folder or self.path, []
        for name in names:
            digits = digest_of(algorithm, (folder / os.fsdecode(name)).read_bytes())
            lines.append(line_of("text", algorithm, digits, os.fsencode(name)))
        return b"".join(lines)

    def test_algorithms(self):
        """Each algorithm by `-a` in each form and by the program's name; `--tag` lines name it."""
        self.write("x", b"abc")
        for algorithm, tag in TAGS.items():
            digits = digest_of(algorithm, b"abc")
            wanted = (0, digits + b"  x\n", b"")
            forms = [
                ["-a", algorithm], [f"-a{algorithm}"], ["--algorithm", algorithm],
                [f"--algorithm={algorithm}"], ["--alg", algorithm],
            ]
            for words in forms:
                self.assertEqual(self.run_all([*words, "x"]), wanted)
                self.assertEqual(self.run_all(["x", *words]), wanted)
            for form in ("{}sums", "{}sum", "./{}sums", "/a/b/{}sum"):
                self.assertEqual(self.run_all(["x"], name=form.format(algorithm)), wanted)
            line = f"{tag} (x) = ".encode() + digits + b"\n"
            self.assertEqual(self.run_all(["--tag", "-a", algorithm, "x"]), (0, line, b""))
        self.assertEqual(self.run_all(["x"]), (0, digest_of("sha256", b"abc") + b"  x\n", b""))
        found = self.run_all(["-a", "sha1", "x"], name="sha512sums")[1]
        self.assertEqual(found, digest_of("sha1", b"abc") + b"  x\n")

    def test_unknown_algorithm(self):
        """An algorithm that there is not, and an option without its value."""
        known = b"Valid arguments are:\n" + b"".join(b"  - '%s'\n" % it.encode() for it in TAGS)
        unknown = b"invalid argument 'md5' for '--algorithm'\n" + known
        rows = [
            (["-a", "md5"], unknown), (["-amd5"], unknown), (["--algorithm=md5"], unknown),
            (["-a"], b"option requires an argument -- 'a'\n"),
            (["--alg"], b"option '--algorithm' requires an argument\n"),
        ]
        for words, reason in rows:
            said = b"sums: " + reason + b"Try 'sums --help' for more information.\n"
            self.assertEqual(self.run_all(words), (1, b"", said))

    def test_lists_of_any_algorithm(self):
        """Without `-a` a line's algorithm is that of its tag, or of the number of its digits."""
        self.write("x", b"abc")
        text, wanted = b"", b""
        for _ in range(3):
            for algorithm in TAGS:
                text += line_of("tag", algorithm, digest_of(algorithm, b"abc"), b"x")
                wanted += b"x: OK\n"
                if algorithm != "sha512-256":
                    text += line_of("text", algorithm, digest_of(algorithm, b"abc"), b"x")
                    wanted += b"x: OK\n"
        self.write("list", text)
        self.assertEqual(self.run_all(["-c", "list"]), (0, wanted, b""))
        self.write("short", digest_of("sha256", b"abc")[:-1] + b"  x\n")
        self.assertEqual(self.run_all(["-cw", "short"]), (
            1, b"", b"sums: short: 1: improperly formatted checksum line\n"
            b"sums: short: no properly formatted checksum lines found\n"))
        self.write("other", line_of("tag", "sha512-256", digest_of("sha256", b"abc"), b"x"))
        self.assertEqual(self.run_all(["-c", "other"])[:2], (1, b"x: FAILED\n"))
        self.assertEqual(self.run_all(["-c", "-a", "sha1", "other"])[0], 1)

    def test_warning_names_the_last_algorithm(self):
        """`-w` names the algorithm that is asked for, or that of the last line that is one."""
        self.write("x", b"abc")
        good = {it: line_of("tag", it, digest_of(it, b"abc"), b"x") for it in TAGS}
        bad = b"no line\n"
        list_1 = bad + good["sha1"] + bad + b"SHA512 (x) = 00\n" + good["sha512-256"] + bad
        plain = digest_of("sha512", b"abc") + b"  x\n"
        self.write("1", list_1 + plain + bad)
        self.write("2", bad + good["sha256"] + bad)
        found = self.run_all(["-cw", "--strict", "1", "2"])
        self.assertEqual(found[:2], (1, b"x: OK\n" * 4))
        shape = b"sums: %s: improperly formatted %schecksum line\n"
        many = b"sums: WARNING: %d lines are improperly formatted\n"
        rows = [
            (b"1: 1", b""), (b"1: 3", b"SHA1 "), (b"1: 4", b"SHA1 "), (b"1: 6", b"SHA512/256 "),
            (b"1: 8", b"SHA512 "),
        ]
        wanted = b"".join(shape % it for it in rows) + many % 5
        rows = [(b"2: 1", b"SHA512 "), (b"2: 3", b"SHA256 ")]
        self.assertEqual(found[2], wanted + b"".join(shape % it for it in rows) + many % 2)
        found = self.run_all(["-cw", "-a", "sha256", "2"])[2]
        rows = [(b"2: 1", b"SHA256 "), (b"2: 3", b"SHA256 ")]
        self.assertEqual(found, b"".join(shape % it for it in rows) + many % 2)

    def test_checked_names_have_escapes(self):
        """A check's line of a name has the escapes that its list's has, as coreutils 9.7."""
        rows = {
            b"a\\b": b"\\a\\\\b", b"a\nb": b"\\a\\nb", b"a\rb": b"\\a\\rb", b"\\": b"\\\\\\",
            b"a b": b"a b",
        }
        text = b""
        for name in rows:
            (self.path / os.fsdecode(name)).write_bytes(b"abc")
            text += line_of("text", "sha256", digest_of("sha256", b"abc"), name)
        for tail, said, status in ((b"abc", b"OK", 0), (b"abd", b"FAILED", 1)):
            for name in rows:
                (self.path / os.fsdecode(name)).write_bytes(tail)
            self.write("list", text)
            wanted = b"".join(shown + b": " + said + b"\n" for shown in rows.values())
            self.assertEqual(self.run_all(["-c", "list"])[:2], (status, wanted))

    def test_name_as_typed(self):
        """Messages begin with the program's name as it is typed."""
        reason = b": nothing: No such file or directory\n"
        for name in ("sums", "./sums", "/usr/bin/sha1sum", "a b"):
            found = self.run_all(["nothing"], name=name)
            self.assertEqual(found, (1, b"", name.encode() + reason))
        on_path = {"PATH": f"{ROOT}:{os.environ['PATH']}"}
        rows = [(ROOT, "./sums", {}), (self.path, str(LAUNCHER), {}), (self.path, "sums", on_path)]
        for folder, typed, environment in rows:
            environment = {**os.environ, **ENVIRONMENT, "PATH": os.environ["PATH"], **environment}
            found = subprocess.run(["bash", "-c", f"{typed} nothing"], cwd=folder, env=environment,
                                   capture_output=True, timeout=TIMEOUT)
            self.assertEqual(found.stderr, typed.encode() + reason)

    def test_help_and_version(self):
        """`--help` and `--version` write on standard output, whatever stands behind them."""
        status, output, error = self.run_all(["--help", "--nonsense"])
        self.assertEqual((status, error), (0, b""))
        self.assertTrue(output.startswith(b"Usage: sums [OPTION]... [FILE]...\n"))
        for option in re.findall(rb"^ +(?:-\w, )?(--[a-z-]+)", output, re.MULTILINE):
            self.assertNotIn(b"unrecognized", self.run_all([option, "x"])[2])
        status, output, error = self.run_all(["--version"])
        self.assertEqual((status, error), (0, b""))
        self.assertRegex(output, rb"\Asums \(yezdopin\) \d+\.\d+\.\d+\n\Z")
        with open("/dev/full", "wb") as full:
            found = self.run_all(["--help"], stdout=full)
            self.assertEqual(found[::2], (1, b"sums: write error\n"))

    def test_names_that_are_no_text(self):
        """A name that is not UTF-8 costs that name alone, as an argument and in a list."""
        self.write("x", b"abc")
        name = b"caf\xe9"
        (self.path / os.fsdecode(name)).write_bytes(b"abc")
        reason = b"sums: 'caf'$'\\351': the name is not UTF-8\n"
        self.assertEqual(self.run_all([b"x", name, b"x"]), (1, self.lines(["x", "x"]), reason))
        digits, names = digest_of("sha256", b"abc"), (b"x", name, b"x")
        self.write("list", b"".join(line_of("text", "sha256", digits, it) for it in names))
        status, output, error = self.run_all(["-c", "list"])
        wanted = b"x: OK\n" + name + b": FAILED open or read\nx: OK\n"
        self.assertEqual((status, output), (1, wanted))
        self.assertEqual(error, reason + b"sums: WARNING: 1 listed file could not be read\n")

    def test_trees(self):
        """`-r` takes the files below a folder in the byte order of names, hidden ones too, and tells
        of links."""
        names = [
            "t/b", "t/a/z", "t/a-b", "t/a.c", "t/a/y/x", "t/B", "t/é", "t/a b", "t/a\nb", "t/.b",
            "t/.a/.c", "t/..b", "t/.../...c",
        ]
        for name in names:
            self.write(name, name.encode())
        (self.path / "t/empty").mkdir()
        self.write("other", b"1")
        order = sorted(names, key=os.fsencode)
        self.assertEqual(self.run_all(["-r", "t"]), (0, self.lines(order), b""))
        found = self.run_all(["other", "t", "--recursive"])
        self.assertEqual(found, (0, self.lines(["other", *order]), b""))
        self.assertEqual(self.run_all(["-r", "t/"])[1], self.lines(order))
        status, output, error = self.run_all(["t"])
        self.assertEqual((status, output, error), (1, b"", b"sums: t: Is a directory\n"))
        os.symlink("b", self.path / "t/link")
        os.symlink("..", self.path / "t/up")
        os.mkfifo(self.path / "t/pipe")
        status, output, error = self.run_all(["-r", "t"])
        self.assertEqual((status, output), (0, self.lines(order)))
        self.assertEqual(sorted(error.splitlines()), [
            b"sums: t/link: symbolic link not followed", b"sums: t/pipe: not a regular file",
            b"sums: t/up: symbolic link not followed"])
        for name in (b"t/a/\xff", b"t/a/caf\xe9"):
            (self.path / os.fsdecode(name)).write_bytes(b"")
        (self.path / os.fsdecode(b"t/a/y/\xfe")).mkdir()
        status, output, error = self.run_all(["-r", "t"])
        self.assertEqual((status, output), (1, self.lines(order)))
        for name in (b"'t/a/'$'\\377'", b"'t/a/caf'$'\\351'", b"'t/a/y/'$'\\376'"):
            self.assertIn(b"sums: " + name + b": the name is not UTF-8\n", error)

    def test_full_folders(self):
        """`-r` takes all of 3,000 names of 200 bytes, which no single look at a folder gives."""
        names = [f"t/{place:04}{'x' * 196}" for place in range(3000)]
        for name in names:
            self.write(name)
        self.assertEqual(self.run_all(["-r", "t"]), (0, self.lines(names), b""))

    def test_output_is_left_out(self):
        """`-r` leaves out the file that standard output is, and the list of a folder checks."""
        for name in ("a", "b/c", "z"):
            self.write(name, name.encode())
        lines = self.lines(["./a", "./b/c", "./z"])
        rows = [
            (["-r", "."], "wb", lines), (["-r", "."], "ab", lines), (["-r", "b/.."], "wb", None),
            (["-r", "list", "a"], "wb", self.lines(["a"])), (["-r", "link", "a"], "wb", None),
            (["-r", "list"], "wb", b""), (["-r", "."], "r+b", lines),
        ]
        os.symlink("list", self.path / "link")
        for build in BUILDS:
            for words, mode, wanted in rows:
                self.write("list", b"")
                with open(self.path / "list", mode) as output:
                    status, _, error = run(build, words, self.path, stdout=output)
                self.assertEqual(status, 0)
                found = (self.path / "list").read_bytes()
                self.assertNotIn(b"list", found)
                self.assertNotIn(b"link", found)
                if wanted is not None:
                    self.assertEqual(found, wanted)
                checked = run(build, ["-c", "--quiet", "list"], self.path)
                self.assertEqual(checked, (0, b"", b"") if found else (1, b"", checked[2]))
        os.unlink(self.path / "link")
        os.link(self.path / "list", self.path / "b/same")
        self.write("list", b"")
        with open(self.path / "list", "wb") as output:
            self.assertEqual(run(BUILDS[0], ["-r", "."], self.path, stdout=output)[0], 0)
        self.assertEqual((self.path / "list").read_bytes(), lines)
        os.unlink(self.path / "b/same")
        # Without `-r` a file is taken as it is named, and elsewhere none is left out.
        self.write("list", b"")
        with open(self.path / "list", "wb") as output:
            run(BUILDS[0], ["list"], self.path, stdout=output)
        empty = digest_of("sha256", b"") + b"  list\n"
        self.assertEqual((self.path / "list").read_bytes(), empty)
        names = ["./a", "./b/c", "./list", "./z"]
        self.assertEqual(self.run_all(["-r", "."]), (0, self.lines(names), b""))

    def test_tree_that_cannot_be_read(self):
        """A folder that cannot be opened is told, and the others are read."""
        if os.geteuid() == 0:
            self.skipTest("a user other than root")
        self.write("t/a", b"1")
        self.write("t/shut/b", b"1")
        os.chmod(self.path / "t/shut", 0)
        found = self.run_all(["-r", "t"])
        os.chmod(self.path / "t/shut", 0o700)
        self.assertEqual(found, (1, self.lines(["t/a"]), b"sums: t/shut: Permission denied\n"))

    def test_long_paths(self):
        """A folder whose path has more than 4,096 bytes is told, and all else is read."""
        self.write("t/a", b"abc")
        with contextlib.ExitStack() as stack:
            folder = os.open(self.path / "t", os.O_DIRECTORY)
            stack.callback(os.close, folder)
            for _ in range(21):
                os.mkdir("b" * 200, dir_fd=folder)
                folder = os.open("b" * 200, os.O_DIRECTORY, dir_fd=folder)
                stack.callback(os.close, folder)
        status, output, error = self.run_all(["-r", "t"])
        self.assertEqual((status, output), (1, self.lines(["t/a"])))
        self.assertRegex(error, rb"\Asums: t/(b{200}/)+b{200}: File name too long\n\Z")

    def test_many_files(self):
        """20,000 files: all lines in order, and a check of them."""
        names = [f"d{place // 1000}/f{place}" for place in range(20_000)]
        for name in names:
            self.write(name, name.encode() * 20)
        wanted = self.lines(names)
        self.assertEqual(self.run_all(names)[:2], (0, wanted))
        self.write("list", wanted)
        self.assertEqual(self.run_all(["-c", "--quiet", "list"]), (0, b"", b""))
        self.assertEqual(self.run_all(["-r", "."])[1].count(b"\n"), 20_001)

    def test_long_list(self):
        """A list of 300,000 lines takes at most 4 MB more than one of 100."""
        for place in range(100):
            self.write(f"f{place}", b"%d" % place)
        lines = self.lines([f"f{place % 100}" for place in range(100)])
        self.write("short", lines)
        self.write("long", lines * 3000)
        wanted = b"".join(b"f%d: OK\n" % place for place in range(100))
        for build in BUILDS:
            few, output = peak_of(build, ["-c", "short"], self.path)
            self.assertEqual(output, wanted)
            much, output = peak_of(build, ["-c", "long"], self.path)
            self.assertEqual(output, wanted * 3000)
            self.assertLess(much, few + 4_000)

    def test_list_of_empty_lines(self):
        """1,000,000 lines, of which only the last but one lists a file, in little memory."""
        self.write("x", b"1")
        line = self.lines(["x"])
        self.write("short", line)
        self.write("long", b"\n" * 999_998 + line + b"\n")
        for build in BUILDS:
            few, _ = peak_of(build, ["-c", "short"], self.path)
            much, output = peak_of(build, ["-c", "long"], self.path)
            self.assertEqual(output, b"x: OK\n")
            self.assertLess(much, few + 4_000)

    def test_memory_of_large_files(self):
        """64 files of 4 MB need no more memory than 64 empty ones, but for rooms of eight lanes."""
        for place in range(64):
            self.write(f"e{place}")
            with open(self.path / f"l{place}", "wb") as file:
                file.truncate(4_000_000)
        for build in BUILDS:
            few, _ = peak_of(build, [f"e{place}" for place in range(64)], self.path)
            much, _ = peak_of(build, [f"l{place}" for place in range(64)], self.path)
            self.assertLess(much, few + 2_000)

    def test_pipes(self):
        """Two pipes that one writer fills one after the other, between files; and short reads."""
        self.write("x", b"1" * 100_000)
        for build in BUILDS:
            for name in ("p", "q"):
                os.mkfifo(self.path / name)
            feeder = threading.Thread(target=feed, args=(self.path,), daemon=True)
            feeder.start()
            found = run(build, ["x", "p", "x", "q", "x"], self.path)
            feeder.join(TIMEOUT)
            contents = {b"x": b"1" * 100_000, b"p": b"p" * 300_000, b"q": b"q" * 300_000}
            names = (b"x", b"p", b"x", b"q", b"x")
            lines = [digest_of("sha256", contents[it]) + b"  " + it + b"\n" for it in names]
            self.assertEqual(found, (0, b"".join(lines), b""))
            for name in ("p", "q"):
                (self.path / name).unlink()

    def test_lines_come_while_it_runs(self):
        """The line of a file is written before a pipe behind it has an end."""
        self.write("x", b"abc")
        os.mkfifo(self.path / "p")
        for build in BUILDS:
            running = start(build, ["x", "p", "x"], self.path)
            with open(self.path / "p", "wb") as pipe:
                ready, _, _ = select.select([running.stdout], [], [], 20)
                first = os.read(running.stdout.fileno(), 1000) if ready else b""
                pipe.write(b"more")
            rest, _ = running.communicate(timeout=TIMEOUT)
            self.assertEqual(first, self.lines(["x"]))
            self.assertEqual(rest, digest_of("sha256", b"more") + b"  p\n" + self.lines(["x"]))

    def test_lines_come_before_all_files_are_read(self):
        """Of many files the first lines are there while later files are still read."""
        for place in range(400):
            self.write(f"f{place}", bytes([place % 256]) * 1_000_000)
        names = [f"f{place}" for place in range(400)]
        for build in BUILDS:
            running = start(build, names, self.path)
            os.read(running.stdout.fileno(), 1)
            at_first = resource_time(running.pid)
            running.communicate(timeout=TIMEOUT)
            _, output = peak_of(build, names, self.path)
            self.assertEqual(output, self.lines(names))
            total = peak_of.seconds
            self.assertLess(at_first, total / 2)

    def test_output_that_fails(self):
        """At a line that can't be written a run ends: a full disk, and a pipe without a reader."""
        self.write("a", b"1")
        self.write("t/b", b"1")
        line = self.lines(["a"])
        self.write("list", line)
        self.write("long", line + digest_of("sha256", b"") + b"  p\n")
        os.mkfifo(self.path / "p")  # which nobody writes to: whoever reads it waits
        rows = [
            ["a", "/dev/zero"], ["a", "p"], ["--tag", "a", "p"], ["-z", "a", "p"],
            ["-r", "t", "p"], ["a", "missing"], ["-", "p"], ["-c", "long"], ["-c", "list", "p"],
            ["-c", "--ignore-missing", "list", "p"], ["-cw", "list", "p"], ["-c", "-", "p"],
        ]
        for build in BUILDS:
            for words in rows:
                for output in (full_disk, pipe_without_a_reader):
                    with self.subTest(words=words, output=output.__name__), output() as file:
                        found = run(build, words, self.path, given=line, stdout=file, timeout=5)
                        self.assertEqual(found[::2], (1, b"sums: write error\n"))

    def test_reader_that_goes_away(self):
        """A run as typed in a shell ends soon behind the reader of its output."""
        self.write("a", b"1")
        names = "$(yes a | head -n 2000)"  # with more lines than a pipe holds
        typed = f'timeout 5 "$0" {names} /dev/zero | head -n 1; echo "${{PIPESTATUS[0]}}"'
        for build in BUILDS:
            found = subprocess.run(["bash", "-c", typed, build], cwd=self.path, timeout=TIMEOUT,
                                   stdout=subprocess.PIPE, stderr=subprocess.PIPE)
            self.assertEqual(found.stdout, self.lines(["a"]) + b"1\n")
            self.assertEqual(found.stderr, os.fsencode(build) + b": write error\n")

    def test_closed_pipe(self):
        """A reader that goes away ends the run, by the signal or with status 1."""
        names = [f"f{place}" for place in range(3000)]
        for name in names:
            self.write(name, b"1")
        for build in BUILDS:
            settings = {"stderr": subprocess.PIPE, "restore_signals": True}
            running = start(build, names, self.path, **settings)
            running.stdout.read(100)
            running.stdout.close()
            error = running.stderr.read()
            running.stderr.close()
            status = running.wait(TIMEOUT)
            reasons = (b"write error: Broken pipe", b"write error")
            told = [(1, b"sums: " + reason + b"\n") for reason in reasons]
            self.assertIn((status, error), [(-13, b""), *told])


def full_disk():
    return open("/dev/full", "wb")


@contextlib.contextmanager
def pipe_without_a_reader():
    reader, writer = os.pipe()
    os.close(reader)
    with open(writer, "wb") as file:
        yield file


def start(program, words, folder, **settings):
    """A run that goes on, with its output in a pipe."""
    command = ["sums", *words]
    settings = {"executable": program, "cwd": folder, "stdout": subprocess.PIPE, **settings}
    return subprocess.Popen(command, **settings)


def feed(folder):
    """Fills two pipes one after the other; the second is opened once the first is closed."""
    for name in ("p", "q"):
        with open(folder / name, "wb") as pipe:
            pipe.write(name.encode() * 300_000)


def resource_time(pid):
    """The seconds of processor time that a running process has used."""
    fields = pathlib.Path(f"/proc/{pid}/stat").read_text().rsplit(")", 1)[1].split()
    return (int(fields[11]) + int(fields[12])) / os.sysconf("SC_CLK_TCK")


def peak_of(program, words, folder):
    """The greatest room that a run took, in units of 1,024 bytes, and its output."""
    running = start(program, words, folder, env=ENVIRONMENT)
    output = running.stdout.read()
    running.stdout.close()
    _, _, used = os.wait4(running.pid, 0)
    running.returncode = 0
    peak_of.seconds = used.ru_utime + used.ru_stime
    return used.ru_maxrss, output
