# SPDX-License-Identifier: ISC
"""What the launcher asks on a terminal, with a shell and without one."""

import contextlib
import itertools
import os
import pathlib
import pty
import select
import shutil
import signal
import termios
import time

from store import (
    BAD_NAME, BROKEN, FEW, LAUNCHER, NO_FOLDER, PROGRAM, Case, Folder, bad_count, exit_status,
    held_lock, of_file, one_too_many,
)

FIRST = b"New password for a: "
AGAIN = b"The same again: "
TESTED = b"Password for a: "
READY = b"ready> "
NONE = b"\npasswords: no password on standard input\n"


class Terminal:
    """A program on a terminal of its own."""

    def __init__(self, case, command, folder, **environment):
        self.case = case
        try:
            self.pid, self.end = pty.fork()
        except OSError:
            case.skipTest("a pseudo-terminal")
        if self.pid == 0:
            try:
                # A script in the background ignores the first two, and Python the third.
                for it in (signal.SIGINT, signal.SIGQUIT, signal.SIGPIPE):
                    signal.signal(it, signal.SIG_DFL)
                os.chdir(folder.path)
                words = [str(word) for word in command]
                os.execvpe(words[0], words, {**os.environ, **environment})
            finally:
                os._exit(127)

    def until(self, wanted):
        """What the terminal shows, up to these bytes or to its end; at most for ten seconds."""
        shown, start = b"", time.monotonic()
        with contextlib.suppress(OSError):
            while time.monotonic() - start < 10 and (wanted is None or not shown.endswith(wanted)):
                if select.select([self.end], [], [], 1)[0]:
                    shown += os.read(self.end, 1000)
        return shown

    def type(self, typed, wanted):
        """What the terminal shows once this is typed, up to these bytes or to its end."""
        os.write(self.end, typed)
        return self.until(wanted)

    def echoes(self):
        """Whether what is typed is shown."""
        return termios.tcgetattr(self.end)[3] & termios.ECHO != 0

    def wait(self):
        """The status of the program."""
        os.close(self.end)
        return exit_status(os.waitpid(self.pid, 0)[1])


class Shell(Terminal):
    """An interactive shell with job control, where "$PASSWORDS" is the launcher."""

    def __init__(self, case, folder, command=("bash", "--norc", "--noprofile", "-i")):
        settings = {"PS1": READY.decode(), "HISTFILE": "", "TERM": "dumb", "ENV": ""}
        super().__init__(case, command, folder, PASSWORDS=str(LAUNCHER), **settings)
        case.addCleanup(self.close)
        self.until(READY)
        self.first_mode = self.mode()

    def says(self, command):
        """What a command writes."""
        shown = self.type(command + b"\n", READY).split(b"\r\n", 1)[-1]
        return shown[:-len(READY)].strip()

    def mode(self):
        """The terminal's mode, as commands find it."""
        return self.says(b"stty -a")

    def is_as_before(self):
        """The terminal has the mode that it had at first."""
        self.case.assertEqual(self.mode(), self.first_mode)

    def asks(self, command, prompt):
        """The launcher asks so, and what is typed then is not shown."""
        shown = self.type(b'"$PASSWORDS" store ' + command + b"\n", prompt)
        self.case.assertEqual((shown[-len(prompt):], self.echoes()), (prompt, False), command)

    def answers(self, typed, shown):
        """This is what a typed line shows. The key Enter sends a carriage return."""
        self.case.assertEqual(self.type(typed + b"\r", shown), b"\r\n" + shown)

    def ended(self, status):
        """The last command ended with this status."""
        self.case.assertEqual(self.says(b"echo $?"), status)

    def send(self, number, wanted=READY):
        """What is shown, up to these bytes, once the job in the foreground has a signal."""
        os.killpg(os.tcgetpgrp(self.end), number)
        return self.until(wanted)

    def comes_back(self, prompt, number=None, meanwhile=b"stty -a"):
        """The launcher, stopped by Ctrl-Z or a signal, leaves the mode, and asks again."""
        time.sleep(0.2)  # until it reads
        stopped = self.send(number) if number else self.type(b"typed\x1a", READY)
        self.case.assertIn(b"Stopped", stopped)
        self.case.assertNotIn(b"typed", stopped)
        self.is_as_before()
        self.says(meanwhile)
        time.sleep(0.5)  # until it stops again
        back = self.type(b"fg\n", prompt)
        self.case.assertEqual((back[-len(prompt):], self.echoes()), (prompt, False))

    def close(self):
        os.close(self.end)
        os.kill(self.pid, signal.SIGKILL)
        os.waitpid(self.pid, 0)


def on_terminal(folder, typed, *words):
    """The status of the launcher on a terminal, and what that shows. Each prompt has its line."""
    terminal = Terminal(folder.case, [LAUNCHER, folder.file, *words], folder)
    shown = b""
    for line in typed:
        shown += terminal.until(b": ")
        if terminal.echoes():
            shown += b"(with echo)"
        os.write(terminal.end, line)
    shown += terminal.until(None)
    return terminal.wait(), shown.replace(b"\r\n", b"\n")


class Asked(Case):
    """What is asked, and what of it."""

    def test_a_password_is_asked_for(self):
        """On a terminal it asks for a password, for a new one twice, and doesn't show it."""
        it = self.new_folder()
        status, shown = on_terminal(it, [b"secret\n", b"secret\n"], "set", "a", *FEW)
        self.assertEqual(status, 0)
        self.assertTrue(shown.startswith(FIRST + b"\n" + AGAIN + b"\n"), shown)
        self.assertNotIn(b"secret", shown)
        self.assertNotIn(b"(with echo)", shown)
        wrong = (1, TESTED + b"\npasswords: wrong name or password\n")
        rows = [(b"secret\n", (0, TESTED + b"\n")), (b"other\n", wrong), (b"\n", wrong)]
        for typed, wanted in rows:
            self.assertEqual(on_terminal(it, [typed], "verify", "a"), wanted, typed)
        it.verifies("a", b"secret")

    def test_an_empty_password_is_refused(self):
        """An empty password is refused, and two that differ; nothing is written then."""
        differ = FIRST + b"\n" + AGAIN + b"\npasswords: the two passwords differ\n"
        rows = [
            ([b"\n"], FIRST + b"\npasswords: the password is empty\n"),
            ([b"x\n", b"y\n"], differ), ([b"x\n", b"\n"], differ), ([b"x\n", b"x \n"], differ),
            ([b"\x04"], FIRST + NONE), ([b"x\x04\x04"], FIRST + NONE),
            ([b"x\n", b"\x04"], FIRST + b"\n" + AGAIN + NONE),
        ]
        it = self.new_folder()
        for typed, shown in rows:
            self.assertEqual(on_terminal(it, typed, "set", "a"), (2, shown), typed)
        it.is_empty()
        it.set("a", b"first")
        text = it.file.read_bytes()
        for typed, shown in rows:
            self.assertEqual(on_terminal(it, typed, "set", "a"), (2, shown), typed)
        self.assertEqual(on_terminal(it, [b"\x04"], "verify", "a"), (2, TESTED + NONE))
        it.holds(text)

    def test_typed_bytes_stay(self):
        """What is typed is the password byte for byte, but for zero bytes and those past 4,095."""
        passwords = [
            b" a b ", b"\\", b"a\\", b"\\n\\\\", b"-n", b"%s%d", b"'\"$`!*", "Größe".encode(),
            b"\xff\xfe\xc3", b"x" * 4000,
        ]
        it = self.new_folder()
        for password in passwords:
            with self.subTest(password=password[:20]):
                line = password + b"\n"
                self.assertEqual(on_terminal(it, [line, line], "set", "a", *FEW)[0], 0)
                self.assertEqual(on_terminal(it, [line], "verify", "a")[0], 0)
                it.verifies("a", password)
        for typed, password in ((b"a\0b", b"ab"), (b"x" * 5000, b"x" * 4095)):
            with self.subTest(typed=typed[:20]):
                on_terminal(it, [typed + b"\n"] * 2, "set", "a", *FEW)
                it.verifies("a", password)

    def test_all_else_is_looked_at_first(self):
        """On a terminal the arguments, the name and the file are looked at before it asks."""
        it, other = self.new_folder(), self.new_folder()
        it.set("a", b"x")

        def at(name):
            folder = Folder(self, other.path)
            folder.file = other.path / name
            return folder

        at("broken").file.write_bytes(b"no store\n")
        at("folder").file.mkdir()
        bad_name, irregular = BAD_NAME[1], "not a regular file"
        rows = [
            (it, ("set", ""), bad_name), (it, ("verify", "n" * 65), bad_name),
            (at("missing"), ("set", "n" * 65), bad_name),
            (it, ("verify",), "verify needs a name"), (it, ("set",), "set needs a name"),
            (it, ("set", "a", "b"), one_too_many("b")),
            (it, ("set", "a", "--iterations", "0"), bad_count("0")),
        ]
        of_files = [
            (at("missing"), ("verify", "a"), "no such file"),
            (at("missing/store"), ("set", "a"), NO_FOLDER),
            (at("broken"), ("verify", "a"), BROKEN), (at("broken"), ("set", "a"), BROKEN),
            (at("folder"), ("verify", "a"), irregular), (at("folder"), ("set", "a"), irregular),
        ]
        rows += [(where, words, of_file(where.file, text)) for where, words, text in of_files]
        for where, words, message in rows:
            wanted = (2, f"passwords: {message}\n".encode())
            self.assertEqual(on_terminal(where, [], *words), wanted, words)
        self.assertEqual({path.name for path in other.path.iterdir()}, {"broken", "folder"})
        self.assertEqual(at("broken").file.read_bytes(), b"no store\n")
        it.verifies("a", b"x")

    def test_prompts_show_no_control_characters(self):
        """Control characters of a name don't reach the terminal."""
        it = self.new_folder()
        for name in ("a\x1b[31mb", "a\rb", "a\nb", "\x07", "a\x7f", "a\u009b31mb", "a\\"):
            with self.subTest(name=name):
                status, shown = on_terminal(it, [b"x\n", b"x\n"], "set", name, *FEW)
                self.assertEqual(status, 0)
                text = shown.replace(b"\n", b"").decode(errors="replace")
                self.assertTrue(text.isprintable(), text)
                it.verifies(name, b"x")

    def test_echo_that_cannot_be_turned_off(self):
        """Where the terminal's echo can't be turned off, the launcher doesn't ask."""
        it, tools = self.new_folder(), self.new_path()
        it.set("a", b"x")
        text = it.file.read_bytes()
        (tools / "stty").symlink_to(shutil.which("false"))
        path = f"{tools}:{os.environ['PATH']}"
        terminal = Terminal(self, [LAUNCHER, it.file, "verify", "a"], it, PATH=path)
        shown = terminal.until(None)
        wanted = b"passwords: cannot turn the echo of the terminal off\r\n"
        self.assertEqual((terminal.wait(), shown), (2, wanted))
        it.holds(text)

    def test_a_file_that_vanishes_is_not_made_anew(self):
        """A file that is gone when the password is typed is not made anew; a missing one is."""
        it = self.new_folder()
        for known in (True, False):
            if known:
                it.set("a", b"x")
            terminal = Terminal(self, [LAUNCHER, it.file, "set", "a", *FEW], it)
            terminal.until(FIRST)
            terminal.type(b"x\n", AGAIN)
            if known:
                it.file.unlink()
            shown = terminal.type(b"x\n", None)
            self.assertEqual(terminal.wait(), 2 if known else 0)
            self.assertEqual(it.file.exists(), not known)
            message = f"passwords: {of_file(it.file, 'no such file')}\r\n".encode()
            self.assertEqual(shown.endswith(message), known, shown)

    def test_a_typed_password_stays_inside(self):
        """A typed password stands in no argument and no environment, whatever variables exist."""
        names = ("password", "repeated", "prompt", "shown", "name", "REPLY")
        outside = {**dict.fromkeys(names, "outside"), "SHELLOPTS": "allexport"}
        secret, it = b"typed s3cret", self.new_folder()
        it.set("a", b"x")
        program = os.fsencode(PROGRAM) + b"\0" + os.fsencode(it.file)
        with held_lock(it):
            terminal = Terminal(self, [LAUNCHER, it.file, "set", "a", *FEW], it, **outside)
            terminal.until(FIRST)
            terminal.type(secret + b"\n", AGAIN)
            terminal.type(secret + b"\n", b"\r\n")
            places = places_once_it_runs(program)
        terminal.until(None)
        self.assertTrue(any(text.startswith(program) for text in places.values()))
        self.assertEqual([path for path, text in places.items() if secret in text], [])
        self.assertEqual(terminal.wait(), 0)
        it.verifies("a", secret)


def places_once_it_runs(program):
    """The arguments and environments of all processes, once a program runs, or in ten seconds."""
    start = time.monotonic()
    while time.monotonic() - start < 10:
        places = dict(arguments_and_environments())
        if any(text.startswith(program) for text in places.values()):
            break
    return places


def arguments_and_environments():
    """What stands in the arguments and the environment of each process, and where."""
    for name in ("cmdline", "environ"):
        for path in pathlib.Path("/proc").glob(f"[0-9]*/{name}"):
            with contextlib.suppress(OSError):
                yield path, path.read_bytes()


class Stopped(Case):
    """Ctrl-Z, Ctrl-C and their like."""

    def new_shell(self, *command):
        """A folder, and a shell in it."""
        it = self.new_folder()
        return it, Shell(self, it, *([command] if command else []))

    def test_it_goes_on_after_a_stop(self):
        """Ctrl-Z leaves the shell its terminal; after `fg` what is typed isn't shown."""
        it, shell = self.new_shell()
        shell.asks(b"set a --iterations 100000", FIRST)
        self.assertEqual(shell.send(signal.SIGCONT, FIRST), FIRST)
        shell.answers(b"first", AGAIN)
        shell.answers(b"first", READY)
        shell.is_as_before()
        shell.asks(b"set a --iterations 100000", FIRST)
        shell.comes_back(FIRST)
        shell.answers(b"s3cret", AGAIN)
        for number in (None, None, signal.SIGTSTP, signal.SIGSTOP):
            shell.comes_back(AGAIN, number)
        shell.answers(b"s3cret", READY)
        shell.ended(b"0")
        shell.is_as_before()
        it.verifies("a", b"s3cret")

    def test_it_goes_on_from_the_background(self):
        """In the background it stops; after `fg` it asks, and what is typed isn't shown."""
        it, shell = self.new_shell()
        it.set("a", b"s3cret")
        shell.asks(b"verify a", TESTED)
        shell.comes_back(TESTED, meanwhile=b"bg")
        shell.answers(b"s3cret", READY)
        shell.ended(b"0")
        shell.says(b'"$PASSWORDS" store verify a &')
        time.sleep(1)  # until it stops
        asked = shell.type(b"fg\n", TESTED)
        self.assertEqual((asked[-len(TESTED):], shell.echoes()), (TESTED, False))
        shell.answers(b"s3cret", READY)
        shell.ended(b"0")
        shell.is_as_before()

    def test_another_shell_has_its_terminal(self):
        """Ctrl-Z leaves its terminal to a shell that doesn't see to that itself."""
        it, shell = self.new_shell(self.tool("dash"), "-i")
        it.set("a", b"s3cret")
        shell.asks(b"verify a", TESTED)
        shell.comes_back(TESTED)
        shell.comes_back(TESTED, signal.SIGTSTP)
        shell.answers(b"s3cret", READY)
        shell.ended(b"0")
        shell.is_as_before()

    def test_a_signal_ends_it(self):
        """Ctrl-C, Ctrl-D, Ctrl-\\ and a signal end it; terminal and file are as before."""
        it, shell = self.new_shell()
        it.set("a", b"x")
        text = it.file.read_bytes()
        ends = [(b"typed\x03", b"130"), (b"typed\x1c", b"131"), (b"\x04", b"2")]
        ends += [(signal.SIGTERM, b"143")]
        prompts = [(b"verify a", [TESTED]), (b"set a", [FIRST]), (b"set a", [FIRST, AGAIN])]
        for (command, (first, *others)), (end, status) in itertools.product(prompts, ends):
            with self.subTest(command=command, end=end):
                shell.asks(command, first)
                for prompt in others:
                    shell.answers(b"y", prompt)
                time.sleep(0.2)  # until it reads
                is_signal = end is signal.SIGTERM
                shown = shell.send(end) if is_signal else shell.type(end, READY)
                self.assertNotIn(b"typed", shown)
                shell.ended(status)
                shell.is_as_before()
                it.holds(text)

    def test_a_stopped_one_is_killed(self):
        """A launcher that is stopped can be killed; terminal and file are as before."""
        it, shell = self.new_shell()
        it.set("a", b"x")
        text = it.file.read_bytes()
        shell.asks(b"set a", FIRST)
        self.assertIn(b"Stopped", shell.type(b"\x1a", READY))
        gone = shell.says(b"kill %1; sleep 1") + shell.says(b"jobs")
        self.assertIn(b"Terminated", gone)
        shell.is_as_before()
        it.holds(text)

    def test_it_asks_again_where_nothing_stops(self):
        """Without a shell Ctrl-Z makes the launcher ask again, and what is typed isn't shown."""
        it = self.new_folder()
        it.set("a", b"s3cret")
        terminal = Terminal(self, [LAUNCHER, it.file, "verify", "a"], it)
        terminal.until(TESTED)
        time.sleep(0.2)  # until it reads
        again = terminal.type(b"typed\x1a", TESTED)
        self.assertFalse(terminal.echoes())
        again += terminal.type(b"s3cret\n", None)
        self.assertEqual((terminal.wait(), again), (0, b"\r\n" + TESTED + b"\r\n"))
