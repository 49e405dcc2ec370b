# SPDX-License-Identifier: ISC
"""A folder with a store's file, the program run on it, and what a test asserts of both."""

import contextlib
import os
import pathlib
import resource
import shlex
import shutil
import signal
import subprocess
import time

import run as programs
from run import ROOT

LAUNCHER = ROOT / "passwords"
PROGRAM = programs.built("ring_passwords")

USAGE = """usage: passwords FILE set NAME [--iterations N]
       passwords FILE verify NAME
       passwords FILE remove NAME
       passwords FILE list
       passwords encode SCHEME [--iterations N]
       passwords check [--max-iterations N]
       passwords --help
       passwords --version"""
COMMANDS = "; the commands are set, verify, remove and list"
NUMBER = "needs a number of 1 to 4294967295"
TOO_LONG = (2, "the password is too long")
LINKED = "the file has another name, a hard link"
BAD_LOCK = "its lock is not an empty regular file of this user"
TEMPORARY = "the name is one of a temporary file"
WARNING = "warning: with fewer than 100000 iterations, whoever reads the file can guess at " \
    "passwords cheaply; 600000 are advised"
# How runs end: a status, and a message on standard error without the program's name.
DONE = (0, "")
WARNED = (0, WARNING)
WRONG = (1, "wrong name or password")
NO_NAME = (1, "no such name")
BAD_NAME = (2, "a name has 1 to 64 bytes")
BROKEN = "not a password store"
NO_PASSWORD = (2, "no password on standard input")
NO_SPACE = "No space left on device (os error 28)"
DENIED = "Permission denied (os error 13)"
IS_FOLDER = "Is a directory (os error 21)"
NO_FOLDER = "no such folder"
NO_MEMORY = "out of memory"

FEW = ("--iterations", "1")
NOBODY = 65534
GREATEST_COUNT = 4_294_967_295
# The most bytes of a password.
LONGEST = 131_072


def no_count(option="--iterations"):
    """What is said of an option without a number."""
    return f"{option} {NUMBER}"


def bad_count(word, option="--iterations"):
    """What is said of an option with this word in place of a number."""
    return f"{option} {NUMBER}, not {shlex.quote(word)}"


def one_too_many(word):
    """What is said of a word that is one too many."""
    return f"one word too many: {shlex.quote(word)}"


def of_file(path, message):
    """What is said of a file."""
    return f"{shlex.quote(str(path))}: {message}"


class Case(programs.Case):
    """A case, whose tests make folders and try files of a store in them."""

    maxDiff = 2000

    def new_folder(self):
        """A new folder for a store's file."""
        return Folder(self, self.new_path())

    def tool(self, *names):
        """The path of the first of these tools that is here; else the test is skipped."""
        found = next(filter(None, map(shutil.which, names)), None)
        return found or self.skipTest(names[0])

    def full_device(self):
        """A file that can't be written."""
        full = open("/dev/full", "wb")
        self.addCleanup(full.close)
        return full


class Folder:
    """A new folder with a store's file, and the program run on it."""

    def __init__(self, case, path, program=(PROGRAM,)):
        self.case = case
        self.path = path
        self.file = path / "store"
        self.program = program

    def run(self, *words, password=b"", **settings):
        """How a run ends: its status, its message, and what it wrote."""
        command = (*self.program, self.file, *words)
        status, output, error = programs.ended(*command, given=password, **settings)
        return (status, told(error)), output

    def start(self, *words, stderr=subprocess.DEVNULL):
        """A run that waits for its password."""
        command = [*self.program, self.file, *words]
        return subprocess.Popen(command, stdin=subprocess.PIPE, stderr=stderr)

    def waiting(self, *words):
        """A run that has looked at the file and waits for its password."""
        running = self.start(*words, stderr=subprocess.PIPE)
        call, start = pathlib.Path(f"/proc/{running.pid}/syscall"), time.monotonic()
        while not call.read_text().startswith("0 0x0 ") and time.monotonic() - start < 10:
            time.sleep(0.01)  # until it reads standard input
        return running

    def goes_on(self, running, password):
        """How a run ends that is given its password: its status and its message."""
        _, error = running.communicate(password, timeout=60)
        return running.returncode, told(error)

    def fails(self, message, *words, **settings):
        """A run ends with status 2 and this message of its file."""
        self.ends((2, of_file(self.file, message)), *words, **settings)

    def ends(self, wanted, *words, password=b"", **settings):
        """A run ends so, warns of few iterations of a store that it sets a password in, and writes
        nothing on standard output."""
        found = self.run(*words, password=password, **settings)
        if wanted == DONE and words[0] == "set" and int(self.lines()[0].split()[3]) < 100_000:
            wanted = WARNED
        self.case.assertEqual(found, (wanted, b""), words)

    def set(self, name, password, *options):
        """The password of a name is set, with one iteration or by these options."""
        self.ends(DONE, "set", name, *(options or FEW), password=password)

    def verifies(self, name, password):
        """This is the password of the name."""
        self.ends(DONE, "verify", name, password=password)

    def refuses(self, name, password):
        """This is not the password of the name."""
        self.ends(WRONG, "verify", name, password=password)

    def lists(self, *lines):
        """These are the lines of `list`."""
        wanted = (DONE, b"".join(line + b"\n" for line in lines))
        self.case.assertEqual(self.run("list"), wanted, "list")

    def names(self):
        """The names, where the file is one that the program wrote."""
        ending, lines = self.run("list")
        return lines.splitlines() if ending == DONE else None

    def lines(self):
        """The lines of the file."""
        return self.file.read_bytes().splitlines()

    def left(self, digits):
        """What a killed run leaves of its temporary file, by the last digits of its name."""
        path = self.path / f"store.new-{digits:0>16}"
        path.write_bytes(b"ring_store 1")
        return path

    def beside(self):
        """The names of what stands in the folder beside the file and its lock."""
        return {it.name for it in self.path.iterdir()} - {"store", "store.lock"}

    def holds(self, text):
        """The file has this text, and nothing but the lock stands beside it."""
        # The text may be long: only its first bytes stand in a message.
        is_text = self.file.read_bytes() == text
        self.case.assertEqual((is_text, self.beside()), (True, set()), text[:80])

    def is_empty(self):
        """Nothing was made in the folder."""
        self.case.assertEqual(list(self.path.iterdir()), [])


def bare(*words, line=b"", **settings):
    """How a run without a file ends: its status, its message, and what it wrote."""
    status, output, error = programs.ended(PROGRAM, *words, given=line, **settings)
    return status, told(error), output


def exit_status(status):
    """The exit status of a process that was waited for, or its signal with a minus sign."""
    return -os.WTERMSIG(status) if os.WIFSIGNALED(status) else os.WEXITSTATUS(status)


def told(error):
    """A message without the program's name."""
    return error.decode(errors="replace").removeprefix("passwords: ").removesuffix("\n")


def limit(what, count):
    """What a process calls to limit itself."""
    return lambda: resource.setrlimit(what, (count, count))


def memory_limit(count):
    """What a process calls to have so many bytes of memory at most."""
    return limit(resource.RLIMIT_AS, count)


def as_nobody(case):
    """What runs a program as a user without rights."""
    if os.geteuid() != 0:
        return []
    case.tool("setpriv")
    return ["setpriv", f"--reuid={NOBODY}", f"--regid={NOBODY}", "--clear-groups"]


def program_for_nobody(room):
    """A copy of the program in a folder that every user can read."""
    room.chmod(0o755)
    program = room / "program"
    shutil.copy(PROGRAM, program)
    return program


@contextlib.contextmanager
def held_lock(folder):
    """Holds the lock of a folder's file meanwhile, by a process."""
    command = [folder.case.tool("flock"), folder.path / "store.lock", "sleep", "100"]
    holding = subprocess.Popen(command, start_new_session=True)
    time.sleep(0.5)
    try:
        yield
    finally:
        os.killpg(holding.pid, signal.SIGKILL)
        holding.wait()


# A text as the program writes it; crates/ring_store_text/src/text.rt has the format.


def head_line(mark=b"ring_store 1", salt=b"5a" * 16, iterations=b"7", space=b" ", end=b"\n"):
    """The first line of a text."""
    return space.join((mark, salt, iterations)) + end


def record_line(name=b"6a6b", iterations=b"5", credential=b"ac" * 32, space=b" ", end=b"\n"):
    """The line of a name."""
    return space.join((name, iterations, credential)) + end


def text_of(names):
    """A text with a line for each of these names. No password is known."""
    return head_line() + b"".join(record_line(name=name.hex().encode()) for name in names)
