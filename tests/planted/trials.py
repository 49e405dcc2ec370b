# SPDX-License-Identifier: ISC
"""How the doors are built and tested in a copy of the repository, and a body is tried there."""

import contextlib
import dataclasses
import os
import pathlib
import re
import shutil
import signal
import subprocess

ROOT = pathlib.Path(__file__).resolve().parents[2]
# A test counts as one that fails when it has taken so many seconds of processor, or has taken next
# to none for so many seconds.
PATIENCE = 400


def unittest_fails(said, test):
    """Whether Python's unittest says that a test failed, or is cut off in it."""
    method = test.rpartition(".")[2]
    return re.search(rf"^(FAIL|ERROR): {method} ", said, re.M) or "Fatal Python error" in said


def node_fails(said, test):
    return re.search(rf"^\s*not ok \d+ - {re.escape(test)}$", said, re.M)


def cargo_fails(said, test):
    return re.search(rf"^test {re.escape(test.partition(' ')[2])} \.\.\. FAILED$", said, re.M)


def says_failed(said, test):
    """Of tests that are one program each: it says what is wrong. A body that isn't compiled is not
    found, but where the header itself is tried."""
    wanted = {"header": "old-style-cast", "openssl-agree": "^DIFFERENCE", "openssl-wiped": "freed"}
    return re.search(wanted.get(test, r"FAILED: |^\S+\.c:\d+: "), said, re.M)


@dataclasses.dataclass(frozen=True)
class Door:
    """How the tests of a door are built and run: the folders that it is made of, the commands
    behind one another for a test, and how their output says that the test failed."""

    folders: tuple
    commands: object
    fails: object


def python_commands(test):
    python = "/usr/bin/python3" if "django" in test else "python3"  # which has Debian's Django
    return [
        ["python3", "-B", "python/build_backend.py", "out/python"],
        ["sh", "-c", "cd python/test && "
         f"PYTHONPATH=$OLDPWD/out/python exec {python} -B -m unittest -v {test}"],
    ]


def node_commands(test):
    program = ("exec node --test --test-reporter=tap --test-name-pattern=\"^$0$\" "
               "javascript/test/*.test.mjs")
    return [["make", "-s", "js"], ["sh", "-c", program, re.sub(r"([^\w ])", r"\\\1", test)]]


def cargo_commands(test):
    file, _, name = test.partition(" ")
    words = ["cargo", "test", "--offline", "--locked", "--manifest-path", "rust/Cargo.toml",
             "--test", file, "--", "--exact", name]
    return [words]


def rustcrypto_commands(test):
    return [["make", "-s", "rustcrypto"]]


def rustcrypto_fails(said, test):
    return re.search(rf"^    {re.escape(test)}$", said, re.M)


def make_commands(test):
    return [["make", "-s", test, "AGREE_CASES=400", "LOADS=10"]]


def script_commands(test):
    return [["python3", "-B", *test.split()]]


def programs_commands(test):
    script, _, word = test.partition(" ")
    return [["python3", "-B", script, word or "programs"]]


def programs_fails(said, test):
    return unittest_fails(said, test) if " " in test else says_failed(said, test)


MADE = ("c", "generated", "crates.txt", "Makefile", "LICENSE")
EVERY = ("python", "rust", "javascript", "openssl", "packaging", "tools", "programs")
DOORS = {
    "c": Door(("c",), make_commands, says_failed),
    "python": Door(("python",), python_commands, unittest_fails),
    "javascript": Door(("javascript", "generated/make/lower.py"), node_commands, node_fails),
    "rust": Door(("rust",), cargo_commands, cargo_fails),
    "rustcrypto": Door(("rust",), rustcrypto_commands, rustcrypto_fails),
    "openssl": Door(("openssl",), make_commands, says_failed),
    "programs": Door(
        ("programs", "c/processor.c", "generated/ring_sums_main.S", "tests/program_runtime.py",
         "tests/sums"), programs_commands, programs_fails),
    "instructions": Door(("generated/make",), script_commands, says_failed),
}


class Malformed(Exception):
    """A table that is none."""


@dataclasses.dataclass
class Body:
    """A faulty body: its door and name, the file, its lines there, the new ones, and the tests."""

    door: str
    name: str
    file: str = ""
    old: list = dataclasses.field(default_factory=list)
    new: list = dataclasses.field(default_factory=list)
    tests: list = dataclasses.field(default_factory=list)

    def text(self):
        """The file's text with the body in it."""
        whole = (ROOT / self.file).read_text()
        old = "".join(f"{it}\n" for it in self.old)
        if whole.count(old) != 1 or not self.old or not self.tests:
            raise Malformed(f"{self.name}: `old` stands {whole.count(old)} times in {self.file}")
        return whole.replace(old, "".join(f"{it}\n" for it in self.new))


def copied_to(room):
    """A copy of what the doors are made of and of what was built for them."""
    for name in (*MADE, *EVERY):
        one = ROOT / name
        if one.is_dir():
            shutil.copytree(one, room / name, symlinks=True,
                            ignore=shutil.ignore_patterns("target", "node_modules", "__pycache__"))
        elif one.exists():
            shutil.copy2(one, room / name)
    for name in ("vectors", "crates", "docs", "tests"):
        (room / name).symlink_to(ROOT / name)
    (room / "out").mkdir()
    for built in [*ROOT.glob("out/*.o"), *ROOT.glob("out/libyezdopin*"), ROOT / "out/names",
                  ROOT / "out/verifications.txt"]:
        if built.exists():
            shutil.copy2(built, room / "out" / built.name, follow_symlinks=False)
    return room


def processor_time(session):
    """The seconds of processor that the processes of a session took, and those they waited for."""
    ticks = 0
    for path in pathlib.Path("/proc").glob("[0-9]*/stat"):
        with contextlib.suppress(OSError):  # of one that has ended
            fields = path.read_text().rpartition(") ")[2].split()
            ticks += sum(map(int, fields[11:15])) if int(fields[3]) == session else 0
    return ticks / os.sysconf("SC_CLK_TCK")


def ended(words, **settings):
    """How a command ends, with all that it started: its status, and what it said."""
    used, said = 0, None
    with subprocess.Popen(words, stdout=subprocess.PIPE, stderr=subprocess.STDOUT,
                          start_new_session=True, **settings) as run:
        while said is None:
            try:
                said, _ = run.communicate(timeout=PATIENCE)
            except subprocess.TimeoutExpired:
                before, used = used, processor_time(run.pid)
                if used > PATIENCE or used - before < 1:
                    os.killpg(run.pid, signal.SIGKILL)
                    said = run.communicate()[0] + f"\nlonger than {PATIENCE} seconds".encode()
    return run.returncode, said.decode(errors="replace")


def run_in(room, door, test):
    """How the test runs in a copy: whether it passed, and what was said."""
    said = ""
    environment = {
        **os.environ, "PYTHONFAULTHANDLER": "1", "YEZDOPIN_LIB_DIR": str(room / "out"),
        "PACKAGE": str(room / "out/js/package"), "VECTORS": str(room / "vectors"),
        "VERIFICATIONS": str(room / "out/verifications.txt"),
        "PROGRAMS": str(room / "programs"),
        "CARGO_TARGET_DIR": str(room / "out/cargo"), "RT": "no-kit",
        "NODE_PATH": os.environ.get("NODE_PATH", "/usr/share/nodejs"),
    }
    for words in door.commands(test):
        status, more = ended(words, cwd=room, env=environment)
        said += more
        if status:
            return False, said
    return True, said


def fault_of(room, door, body):
    """What is wrong with the trial of a body in a copy, or None."""
    path = room / body.file
    before = path.read_text()
    try:
        path.write_text(body.text())
        for test in body.tests:
            passed, said = run_in(room, door, test)
            if passed:
                return f"{test} passes"
            if not door.fails(said, test):
                return f"{test} is not what fails:\n{said[-1500:]}"
    finally:
        path.write_text(before)  # newer than what was made of the body
    return None
