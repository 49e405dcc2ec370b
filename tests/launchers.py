#!/usr/bin/env python3
# SPDX-License-Identifier: ISC
"""How ./bench, ./sums and ./passwords build their programs, by programs/built, and what they tell
of themselves and of the build.

Each test has a copy of the launchers with crates that hold a word, and an `rt` of its own, which
says what the kit's says, and "builds" a program that prints the word. Where generated/ has a text,
it holds a word too, and a compiler of the test's own "builds" the program that prints it. The last
line is 'N passed, M failed'.

    tests/launchers.py [WORD..]     all tests, or those with one of these words in their names
"""

import fcntl
import hashlib
import os
import pathlib
import re
import shutil
import struct
import subprocess
import sys
import tempfile
import termios
import time
import unittest

sys.dont_write_bytecode = True
sys.path.append(str(pathlib.Path(__file__).resolve().parent / "lib"))
import counted

ROOT = pathlib.Path(__file__).resolve().parent.parent
COPIED = [
    "bench", "sums", "passwords", "programs/build", "programs/about", "programs/built",
    "c/processor.c", "c/processor.h", "c/include/yezdopin.h",
    "generated/make/progress.py",
    "crates/ring_sums/src/about.rt", "crates/ring_passwords/src/about.rt",
]
# The library's.
HEADER = (ROOT / "c/include/yezdopin.h").read_text()
VERSION = r"\.".join(re.findall(r"#define YZ_VERSION_(?:MAJOR|MINOR|PATCH) (\d+)", HEADER))
# The crates of a launcher's programs.
CRATES = {
    "bench": ["ring_bench_main"],
    "sums": ["ring_sums_main"],
    "passwords": ["ring_passwords"],
}
TIMEOUT = 60

# Reads the word, notes that it has, waits as long as the crate has a `wait`, and writes the
# program, or once the library.
RT = """#!/bin/sh
crate=$(basename "$PWD")
[ "$1" = run ] || [ ! -e out/rlib ] || exit 0
word=$(cat src/main.rt)
[ "$1" != run ] || echo "$word" >>../../begun
[ ! -e ../../says ] || cat ../../says >&2
echo "rt: chose --jobs 1 for $crate"
echo 'so far: 0 of 8 functions checked; the verdict comes last'
while [ -e wait ]; do sleep 0.01; done
[ "$word" != fails ] || { echo 'the reason'; exit 1; }
echo "fn $crate::count::count_in: proved"
echo 'logic=proved functions=8 sum=dac8208d native=nat,char,string logic-built=trusted'
mkdir -p out
program=out/$crate
[ "$1" = run ] || program=out/rlib
printf '#!/bin/sh\\necho %s\\n' "$word" >"$program"
chmod +x "$program"
"""


# Notes the text's word, and writes the program, unless the word says that it fails.
COMPILER = """#!/bin/sh
for it; do
    case $it in *.S) text=$it ;; esac
    program=$it
done
word=$(cat "$text")
echo "$word" >>../compiled
[ "$word" != fails ] || { echo 'the compiler says why'; exit 1; }
printf '#!/bin/sh\\necho %s\\n' "$word" >"$program"
chmod +x "$program"
"""


class Launchers(unittest.TestCase):
    """Launchers over an `rt` that proves nothing."""

    def setUp(self):
        room = tempfile.TemporaryDirectory()
        self.addCleanup(room.cleanup)
        self.room = pathlib.Path(room.name)
        self.tools = self.new_command("rt", RT)
        self.compiler = self.new_command("compiler", COMPILER) / "compiler"

    def new_command(self, name, script):
        """A folder with a command."""
        folder = self.room / f"{name}.bin"
        folder.mkdir()
        (folder / name).write_text(script)
        (folder / name).chmod(0o755)
        return folder

    def clone(self, name, word):
        """A folder with the launchers, and with crates that hold the word."""
        folder = self.room / name
        for path in COPIED:
            (folder / path).parent.mkdir(parents=True, exist_ok=True)
            shutil.copy(ROOT / path, folder / path)
        crates = [crate for of in CRATES.values() for crate in of]
        (folder / "crates.txt").write_text(
            "ring_core:\nring: ring_core\n" + "".join(f"{crate}: ring\n" for crate in crates))
        for crate in ["ring_core", "ring", *crates]:
            for part in ("src", "specs", "proofs"):
                (folder / "crates" / crate / part).mkdir(parents=True, exist_ok=True)
        self.edit(folder, word)
        return folder

    def edit(self, folder, word):
        """Gives the crates another word."""
        for crate in (folder / "crates").iterdir():
            (crate / "src/main.rt").write_text(word + "\n")

    def write_texts(self, folder, word):
        """Gives the programs texts with a word, made of the sources as they stand."""
        for crate in [crate for of in CRATES.values() for crate in of]:
            (folder / f"generated/{crate}.S").write_text(word + "\n")
        (folder / "programs/runtime.c").touch()
        sources = (it for it in (folder / "crates").glob("*/src/*") if it.is_file())
        (folder / "generated/SOURCES").write_text("".join(
            f"{hashlib.sha256(it.read_bytes()).hexdigest()}  {it.relative_to(folder)}\n"
            for it in sources))

    def begin(
        self, launcher, folder, words=(), path=None, stdout=subprocess.PIPE,
        stderr=subprocess.PIPE, **environment,
    ):
        """A launcher that runs, with `rt` on its path or another path."""
        path = path or f"{self.tools}:{os.environ['PATH']}"
        return subprocess.Popen(
            [folder / launcher, *words], cwd=self.room, stdin=subprocess.DEVNULL, stdout=stdout,
            stderr=stderr, text=True, env={
                **os.environ, "RT": "rt", "CC": str(self.compiler), "PATH": path, **environment})

    def run_of(self, launcher, folder, *words, **settings):
        """How a run of a launcher ends: its status, its output and its messages."""
        running = self.begin(launcher, folder, words, **settings)
        output, error = running.communicate(timeout=TIMEOUT)
        return running.returncode, output, error

    def builds(self, folder, of="begun"):
        """The words that `rt` has built; of `compiled` those that the compiler has."""
        noted = folder / of
        return noted.read_text().split() if noted.exists() else []

    def until(self, holds):
        """Waits until something holds."""
        end = time.monotonic() + TIMEOUT
        while not holds():
            self.assertLess(time.monotonic(), end)
            time.sleep(0.01)


class Building(Launchers):
    """When they build, and what comes of it."""

    def test_built_once(self):
        """What is built is not built again, until a source is edited."""
        for launcher in CRATES:
            with self.subTest(launcher=launcher):
                folder = self.clone(launcher, "one")
                for _ in range(2):
                    self.assertEqual(self.run_of(launcher, folder)[:2], (0, "one\n"))
                self.assertEqual(self.builds(folder), ["one"])
                self.edit(folder, "two")
                self.assertEqual(self.run_of(launcher, folder)[:2], (0, "two\n"))

    def test_edit_while_it_builds(self):
        """A source that is edited during the build is built by the next run."""
        for launcher in CRATES:
            with self.subTest(launcher=launcher):
                folder = self.clone(launcher, "one")
                waits = [folder / "crates" / crate / "wait" for crate in CRATES[launcher]]
                for it in waits:
                    it.touch()
                running = self.begin(launcher, folder)
                self.until(lambda: self.builds(folder))
                self.edit(folder, "two")
                for it in waits:
                    it.unlink()
                self.assertEqual(running.communicate(timeout=TIMEOUT)[0], "one\n")
                self.assertEqual(self.run_of(launcher, folder)[:2], (0, "two\n"))
                self.assertEqual(self.builds(folder), ["one", "two"])

    def test_build_that_fails(self):
        """The status is 3, and standard error has what the build said; so without `rt`."""
        for launcher in CRATES:
            with self.subTest(launcher=launcher):
                folder = self.clone(launcher, "one")
                self.edit(folder, "fails")
                status, output, error = self.run_of(launcher, folder)
                self.assertEqual((status, output), (3, ""))
                self.assertTrue(error.endswith("the reason\n"), error)
                status, output, error = self.run_of(launcher, folder, path="/usr/bin:/bin")
                self.assertEqual((status, output), (3, ""))
                self.assertIn("whose rt is not on PATH", error)

    def test_no_folder_for_temporary_files(self):
        """The status is 3 too where TMPDIR names no folder."""
        for launcher in CRATES:
            with self.subTest(launcher=launcher):
                folder = self.clone(launcher, "one")
                nowhere = str(self.room / "nowhere")
                status, output, error = self.run_of(launcher, folder, TMPDIR=nowhere)
                self.assertEqual((status, output), (3, ""))
                self.assertIn(nowhere, error)

    def test_names_of_folders(self):
        """A launcher runs its own folder's program, whatever the folder's name is."""
        self.clone("a", "other")
        for name in ("a\n", "a b'$", "\n", "-r"):
            folder = self.clone(name, "own")
            for launcher in CRATES:
                with self.subTest(launcher=launcher, name=name):
                    self.assertEqual(self.run_of(launcher, folder, "--version")[::2], (0, ""))
                    self.assertEqual(self.run_of(launcher, folder)[:2], (0, "own\n"))
                    link = self.room / f"{launcher} link"
                    link.symlink_to(folder / launcher)
                    self.assertEqual(self.run_of(link.name, self.room)[:2], (0, "own\n"))
                    link.unlink()


class Texts(Launchers):
    """When they build the program from its text."""

    NO_KIT = "/usr/bin:/bin"

    def test_text_of_the_sources(self):
        """With the kit and without it the text's program is built once, and then run."""
        for launcher in CRATES:
            for path in (None, self.NO_KIT):
                with self.subTest(launcher=launcher, path=path):
                    folder = self.clone(f"{launcher} {path}".replace("/", ""), "one")
                    self.write_texts(folder, "text")
                    status, output, error = self.run_of(launcher, folder, path=path)
                    self.assertEqual((status, output), (0, "text\n"))
                    told = r"\A(ring_\w+): building the program from generated/\1\.S first\n\Z"
                    self.assertRegex(error, told)
                    found = self.run_of(launcher, folder, path=path)
                    self.assertEqual(found, (0, "text\n", ""))
                    self.assertEqual(self.builds(folder, "compiled"), ["text"])
                    self.assertEqual(self.builds(folder), [])

    def test_another_source(self):
        """Over other sources the kit's program is run, or without the kit none, with a message."""
        for launcher in CRATES:
            with self.subTest(launcher=launcher):
                folder = self.clone(launcher, "one")
                self.write_texts(folder, "text")
                self.assertEqual(self.run_of(launcher, folder)[:2], (0, "text\n"))
                self.edit(folder, "two")
                status, output, error = self.run_of(launcher, folder, path=self.NO_KIT)
                self.assertEqual((status, output), (3, ""))
                self.assertRegex(error, r"\Aring_\w+: a source differs from generated/SOURCES, so"
                                 r" the program must .* whose rt is not on PATH\n\Z")
                self.assertEqual(self.run_of(launcher, folder)[:2], (0, "two\n"))
                self.assertEqual(self.run_of(launcher, folder), (0, "two\n", ""))
                self.edit(folder, "one")
                self.assertEqual(self.run_of(launcher, folder), (0, "text\n", ""))

    def test_source_of_another_program(self):
        """Sources of crates that a program does not stand on are none of its own."""
        for launcher in CRATES:
            with self.subTest(launcher=launcher):
                folder = self.clone(launcher, "one")
                self.write_texts(folder, "text")
                for other in set(CRATES) - {launcher}:
                    for crate in set(CRATES[other]) - set(CRATES[launcher]):
                        (folder / "crates" / crate / "src/main.rt").write_text("two\n")
                self.assertEqual(self.run_of(launcher, folder)[:2], (0, "text\n"))
                self.assertEqual(self.builds(folder), [])

    def test_compared_once(self):
        """The sources are compared where something has changed since the last comparison."""
        real = shutil.which("sha256sum")
        self.new_command(
            "sha256sum", f'#!/bin/sh\necho one >>{self.room}/compared\nexec {real} "$@"\n')
        path = f"{self.room}/sha256sum.bin:{self.NO_KIT}"
        for launcher in CRATES:
            with self.subTest(launcher=launcher):
                folder = self.clone(launcher, "one")
                self.write_texts(folder, "text")
                for edits in range(3):
                    for _ in range(2):
                        found = self.run_of(launcher, folder, path=path)
                        self.assertEqual(found[:2], (0, "text\n"))
                        self.assertEqual(len(self.builds(self.room, "compared")), edits + 1)
                    self.edit(folder, "one")
                self.assertEqual(self.builds(folder, "compiled"), ["text"])
                (self.room / "compared").unlink()

    def test_source_that_is_gone(self):
        """A source that is missing is one that differs."""
        folder = self.clone("clone", "one")
        self.write_texts(folder, "text")
        (folder / "crates/ring_core/src/main.rt").unlink()
        status, _, error = self.run_of("sums", folder, path=self.NO_KIT)
        self.assertEqual((status, error.count("\n")), (3, 1))

    def test_another_text(self):
        """Another text is built, also where its file is older than the program."""
        for launcher in CRATES:
            with self.subTest(launcher=launcher):
                folder = self.clone(launcher, "one")
                for word in ("text", "another"):
                    self.write_texts(folder, word)
                    for file in (folder / "generated").glob("*.S"):
                        os.utime(file, (0, 0))
                    self.assertEqual(self.run_of(launcher, folder)[:2], (0, f"{word}\n"))

    def test_no_compiler(self):
        """Where the compiler is missing or fails the kit builds the program."""
        rows = [("no-such-cc", "text"), (str(self.compiler), "fails")]
        for launcher in CRATES:
            for compiler, word in rows:
                with self.subTest(launcher=launcher, compiler=compiler):
                    folder = self.clone(f"{launcher} {word}", "one")
                    self.write_texts(folder, word)
                    status, output, error = self.run_of(
                        launcher, folder, path=self.NO_KIT, CC=compiler)
                    self.assertEqual((status, output), (3, ""))
                    self.assertTrue(error.endswith("whose rt is not on PATH\n"), error)
                    self.assertEqual("the compiler says why\n" in error, word == "fails")
                    found = self.run_of(launcher, folder, CC=compiler)
                    self.assertEqual(found[:2], (0, "one\n"))

    def test_names_of_folders(self):
        """The text is that of the launcher's own folder, whatever the folder's name is."""
        for name in ("a\n", "a b'$", "\n", "-r"):
            folder = self.clone(name, "one")
            self.write_texts(folder, "text")
            for launcher in CRATES:
                with self.subTest(launcher=launcher, name=name):
                    self.assertEqual(self.run_of(launcher, folder)[:2], (0, "text\n"))

    def test_two_at_once(self):
        """Two that build the program at the same time both run it, and leave nothing else."""
        folder = self.clone("clone", "one")
        self.write_texts(folder, "text")
        for it in [self.begin("passwords", folder) for _ in range(8)]:
            self.assertEqual(it.communicate(timeout=TIMEOUT)[0], "text\n")
        self.assertEqual(os.listdir(folder / "out/built"), ["ring_passwords"])


class About(Launchers):
    """What they tell of themselves."""

    def test_nothing_is_built_for_it(self):
        """`--help` and `--version`, alone, build nothing, with the kit and without it."""
        for launcher in CRATES:
            folder = self.clone(launcher, "one")
            for path in (None, "/usr/bin:/bin"):
                with self.subTest(launcher=launcher, path=path):
                    status, output, error = self.run_of(launcher, folder, "--help", path=path)
                    self.assertEqual((status, error), (0, ""))
                    self.assertRegex(output, rf"\A[Uu]sage: \S*{launcher} (?s:.+)\n\Z")
                    status, output, error = self.run_of(launcher, folder, "--version", path=path)
                    self.assertEqual((status, error), (0, ""))
                    self.assertRegex(output, rf"\A{launcher}( \(yezdopin\))? {VERSION}\n\Z")
            self.assertEqual((self.builds(folder), list(folder.rglob("out"))), ([], []))

    def test_other_words_go_to_the_program(self):
        """With a word beside them they are the program's, as is each other word."""
        for launcher in CRATES:
            folder = self.clone(launcher, "one")
            rows = [
                ("--help", "x"), ("--version", "--help"), ("", "--help"), ("--helps",), ("--he",),
                ("--help --version",),
            ]
            for words in rows:
                with self.subTest(launcher=launcher, words=words):
                    self.assertEqual(self.run_of(launcher, folder, *words)[:2], (0, "one\n"))

    def test_it_cannot_be_written(self):
        """On a full device the status and the message are those of the page."""
        rows = {
            "bench": (2, "ring_bench: write failed\n"),
            "sums": (1, f"{self.room}/sums/sums: write error: No space left on device\n"),
            "passwords": (
                2, "passwords: cannot write to standard output: No space left on device\n"),
        }
        for launcher, wanted in rows.items():
            folder = self.clone(launcher, "one")
            for word in ("--help", "--version"):
                with self.subTest(launcher=launcher, word=word), open("/dev/full", "wb") as full:
                    status, _, error = self.run_of(launcher, folder, word, stdout=full)
                    self.assertEqual((status, error), wanted)

    def test_escapes(self):
        """A text is that of the source's constants, each with its escapes undone."""
        source = self.room / "about.rt"
        source.write_text(
            '// "A"\npub(crate) const A: &str = "\\\n    a \\"b\\" \\\\n %s\\n\\\n\n\t  c\\\\\";\n'
            'const B: &[u8] =\n    b"d\ne\";\nconst C: &str = "\\x41\";\n')
        rows = [
            (("A",), 0, 'a "b" \\n %s\nc\\', ""), (("B", "B"), 0, "d\ned\ne", ""),
            (("C",), 3, "", "an unknown escape in C"), (("D",), 3, "", "no constant D"),
        ]
        for names, status, output, error in rows:
            command = [ROOT / "programs/about", "told", source, *names]
            ended = subprocess.run(command, capture_output=True, text=True, timeout=TIMEOUT)
            self.assertEqual((ended.returncode, ended.stdout), (status, output), names)
            wanted = f"programs/about: {error} in {source}\n" if error else ""
            self.assertEqual(ended.stderr, wanted, names)


class Progress(Launchers):
    """What they show of a build."""

    PLACES = ["ring_core (1 of 3)", "ring (2 of 3)", "ring_passwords (3 of 3)"]

    def shown(self, error):
        """The lines behind the first, which says how long it takes, as of the first minute."""
        first, *lines = re.sub(r"\d+ min\b", "0 min", error).split("\n")[:-1]
        self.assertRegex(first, r"\Aring_\w+: proving and building .* nine to twelve minutes ")
        return lines

    def test_a_line_for_each_crate(self):
        """Off a terminal a crate that is proved has a line, and what is proved has none."""
        folder = self.clone("passwords", "one")
        error = self.run_of("passwords", folder)[2]
        self.assertEqual(self.shown(error), [f"{it}: proving, 0 min" for it in self.PLACES])
        self.assertEqual(self.run_of("passwords", folder)[2], "")
        self.edit(folder, "two")
        error = self.run_of("passwords", folder)[2]
        self.assertEqual(self.shown(error), [f"{self.PLACES[2]}: proving, 0 min"])

    def test_on_a_terminal(self):
        """On a terminal a line is rewritten: the crate, and how many functions are done."""
        counts = ("proving", "0 of 8 functions proved", "8 functions proved")
        for columns in (0, 30, 100):
            with self.subTest(columns=columns):
                folder = self.clone(f"clone {columns}", "one")
                error = self.on_terminal("passwords", folder, columns)
                width = (columns or 80) - 1
                # A line that took long stands there several times.
                found = [list(dict.fromkeys(it.split("\r"))) for it in self.shown(error)]
                self.assertEqual(found, [
                    ["", *(f"{f'{it}: {count}, 0 min':<{width}.{width}}" for count in counts)]
                    for it in self.PLACES])

    def on_terminal(self, launcher, folder, columns):
        """The messages of a launcher on a terminal with so many columns, or with no size."""
        ours, theirs = os.openpty()
        fcntl.ioctl(theirs, termios.TIOCSWINSZ, struct.pack("4H", 0, columns, 0, 0))
        self.assertEqual(self.run_of(launcher, folder, stderr=theirs)[:2], (0, "one\n"))
        os.close(theirs)
        error = os.read(ours, 100_000).decode().replace("\r\n", "\n")
        os.close(ours)
        return error

    def test_one_that_waits(self):
        """One that waits for another shows what that one does, whichever program it builds."""
        folder = self.clone("clone", "one")
        waits = [folder / f"crates/{it}/wait" for it in ("ring_core", "ring", "ring_passwords")]
        for it in waits:
            it.touch()
        first = self.begin("passwords", folder)
        state = folder / "out/building"
        self.until(lambda: state.exists() and "ring_core (1 of 3)" in state.read_text())
        seen = self.room / "seen"
        with open(seen, "wb") as error:
            second = self.begin("bench", folder, stderr=error)
        third = self.begin("passwords", folder)
        for it, place in zip(waits, self.PLACES):
            line = f"another ./passwords is proving {place}, 0 min\n"
            self.until(lambda: line in seen.read_text())
            it.unlink()
        for it in (first, second, third):
            self.assertEqual(it.communicate(timeout=TIMEOUT)[0], "one\n")
        self.assertEqual(self.shown(seen.read_text()), [
            *(f"another ./passwords is proving {it}, 0 min" for it in self.PLACES),
            "ring_bench_main (3 of 3): proving, 0 min",
        ])
        # The third one found it built.
        self.assertEqual(self.builds(folder), ["one", "one"])

    def test_no_place_for_the_lock(self):
        """Where the lock cannot be made, the program is built all the same."""
        folder = self.clone("clone", "one")
        (folder / "out").touch()
        self.assertEqual(self.run_of("passwords", folder)[:2], (0, "one\n"))

    def test_waits_of_rt(self):
        """What `rt` waits for is shown with the crate."""
        rows = [
            ("rt: waiting for another rt to finish in {}/crates/ring_core", "another rt"),
            ("rt: ring_core: another copy of the repository is building this library; waiting for"
             " it, at most half an hour, to use its work", "another copy of the repository"),
        ]
        for number, (says, whom) in enumerate(rows):
            folder = self.clone(f"clone {number}", "one")
            (folder / "says").write_text(says.format(folder) + "\n")
            error = self.run_of("bench", folder)[2]
            self.assertEqual(self.shown(error)[:3], [
                f"waiting for {whom} at {self.PLACES[0]}, 0 min",
                f"{self.PLACES[0]}: proving, 0 min",
                f"waiting for {whom} at {self.PLACES[1]}, 0 min",
            ])


def main():
    cases = [Building, Texts, About, Progress]
    result = counted.run(counted.suite(cases, sys.argv[1:]), sys.stdout)
    return counted.report(*result.counts())


if __name__ == "__main__":
    sys.exit(main())
