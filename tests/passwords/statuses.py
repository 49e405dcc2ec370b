# SPDX-License-Identifier: ISC
"""What ./passwords makes of its arguments and of standard input."""

import itertools
import os
import resource
import shlex
import signal
import subprocess

import password_hashes
from store import (
    BAD_NAME, COMMANDS, DONE, FEW, GREATEST_COUNT, LONGEST, NO_NAME, NO_PASSWORD, NO_SPACE, PROGRAM,
    TOO_LONG, USAGE, WARNED, Case, bad_count, bare, exit_status, head_line, limit, memory_limit,
    no_count, of_file, one_too_many, text_of,
)


class Iterations(Case):
    """The option of `set`."""

    def test_iterations_of_a_store_and_its_records(self):
        """A new file has 600,000 or those that are given; an option changes what comes after."""
        it, few = self.new_folder(), self.new_folder()
        it.ends(DONE, "set", "a", password=b"x")
        head, record = it.lines()
        self.assertEqual((head.split()[3], record.split()[1]), (b"600000", b"600000"))
        few.set("a", b"x", "--iterations", "3")
        few.ends(DONE, "set", "b", password=b"x")
        few.set("c", b"x", "--iterations", "5")
        head, *records = few.lines()
        counts = [head.split()[3], *(record.split()[1] for record in records)]
        self.assertEqual(counts, [b"5", b"3", b"3", b"5"])
        for name in "abc":
            few.verifies(name, b"x")

    def test_each_count_is_taken(self):
        """Each count that is given is the store's and the record's."""
        counts = (1, 2, 9, 10, 255, 256, 65_536, 99_999, 100_000, 600_001, 1_000_001)
        for count in counts:
            with self.subTest(count=count):
                it = self.new_folder()
                it.ends(DONE, "set", "a", "--iterations", str(count), password=b"x")
                head, record = it.lines()
                self.assertEqual((int(head.split()[3]), int(record.split()[1])), (count, count))
        it, greatest = self.new_folder(), str(GREATEST_COUNT)
        text = head_line(iterations=greatest.encode())
        it.file.write_bytes(text)
        it.ends(BAD_NAME, "set", "", "--iterations", greatest, password=b"x")
        it.lists()
        it.holds(text)

    def test_no_other_count_is_taken(self):
        """`--iterations` is 1 to 4,294,967,295 in decimal, without a sign or a leading zero."""
        counts = [
            "", "0", "00", "-1", "+5", "007", "01", " 5", "5 ", "1e3", "0x10", "1,000", "1.0", "x",
            "4294967296", "9" * 100, "٥",
        ]
        it = self.new_folder()
        for count in counts:
            with self.subTest(count=count):
                it.ends((2, bad_count(count)), "set", "a", "--iterations", count, password=b"x")
        it.is_empty()

    def test_few_iterations_are_warned_of(self):
        """A `set` in a store of fewer than 100,000 iterations warns when it succeeds, be they given
        or not; no other run does."""
        it = self.new_folder()
        rows = [(1, WARNED), (99_999, WARNED), (100_000, DONE), (100_001, DONE), (1, WARNED)]
        for count, wanted in rows:
            found = it.run("set", "a", "--iterations", str(count), password=b"x")
            self.assertEqual(found, (wanted, b""), count)
        self.assertEqual(it.run("set", "a", password=b"x"), (WARNED, b""))
        for words in (("verify", "a"), ("remove", "a")):
            self.assertEqual(it.run(*words, password=b"x"), (DONE, b""), words)
        it.ends(BAD_NAME, "set", "", *FEW, password=b"x")
        command = [PROGRAM, it.file, "set", "a", *FEW]
        untold = subprocess.run(command, input=b"y", stderr=self.full_device(), timeout=60)
        self.assertEqual(untold.returncode, 0, "a full device")
        it.verifies("a", b"y")


class LongDerivation(Case):
    """A run that takes ten seconds of processor."""

    def test_greatest_count_is_derived_by(self):
        """With the greatest count a run still derives after ten seconds: no lower one stands in."""
        it = self.new_folder()
        words = ("set", "a", "--iterations", str(GREATEST_COUNT))
        (status, _), _ = it.run(*words, password=b"x", preexec_fn=limit(resource.RLIMIT_CPU, 10))
        self.assertEqual(status, -signal.SIGKILL)
        self.assertFalse(it.file.exists())


class Salts(Case):
    """What differs from file to file, and what does not tell names apart."""

    def test_new_files_have_other_salts(self):
        """New files have other salts, each of 16 bytes, and so other credentials of a password."""
        salts, credentials = [], set()
        for _ in range(24):
            it = self.new_folder()
            it.set("a", b"x")
            head, record = it.lines()
            salts.append(bytes.fromhex(head.split()[2].decode()))
            credentials.add(record.split()[2])
        self.assertEqual({len(salt) for salt in salts}, {16})
        self.assertEqual((len(set(salts)), len(credentials)), (24, 24))
        self.assertEqual([at for at in range(16) if len({salt[at] for salt in salts}) == 1], [])
        self.assertEqual(list(copied_bytes(salts)), [])

    def test_a_salt_is_the_random_bytes(self):
        """The salt of a new file is the 16 random bytes that the system gives, and the name of the
        temporary file the next 8; the salt of a new text is such 16 bytes too."""
        preload, it = self.new_preload(), self.new_folder()
        for start in (0, 40, 200):
            given = bytes((at * 167 + 13) % 256 for at in range(start, start + 24))
            settings = {"env": preload.environment(RANDOM_FROM=start)}
            killed = preload.environment(RANDOM_FROM=start, COUNTED="rename", KILLED_CALL=1)
            self.assertEqual(it.run("set", "a", *FEW, password=b"x", **settings)[0], WARNED)
            self.assertEqual(it.lines()[0].split()[2].decode(), given[:16].hex())
            it.file.unlink()
            it.run("set", "a", *FEW, password=b"x", env=killed)
            self.assertEqual(it.beside(), {f"store.new-{given[16:].hex()}"})
            for scheme in ("phc-sha256", "postgresql"):
                text = bare("encode", scheme, *FEW, line=b"x", **settings)[2].strip()
                self.assertEqual(password_hashes.parsed(text)[2], given[:16])

    def test_unknown_names_take_the_time_of_known_ones(self):
        """`verify` and `set` of an unknown name take the time of a known one: one derivation."""
        it = self.new_folder()
        it.set("known", b"right", "--iterations", "300000")
        text = it.file.read_bytes()
        runs = list(itertools.product(("verify", "set"), ("known", "unknown")))
        times = {words: [] for words in runs}
        for _ in range(4):  # other work on the machine moves them
            for words in runs * 5:
                it.file.write_bytes(text)
                times[words].append(processor_time(it, *words, password=b"wrong"))
            least = {words: min(each) for words, each in times.items()}
            ratios = {words: time / least["verify", "known"] for words, time in least.items()}
            if all(0.6 < ratio < 1.5 for ratio in ratios.values()):
                return
        self.fail(ratios)


def copied_bytes(salts):
    """The pairs of bytes of a salt that differ alike in all salts."""
    for one, other in itertools.combinations(range(16), 2):
        if len({(salt[one] - salt[other]) % 256 for salt in salts}) == 1:
            yield one, other


def processor_time(folder, *words, password):
    """The seconds of processor time that a run takes."""
    running = folder.start(*words)
    running.stdin.write(password)
    running.stdin.close()
    _, status, used = os.wait4(running.pid, 0)
    running.returncode = exit_status(status)
    return used.ru_utime + used.ru_stime


class Words(Case):
    """Which arguments there are."""

    def unknown(self, word):
        """What is said of a word that is no command."""
        return f"no such command: {shlex.quote(word)}"

    def test_words_that_ask_for_nothing_of_a_file(self):
        """Words behind a file that ask for nothing: the message names them, and nothing is made."""
        it = self.new_folder()
        unknown = ("", "lists", "SET", "--help", "mosquitto", "a b", "é", "--iterations")
        rows = [((word,), of_file(it.file, self.unknown(word))) for word in unknown]
        rows += [((word, "a"), of_file(it.file, self.unknown(word))) for word in unknown]
        rows += [((word,), f"{word} needs a name") for word in ("set", "verify", "remove")]
        rows += [
            ((), of_file(it.file, f"no command{COMMANDS}")), (("list", "a"), one_too_many("a")),
            (("set", "a", "b"), one_too_many("b")), (("set", "a", "b", "c"), one_too_many("b")),
            (("set", "a", "--iterations"), no_count()), (("set", *FEW), one_too_many("1")),
            (("set", "a", "--iteration", "1"), one_too_many("--iteration")),
            (("set", "a", *FEW, "x"), one_too_many("x")),
            (("set", "a", *FEW, *FEW), one_too_many("--iterations")),
            (("set", "a", "--iterations", "x", "y"), bad_count("x")),
            (("set", "a", "--iterations=1"), one_too_many("--iterations=1")),
            (("verify", "a", *FEW), one_too_many("--iterations")),
            (("remove", "a", *FEW), one_too_many("--iterations")),
            (("remove", "a", ""), one_too_many("")),
            (("set", "a", "--help"), one_too_many("--help")),
            (("set", "a", "--max-iterations", "1"), one_too_many("--max-iterations")),
        ]
        for words, message in rows:
            with self.subTest(words=words):
                it.ends((2, message), *words, password=b"x")
        it.is_empty()

    def test_words_that_ask_for_nothing(self):
        """No word at all: the usage. One word that asks for nothing is taken as a file."""
        self.assertEqual(bare(), (2, USAGE, b""))
        for word in ("store", "", "--helps", "-h", "list", "set", "--iterations"):
            message = of_file(word, f"no command{COMMANDS}")
            self.assertEqual(bare(word), (2, message, b""), word)
        message = of_file("--help", self.unknown("x"))
        self.assertEqual(bare("--help", "x"), (2, message, b""))

    def test_words_are_shown_in_quotes(self):
        """A message is one line without a control character, of which Bash reads each word back as
        it was typed."""
        bash = self.tool("bash")
        words = [
            "a\nb", "\x1b[31m", "a\tb", "it's", "'", "'\n", "\n'", "\x7f", "\x85", "a\x9bb", "é\x01é",
            "\x01\x02", "\x01a\x02", "\\", "$x", "`x`", "a b", "~", "#a", "*", "!", "\"", "",
        ]
        it = self.new_folder()
        for word in words:
            runs = [
                (("one word too many: ", ""), it.run("list", word)[0]),
                (("", f": no command{COMMANDS}"), bare(word)[:2]),
                (("", ": no such file"), bare(word + "x", "list", cwd=it.path)[:2]),
            ]
            for (before, behind), (status, message) in runs:
                shown = message.removeprefix(before).removesuffix(behind)
                read = subprocess.run([bash, "-c", f"printf %s {shown}"], capture_output=True)
                typed = word + "x" if behind == ": no such file" else word
                self.assertEqual((status, read.stdout), (2, typed.encode()), message)
                self.assertEqual(message, before + shown + behind)
                self.assertTrue(message.isprintable(), message)

    def test_help_and_version(self):
        """`--help` and `--version`, alone, write on standard output and end with status 0."""
        *ended, text = bare("--help")
        text = text.decode()
        self.assertEqual(ended, [*DONE])
        self.assertTrue(text.startswith(USAGE + "\n"))
        statuses = [line[len("status: "):].split(" ")[0] for line in text.splitlines()[-3:]]
        self.assertEqual(statuses, ["0", "1", "2"])
        self.assertEqual(bare("--version"), (*DONE, b"passwords 0.2.0\n"))
        for word in ("--help", "--version"):
            wanted = (2, f"cannot write to standard output: {NO_SPACE}")
            self.assertEqual(bare(word, stdout=self.full_device())[:2], wanted, word)


class Passwords(Case):
    """What a password is, and which one is a name's."""

    # Lines, each of which is the password before it.
    SAME = [
        (b"a\n", b"a"), (b"a", b"a\n"), (b"a\nb\n", b"a"), (b"\n", b"\n\n"), (b"a\r\n", b"a\r"),
        (b" a ", b" a \n"), (b"a", b"a\x00"), (b"a", b"a" + bytes(63)),
        (b"\x00\xff\xfe\n", b"\x00\xff\xfe"), ("Größe".encode(), "Größe".encode()),
        (b"x" * 100_000, b"x" * 100_000 + b"\n"),
    ]
    OTHERS = [
        (b"a\n", b"a\r\n"), (b"a", b"a "), (b"a\nb", b"a b"), (b"a", b"A"), (b"\n", b" "),
        (b"a", b"a" + bytes(64)), (b"a", b"\x00a"),
    ]

    def test_a_long_password_is_taken_or_refused(self):
        """A password has at most 131,072 bytes; of a longer one, or of one without an end, no more
        is read."""
        it = self.new_folder()
        it.set("a", b"x" * LONGEST + b"\n")
        it.verifies("a", b"x" * LONGEST)
        text = it.file.read_bytes()
        long = it.path / "long"
        long.write_bytes(b"x" * (LONGEST + 1) + b"rest")
        for words in (("set", "a", *FEW), ("verify", "a")):
            it.ends(TOO_LONG, *words, password=b"x" * (LONGEST + 1) + b"\n")
            for source, place in (("/dev/zero", None), (long, LONGEST + 1)):
                with open(source, "rb", buffering=0) as given:
                    settings = {"stdin": given, "preexec_fn": memory_limit(64 << 20)}
                    found = it.run(*words, timeout=20, **settings)
                    self.assertEqual(found, (TOO_LONG, b""), words)
                    self.assertIn(place, (None, given.tell()))
        long.unlink()
        it.holds(text)

    def test_a_password_is_set_and_verified(self):
        """A password that was set is verified; another one is not, nor is an unknown name."""
        it = self.new_folder()
        it.ends(DONE, "set", "alice", password=b"correct horse\n")
        it.verifies("alice", b"correct horse")
        it.refuses("alice", b"correct hors")
        it.refuses("alice", b"correct horses")
        it.refuses("bob", b"correct horse")
        it.ends(DONE, "set", "alice", password=b"battery")
        it.refuses("alice", b"correct horse")
        it.verifies("alice", b"battery")

    def test_a_password_is_one_line(self):
        """A password is one line: without its line feed, and whatever its other bytes are."""
        it = self.new_folder()
        for one, same in self.SAME:
            with self.subTest(one=one[:20], same=same[:20]):
                it.set("n", one)
                it.verifies("n", same)
        for one, other in self.OTHERS:
            with self.subTest(one=one, other=other):
                it.set("n", one)
                it.refuses("n", other)

    def test_an_empty_line_and_none(self):
        """An empty line is the empty password; no line at all is none, and changes nothing."""
        it = self.new_folder()
        it.ends(NO_PASSWORD, "set", "a")
        it.is_empty()
        it.set("a", b"\n")
        it.verifies("a", b"\n")
        it.ends(NO_PASSWORD, "verify", "a")
        it.refuses("a", b"x\n")

    def test_what_follows_is_left(self):
        """What follows the line is left on standard input, in a file and in a pipe."""
        it = self.new_folder()
        script = '"$1" "$2" set a --iterations 1; "$1" "$2" verify a; echo $?; cat'
        command = ["bash", "-c", script, "bash", PROGRAM, it.file]
        settings = {"capture_output": True, "timeout": 60}
        piped = subprocess.run(command, input=b"one\none\nrest", **settings)
        (it.path / "input").write_bytes(b"one\none\nrest")
        with open(it.path / "input", "rb") as source:
            read = subprocess.run(command, stdin=source, **settings)
        self.assertEqual((piped.stdout, read.stdout), (b"0\nrest", b"0\nrest"))


class Names(Case):
    """Which names there are, how they are listed, and how they go."""

    def test_names_of_each_kind(self):
        """Names of 1 to 64 bytes, with spaces, signs and bytes past ASCII; no others."""
        names = ["a", "n" * 64, "a b", " ", "--iterations", "set", "Zoë Müller", "名前", "é" * 32]
        names += ["a\tb", "a\nb", "a\\b", "'\"$`"]
        it = self.new_folder()
        for name in names:
            it.set(name, name.encode())
        for name in names:
            it.verifies(name, name.split("\n")[0].encode())
        text = it.file.read_bytes()
        for name, action in itertools.product(("", "n" * 65, "é" * 33), ("set", "verify")):
            it.ends(BAD_NAME, action, name, password=b"x")
        for name in ("", "n" * 65, "A"):
            it.ends(NO_NAME, "remove", name)
        not_text = it.run("set", b"\xff", password=b"x")[0]
        self.assertEqual(not_text, (2, "cannot read the arguments: invalid data"))
        it.holds(text)

    def test_names_of_each_length(self):
        """Names of each length from 1 to 64 bytes are set, verified, listed and removed."""
        it, names = self.new_folder(), ["n" * count for count in range(1, 65)]
        for name in names:
            it.set(name, name.encode())
        for name in names:
            it.verifies(name, name.encode())
        it.lists(*(name.encode() for name in names))
        for name in names:
            it.ends(DONE, "remove", name)
        it.lists()

    def test_names_are_listed_in_order(self):
        """Names come by their bytes, a line each; control characters and backslashes as digits."""
        names = ["b", "a", "B", "aa", "é", "z", "a b", "a\nb", "\x7f", "\\", "名"]
        lines = ["B", "\\x5c", "a", "a\\x0ab", "a b", "aa", "b", "z", "\\x7f", "é", "名"]
        it = self.new_folder()
        for name in names:
            it.set(name, b"x")
        it.lists(*(line.encode() for line in lines))

    def test_thousands_of_names(self):
        """Each of 5,000 names is listed, and the last of 250,000 is found."""
        names = [f"name {number:06}".encode() for number in range(250_000)]
        it = self.new_folder()
        it.file.write_bytes(text_of(names[:5_000]))
        it.lists(*names[:5_000])
        it.file.write_bytes(text_of(names))
        it.ends(DONE, "remove", names[-1].decode())
        it.holds(text_of(names[:-1]))

    def test_a_name_is_removed(self):
        """A name that is removed is gone, and the others stay; the last leaves a store of none."""
        it = self.new_folder()
        it.set("a", b"x")
        it.set("b", b"y")
        it.ends(DONE, "remove", "a")
        it.lists(b"b")
        it.refuses("a", b"x")
        it.verifies("b", b"y")
        it.ends(NO_NAME, "remove", "a")
        it.ends(DONE, "remove", "b")
        it.lists()
        it.set("a", b"z")
        it.lists(b"a")
        it.verifies("a", b"z")
