# SPDX-License-Identifier: ISC
"""What `encode` writes and `check` takes: texts of passwords, as other systems keep them."""

import functools
import itertools
import os
import shlex
import time

import password_hashes as hashes
from run import rows_of
from store import (
    COMMANDS, DONE, FEW, GREATEST_COUNT, IS_FOLDER, LAUNCHER, LONGEST, NO_MEMORY, NO_PASSWORD,
    NO_SPACE, ROOT, TOO_LONG, WARNED, Case, bad_count, bare, memory_limit, no_count, one_too_many,
)
from terminal import AGAIN, NONE, READY, TESTED, Shell, Terminal

SCHEMES = list(hashes.SCHEMES)
ADVISED = {"sha1": 1_300_000, "sha256": 600_000, "sha512": 210_000}
# How runs end: a status, a message, and what is written.
VERIFIED = (*DONE, b"")
OTHER_PASSWORD = (1, "wrong password", b"")
NO_TEXT = (2, "not the text of a password", b"")
TOO_MANY = (2, "the text has too many iterations", b"")
NOT_ASCII = (2, "a password for PostgreSQL has to be ASCII: no SASLprep here", b"")


def check(text, password, *most):
    """How a check of a password against a text ends."""
    words = ("--max-iterations", str(*most)) if most else ()
    return bare("check", *words, line=text + b"\n" + password + b"\n")


def salt_in(text):
    """The salt of a text, by the reader of tests/password_hashes.py."""
    return hashes.parsed(text)[2]


class Written(Case):
    """What `encode` writes."""

    NO_SCHEMES = ["", "md5", "Mosquitto", "django", "django-sha", "scram", "--help", "é", "a b"]
    PASSWORDS = [b"x", b"", b"correct horse", b"p" * 65, "Größe".encode(), b"\xff\x01 $:"]

    def test_texts_are_as_hashlib_makes_them(self):
        """`encode` writes the text that hashlib makes, of each scheme; `check` takes it."""
        for scheme, password in itertools.product(SCHEMES, self.PASSWORDS):
            with self.subTest(scheme=scheme, password=password):
                ended = bare("encode", scheme, "--iterations", "7", line=password + b"\nrest")
                if scheme == "postgresql" and not password.isascii():
                    self.assertEqual(ended, NOT_ASCII)
                    continue
                text = ended[2].removesuffix(b"\n")
                wanted = hashes.made(scheme, 7, salt_in(text), password)
                self.assertEqual(ended, (*DONE, wanted + b"\n"))
                self.assertEqual(check(text, password), VERIFIED)
                self.assertEqual(check(text, password + b"!"), OTHER_PASSWORD)

    def test_each_text_has_a_salt_of_its_own(self):
        """Salts are 22 letters and digits for Django and Werkzeug, and else 16 bytes."""
        for scheme in SCHEMES:
            with self.subTest(scheme=scheme):
                texts = [bare("encode", scheme, *FEW, line=b"x")[2].strip() for _ in range(24)]
                salts = {salt_in(text) for text in texts}
                is_text = scheme.startswith(("django", "werkzeug"))
                self.assertEqual(len(salts), 24)
                self.assertEqual({len(salt) for salt in salts}, {22 if is_text else 16})
                fixed = [at for at in range(16) if len({salt[at] for salt in salts}) == 1]
                self.assertEqual(fixed, [])
                self.assertTrue(not is_text or all(salt.isalnum() for salt in salts))

    def test_the_advised_count_is_taken(self):
        """Without a count `encode` takes what is advised for the scheme's digest."""
        for scheme in SCHEMES:
            with self.subTest(scheme=scheme):
                *ended, text = bare("encode", scheme, line=b"x")
                self.assertEqual(ended, [*DONE])
                salt, count = salt_in(text.strip()), ADVISED[hashes.SCHEMES[scheme][1]]
                self.assertEqual(text, hashes.made(scheme, count, salt, b"x") + b"\n")

    def test_no_other_words_are_taken(self):
        """Other words of `encode` and `check`: the message names them. Nothing is read or made."""
        schemes = "; the schemes are " + ", ".join(SCHEMES)
        encode = ("encode", "mosquitto")
        rows = [
            (("encode", word), f"no such scheme: {shlex.quote(word)}{schemes}")
            for word in self.NO_SCHEMES
        ]
        rows += [
            (("encode",), f"encode needs a scheme{schemes}"),
            (("encode", "md5", *FEW), f"no such scheme: md5{schemes}"),
            (("encode", *FEW, "mosquitto"), f"no such scheme: --iterations{schemes}"),
            ((*encode, "--iterations"), no_count()), ((*encode, "x"), one_too_many("x")),
            ((*encode, "--max-iterations", "1"), one_too_many("--max-iterations")),
            ((*encode, *FEW, "x"), one_too_many("x")),
            (("check", "x"), one_too_many("x")), (("check", *FEW), one_too_many("--iterations")),
            (("check", "--max-iterations"), no_count("--max-iterations")),
            (("check", "--max-iterations", "1", "x"), one_too_many("x")),
            (("Check",), f"Check: no command{COMMANDS}"),
            (("ENCODE", "mosquitto"), f"ENCODE: no such command: mosquitto"),
            (("encode", "set"), "set needs a name"), (("check", "list", "x"), one_too_many("x")),
        ]
        for words, message in rows:
            self.assertEqual(bare(*words, line=b"x"), (2, message, b""), words)
        for count in ("", "0", "-1", "+5", "007", " 5", "1e3", "x", "4294967296", "9" * 100, "٥"):
            ended = bare(*encode, "--iterations", count, line=b"x")
            self.assertEqual(ended, (2, bad_count(count), b""), count)
            ended = bare("check", "--max-iterations", count, line=b"x")
            self.assertEqual(ended, (2, bad_count(count, "--max-iterations"), b""), count)
        helped = bare("--help")[2].decode().split()
        self.assertEqual([word for word in helped if word in SCHEMES], SCHEMES)

    def test_files_may_have_these_names(self):
        """A file may be called `encode` or `check`: commands are told by their second word."""
        it = self.new_folder()
        for name in ("encode", "check"):
            rows = [
                (("set", "a", *FEW), b"x", (*WARNED, b"")), (("verify", "a"), b"x", VERIFIED),
                (("list",), b"", (*DONE, b"a\n")), (("remove", "a"), b"", VERIFIED),
            ]
            for words, line, wanted in rows:
                found = bare(name, *words, line=line, cwd=it.path)
                self.assertEqual(found, wanted, (name, words))


def vectors():
    """Each line of vectors/password_hashes, as words, with its answer."""
    for file in sorted((ROOT / "vectors/password_hashes").glob("*.txt")):
        yield from ((line.split(" "), answer) for line, answer in rows_of(file))


def with_iterations(text, count):
    """A text of Django with another count."""
    return b"$".join([b"pbkdf2_sha256", b"%d" % count, *text.split(b"$")[2:]])


class Checked(Case):
    """What `check` takes."""

    TEXT = hashes.made("django-sha256", 1000, b"salt", b"x")
    VERIFIER = hashes.made("postgresql", 4096, b"salt", b"x")
    NO_LINE = (*NO_PASSWORD, b"")

    def test_vectors_of_others(self):
        """`check` answers the vectors as they say, and refuses what they refuse."""
        answers = {
            "ok": VERIFIED, "wrong password": OTHER_PASSWORD, "too many iterations": TOO_MANY,
        }
        count = 0
        for (action, text, *words), answer in vectors():
            text = bytes.fromhex(text[4:]) if text.startswith("hex:") else text.encode()
            if b"\n" in text:
                continue
            if action == "verify" and answer in answers:
                password = bytes.fromhex(words[0].replace("-", ""))
                self.assertEqual(check(text, password, words[1]), answers[answer], text)
                count += 1
            elif action == "read" and answer == hashes.REFUSED:
                self.assertEqual(check(text, b"x"), NO_TEXT, text)
                count += 1
        self.assertGreater(count, 40)

    def test_inputs_that_are_refused(self):
        """No text, too many iterations and no password are refused; nothing is written."""
        text, verifier = self.TEXT, self.VERIFIER
        most = lambda count: with_iterations(text, count)
        umlaut = "\nGröße\n".encode()
        rows = [
            (b"", (2, "no text on standard input", b"")), (b"\n", NO_TEXT), (b"\nx\n", NO_TEXT),
            (b"x", NO_TEXT), (b"x\nx\n", NO_TEXT), (text + b"\r\nx\n", NO_TEXT),
            (b" " + text + b"\nx\n", NO_TEXT), (text + b" \nx\n", NO_TEXT),
            (text[:-1] + b"\nx\n", NO_TEXT), (b"md5$a$b\nx\n", NO_TEXT),
            (text, self.NO_LINE), (text + b"\n", self.NO_LINE), (verifier + b"\n", self.NO_LINE),
            (most(10_000_001) + b"\nx\n", TOO_MANY), (most(10_000_001), TOO_MANY),
            (most(10_000_000), self.NO_LINE), (most(GREATEST_COUNT) + b"\nx\n", TOO_MANY),
            (most(GREATEST_COUNT + 1) + b"\nx\n", NO_TEXT),
            (verifier + umlaut, NOT_ASCII), (text + umlaut, OTHER_PASSWORD),
            (text + b"\nx\nrest", VERIFIED), (text + b"\nx", VERIFIED),
            (text + b"\n\n", OTHER_PASSWORD), (text + b"\nx\r\n", OTHER_PASSWORD),
        ]
        for line, wanted in rows:
            with self.subTest(line=line):
                self.assertEqual(bare("check", line=line), wanted)
        limits = {"999": TOO_MANY, "1000": VERIFIED, "1": TOO_MANY, str(GREATEST_COUNT): VERIFIED}
        for limit, wanted in limits.items():
            self.assertEqual(check(text, b"x", limit), wanted, limit)
        given = bare("check", "--max-iterations", str(GREATEST_COUNT), line=most(10_000_001))
        self.assertEqual(given, self.NO_LINE, "a limit above the default")


class Failing(Case):
    """Texts that can't be written or read."""

    ENCODE = ("encode", "mosquitto", *FEW)

    def test_input_output_and_random_bytes(self):
        """A full device, a folder as input and random bytes that fail: a status, and no text."""
        found = bare(*self.ENCODE, line=b"x", stdout=self.full_device())[:2]
        self.assertEqual(found, (2, f"cannot write the text: {NO_SPACE}"))
        source = os.open(self.new_path(), os.O_RDONLY)
        self.addCleanup(os.close, source)
        found = bare(*self.ENCODE, stdin=source)
        self.assertEqual(found, (2, f"cannot read the password: {IS_FOLDER}", b""))
        found = bare("check", stdin=source)
        self.assertEqual(found, (2, f"cannot read the text: {IS_FOLDER}", b""))
        environment = self.new_preload().environment(COUNTED="getentropy", FAILED_CALL=1)
        found = bare(*self.ENCODE, line=b"x", env=environment)
        self.assertEqual(found, (2, f"cannot get random bytes: {NO_SPACE}", b""))

    def test_lines_without_an_end(self):
        """A line that is too long is refused with little memory, however much follows."""
        text, long = hashes.made("mosquitto", 1, b"salt", b"x"), b"x" * (72 << 20)
        rows = [
            (self.ENCODE, long, (*TOO_LONG, b"")), (("check",), long, NO_TEXT),
            (("check",), text + b"\n" + long, (*TOO_LONG, b"")),
            (("check",), text + b"\n" + b"y" * LONGEST, OTHER_PASSWORD),
            (("check",), b"x" * 1_025 + b"\nx", NO_TEXT),
        ]
        for words, line, wanted in rows:
            found = bare(*words, line=line, preexec_fn=memory_limit(64 << 20))
            self.assertEqual(found, wanted, words)
        for words, wanted in ((self.ENCODE, (*TOO_LONG, b"")), (("check",), NO_TEXT)):
            with open("/dev/zero", "rb") as endless:
                settings = {"preexec_fn": memory_limit(64 << 20), "timeout": 20}
                self.assertEqual(bare(*words, stdin=endless, **settings), wanted, words)

    def test_no_memory(self):
        """Where one request for memory is refused, in turn, the status says so, and no text is
        taken for right."""
        preload, ends = self.new_preload(), set()
        line = hashes.made("mosquitto", 1, b"salt", b"x") + b"\nx"
        for request in itertools.count(1):
            run = functools.partial(bare, "check", line=line)
            last, _, made = preload.watched(run, REFUSED_REQUEST=request)
            if made < request:
                break
            ends.add(last)
        steps = ("arguments", "text", "password")
        wanted = {(2, f"cannot read the {what}: {NO_MEMORY}", b"") for what in steps}
        # Where the program is started, a refused request may change nothing.
        self.assertEqual(ends - {VERIFIED, (2, NO_MEMORY, b"")}, wanted)
        self.assertEqual(last, VERIFIED)


def on_bare_terminal(folder, typed, *words):
    """The status of the launcher without a file on a terminal, what that shows, and which questions
    have echo."""
    terminal = Terminal(folder.case, [LAUNCHER, *words], folder)
    shown, echoes = b"", []
    for line in typed:
        shown += terminal.until(b": ")
        echoes.append(terminal.echoes())
        os.write(terminal.end, line)
    shown += terminal.until(None)
    return terminal.wait(), shown.replace(b"\r\n", b"\n"), echoes


class OnTerminal(Case):
    """What the launcher asks for a text."""

    TEXT = hashes.made("django-sha256", 1000, b"salt", b"secret")
    NEW, ONE = b"New password: ", b"Password: "
    PROMPTS = NEW + b"\n" + AGAIN + b"\n"

    def assert_rows(self, rows):
        """Each row: what is typed, the words, the status, what is shown, and which has echo."""
        it = self.new_folder()
        for typed, words, *wanted in rows:
            with self.subTest(words=words, typed=typed):
                self.assertEqual(on_bare_terminal(it, typed, *words), tuple(wanted))

    def test_encode_asks_twice(self):
        """On a terminal `encode` asks twice as `set` does."""
        encode, new = ("encode", "mosquitto", *FEW), self.NEW
        typed = [b"secret\n", b"secret\n"]
        status, shown, echoes = on_bare_terminal(self.new_folder(), typed, *encode)
        self.assertEqual((status, echoes), (0, [False, False]))
        written = shown.removeprefix(self.PROMPTS).strip()
        wanted = hashes.made("mosquitto", 1, salt_in(written), b"secret")
        self.assertEqual(shown, self.PROMPTS + wanted + b"\n")
        differ = self.PROMPTS + b"passwords: the two passwords differ\n"
        refused = f"passwords: {bad_count('0')}\n".encode()
        self.assert_rows([
            ([b"\n"], encode, 2, new + b"\npasswords: the password is empty\n", [False]),
            ([b"x\n", b"y\n"], encode, 2, differ, [False] * 2),
            ([b"\x04"], encode, 2, new + NONE, [False]),
            ([], ("encode", "mosquitto", "--iterations", "0"), 2, refused, []),
        ])

    def test_check_asks_for_the_text(self):
        """On a terminal `check` asks for the text, and then for the password without echo."""
        text, check = self.TEXT + b"\n", ("check",)
        asked = b"Text: " + text
        both, wrong = asked + self.ONE, asked + self.ONE + b"\npasswords: wrong password\n"
        too_many = asked + b"passwords: the text has too many iterations\n"
        bad_limit = f"passwords: {bad_count('0', '--max-iterations')}\n".encode()
        self.assert_rows([
            ([text, b"secret\n"], check, 0, both + b"\n", [True, False]),
            ([text, b"other\n"], check, 1, wrong, [True, False]),
            ([text, b"\n"], check, 1, wrong, [True, False]),
            ([text, b"\x04"], check, 2, both + NONE, [True, False]),
            ([b"x\n"], check, 2, b"Text: x\npasswords: not the text of a password\n", [True]),
            ([text], ("check", "--max-iterations", "999"), 2, too_many, [True]),
            ([b"\x04"], check, 2, b"Text: passwords: no text on standard input\n", [True]),
            ([], ("check", "--max-iterations", "0"), 2, bad_limit, []),
            ([], ("check", "x"), 2, b"passwords: one word too many: x\n", []),
        ])

    def test_files_with_these_names(self):
        """On a terminal a file may be called `encode` or `check`."""
        it = self.new_folder()
        for name in ("check", "encode"):
            bare(name, "set", "a", *FEW, line=b"x", cwd=it.path)
            self.assertEqual(on_bare_terminal(it, [], name, "list")[:2], (0, b"a\n"))
            asked = on_bare_terminal(it, [b"x\n"], name, "verify", "a")
            self.assertEqual(asked, (0, TESTED + b"\n", [False]))

    def test_check_goes_on_after_a_stop(self):
        """After Ctrl-Z `check` asks again, and Ctrl-C ends it; the terminal is as it was."""
        shell = Shell(self, self.new_folder())
        shell.type(b'"$PASSWORDS" check\n', b"Text: ")
        shell.type(self.TEXT + b"\r", self.ONE)
        shell.comes_back(self.ONE)
        shell.answers(b"secret", READY)
        shell.ended(b"0")
        shell.type(b'"$PASSWORDS" check\n', b"Text: ")
        time.sleep(0.2)  # until it reads
        shell.type(b"\x03", READY)
        shell.ended(b"130")
        shell.is_as_before()
