# SPDX-License-Identifier: ISC
"""Password hashes of other systems: texts of ../vectors/password_hashes, and what is refused."""

import base64
import faulthandler
import hashlib
import hmac
import os
import pathlib
import re
import unicodedata
import unittest

import yezdopin
from yezdopin import _saslprep, password_hash

VECTORS = pathlib.Path(__file__).resolve().parents[2] / "vectors" / "password_hashes"
STATUS = {"not a password hash of this format": 5, "too many iterations": 6}
SYMBOLS = "abcdefghijklmnopqrstuvwxyzABCDEFGHIJKLMNOPQRSTUVWXYZ0123456789"
KEPT = "pbkdf2_sha1$1000$kXq0Wz3vT9bYh2LrE8mNpA$2U/l/68EaoUIrkh0GedCmjQYvmg="
SCRAM = password_hash.new("postgresql", b"", iterations=1)
PASSWORD = b"correct horse battery staple"


def verifications():
    """The texts, passwords and limits of the files, each with the answer below it."""
    for file in sorted(VECTORS.glob("*.txt")):
        lines = file.read_text().splitlines()
        for line, below in zip(lines, lines[1:]):
            if re.match("(scram-)?verify ", line) and below.startswith("#= "):
                text, password, most = line.split(" ")[1:]
                yield text, bytes.fromhex(password), int(most), below[3:]


class Vectors(unittest.TestCase):
    def test_files(self):
        answers = {}
        for text, password, most, want in verifications():
            try:
                got = password_hash.verify(text, password, max_iterations=most)
            except yezdopin.Error as error:
                got = error.status
            self.assertEqual(got, {"ok": True, "wrong password": False, **STATUS}[want], text)
            answers[want] = answers.get(want, 0) + 1
        self.assertGreaterEqual(answers["ok"], 10)
        self.assertGreaterEqual(answers["wrong password"], 10)
        self.assertGreaterEqual(answers["too many iterations"], 10)


def base64_of(data):
    return base64.b64encode(data).decode()


def unpadded(data):
    return base64_of(data).rstrip("=")


def adapted(data):
    return unpadded(data).replace("+", ".")


# What a text begins with, what ends its count, and how it has its salt and its hash, by hashlib.
FORMATS = {
    "django-sha256": ("sha256", 32, "pbkdf2_sha256$", "$", bytes.decode, base64_of),
    "django-sha1": ("sha1", 20, "pbkdf2_sha1$", "$", bytes.decode, base64_of),
    "werkzeug-sha256": ("sha256", 32, "pbkdf2:sha256:", "$", bytes.decode, bytes.hex),
    "werkzeug-sha512": ("sha512", 64, "pbkdf2:sha512:", "$", bytes.decode, bytes.hex),
    "phc-sha256": ("sha256", 32, "$pbkdf2-sha256$i=", ",l=32$", unpadded, unpadded),
    "phc-sha512": ("sha512", 32, "$pbkdf2-sha512$i=", ",l=32$", unpadded, unpadded),
    "mosquitto": ("sha512", 64, "$7$", "$", base64_of, base64_of),
    "passlib-sha1": ("sha1", 20, "$pbkdf2$", "$", adapted, adapted),
    "passlib-sha256": ("sha256", 32, "$pbkdf2-sha256$", "$", adapted, adapted),
    "passlib-sha512": ("sha512", 64, "$pbkdf2-sha512$", "$", adapted, adapted),
    "postgresql": ("sha256", 32, "SCRAM-SHA-256$", ":", base64_of, lambda key: keys_of(key)),
    "werkzeug-sha1": ("sha1", 20, "pbkdf2:sha1:", "$", bytes.decode, bytes.hex),
}
PLAIN = [it for it in FORMATS if it.startswith(("django", "werkzeug"))]


def keys_of(salted):
    """StoredKey and ServerKey (RFC 5802, section 3)."""
    stored = hashlib.sha256(hmac.digest(salted, b"Client Key", "sha256")).digest()
    return f"{base64_of(stored)}:{base64_of(hmac.digest(salted, b'Server Key', 'sha256'))}"


def text_by_hashlib(scheme, password, salt, iterations):
    hash_name, length, begin, end, salt_text, hash_text = FORMATS[scheme]
    derived = hashlib.pbkdf2_hmac(hash_name, password, salt, iterations, length)
    return f"{begin}{iterations}{end}{salt_text(salt)}${hash_text(derived)}"


class New(unittest.TestCase):
    def test_beside_hashlib(self):
        self.assertEqual(list(FORMATS), list(password_hash.SCHEMES))
        letters = "kXq0Wz3vT9bYh2LrE8mNpA+/.é".encode()
        for scheme in password_hash.SCHEMES:
            plain = scheme in PLAIN
            for length in (1, 2, 3, 12, 16, 25, 27):
                salt = letters[:length] if plain else bytes(range(250, 256)) + bytes(length)
                if plain and length == 25:
                    continue  # half of a letter
                for iterations in (1, 9, 10, 101):
                    for password in (b"", PASSWORD, b"\x00\xff" * 100):
                        got = password_hash.new(scheme, password, iterations=iterations, salt=salt)
                        self.assertEqual(got, text_by_hashlib(scheme, password, salt, iterations))
                        self.assertIs(
                            password_hash.verify(got, password, max_iterations=iterations), True
                        )

    def test_new_salts(self):
        for scheme in password_hash.SCHEMES:
            texts = {password_hash.new(scheme, PASSWORD, iterations=2) for _ in range(20)}
            self.assertEqual(len(texts), 20)
            for text in texts:
                self.assertIs(password_hash.verify(text, PASSWORD, max_iterations=2), True)
                salt = text.split("$")[-2]
                if scheme in PLAIN:
                    self.assertTrue(salt.isalnum() and salt.isascii())
                salt = salt.rpartition(":")[2]
                self.assertEqual(len(salt), 24 if scheme in ("mosquitto", "postgresql") else 22)

    def test_salt_beside_divmod(self):
        for data in (bytes(16), b"\xff" * 16, bytes(range(16)), *map(os.urandom, [16] * 50)):
            number, letters = int.from_bytes(data, "big"), ""
            for _ in range(22):
                number, digit = divmod(number, 62)
                letters += SYMBOLS[digit]
            for scheme in password_hash.SCHEMES:
                salt = yezdopin._native.password_hash_salt(scheme, data)
                self.assertEqual(salt, letters.encode() if scheme in PLAIN else data)
        for length in (0, 15, 17):
            with self.assertRaisesRegex(yezdopin.Error, f"16 random bytes, and these are {length}"):
                yezdopin._native.password_hash_salt("mosquitto", bytes(length))

    def test_beside_passlib(self):
        try:
            from passlib import hash as schemes
        except ImportError:
            self.skipTest("passlib is not here")
        for scheme, other in (
            ("django-sha256", schemes.django_pbkdf2_sha256),
            ("django-sha1", schemes.django_pbkdf2_sha1),
            ("passlib-sha1", schemes.pbkdf2_sha1),
            ("passlib-sha256", schemes.pbkdf2_sha256),
            ("passlib-sha512", schemes.pbkdf2_sha512),
        ):
            text = password_hash.new(scheme, PASSWORD, iterations=1000)
            self.assertTrue(other.verify(PASSWORD, text), scheme)
            self.assertFalse(other.verify(b"another", text), scheme)

    def test_beside_django(self):
        hashers = self.django()
        for scheme in PLAIN[:2]:
            text = password_hash.new(scheme, PASSWORD, iterations=1000)
            with self.subTest(scheme):
                self.assertTrue(hashers.check_password(PASSWORD.decode(), text))
                self.assertFalse(hashers.check_password("another", text))

    def django(self):
        """Django's hashers, with all of them switched on, and ours in the place of its own."""
        try:
            from django.conf import settings
            from django.contrib.auth import hashers
        except ImportError:
            self.skipTest("Django is not here")
        if not settings.configured:
            settings.configure(PASSWORD_HASHERS=[
                "django.contrib.auth.hashers.PBKDF2PasswordHasher",
                "django.contrib.auth.hashers.PBKDF2SHA1PasswordHasher",
            ])
        return hashers

    def test_hashers_of_django(self):
        """Ours and Django's take each other's texts, and refuse the same."""
        hashers = self.django()
        from django.test.utils import override_settings
        from yezdopin import django

        for name in django.__all__:
            ours, theirs = getattr(django, name)(), getattr(hashers, name)()
            self.assertEqual((ours.algorithm, ours.iterations),
                             (theirs.algorithm, theirs.iterations))
            for one, other in ((ours, theirs), (theirs, ours)):
                text = one.encode("pässword", "NaCl", 100)
                self.assertEqual(text, other.encode("pässword", "NaCl", 100))
                self.assertTrue(other.verify("pässword", text))
                for password in ("", "passwor", "pässwor", "pässword "):
                    self.assertFalse(other.verify(password, text), password)
                self.assertTrue(other.must_update(text))
                for given, salt in ((None, "NaCl"), ("pässword", ""), ("pässword", "Na$Cl")):
                    with self.assertRaises((TypeError, ValueError, AssertionError)):
                        one.encode(given, salt, 100)
            self.assertFalse(ours.verify("pässword", text[:-1]))
            ours.max_iterations = 99
            self.assertFalse(ours.verify("pässword", text))
        names = [f"yezdopin.django.{name}" for name in django.__all__]
        with override_settings(PASSWORD_HASHERS=names):
            hashers.get_hashers.cache_clear()
            kept = hashers.PBKDF2SHA1PasswordHasher().encode("a password", "NaCl", 100)
            renewed = []
            self.assertTrue(hashers.check_password("a password", kept, renewed.append))
            self.assertEqual(renewed, ["a password"])
            self.assertFalse(hashers.check_password("another", kept, renewed.append))
            self.assertIn("pbkdf2_sha256$", hashers.make_password("a password"))
            for text in (hashers.make_password(None), "", "bcrypt_sha256$$2b$12$a"):
                self.assertFalse(hashers.check_password("a password", text), text)
        hashers.get_hashers.cache_clear()

    def test_beside_werkzeug(self):
        try:
            from werkzeug.security import check_password_hash
        except ImportError:
            self.skipTest("Werkzeug is not here")
        for scheme in PLAIN[2:]:
            text = password_hash.new(scheme, PASSWORD, iterations=1000)
            self.assertTrue(check_password_hash(text, PASSWORD.decode()), scheme)
            self.assertFalse(check_password_hash(text, "another"), scheme)

    def is_refused(self, status, scheme, salt, iterations=1):
        with self.assertRaises(yezdopin.Error) as caught:
            password_hash.new(scheme, PASSWORD, iterations=iterations, salt=salt)
        self.assertEqual(caught.exception.status, status)

    def test_refusals(self):
        for scheme in password_hash.SCHEMES:
            self.is_refused(3, scheme, b"salt", 0)
            self.is_refused(7, scheme, b"")
            self.is_refused(4, scheme, b"a" * 1024)
            if scheme in PLAIN:
                self.is_refused(7, scheme, b"sa$lt")
                with self.assertRaises(UnicodeDecodeError):
                    password_hash.new(scheme, PASSWORD, iterations=1, salt=b"\xff")
        # `pbkdf2_sha256$1$`, the salt, `$` and 44 bytes
        longest = password_hash.new("django-sha256", b"", iterations=1, salt=b"a" * 963)
        self.assertEqual(len(longest), 1024)
        self.is_refused(4, "django-sha256", b"a" * 964)

    def test_wrong_calls(self):
        for call in (
            lambda: password_hash.new("mosquitto", PASSWORD),
            lambda: password_hash.new("mosquitto", PASSWORD, 1000),
            lambda: password_hash.new("mosquitto", "text", iterations=1),
            lambda: password_hash.new("mosquitto", PASSWORD, iterations=1, salt="text"),
            lambda: password_hash.new(b"mosquitto", PASSWORD, iterations=1, salt=b"salt"),
        ):
            self.assertRaises(TypeError, call)
        for scheme in ("", "sha256", "mosquitto\0", "Mosquitto"):
            with self.assertRaises(ValueError):
                password_hash.new(scheme, PASSWORD, iterations=1)
        for iterations in (2**32, 10**10, 2**80):
            with self.assertRaisesRegex(OverflowError, "iterations must be from 1 to 4294967295"):
                password_hash.new("mosquitto", PASSWORD, iterations=iterations)


class Infos(unittest.TestCase):
    def test_schemes(self):
        for scheme in password_hash.SCHEMES:
            for iterations in (1, 10, 1000):
                text = password_hash.new(scheme, PASSWORD, iterations=iterations)
                for given in (text, text.encode()):
                    told = password_hash.info(given)
                    self.assertEqual(told, password_hash.Info(scheme, iterations))
                    self.assertEqual((told.scheme, told.iterations), (scheme, iterations))

    def test_refusals(self):
        for status, text in (
            (5, ""), (5, KEPT[1:]), (5, KEPT + "é"), (5, "a" * 1024), (4, "a" * 1025),
        ):
            with self.assertRaises(yezdopin.Error) as caught:
                password_hash.info(text)
            self.assertEqual(caught.exception.status, status)
        self.assertRaises(TypeError, password_hash.info, None)

    def test_iterations_above_the_limit(self):
        """The most iterations that a text can name take a quarter of an hour and more; above the
        limit none is made."""
        faulthandler.dump_traceback_later(30, exit=True)
        for scheme in password_hash.SCHEMES:
            text = password_hash.new(scheme, PASSWORD, iterations=77777, salt=b"a salt")
            text = text.replace("77777", "4294967295")
            for password in (PASSWORD, "é".encode()):
                with self.assertRaises(yezdopin.Error) as caught:
                    password_hash.verify(text, password, max_iterations=1)
                self.assertEqual(caught.exception.status, 6)
            self.assertEqual(password_hash.info(text), (scheme, 2**32 - 1))
        faulthandler.cancel_dump_traceback_later()


class Prepared(unittest.TestCase):
    """What PostgreSQL derives from for a password that is not ASCII."""

    def is_prepared(self, password, as_one):
        """A text of either password is the other's."""
        for one, other in ((password, as_one), (as_one, password)):
            text = password_hash.new("postgresql", one, iterations=1, salt=b"salt")
            self.assertIs(password_hash.verify(text, other, max_iterations=1), True)
        derived = hashlib.pbkdf2_hmac("sha256", as_one, b"salt", 1)
        self.assertEqual(text, f"SCRAM-SHA-256$1:c2FsdA==${keys_of(derived)}")

    def test_examples(self):
        """Of RFC 4013, section 3, and of mapping and normalization."""
        for password, as_one in (
            ("I\u00adX", "IX"), ("\u00aa", "a"), ("\u2168", "IX"), ("\u1680 \u3000", "   "),
            ("e\u0301\ufe00", "\u00e9"), ("\u0627\u0661\u0628", "\u0627\u0661\u0628"),
        ):
            self.is_prepared(password.encode(), as_one.encode())

    def test_kept_as_they_are(self):
        """ASCII, controls too; no UTF-8; and what SASLprep prohibits or leaves nothing of."""
        for password in (
            b"user", b"USER", b"\x07", b"", b"\xff", b"caf\xe9",
            *(it.encode() for it in (
                "\u00e9\x07", "\u06271", "\u0627a\u0628", "a\u0627", "\ue000", "\ufffe",
                "\u0221", "\ufff9", "\u2ff0", "\u200e", "\U000e0001", "\u00ad",
            )),
        ):
            self.is_prepared(password, password)

    def test_before_normalization(self):
        """Kept where NFKC would change what is prohibited, and prepared where it would make what
        is: as PostgreSQL 15 answers, which postgresql.py asks."""
        for password in ("\u32ff\u4ee4\u548c", "\U0001f130", "\u1d62", "\u0340", "\u0627\u1d62"):
            self.is_prepared(password.encode(), password.encode())
        for password, as_one in (("\ufb39", "\u05d9\u05bc"), ("\ufe34", "_"), ("\uff9e", "\u3099")):
            self.is_prepared(password.encode(), as_one.encode())

    def test_other_schemes(self):
        for scheme in password_hash.SCHEMES:
            if scheme != "postgresql":
                text = password_hash.new(scheme, "\u2168".encode(), iterations=1, salt=b"salt")
                self.assertIs(password_hash.verify(text, b"IX", max_iterations=1), False)

    def test_beside_passlib(self):
        """Characters alone, between Latin letters and between Hebrew ones, that NFKC keeps: passlib
        tests what NFKC has made of the others for what is prohibited, and PostgreSQL does not."""
        try:
            from passlib.utils import saslprep
        except ImportError:
            self.skipTest("passlib is not here")
        for code in [
            *range(0x3400), *range(0xA000, 0x20000, 31), *range(0xD7F0, 0x10000, 3),
            *range(0xE0000, 0xE0200), 0xF0000, 0x10FFFF,
        ]:
            for text in (chr(code), f"a{chr(code)}b", f"\u05d0{chr(code)}\u05d1"):
                if code == 0x200B:
                    continue  # a space to PostgreSQL, and nothing to passlib: both in RFC 4013
                if not unicodedata.is_normalized("NFKC", chr(code)):
                    continue
                try:
                    want = saslprep(text)
                except ValueError:
                    want = ""
                if want:
                    self.assertEqual(_saslprep.saslprep(text), want)
                else:  # PostgreSQL also refuses a text of which nothing is left
                    self.assertRaises(ValueError, _saslprep.saslprep, text)


class Arguments(unittest.TestCase):
    CLASSES = {5: password_hash.UnknownScheme, 6: password_hash.TooManyIterations}

    def is_refused(self, status, text, most=1000):
        with self.assertRaises(yezdopin.Error) as caught:
            password_hash.verify(text, PASSWORD, max_iterations=most)
        self.assertEqual(caught.exception.status, status)
        self.assertIs(type(caught.exception), self.CLASSES.get(status, yezdopin.Error))

    def test_what_is_supported(self):
        """The texts of all vectors, and none that other hashers keep."""
        for path in sorted(VECTORS.glob("*.txt")):
            for line in path.read_text().splitlines():
                if line.startswith("verify "):
                    text = line.split(" ")[1]
                    with self.subTest(text):
                        self.assertIs(password_hash.is_supported(text), True)
        for text in (
            "", "!", "!7sLdCnEEbUgmLTnb9dWEYdaCZJq0ESfKRyEIkdpf", "a" * 2000, KEPT + "é",
            "bcrypt_sha256$$2b$12$R9h/cIPz0gi.URNNX3kh2OPST9/PgBkqquzi.Ss7KIUgO2t0jWMUW",
            "$argon2id$v=19$m=65536,t=3,p=4$c29tZXNhbHQ$RdescudvJCsgt3ub+b7XaA",
            "scrypt:32768:8:1$salt$00", "md5$salt$5f4dcc3b5aa765d61d8327deb882cf99",
        ):
            with self.subTest(text):
                self.assertIs(password_hash.is_supported(text), False)
                with self.assertRaises(yezdopin.Error):
                    password_hash.info(text)
        self.assertRaises(TypeError, password_hash.is_supported, None)

    def test_statuses(self):
        """Each has its name, and is the number that it was."""
        for status in yezdopin.Status:
            self.assertEqual(yezdopin.Error(int(status)).status, status)
        with self.assertRaises(yezdopin.Error) as caught:
            password_hash.info("")
        self.assertIs(caught.exception.status, yezdopin.Status.BAD_FORMAT)

    def test_buffers(self):
        for text in (KEPT, KEPT.encode(), bytearray(KEPT.encode()), memoryview(KEPT.encode())):
            self.assertIs(password_hash.verify(text, PASSWORD, max_iterations=1000), True)
            self.assertIs(password_hash.verify(text, b"", max_iterations=1000), False)

    def test_refusals(self):
        self.is_refused(5, "")
        self.is_refused(5, KEPT[:-1])
        self.is_refused(5, KEPT + "é")
        self.is_refused(5, "a" * 1024)
        self.is_refused(4, "a" * 1025)
        self.is_refused(6, KEPT, 999)

    def test_limits(self):
        """A limit is at least 1, and one that no text can reach refuses none."""
        for most in (0, -1, -(2**80)):
            self.is_refused(3, KEPT, most)
            with self.assertRaisesRegex(ValueError, "max_iterations must be at least 1"):
                password_hash.verify(KEPT, PASSWORD, max_iterations=most)
        longest = KEPT.replace("$1000$", "$4294967295$")
        self.is_refused(6, longest, 2**32 - 2)
        for most in (2**32 - 1, 2**32, 10**10, 2**63, 2**80):
            self.assertIs(password_hash.verify(KEPT, PASSWORD, max_iterations=most), True)
            self.is_refused(5, longest.replace("95$", "96$"), most)

    def test_wrong_calls(self):
        for call in (
            lambda: password_hash.verify(KEPT, PASSWORD),
            lambda: password_hash.verify(KEPT, PASSWORD, 1000),
            lambda: password_hash.verify(KEPT, PASSWORD.decode(), max_iterations=1000),
            lambda: password_hash.verify(None, PASSWORD, max_iterations=1000),
            lambda: password_hash.verify(KEPT, PASSWORD, max_iterations=1e10),
            lambda: password_hash.verify(SCRAM, "text", max_iterations=1),
            lambda: password_hash.new("postgresql", "text", iterations=1),
        ):
            self.assertRaises(TypeError, call)


if __name__ == "__main__":
    unittest.main()
