# SPDX-License-Identifier: ISC
"""Signed tokens and one-time passwords: RFC 4226, D, and RFC 6238, B, readings of the RFCs over
Python's `hmac`, altered tokens, the ends of 64 bits, what raises, PyJWT and pyotp. tests/tokens.py
of the repository has more of the functions below the calls."""

import array
import base64
import hashlib
import hmac
import json
import pathlib
import random
import sys
import unittest
from unittest import mock

import yezdopin
from shared import SIGNING, TOKENS as HASHES, Foreign
import peers  # which `shared` has made to be found
from yezdopin import _native, tokens

VECTORS = pathlib.Path(__file__).resolve().parents[2] / "vectors" / "tokens"
USUAL = ('{"alg":"%s","typ":"JWT"}', '{"typ":"JWT","alg":"%s"}', '{"alg":"%s"}')
OTHER_HEADERS = (
    "", "{}", '{"alg":"none"}', '{"alg":"%s","kid":"a"}', '{"alg": "%s"}', '{"typ":"JWT"}',
    '{"alg":"%s","typ":"jwt"}', '{"alg":"%s","typ":"JWT"} ', '{"alg":"%s","crit":[]}', '"%s"',
)
SYMBOLS = "ABCDEFGHIJKLMNOPQRSTUVWXYZabcdefghijklmnopqrstuvwxyz0123456789-_"
ALTERED = 5000
KEY = bytes(range(64))
SECRET = b"12345678901234567890"
LAST = 2**64 - 1
NO_NUMBERS = (-1, -(2**64), 2**64, 2**200)


def base64url(data):
    return base64.urlsafe_b64encode(data).rstrip(b"=").decode()


def signed(alg, key, header, payload):
    """The token of RFC 7515, 5.1."""
    text = f"{base64url(header.encode())}.{base64url(payload)}"
    return f"{text}.{base64url(hmac.digest(key, text.encode(), HASHES[alg]))}"


def hotp(key, counter, digits, name):
    """The password of RFC 4226, 5.3."""
    tag = hmac.digest(key, counter.to_bytes(8, "big"), name)
    at = tag[-1] & 15
    number = int.from_bytes(tag[at : at + 4], "big") % 2**31
    return f"{number % 10**digits:0{digits}}"


def lines_of(*words):
    """The lines of vectors/tokens that begin with these words: what follows, and the answer."""
    head = " ".join(words) + " "
    for path in sorted(VECTORS.glob("*.txt")):
        lines = path.read_text().splitlines()
        for line, below in zip(lines, lines[1:]):
            if line.startswith(head):
                yield line.removeprefix(head).split(" "), below.removeprefix("#= ")


class Case(unittest.TestCase):
    def is_refused(self, status, reason, call, *given, **named):
        with self.assertRaisesRegex(yezdopin.Error, reason) as caught:
            call(*given, **named)
        self.assertEqual(caught.exception.status, status)

    def is_no_token(self, token, key, algorithm):
        reason = "^not a token that the key signed$"
        self.is_refused(8, reason, tokens.verify, token, key, algorithm)

    def asked(self, module, package, program, questions):
        """What a program over a module answers."""
        if peers.python_with(module) is None:
            self.skipTest(f"left out: {self.id()}, without {package}")
        return peers.asked(module, program, questions)


class Tokens(Case):
    def test_beside_hmac(self):
        rng = random.Random(7515)
        for alg, name in HASHES.items():
            least = hashlib.new(name).digest_size
            for length in [*range(70), 1000, 20_000]:
                key, payload = rng.randbytes(least + rng.randrange(100)), rng.randbytes(length)
                token = tokens.sign(payload, key, alg)
                self.assertEqual(token, signed(alg, key, USUAL[0] % alg, payload))
                for header in USUAL:
                    token = signed(alg, key, header % alg, payload)
                    self.assertEqual(tokens.verify(token, key, alg), payload)

    def test_default(self):
        token = tokens.sign(b"payload", KEY)
        self.assertEqual(token, tokens.sign(payload=b"payload", key=KEY, algorithm="HS256"))
        self.assertEqual(tokens.verify(token, KEY), b"payload")
        self.assertEqual(tokens.verify(token=token, key=KEY, algorithm="HS256"), b"payload")

    def test_rfc7515(self):
        """Its example A.1 has a header with a line feed, which no call takes."""
        (alg, key, token), payload = next(lines_of("jws", "verify"))
        key, (head, body, _) = bytes.fromhex(key), token.split(".")
        header = base64.urlsafe_b64decode(head + "==").decode()
        self.assertEqual(signed(alg, key, header, bytes.fromhex(payload)), token)
        self.is_no_token(token, key, alg)
        token = tokens.sign(bytes.fromhex(payload), key, alg)
        self.assertEqual(token.split(".")[1], body)

    def test_headers(self):
        for alg in HASHES:
            for header in OTHER_HEADERS:
                self.is_no_token(signed(alg, KEY, header.replace("%s", alg), b"{}"), KEY, alg)

    def test_algorithms(self):
        """A token is of the algorithm that it was signed under, whatever its header says."""
        for alg in HASHES:
            for other in HASHES:
                if other != alg:
                    self.is_no_token(tokens.sign(b"{}", KEY, alg), KEY, other)
                    self.is_no_token(signed(alg, KEY, USUAL[0] % other, b"{}"), KEY, other)
                    self.is_no_token(signed(alg, KEY, USUAL[0] % other, b"{}"), KEY, alg)
        for name in ("none", "None", "", "HS", "hs256", "HS256 ", "HS256\0", "RS256", "HS1", "é"):
            for call in (tokens.sign, tokens.verify):
                self.is_refused(1, "^unsupported algorithm '", call, b"", KEY, name)

    def test_altered(self):
        rng, count = random.Random(7797), 0
        while count < ALTERED:
            alg = rng.choice(list(HASHES))
            payload = rng.randbytes(rng.randrange(40))
            token = signed(alg, KEY, rng.choice(USUAL) % alg, payload)
            at, end = sorted((rng.randrange(len(token)), rng.randrange(len(token) + 1)))
            symbol = rng.choice(SYMBOLS + ".=$\n é")
            altered = rng.choice([
                token[:at] + symbol + token[at + 1 :], token[:at] + symbol + token[at:],
                token[:at] + token[end:], token[:end], token[:end] + token[at:], token + symbol,
            ])
            if altered != token:
                self.is_no_token(altered, KEY, alg)
                count += 1

    def test_spare_bits(self):
        """Another last symbol of a signature, of which some bits stand for nothing."""
        for alg in ("HS256", "HS512"):
            token = tokens.sign(b"{}", KEY, alg)
            last = SYMBOLS.index(token[-1])
            for symbol in SYMBOLS.replace(token[-1], ""):
                self.is_no_token(token[:-1] + symbol, KEY, alg)
            self.assertEqual(last % 4, 0)

    def test_keys(self):
        for alg, name in HASHES.items():
            least = hashlib.new(name).digest_size
            token = signed(alg, KEY[:least], USUAL[0] % alg, b"payload")
            for length in (0, 1, least - 1):
                reason = f"^a key for {alg} has at least {least} bytes$"
                self.is_refused(8, reason, tokens.sign, b"payload", KEY[:length], alg)
                self.is_refused(8, reason, tokens.verify, token, KEY[:length], alg)
            self.assertEqual(tokens.verify(token, KEY[:least], alg), b"payload")
            self.is_no_token(token, KEY[:least][::-1], alg)

    def test_long(self):
        payload = bytes(1_000_000)
        token = tokens.sign(payload, KEY, "HS512")
        self.assertEqual(token, signed("HS512", KEY, USUAL[0] % "HS512", payload))
        self.assertEqual(tokens.verify(token, KEY, "HS512"), payload)
        self.is_no_token(token[:-1] + ("Q" if token[-1] == "A" else "A"), KEY, "HS512")

    def test_buffers(self):
        token = tokens.sign(b"payload", KEY)
        data = token.encode()
        for it in (token, data, bytearray(data), memoryview(data), array.array("B", data)):
            self.assertEqual(tokens.verify(it, memoryview(KEY)), b"payload")
        self.assertEqual(tokens.sign(memoryview(b"payload"), bytearray(KEY)), token)
        for text in ("", b"", ".", "..", "...", "\ud800", "é.é.é", bytes(100), token + "\ud800"):
            self.is_no_token(text, KEY, "HS256")
        self.is_no_token(memoryview(data)[::2], KEY, "HS256")
        self.assertRaises(BufferError, tokens.sign, memoryview(data)[::2], KEY)
        self.assertRaises(BufferError, tokens.totp, memoryview(KEY)[::2])

    def test_written_meanwhile(self):
        """A buffer that another thread may write is read once."""
        data = bytearray(tokens.sign(bytes(10_000), KEY).encode())
        seen = []
        with mock.patch.object(_native, "tokens_verify", lambda token, *_: seen.append(token)):
            tokens.verify(data, KEY)
        data[50:60] = bytes(10)
        self.assertEqual(tokens.verify(seen[0], KEY), bytes(10_000))
        self.is_no_token(data, KEY, "HS256")

    def test_types(self):
        token = tokens.sign(b"payload", KEY)
        for call in (
            lambda: tokens.sign("payload", KEY),
            lambda: tokens.sign({"sub": "alice"}, KEY),
            lambda: tokens.sign(b"payload", "a key that is text, and no bytes"),
            lambda: tokens.sign(b"payload", KEY, None),
            lambda: tokens.sign(b"payload", KEY, b"HS256"),
            lambda: tokens.sign(b"payload"),
            lambda: tokens.verify(None, KEY),
            lambda: tokens.verify(token, None),
            lambda: tokens.verify(token, KEY, ["HS256"]),
            lambda: tokens.verify(token, KEY, yezdopin.sha256),
            lambda: tokens.verify(token),
        ):
            self.assertRaises(TypeError, call)

    def test_beside_pyjwt(self):
        program = """
import json, jwt, sys
def answer(alg, key, text):
    key = bytes.fromhex(key)
    if alg.startswith("+"):
        return jwt.api_jws.encode(bytes.fromhex(text), key, algorithm=alg[1:])
    return jwt.api_jws.decode(text, key, algorithms=[alg]).hex()
json.dump([answer(*it) for it in json.load(sys.stdin)], sys.stdout)
"""
        rng = random.Random("jwt")
        cases = [(alg, rng.randbytes(it)) for alg in HASHES for it in range(50)]
        signing = [(f"+{alg}", KEY.hex(), payload.hex()) for alg, payload in cases]
        reading = [(alg, KEY.hex(), tokens.sign(payload, KEY, alg)) for alg, payload in cases]
        answers = self.asked("jwt", "PyJWT", program, signing + reading)
        for (alg, payload), token, read in zip(cases, answers, answers[len(cases) :]):
            self.assertEqual(tokens.verify(token, KEY, alg), payload)
            self.assertEqual(read, payload.hex())


class Passwords(Case):
    def test_vectors(self):
        """RFC 4226, D, and RFC 6238, B."""
        seen = 0
        for word in ("hotp", "totp"):
            for (name, key, *numbers), answer in lines_of(word):
                if name != "find":
                    *numbers, digits = map(int, numbers)
                    named = {"digits": digits, "digest": name.lower()}
                    if word == "totp":
                        named["interval"] = numbers.pop()
                    made = getattr(tokens, word)(bytes.fromhex(key), *numbers, **named)
                    self.assertEqual(made, answer.zfill(digits))
                    seen += 1
        self.assertEqual(seen, 10 + 18)

    def test_found(self):
        """The searches of the same vectors."""
        seen = 0
        for (name, key, first, count, digits, text), answer in lines_of("hotp", "find"):
            found = tokens.find_hotp(
                bytes.fromhex(key), text, int(first), int(count), digits=int(digits), digest=name
            )
            self.assertEqual(str(found).lower(), answer)
            seen += 1
        for (name, key, time, step, *window, digits, text), answer in lines_of("totp", "find"):
            back, ahead = map(int, window)
            found = tokens.find_totp(
                bytes.fromhex(key), text, int(time), back=back, ahead=ahead, digits=int(digits),
                digest=name, interval=int(step),
            )
            self.assertEqual(str(found).lower(), answer)
            seen += 1
        self.assertEqual(seen, 20 + 18)

    def test_beside_hmac(self):
        rng = random.Random(4226)
        for _ in range(2000):
            name, digits, key = rng.choice(SIGNING), rng.choice([6, 7, 8]), rng.randbytes(20)
            counter = rng.choice([rng.randrange(1000), rng.randrange(2**64), LAST])
            want, named = hotp(key, counter, digits, name), {"digits": digits, "digest": name}
            self.assertEqual(tokens.hotp(key, counter, **named), want)
            first = max(0, counter - rng.randrange(3))
            self.assertEqual(tokens.find_hotp(key, want, first, 3, **named), counter)
            step = rng.choice([1, 30, 2**32 - 1])
            time = counter // step * step
            want = hotp(key, time // step, digits, name)
            self.assertEqual(tokens.totp(key, time, interval=step, **named), want)
            later = min(LAST, time + step)
            found = tokens.find_totp(key, want, later, interval=step, ahead=0, **named)
            self.assertEqual(found, time // step)

    def test_each_digit(self):
        """All digits are compared, leading zeros among them."""
        counter = next(it for it in range(100) if tokens.hotp(SECRET, it).startswith("0"))
        otp = tokens.hotp(SECRET, counter)
        self.assertEqual(tokens.find_hotp(SECRET, otp, counter, 1), counter)
        for at in range(6):
            wrong = otp[:at] + str((int(otp[at]) + 1) % 10) + otp[at + 1 :]
            self.assertIsNone(tokens.find_hotp(SECRET, wrong, counter, 1))
        for wrong in (otp[1:], "0" + otp, otp + "0", otp + "\0", "", " " + otp[1:], "\ud800", "é"):
            self.assertIsNone(tokens.find_hotp(SECRET, wrong, counter, 1))
        self.assertIsNone(tokens.find_hotp(SECRET, otp, counter, 1, digits=7))

    def test_windows(self):
        otps = [tokens.hotp(SECRET, counter) for counter in range(10)]
        for counter, otp in enumerate(otps):
            for first in range(10):
                for count in range(10):
                    want = counter if first <= counter < first + count else None
                    self.assertEqual(tokens.find_hotp(SECRET, otp, first, count), want)
            for now in range(10):
                found = tokens.find_totp(SECRET, otp, 30 * now + 29, back=2, ahead=3)
                self.assertEqual(found, counter if now - 2 <= counter <= now + 3 else None)

    def test_ends(self):
        """No counter is above 2**64 - 1, and no step below 0."""
        last = tokens.hotp(SECRET, LAST)
        for first in (LAST, LAST - 1, LAST - 9):
            for count in (LAST - first + 1, 100, LAST):
                self.assertEqual(tokens.find_hotp(SECRET, last, first, count), LAST)
                self.assertIsNone(tokens.find_hotp(SECRET, tokens.hotp(SECRET, 0), first, count))
            self.assertIsNone(tokens.find_hotp(SECRET, last, first, LAST - first))
        for time in (LAST, LAST - 1):
            found = tokens.find_totp(SECRET, last, time, interval=1, back=0, ahead=1)
            self.assertEqual(found, LAST)
        none = tokens.hotp(SECRET, 5)
        self.assertIsNone(tokens.find_totp(SECRET, none, LAST, interval=1, back=9, ahead=2**32 - 1))
        first = tokens.hotp(SECRET, 0)
        for back in (0, 1, 2**32 - 1):
            self.assertEqual(tokens.find_totp(SECRET, first, 29, back=back), 0)
        self.assertEqual(tokens.totp(SECRET, LAST, interval=1), last)

    def test_now(self):
        with mock.patch("time.time", return_value=59.9):
            self.assertEqual(tokens.totp(SECRET, digits=8), "94287082")
            self.assertEqual(tokens.find_totp(SECRET, "94287082", digits=8), 1)
        with mock.patch("time.time", return_value=90.0):
            self.assertEqual(tokens.find_totp(SECRET, "94287082", digits=8), None)
            self.assertEqual(tokens.find_totp(SECRET, "94287082", digits=8, back=2), 1)

    def test_hashes(self):
        for name in SIGNING:
            want = hotp(SECRET, 7, 6, name)
            kinds = [name, name.upper(), getattr(hashlib, name), getattr(yezdopin, name)]
            for kind in kinds:
                self.assertEqual(tokens.hotp(SECRET, 7, digest=kind), want)
                self.assertEqual(tokens.find_hotp(SECRET, want, 7, 1, digest=kind), 7)
        for kind in ("md5", "", "sha512_256", yezdopin.sha512_256, hashlib.md5, Foreign):
            for call, given in (
                (tokens.hotp, (7,)), (tokens.totp, (7,)), (tokens.find_hotp, ("287082", 7, 1)),
                (tokens.find_totp, ("287082", 7)),
            ):
                self.is_refused(1, "^unsupported hash type", call, SECRET, *given, digest=kind)

    def test_digits(self):
        for digits in (0, 1, 5, 9, 11, 100, 2**32, *NO_NUMBERS):
            reason = f"^a one-time password has 6 to 8 digits, and not {digits}$"
            for call, given in (
                (tokens.hotp, (7,)), (tokens.totp, (7,)), (tokens.find_hotp, ("287082", 7, 1)),
                (tokens.find_totp, ("287082", 7)),
            ):
                self.is_refused(4, reason, call, SECRET, *given, digits=digits)

    def test_numbers(self):
        for wrong in NO_NUMBERS:
            for name, call in (
                ("counter", lambda: tokens.hotp(SECRET, wrong)),
                ("time", lambda: tokens.totp(SECRET, wrong)),
                ("interval", lambda: tokens.totp(SECRET, 0, interval=wrong)),
                ("first", lambda: tokens.find_hotp(SECRET, "287082", wrong, 1)),
                ("count", lambda: tokens.find_hotp(SECRET, "287082", 0, wrong)),
                ("time", lambda: tokens.find_totp(SECRET, "287082", wrong)),
                ("back", lambda: tokens.find_totp(SECRET, "287082", 0, back=wrong)),
                ("ahead", lambda: tokens.find_totp(SECRET, "287082", 0, ahead=wrong)),
                ("interval", lambda: tokens.find_totp(SECRET, "287082", 0, interval=wrong)),
            ):
                self.assertRaisesRegex(OverflowError, f"^{name} must be from 0 to", call)
        for name in ("back", "ahead", "interval"):
            with self.assertRaisesRegex(OverflowError, f"^{name} must be from 0 to 4294967295$"):
                tokens.find_totp(SECRET, "287082", 0, **{name: 2**32})
        reason = "^interval must be at least 1$"
        self.is_refused(8, reason, tokens.totp, SECRET, 0, interval=0)
        self.is_refused(8, reason, tokens.find_totp, SECRET, "287082", 0, interval=0)

    def test_types(self):
        for call in (
            lambda: tokens.hotp("secret", 0),
            lambda: tokens.hotp(SECRET, 0.0),
            lambda: tokens.hotp(SECRET, None),
            lambda: tokens.hotp(SECRET, 0, 6),
            lambda: tokens.hotp(SECRET, 0, digits="6"),
            lambda: tokens.hotp(SECRET, 0, digest=None),
            lambda: tokens.totp(SECRET, 59.5),
            lambda: tokens.totp(SECRET, 59, interval=30.0),
            lambda: tokens.find_hotp(SECRET, 287082, 0, 1),
            lambda: tokens.find_hotp(SECRET, "287082", 0),
            lambda: tokens.find_hotp("secret", "287082", 0, 1),
            lambda: tokens.find_totp(SECRET, None),
            lambda: tokens.find_totp(SECRET, "287082", "59"),
            lambda: tokens.find_totp(SECRET, "287082", 59, back=None),
        ):
            self.assertRaises(TypeError, call)

    def test_short_keys(self):
        """RFC 4226, section 4, asks for 128 bits, and an argument has to allow less."""
        reason = "a key of one-time passwords has at least 16 bytes"
        for length in (0, 1, 15, 16):
            for kind in (bytes, bytearray, memoryview):
                key = kind(SECRET[:length])
                for call in (
                    lambda key, **named: tokens.hotp(key, 7, **named),
                    lambda key, **named: tokens.totp(key, 7 * 30, **named),
                    lambda key, **named: tokens.find_hotp(key, want, 7, 1, **named),
                    lambda key, **named: tokens.find_totp(key, want, 7 * 30, back=0, **named),
                ):
                    want = hotp(SECRET[:length], 7, 6, "sha1")
                    if length == 0:
                        allowed = lambda key: call(key, allow_short_key=True)  # noqa: E731, B023
                        self.is_refused(8, "the key of one-time passwords is empty", allowed, key)
                    else:
                        self.assertIn(call(key, allow_short_key=True), (want, 7))
                    if length == 16:
                        self.assertIn(call(key), (want, 7))
                        continue
                    self.is_refused(8, reason, call, key)
                    self.is_refused(8, reason, lambda key: call(key, allow_short_key=False), key)

    def test_beside_pyotp(self):
        program = """
import base64, hashlib, json, pyotp, sys
def answer(key, counter, digits, name):
    secret = base64.b32encode(bytes.fromhex(key)).decode()
    kind = getattr(hashlib, name)
    by_time = pyotp.TOTP(secret, digits, kind, interval=60).at(counter)
    return pyotp.HOTP(secret, digits, kind).at(counter), by_time
json.dump([answer(*it) for it in json.load(sys.stdin)], sys.stdout)
"""
        rng = random.Random("pyotp")
        keys = [rng.randbytes(rng.randrange(16, 80)).hex() for _ in range(200)]
        # It makes dates of times, which end with the year 9999.
        cases = [(key, rng.randrange(2**37), rng.choice([6, 7, 8]), rng.choice(SIGNING))
                 for key in keys]
        answers = self.asked("pyotp", "pyotp", program, cases)
        for (key, counter, digits, name), (of_counter, of_time) in zip(cases, answers):
            key, named = bytes.fromhex(key), {"digits": digits, "digest": name}
            self.assertEqual(tokens.hotp(key, counter, **named), of_counter)
            self.assertEqual(tokens.find_hotp(key, of_counter, counter, 1, **named), counter)
            self.assertEqual(tokens.totp(key, counter, interval=60, **named), of_time)


if __name__ == "__main__":
    unittest.main()
