# SPDX-License-Identifier: ISC
"""Agreement with `hashlib` and `hmac`, whose answers are OpenSSL's, and with vectors/."""

import doctest
import hashlib
import hmac
import os
import pathlib
import random
import unittest

import yezdopin
from shared import NAMES, SIGNING
from yezdopin import hmac as tags

TIMES = 4000
VECTORS = pathlib.Path(__file__).resolve().parents[2] / "vectors"
below = random.Random(7).randrange


def some(most):
    """Bytes of a length below `most`, short ones more often."""
    return os.urandom(below(below(most) + 1))


def one_of(names):
    return names[below(len(names))]


def flipped(value):
    """The bytes with one bit changed."""
    other = bytearray(value)
    other[below(len(other))] ^= 1 << below(8)
    return bytes(other)


def hkdf(name, secret, salt, info, length):
    """RFC 5869 over `hmac`: the PRK and the output."""
    prk = hmac.new(salt, secret, name).digest()
    out = last = b""
    while len(out) < length:
        last = hmac.new(prk, last + info + bytes([len(out) // len(prk) + 1]), name).digest()
        out += last
    return prk, out[:length]


class Digests(unittest.TestCase):
    def test_whole_and_in_pieces(self):
        for _ in range(TIMES):
            name, message = one_of(NAMES), some(5000)
            want = hashlib.new(name, message).digest()
            self.assertEqual(getattr(yezdopin, name)(message).digest(), want)
            running, at = yezdopin.new(name), 0
            while at < len(message):
                end = at + below(400)
                piece = memoryview(message)[at:end]
                running.update(piece if below(2) else bytearray(piece))
                copy, at = running.copy(), end
                copy.update(b"another")
            self.assertEqual((running.digest(), running.hexdigest()), (want, want.hex()))

    def test_several(self):
        for turn in range(TIMES // 20):
            name, count = one_of(NAMES), turn if turn < 20 else below(70)
            messages = [some(400) for _ in range(count)]
            want = [hashlib.new(name, message).digest() for message in messages]
            self.assertEqual(yezdopin.digest_each(name, messages), want)
            others = (bytearray(message) for message in messages)
            self.assertEqual(yezdopin.digest_each(name, others), want)


class Tags(unittest.TestCase):
    def test_tags(self):
        for _ in range(TIMES):
            name, key, message = one_of(SIGNING), some(300), some(600)
            want = hmac.new(key, message, name).digest()
            made, cut = tags.Key(key, name), below(len(message) + 1)
            self.assertEqual(made.sign(message), want)
            self.assertEqual(tags.digest(key, message, name), want)
            running = tags.new(key, message[:cut], name)
            other = running.copy()
            other.update(b"another")
            running.update(message[cut:])
            self.assertEqual((running.digest(), running.hexdigest()), (want, want.hex()))
            self.assertTrue(made.verify(message, want) and tags.verify(key, message, want, name))
            for wrong in (flipped(want), want[:-1], want + b"\0", b""):
                self.assertFalse(made.verify(message, wrong))
                self.assertFalse(tags.verify(key, message, wrong, name))


class Keys(unittest.TestCase):
    def test_hkdf(self):
        for _ in range(TIMES):
            name, salt, secret, info = one_of(SIGNING), some(300), some(300), some(300)
            prk, want = hkdf(name, secret, salt, info, below(below(600) + 1))
            self.assertEqual(yezdopin.hkdf_extract(name, secret, salt), prk)
            self.assertEqual(yezdopin.hkdf_expand(name, prk, info, len(want)), want)
            self.assertEqual(yezdopin.hkdf(name, secret, salt, info, len(want)), want)

    def test_labels(self):
        """HKDF-Expand-Label is HKDF's second step for the info of RFC 8446, 7.1."""
        for _ in range(TIMES):
            name, prk, context = one_of(SIGNING), some(300), some(256)
            label, length = some(249) + b"x", below(600)
            info = length.to_bytes(2, "big") + bytes([6 + len(label)]) + b"tls13 " + label
            want = yezdopin.hkdf_expand(name, prk, info + bytes([len(context)]) + context, length)
            got = yezdopin.hkdf_expand_label(name, prk, label, context, length)
            self.assertEqual(got, want)

    def test_pbkdf2(self):
        for _ in range(TIMES):
            name, times, length = one_of(SIGNING), below(20) + 1, below(300) + 1
            password, salt = some(200), some(200)
            want = hashlib.pbkdf2_hmac(name, password, salt, times, length)
            self.assertEqual(yezdopin.pbkdf2_hmac(name, password, salt, times, length), want)
            given = (name, password, salt, times)
            self.assertTrue(yezdopin.pbkdf2_hmac_verify(*given, want))
            for wrong in (flipped(want), b""):
                self.assertFalse(yezdopin.pbkdf2_hmac_verify(*given, wrong))
        want = hashlib.pbkdf2_hmac("sha512", b"password", b"salt", 2)
        self.assertEqual(yezdopin.pbkdf2_hmac("sha512", b"password", b"salt", 2), want)

    def test_comparison(self):
        for _ in range(TIMES):
            a = some(40)
            b = [a, a + b"x", flipped(a) if a else b"x", os.urandom(len(a))][below(4)]
            self.assertEqual(yezdopin.compare_digest(a, b), a == b)


def pieces_of(field):
    """The bytes of each piece of a field."""
    return [] if field == "-" else [bytes.fromhex(piece) for piece in field.split(",")]


def whole(field):
    """The bytes of all pieces of a field."""
    return b"".join(pieces_of(field))


def answer(line):
    """The answer to a line as vectors/ has it, but for its number of blocks."""
    word, name, *fields = line.split(" ")
    if word == "digest":
        return in_pieces(yezdopin.new(name), fields[0])
    if word == "hmac":
        return in_pieces(tags.new(whole(fields[0]), None, name), fields[1])
    if word == "hmac-verify":
        key, message, tag = map(whole, fields)
        return "match" if tags.verify(key, message, tag, name) else "mismatch"
    if word == "hkdf":
        salt, secret, info = map(whole, fields[:3])
        return yezdopin.hkdf(name, secret, salt, info, int(fields[3])).hex() or "-"
    if word == "extract":
        salt, secret = map(whole, fields)
        return yezdopin.hkdf_extract(name, secret, salt).hex()
    if word == "expand-label":
        secret, label, context = map(whole, fields[:3])
        return yezdopin.hkdf_expand_label(name, secret, label, context, int(fields[3])).hex() or "-"
    secret, salt = map(whole, fields[1:3])
    if word == "pbkdf2" and fields[3] == "0":
        return "-"  # as hashlib, the package refuses a key without bytes
    if word == "pbkdf2":
        out = yezdopin.pbkdf2_hmac(name, secret, salt, int(fields[0]), int(fields[3]))
        return out.hex() or "-"
    given = (name, secret, salt, int(fields[0]), whole(fields[3]))
    return "match" if yezdopin.pbkdf2_hmac_verify(*given) else "mismatch"


def in_pieces(running, pieces):
    """What a digest or a tag gives once some pieces were added."""
    for piece in pieces_of(pieces):
        running.update(piece)
    return running.hexdigest()


class Vectors(unittest.TestCase):
    def test_lines(self):
        seen, last = 0, ""
        for path in sorted([*VECTORS.glob("*.txt"), *VECTORS.glob("schedules/*.txt")]):
            for line in path.read_text().splitlines():
                if line.startswith("#= ") and last.startswith(("tls13 ", "quic ", "packet ")):
                    pass  # whole key schedules, for which there is no call
                elif line.startswith("#= "):
                    want = line[3:].split(" ")[0]
                    try:
                        got = answer(last)
                    except yezdopin.Error:
                        got = "refused"
                    # A verification doesn't tell its cause.
                    alike = {want} | ({"mismatch"} if want == "refused" else set())
                    self.assertIn(got, alike, last)
                    seen += 1
                elif line and not line.startswith("#"):
                    last = line
        self.assertGreater(seen, 0)
        print(f"{seen} lines agree")

    def test_digests_together(self):
        """All digests of an algorithm, by one call."""
        messages, wanted, last = {}, {}, ""
        for path in sorted(VECTORS.glob("digest*.txt")):
            for line in path.read_text().splitlines():
                if line.startswith("#= "):
                    _, name, field = last.split(" ")
                    messages.setdefault(name, []).append(whole(field))
                    wanted.setdefault(name, []).append(line[3:].split(" ")[0])
                elif line and not line.startswith("#"):
                    last = line
        self.assertEqual(len(wanted), len(NAMES))
        for name, digests in wanted.items():
            made = yezdopin.digest_each(name, messages[name])
            self.assertEqual([digest.hex() for digest in made], digests)


class Documentation(unittest.TestCase):
    def test_examples(self):
        for module in (
            yezdopin, tags, yezdopin.merkle, yezdopin.password_hash, yezdopin.tokens
        ):
            result = doctest.testmod(module)
            self.assertEqual(result.failed, 0)
            self.assertGreater(result.attempted, 0)


if __name__ == "__main__":
    unittest.main()
