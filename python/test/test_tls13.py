# SPDX-License-Identifier: ISC
"""Finished messages and PSK binders of TLS 1.3: the traces of RFC 8448, a reading of RFC 8446 over
Python's `hmac`, what is near a right verify_data, and what raises."""

import hashlib
import hmac
import random
import unittest

import yezdopin
from shared import ROOT, SIGNING
from yezdopin import tls13

TRACES = sorted((ROOT / "vectors/schedules").glob("rfc8448_*.txt"))
KINDS = (bytes, bytearray, memoryview)
KEY, HASH = bytes(range(32)), bytes(range(100, 132))


def expand_label(name, secret, label, context):
    """HKDF-Expand-Label (RFC 8446, 7.1) to a digest's length, which is one block of HKDF."""
    size, full = hashlib.new(name).digest_size, b"tls13 " + label
    info = size.to_bytes(2, "big") + bytes([len(full)]) + full + bytes([len(context)]) + context
    return hmac.digest(secret, info + b"\1", name)


def verify_data(name, base_key, transcript_hash):
    """RFC 8446, 4.4.4."""
    return hmac.digest(expand_label(name, base_key, b"finished", b""), transcript_hash, name)


def binder_key(name, psk, label):
    """RFC 8446, 7.1."""
    empty = hashlib.new(name)
    early_secret = hmac.digest(bytes(empty.digest_size), psk, name)
    return expand_label(name, early_secret, label, empty.digest())


def near(value):
    """What is near some bytes: each cut, each byte changed, and longer ones."""
    for at, byte in enumerate(value):
        yield value[:at]
        yield value[:at] + bytes([byte ^ 1 << at % 8]) + value[at + 1 :]
    yield from (value + b"\0", value + value, value[1:], value[::-1], bytes(len(value)))


class Case(unittest.TestCase):
    def is_refused(self, status, reason, call, *given, **named):
        with self.assertRaisesRegex(yezdopin.Error, reason) as caught:
            call(*given, **named)
        self.assertEqual(caught.exception.status, status)


class Finished(Case):
    def is_made(self, name, base_key, transcript_hash, wanted):
        for kind in KINDS:
            given = name, kind(base_key), kind(transcript_hash)
            self.assertEqual(tls13.finished(*given), wanted)
            self.assertIs(tls13.verify_finished(*given, kind(wanted)), True)

    def test_rfc8448(self):
        """Each Finished of the traces, whose base key another line of them has, and the binder of
        section 4."""
        seen, binders = 0, 0
        for path in TRACES:
            lines = path.read_text().splitlines()
            answers = dict(zip(lines, lines[1:]))
            for line, answer in answers.items():
                head, _, covered = line.partition(" finished:")
                if not covered:
                    continue
                secret = answers.get(f"{head} secret")
                if secret is None:  # of a binder
                    psk = bytes.fromhex(head.split(" ")[2])
                    base_key = tls13.binder_key("sha256", psk, is_external=False)
                    derived = next(
                        answers[it] for it in lines
                        if it.startswith("expand-label") and b"res binder".hex() in it
                    )
                    self.assertEqual(base_key.hex(), derived.removeprefix("#= "))
                    binders += 1
                else:
                    base_key = bytes.fromhex(secret.removeprefix("#= "))
                wanted = bytes.fromhex(answer.removeprefix("#= "))
                self.is_made("sha256", base_key, bytes.fromhex(covered), wanted)
                seen += 1
        self.assertEqual((seen, binders), (11, 1))

    def test_beside_hmac(self):
        rng = random.Random(8446)
        for name in SIGNING:
            size = hashlib.new(name).digest_size
            for _ in range(50):
                base_key, transcript = rng.randbytes(size), rng.randbytes(size)
                self.is_made(name, base_key, transcript, verify_data(name, base_key, transcript))
                for call in (tls13.finished, lambda *it: tls13.verify_finished(*it, base_key)):
                    self.assertNotIn(call(name, transcript, base_key),
                                     (True, verify_data(name, base_key, transcript)))

    def test_near(self):
        for name in SIGNING:
            size = hashlib.new(name).digest_size
            base_key, transcript = KEY * 2, HASH * 2
            given = name, base_key[:size], transcript[:size]
            right = verify_data(*given)
            for other in near(right):
                self.assertIs(tls13.verify_finished(*given, other), False)
            for other in near(given[1]):
                if len(other) == size:
                    self.assertIs(tls13.verify_finished(name, other, given[2], right), False)
            for other in near(given[2]):
                if len(other) == size:
                    self.assertIs(tls13.verify_finished(name, given[1], other, right), False)
            for other in SIGNING:
                data = verify_data(other, KEY, HASH)
                if other != name:
                    self.assertIs(tls13.verify_finished(*given, data), False)

    def test_lengths(self):
        """A base key and a transcript hash are the program's own: a wrong length raises. A
        verify_data is the other party's."""
        for name in SIGNING:
            size = hashlib.new(name).digest_size
            key, transcript = bytes(size), bytes(size)
            data = verify_data(name, key, transcript)
            for length in (0, 1, size - 1, size + 1, 2 * size, 64 if size != 64 else 32, 5000):
                reason = f"^a base key and the hash of a transcript have {size} bytes each$"
                for given in ((name, bytes(length), transcript), (name, key, bytes(length))):
                    self.is_refused(4, reason, tls13.finished, *given)
                    self.is_refused(4, reason, tls13.verify_finished, *given, data)
                self.assertIs(tls13.verify_finished(name, key, transcript, bytes(length)), False)
                long = data + bytes(length - size) if length > size else data[:length]
                self.assertIs(tls13.verify_finished(name, key, transcript, long), False)

    def test_hashes(self):
        for name in ("SHA-256", "SHA256", "sha2-256"):
            self.assertEqual(tls13.finished(name, KEY, HASH), verify_data("sha256", KEY, HASH))
        for name in ("md5", "", "sha512_256", "SHA-512/256"):
            for call, given in (
                (tls13.finished, (KEY, HASH)), (tls13.verify_finished, (KEY, HASH, KEY)),
            ):
                self.is_refused(1, "", call, name, *given)

    def test_types(self):
        for call in (
            lambda: tls13.finished(None, KEY, HASH),
            lambda: tls13.finished(hashlib.sha256, KEY, HASH),
            lambda: tls13.finished("sha256", KEY.hex(), HASH),
            lambda: tls13.finished("sha256", KEY, "text"),
            lambda: tls13.finished("sha256", KEY, hashlib.sha256(b"")),
            lambda: tls13.finished("sha256", KEY),
            lambda: tls13.verify_finished("sha256", KEY, HASH, "text"),
            lambda: tls13.verify_finished("sha256", KEY, HASH, None),
            lambda: tls13.verify_finished("sha256", KEY, HASH),
        ):
            self.assertRaises(TypeError, call)
        self.assertRaises(BufferError, tls13.finished, "sha256", memoryview(KEY)[::2], HASH)


class BinderKey(Case):
    def test_beside_hmac(self):
        rng = random.Random("binder")
        for name in SIGNING:
            for length in (1, 16, 32, 48, 63, 64, 65, 128, 129, 5000):
                psk = rng.randbytes(length)
                for kind in KINDS:
                    made = [tls13.binder_key(name, kind(psk), is_external=it)
                            for it in (True, False)]
                    wanted = [binder_key(name, psk, it) for it in (b"ext binder", b"res binder")]
                    self.assertEqual(made, wanted)

    def test_refusals(self):
        for is_external in (True, False):
            given = {"is_external": is_external}
            self.is_refused(8, "^the PSK is empty$", tls13.binder_key, "sha256", b"", **given)
            for name in ("md5", "sha512_256"):
                self.is_refused(1, "", tls13.binder_key, name, KEY, **given)

    def test_types(self):
        for call in (
            lambda: tls13.binder_key("sha256", KEY),
            lambda: tls13.binder_key("sha256", KEY, True),
            lambda: tls13.binder_key("sha256", KEY, is_external=None),
            lambda: tls13.binder_key("sha256", KEY, is_external=1),
            lambda: tls13.binder_key("sha256", KEY, is_external="no"),
            lambda: tls13.binder_key("sha256", "text", is_external=True),
            lambda: tls13.binder_key(None, KEY, is_external=True),
        ):
            self.assertRaises(TypeError, call)


if __name__ == "__main__":
    unittest.main()
