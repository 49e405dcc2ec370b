# SPDX-License-Identifier: ISC
"""Headers of webhooks: GitHub's example, tags over Python's `hmac`, the rule of Stripe's own
libraries (stripe-python's WebhookSignature.verify_header), what is near a right header, the ends of
64 bits, and what raises."""

import array
import hashlib
import hmac
import random
import unittest
from unittest import mock

import yezdopin
from shared import ROOT, SIGNING, Foreign
from yezdopin import webhook

EXAMPLES = ROOT / "vectors/tokens/github.txt"
SECRET, BODY = b"It's a Secret to Everybody", b"Hello, World!"
GITHUB = "sha256=757107ea0eb2509fc211221cce984b8a37570b6d7586c22c46f4379c8b043e17"
ENDPOINT, EVENT, NOW = b"whsec_a secret of the endpoint", b'{"id": "evt_1"}', 1_700_000_000
LAST = 2**64 - 1
NO_NUMBERS = (-1, -(2**64), 2**64, 2**200)
LENGTHS = [*range(70), 111, 112, 127, 128, 129, 2047, 2048, 2049, 65_536, 300_000]


def hex_tag(secret, body, name="sha256"):
    return hmac.new(secret, body, name).hexdigest()


def stripe_header(time, *, secret=ENDPOINT, body=EVENT, form="t={t},v1={v1}", **more):
    """A header with the tag of a time, a full stop and a body."""
    tag = hex_tag(secret, b"%d.%s" % (time, body))
    return form.format(t=time, v1=tag, upper=tag.upper(), cut=tag[:-1], other="0" * 64, **more)


def near(header):
    """What is near a header: each cut, each letter changed, and longer ones."""
    for at, letter in enumerate(header):
        yield header[:at]
        yield header[:at] + chr(ord(letter) ^ 1) + header[at + 1 :]
        yield header[:at] + header[at + 1 :]
        if letter.isalpha():
            yield header[:at] + letter.swapcase() + header[at + 1 :]
    for more in ("\0", " ", "0", "\n", ",", "\ud800", "é", header):
        yield header + more
        yield more + header
    yield from (header.upper(), header[::-1], header.title())


class Case(unittest.TestCase):
    def is_refused(self, status, reason, call, *given, **named):
        with self.assertRaisesRegex(yezdopin.Error, reason) as caught:
            call(*given, **named)
        self.assertEqual(caught.exception.status, status)


class Github(Case):
    def test_example(self):
        lines, seen = EXAMPLES.read_text().splitlines(), set()
        for line, answer in zip(lines, lines[1:]):
            if line.startswith("github "):
                secret, body, header = line.split(" ")[1:]
                given = bytes.fromhex(secret), bytes.fromhex(body), header
                self.assertIs(webhook.verify_github(*given), answer == "#= ok")
                seen.add(answer)
        self.assertEqual(seen, {"#= ok", "#= refused"})
        self.assertIs(webhook.verify_github(SECRET, BODY, GITHUB), True)

    def test_beside_hmac(self):
        rng = random.Random("github")
        for length in LENGTHS:
            secret, body = rng.randbytes(1 + rng.randrange(100)), rng.randbytes(length)
            header = f"sha256={hex_tag(secret, body)}"
            self.assertIs(webhook.verify_github(secret, body, header), True)
            for other in (
                (secret, body + b"\0", header), (secret + b"x", body, header),
                (secret, body, f"sha256={hex_tag(body, secret)}"),
                (secret, body, f"sha256={hashlib.sha256(body).hexdigest()}"),
                (secret, body, f"sha1={hex_tag(secret, body, 'sha1')}"),
                (secret, body, f"sha512={hex_tag(secret, body, 'sha512')}"),
            ):
                self.assertIs(webhook.verify_github(*other), False)

    def test_near(self):
        for header in near(GITHUB):
            self.assertIs(webhook.verify_github(SECRET, BODY, header), False, header)
        for at in range(len(BODY)):
            self.assertIs(webhook.verify_github(SECRET, BODY[:at], GITHUB), False)
        for at in range(len(SECRET)):
            self.assertIs(webhook.verify_github(SECRET[:at], BODY, GITHUB), False)
        self.assertIs(webhook.verify_github(BODY, SECRET, GITHUB), False)

    def test_missing(self):
        for header in (None, "", b"", "sha256=", GITHUB[7:]):
            self.assertIs(webhook.verify_github(SECRET, BODY, header), False)

    def test_empty_secret(self):
        """Under an empty secret everybody can sign."""
        header = f"sha256={hex_tag(b'', BODY)}"
        self.assertIs(webhook.verify_github(b"", BODY, header), False)
        self.assertIs(webhook.verify_hex("sha256", b"", BODY, header, "sha256="), False)
        one = f"sha256={hex_tag(b'1', BODY)}"
        self.assertIs(webhook.verify_github(b"1", BODY, one), True)

    def test_buffers(self):
        data = GITHUB.encode()
        for it in (GITHUB, data, bytearray(data), memoryview(data), array.array("B", data)):
            given = bytearray(SECRET), memoryview(BODY), it
            self.assertIs(webhook.verify_github(*given), True)
        self.assertIs(webhook.verify_github(secret=SECRET, body=BODY, header=GITHUB), True)
        for given in (
            (memoryview(SECRET)[::2], BODY, GITHUB), (SECRET, memoryview(BODY)[::2], GITHUB),
            (SECRET, BODY, memoryview(data)[::2]),
        ):
            self.assertRaises(BufferError, webhook.verify_github, *given)

    def test_types(self):
        for given in (
            ("text", BODY, GITHUB), (SECRET, "text", GITHUB), (SECRET, {"id": 1}, GITHUB),
            (None, BODY, GITHUB), (SECRET, None, GITHUB), (SECRET, BODY, 7),
            (SECRET, BODY, [GITHUB]), (SECRET, BODY), ("text", BODY, None), (SECRET, None, None),
        ):
            self.assertRaises(TypeError, webhook.verify_github, *given)


class Hex(Case):
    def test_beside_hmac(self):
        rng = random.Random("hex")
        for name in SIGNING:
            for length in LENGTHS[::3]:
                secret, body = rng.randbytes(1 + rng.randrange(200)), rng.randbytes(length)
                tag = hex_tag(secret, body, name)
                self.assertIs(webhook.verify_hex(name, secret, body, tag), True)
                for prefix in ("", f"{name}=", "v0=", "x" * 300, b"sig: ", "\0", "é"):
                    front = prefix.encode() if isinstance(prefix, str) else prefix
                    right = front + tag.encode()
                    self.assertIs(webhook.verify_hex(name, secret, body, right, prefix), True)
                    for other in (b"x" + right, right[1:], right + b"0", right[:-1], front + front):
                        answer = webhook.verify_hex(name, secret, body, other, prefix)
                        self.assertIs(answer, False)
                    other = webhook.verify_hex(name, secret, body, tag, prefix)
                    self.assertIs(other, prefix == "")

    def test_near(self):
        for name in SIGNING:
            header = "v1:" + hex_tag(SECRET, BODY, name)
            given = {"prefix": "v1:"}
            self.assertIs(webhook.verify_hex(name, SECRET, BODY, header, **given), True)
            for other in near(header):
                self.assertIs(webhook.verify_hex(name, SECRET, BODY, other, **given), False)
            self.assertIs(webhook.verify_hex(name, SECRET, BODY, None, **given), False)
            self.assertIs(webhook.verify_hex(name, SECRET, BODY, None), False)
            self.assertIs(webhook.verify_hex(name, SECRET, BODY, ""), False)
            self.assertIs(webhook.verify_hex(name, BODY, SECRET, header, **given), False)

    def test_hashes(self):
        for name in SIGNING:
            tag = hex_tag(SECRET, BODY, name)
            for kind in (name, name.upper(), getattr(hashlib, name), getattr(yezdopin, name)):
                self.assertIs(webhook.verify_hex(kind, SECRET, BODY, tag), True)
            for other in SIGNING:
                answer = webhook.verify_hex(other, SECRET, BODY, tag)
                self.assertIs(answer, other == name)
        for kind in ("md5", "", "sha512_256", yezdopin.sha512_256, hashlib.md5, Foreign):
            reason = "^unsupported hash type"
            self.is_refused(1, reason, webhook.verify_hex, kind, SECRET, BODY, GITHUB)
            self.is_refused(1, reason, webhook.verify_hex, kind, SECRET, BODY, None)

    def test_types(self):
        for given in (
            (None, SECRET, BODY, GITHUB), (7, SECRET, BODY, GITHUB), (b"sha256", SECRET, BODY, ""),
            ("sha256", "text", BODY, GITHUB), ("sha256", SECRET, "text", GITHUB),
            ("sha256", SECRET, BODY, 7), ("sha256", SECRET, BODY, GITHUB, None),
            ("sha256", SECRET, BODY, GITHUB, 7), ("sha256", SECRET, BODY),
        ):
            self.assertRaises(TypeError, webhook.verify_hex, *given)


# Forms of a header, and whether it is right: Stripe's libraries take the time behind the
# signatures too, and other ways to write it.
FORMS = {
    "t={t},v1={v1}": True, "t={t},v1={v1},v0={other}": True, "t={t},v0={other},v1={v1}": True,
    "t={t},v1={other},v1={v1}": True, "t={t},v1={v1},v1={v1}": True, "t={t},v1={v1},": True,
    "t={t},,v1={v1}": True, "t={t},t=1,v1={v1}": True, "t={t},v1={other}": False,
    "t={t},v0={v1}": False, "t={t},v1={cut}": False, "t={t},v1={upper}": False, "t={t}": False,
    "t={t},": False, "t={t},v1=": False, "v1={v1}": False, "v1={v1},t={t}": False, "": False,
    "t=,v1={v1}": False, "t=0{t},v1={v1}": False, "t=+{t},v1={v1}": False, "T={t},v1={v1}": False,
    "t= {t},v1={v1}": False, "t={t} ,v1={v1}": False, "t={t}, v1={v1}": False,
    "t={t},v1={v1} ": False, " t={t},v1={v1}": False, "t={t},v1={v1}0": False,
    "t={t},V1={v1}": False, "t={t};v1={v1}": False, "t={t}.0,v1={v1}": False, "{v1}": False,
    "t=-{t},v1={v1}": False, "t={t}\0,v1={v1}": False, "t={t},{v1}": False, "t={t},v1:{v1}": False,
}


class Stripe(Case):
    def verified(self, header, **named):
        return webhook.verify_stripe(ENDPOINT, EVENT, header, **{"now": NOW, **named})

    def test_forms(self):
        for form, is_right in FORMS.items():
            header = stripe_header(NOW, form=form)
            for kind in (header, header.encode(), bytearray(header.encode())):
                self.assertIs(self.verified(kind), is_right, header)
        self.assertIs(self.verified(None), False)

    def test_beside_hmac(self):
        rng = random.Random("stripe")
        for length in LENGTHS:
            secret, body = rng.randbytes(1 + rng.randrange(100)), rng.randbytes(length)
            time = rng.choice([0, 1, NOW, LAST])
            header = stripe_header(time, secret=secret, body=body)
            for other, is_right in (
                ((secret, body, header), True), ((body or b"x", secret, header), False),
                ((secret, body + b"x", header), False), ((secret + b"x", body, header), False),
                ((secret, b"%d.%s" % (time, body), header), False),
                ((secret, body, f"t={time},v1={hex_tag(secret, body)}"), False),
                ((secret, body, f"t={time},v1={hex_tag(secret, b'.' + body)}"), False),
            ):
                self.assertIs(webhook.verify_stripe(*other, now=time), is_right)

    def test_near(self):
        right = stripe_header(NOW)
        time, item = right.split(",")
        for header in near(right):
            # What stands beside the right item changes nothing.
            first, *items = header.split(",")
            self.assertIs(self.verified(header), first == time and item in items, header)

    def test_times(self):
        """A header is as old as the tolerance at most, and may be of later."""
        header = stripe_header(NOW)
        for after, tolerance, is_right in (
            (0, 300, True), (299, 300, True), (300, 300, True), (301, 300, False),
            (0, 0, True), (1, 0, False), (1, 1, True), (2, 1, False), (-1, 0, True),
            (-NOW, 0, True), (LAST - NOW, LAST, True), (LAST - NOW, LAST - NOW, True),
            (LAST - NOW, LAST - NOW - 1, False), (1000 * NOW, 300, False), (NOW, 300, False),
            (NOW, NOW - 1, False), (NOW, NOW, True),
        ):
            with self.subTest(after, tolerance=tolerance):
                named = {"now": NOW + after, "tolerance": tolerance}
                self.assertIs(self.verified(header, **named), is_right)
        for time in (0, 1, 9, 10, LAST - 300, LAST - 1, LAST):
            header = stripe_header(time)
            self.assertIs(self.verified(header, now=time), True)
            self.assertIs(self.verified(header, now=LAST, tolerance=LAST - time), True)
            if time < LAST:
                later = {"now": LAST, "tolerance": LAST - time - 1}
                self.assertIs(self.verified(header, **later), False)
        for time in (LAST + 1, 10 * LAST, 2**200):
            self.assertIs(self.verified(stripe_header(time)), False)

    def test_now(self):
        """It is the system's time in seconds, and the tolerance 300, where none is given."""
        header = stripe_header(NOW)
        for time, is_right in (
            (NOW, True), (NOW + 300.9, True), (NOW + 301, False), (NOW - 1000, True),
            (NOW * 1000, False),
        ):
            with mock.patch("time.time", return_value=time):
                self.assertIs(webhook.verify_stripe(ENDPOINT, EVENT, header), is_right)
                self.assertIs(webhook.verify_stripe(ENDPOINT, EVENT, header, now=None), is_right)
        self.assertIs(webhook.verify_stripe(ENDPOINT, EVENT, header), False)
        with mock.patch("time.time", return_value=NOW + 301):
            self.assertIs(webhook.verify_stripe(ENDPOINT, EVENT, header, tolerance=301), True)
            self.assertIs(webhook.verify_stripe(ENDPOINT, EVENT, header, now=NOW), True)
            self.assertIs(webhook.verify_stripe(ENDPOINT, EVENT, header, now=0), True)

    def test_empty_secret(self):
        header = stripe_header(NOW, secret=b"")
        self.assertIs(webhook.verify_stripe(b"", EVENT, header, now=NOW), False)
        header = stripe_header(NOW, secret=b"1")
        self.assertIs(webhook.verify_stripe(b"1", EVENT, header, now=NOW), True)

    def test_numbers(self):
        for wrong in NO_NUMBERS:
            for name in ("now", "tolerance"):
                reason = f"^{name} must be from 0 to 18446744073709551615$"
                with self.assertRaisesRegex(OverflowError, reason):
                    self.verified(stripe_header(NOW), **{name: wrong})

    def test_types(self):
        header = stripe_header(NOW)
        for call in (
            lambda: webhook.verify_stripe("whsec_text", EVENT, header),
            lambda: webhook.verify_stripe(ENDPOINT, EVENT.decode(), header),
            lambda: webhook.verify_stripe(ENDPOINT, None, header),
            lambda: webhook.verify_stripe(ENDPOINT, EVENT, 7),
            lambda: webhook.verify_stripe(ENDPOINT, EVENT),
            lambda: webhook.verify_stripe(ENDPOINT, EVENT, header, 300),
            lambda: self.verified(header, tolerance=None),
            lambda: self.verified(header, tolerance=300.0),
            lambda: self.verified(header, tolerance="300"),
            lambda: self.verified(header, now=float(NOW)),
            lambda: self.verified(header, now=str(NOW)),
        ):
            self.assertRaises(TypeError, call)


if __name__ == "__main__":
    unittest.main()
