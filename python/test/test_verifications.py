# SPDX-License-Identifier: ISC
"""The table of tests/verifications, the file VERIFICATIONS: each call in all ways that the package
has for it, over bytes of several kinds, beside the answer below the call."""

import collections
import os
import re
import unittest

import yezdopin
from yezdopin import hmac as tags
from yezdopin import merkle, password_hash, tls13, tokens, webhook

EDIT = re.compile(r"@(v\d+)(?:=(\d+):(..)|<(\d+)|>(\d+)|\+(\w+))?")
KINDS = (bytes, bytearray, memoryview)


class Fields:
    """The bytes of fields, over those that lines name."""

    def __init__(self):
        self.values = {"-": b""}

    def name(self, name, digits):
        self.values[name] = bytes.fromhex(digits)

    def __call__(self, field):
        if not field.startswith("@"):
            return self.values.get(field) or bytes.fromhex(field.strip("-"))
        name, at, byte, first, last, more = EDIT.fullmatch(field).groups()
        value = self.values[name]
        if at:
            return value[: int(at)] + bytes.fromhex(byte) + value[int(at) + 1 :]
        if first or last:
            return value[: int(first)] if first else value[int(last) :]
        return value + bytes.fromhex(more or "")


def agreed(*answers):
    """The answer on which all ways of a call agree."""
    if len(set(map(repr, answers))) != 1:
        raise AssertionError(f"the ways of one call differ: {answers}")
    return answers[0]


def refused_or(call, *words, **settings):
    """What a call answers, or None where it is refused by the package's error."""
    try:
        return call(*words, **settings)
    except yezdopin.Error:
        return None


def shown(answer):
    """The answer as the table has it: whether a call accepts, or what it finds."""
    return "match" if answer is True else "mismatch" if answer in (False, None) else answer


def row(hashes):
    return [hashes[at : at + 32] for at in range(0, len(hashes), 32)]


class Calls:
    """Each verification by its word. A kind makes of bytes what calls are given."""

    def __init__(self, of):
        self.of, self.keys = of, {}

    def key(self, name, value):
        if (name, value) not in self.keys:
            self.keys[name, value] = tags.Key(value, name)
        return self.keys[name, value]

    def hmac_verify(self, kind, name, key, message, tag):
        name, key, message, tag = name.lower(), self.of(key), self.of(message), self.of(tag)
        running = tags.new(kind(key), kind(message[: len(message) // 3]), name)
        running.update(kind(message[len(message) // 3 :]))
        return agreed(
            tags.verify(kind(key), kind(message), kind(tag), name),
            self.key(name, key).verify(kind(message), kind(tag)),
            tags.compare_digest(running.digest(), kind(tag)),
        )

    def pbkdf2_verify(self, kind, name, iterations, secret, salt, value):
        return yezdopin.pbkdf2_hmac_verify(
            name.lower(), kind(self.of(secret)), kind(self.of(salt)), int(iterations),
            kind(self.of(value)),
        )

    def jws_verify(self, kind, alg, key, token):
        key, token = kind(self.of(key)), self.of(token)
        of_bytes = refused_or(tokens.verify, kind(token), key, alg)
        if not token.isascii():
            return of_bytes
        return agreed(of_bytes, refused_or(tokens.verify, token.decode(), key, alg))

    def hotp_find(self, kind, name, key, first, count, digits, text):
        found = tokens.find_hotp(
            kind(self.of(key)), kind(self.of(text)), int(first), int(count), digits=int(digits),
            digest=name.lower(), allow_short_key=True,
        )
        return None if found is None else str(found)

    def totp_find(self, kind, name, key, time, step, back, ahead, digits, text):
        found = tokens.find_totp(
            kind(self.of(key)), kind(self.of(text)), int(time), back=int(back), ahead=int(ahead),
            digits=int(digits), digest=name.lower(), interval=int(step), allow_short_key=True,
        )
        return None if found is None else str(found)

    def merkle_inclusion(self, kind, hashed, index, size, path, root):
        path = list(map(kind, row(self.of(path))))
        return merkle.verify_inclusion(
            kind(self.of(hashed)), int(index), int(size), path, kind(self.of(root))
        )

    def merkle_consistency(self, kind, first_size, first, second_size, second, path):
        return merkle.verify_consistency(
            int(first_size), kind(self.of(first)), int(second_size), kind(self.of(second)),
            map(kind, row(self.of(path))),
        )

    def password_verify(self, kind, text, password, most):
        text, password = self.of(text), self.of(password)
        return refused_or(
            password_hash.verify, kind(text), kind(password), max_iterations=int(most)
        )

    def webhook_hex(self, kind, name, prefix, secret, body, header):
        name, prefix, header = name.lower(), self.of(prefix), self.of(header)
        given = name, kind(self.of(secret)), kind(self.of(body))
        answer = webhook.verify_hex(*given, kind(header), kind(prefix))
        if not (prefix.isascii() and header.isascii()):
            return answer
        return agreed(answer, webhook.verify_hex(*given, header.decode(), prefix.decode()))

    def webhook_github(self, kind, secret, body, header):
        return self.verified(webhook.verify_github, kind, secret, body, header)

    def webhook_stripe(self, kind, secret, body, header, now, tolerance):
        named = {"now": int(now), "tolerance": int(tolerance)}
        return self.verified(webhook.verify_stripe, kind, secret, body, header, **named)

    def verified(self, call, kind, secret, body, header, **named):
        given, header = (kind(self.of(secret)), kind(self.of(body))), self.of(header)
        answer = call(*given, kind(header), **named)
        if not header.isascii():
            return answer
        return agreed(answer, call(*given, header.decode(), **named))

    def tls13_finished(self, kind, name, base_key, transcript, data):
        given = name.lower(), kind(self.of(base_key)), kind(self.of(transcript))
        made = refused_or(tls13.finished, *given)
        return agreed(
            refused_or(tls13.verify_finished, *given, kind(self.of(data))),
            made if made is None else tags.compare_digest(made, kind(self.of(data))),
        )

    def equal(self, kind, a, b):
        a, b = self.of(a), self.of(b)
        answer = tags.compare_digest(kind(a), b)
        if not (a.isascii() and b.isascii()):
            return answer
        return agreed(answer, tags.compare_digest(a.decode(), b.decode()))


METHODS = {
    "hmac-verify": Calls.hmac_verify,
    "pbkdf2-verify": Calls.pbkdf2_verify,
    "jws-verify": Calls.jws_verify,
    "hotp-find": Calls.hotp_find,
    "totp-find": Calls.totp_find,
    "merkle-inclusion": Calls.merkle_inclusion,
    "merkle-inclusion-of-other-lengths": Calls.merkle_inclusion,
    "merkle-consistency": Calls.merkle_consistency,
    "merkle-consistency-of-other-lengths": Calls.merkle_consistency,
    "password-verify": Calls.password_verify,
    "webhook-hex": Calls.webhook_hex,
    "webhook-github": Calls.webhook_github,
    "webhook-stripe": Calls.webhook_stripe,
    "tls13-finished": Calls.tls13_finished,
    "equal": Calls.equal,
}


@unittest.skipUnless("VERIFICATIONS" in os.environ, "make python has the table")
class Verifications(unittest.TestCase):
    def test_table(self):
        """Each call of the table is answered as it must be."""
        of, wrong, counted, words = Fields(), [], collections.Counter(), []
        calls = Calls(of)
        with open(os.environ["VERIFICATIONS"], encoding="ascii") as lines:
            for line in lines:
                if not line.startswith("#= "):
                    words = line.split()
                    if words[0] == "let":
                        of.name(*words[1:])
                    continue
                wanted = line[3:].rstrip("\n")
                counted[words[0]] += 1
                kind = KINDS[sum(counted.values()) % len(KINDS)]
                got = METHODS[words[0]](calls, kind, *words[1:])
                is_right = got == of(wanted) if isinstance(got, bytes) and wanted != "mismatch" \
                    else shown(got) == wanted
                if not is_right:
                    wrong.append(f"{' '.join(words)[:400]}: {got!r}, not {wanted[:100]}")
        self.assertEqual((len(wrong), wrong[:5]), (0, []))
        self.assertEqual(set(counted), set(METHODS))


if __name__ == "__main__":
    unittest.main()
