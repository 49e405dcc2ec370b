# SPDX-License-Identifier: ISC
"""Headers of webhooks, GitHub's, Stripe's and others', and what each public function has to do at
some lengths. A header is no secret. Secret and body are open, and the tag in the header is of ones
alone, as a password hash in hex is."""

from calls import unknown_bytes
from functions import UNKNOWN_ALGORITHM, UNSPECIFIED, answers, refuses, source
from standards import ALGORITHMS, hmac, plain
from texts import text_region

TIME = 1492774577


def text(name, data):
    """Two arguments: a text that is fixed."""
    return text_region(name, plain(data)), (len(data),)


def given_tag(it):
    return b"\xff" * it.output_len


def webhook_verify(calls, number, secret, body, prefix=b"sha256="):
    """YZ_OK exactly where the tag in the header is the body's."""
    it = ALGORITHMS[number]
    tag, key = given_tag(it), unknown_bytes("secret", secret)
    header, inputs = text("header", prefix + tag.hex().encode()), source("secret", secret)
    right = hmac(calls.block, it, key, unknown_bytes("body", body))
    answers(calls, plain(tag), right, "yz_webhook_verify_hex", number, *inputs,
            *text("prefix", prefix), *source("body", body), *header)
    if number == 2 and prefix == b"sha256=":
        answers(calls, plain(tag), right, "yz_webhook_verify_github", *inputs,
                *source("body", body), *header)


def webhook_verify_stripe(calls, number, secret, body, now, tolerance, count=1):
    """The same of a time, a full stop and the body, unless the time is too old. The tag is there so
    many times."""
    it = ALGORITHMS[number]
    tag, signed = given_tag(it), plain(b"%d." % TIME) + unknown_bytes("body", body)
    right = hmac(calls.block, it, unknown_bytes("secret", secret), signed)
    items = b",v1=" + tag.hex().encode()
    name, arguments = "yz_webhook_verify_stripe", (
        *source("secret", secret), *source("body", body),
        *text("header", b"t=%d" % TIME + count * items), (now,), (tolerance,))
    if now > TIME + tolerance:
        refuses(calls, UNSPECIFIED, name, *arguments)
    else:
        answers(calls, plain(tag), right, name, *arguments)


def webhook_refused(calls, number):
    """An empty secret, an algorithm that is none, and headers of Stripe's that have no time."""
    is_known = number in ALGORITHMS and number != 5
    header, body, prefix = text("header", b"x" * 71), source("body", 10), text("prefix", b"sha256=")
    refuses(calls, UNSPECIFIED if is_known else UNKNOWN_ALGORITHM, "yz_webhook_verify_hex", number,
            *source("secret", 0), *prefix, *body, *header)
    if not is_known:
        refuses(calls, UNKNOWN_ALGORITHM, "yz_webhook_verify_hex", number, *source("secret", 10),
                *prefix, *body, *header)
    if number != 2:
        return
    refuses(calls, UNSPECIFIED, "yz_webhook_verify_github", *source("secret", 0), *body, *header)
    for of in (b"", b"t", b"t=", b"t=,", b"t=7", b"t=07,", b"t=+7,", b"t=18446744073709551616,",
               b"v1=00,t=7,"):
        refuses(calls, UNSPECIFIED, "yz_webhook_verify_stripe", *source("secret", 10), *body,
                *text("header", of), (7,), (0,))
    refuses(calls, UNSPECIFIED, "yz_webhook_verify_stripe", *source("secret", 0), *body,
            *text("header", b"t=7,"), (7,), (0,))
