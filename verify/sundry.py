# SPDX-License-Identifier: ISC
"""What each public function has to do that runs no block function, and what asks the processor."""

import pathlib
import re

import terms
from calls import content, room, same, unknown_bytes
from functions import one_end, source
from machine import Pointer, Refused, offset_of
from standards import ALGORITHMS, plain
from merkle_trees import assumed

HEADER = pathlib.Path(__file__).resolve().parent.parent / "c/include/yezdopin.h"
TEXTS = ["success", "the number names no algorithm or scheme of this call",
         "the bytes can be no context or key", "the number of iterations is 0",
         "the output or a text has a wrong length", "no password hash has the text",
         "the text has more iterations than the caller takes",
         "a new password hash can't have the salt",
         "an input is out of its limits, or the verification failed"]


def version():
    """YZ_VERSION of the header: 16 bits, 8 and 8."""
    major, minor, patch = (int(re.search(rf"#define YZ_VERSION_{it} (\d+)", HEADER.read_text())[1])
                           for it in ("MAJOR", "MINOR", "PATCH"))
    return major << 16 | minor << 8 | patch


def numbers(calls, number):
    """yz_version and yz_features; and the lengths of an algorithm, or of none."""
    it = ALGORITHMS.get(number)
    for name, arguments, expected in [
            ("yz_version", (), version()), ("yz_features", (), calls.features),
            ("yz_output_len", (number,), it.output_len if it else 0),
            ("yz_block_len", (number,), it.block_len if it else 0)]:
        found = calls.status(name, *arguments)
        if found != expected:
            raise Refused(f"{name} answers {found}, not {expected}")


def status_text(calls, number):
    """The text of a status of the header."""
    end = one_end(calls.call("yz_status_text", number))
    pointer = end.registers[end.program.result]
    if not isinstance(pointer, Pointer) or pointer.region != "image":
        raise Refused("yz_status_text gives no text of the library")
    text = TEXTS[number] if number < len(TEXTS) else "unknown status"
    found = bytes(calls.library.constant(offset_of(pointer) + i) for i in range(len(text) + 1))
    if found != text.encode() + b"\0":
        raise Refused(f"yz_status_text gives {found}")


def equal(calls, _, a, b):
    """Whether both are equal, by one path: which bytes differ isn't told."""
    end = one_end(calls.call("yz_equal", *source("a", a), *source("b", b)))
    pairs = zip(unknown_bytes("a", a), unknown_bytes("b", b))
    expected = terms.is_zero(terms.joined(terms.xor_words(*it) for it in pairs)) if a == b else 0
    if end.registers[end.program.result][:8] != (expected,) + (0,) * 7:
        raise Refused("yz_equal answers by something else than equality")


def clear(calls, _, length):
    out = room("bytes", length)
    same("the bytes", content(one_end(calls.call("yz_clear", out, (length,))), out),
         plain(bytes(length)))
