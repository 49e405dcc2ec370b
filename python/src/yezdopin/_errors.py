# SPDX-License-Identifier: ISC
"""The exceptions for what the library refuses."""

from __future__ import annotations

import enum

__all__ = ["Error", "Status", "TooManyIterations", "UnknownScheme"]


class Status(enum.IntEnum):
    """Why the library refuses a call: its numbers, by the names that C's have behind `YZ_`."""

    # statuses: made by tools/lists.py
    UNKNOWN_ALGORITHM = 1
    UNKNOWN_CONTEXT = 2
    NO_ITERATIONS = 3
    WRONG_LENGTH = 4
    BAD_FORMAT = 5
    TOO_MANY_ITERATIONS = 6
    BAD_SALT = 7
    UNSPECIFIED = 8
    # /statuses


_REASONS: dict[int, str] = {
    # texts: made by tools/lists.py
    Status.UNKNOWN_ALGORITHM: "the number names no algorithm or scheme of this call",
    Status.UNKNOWN_CONTEXT: "the bytes can be no context or key",
    Status.NO_ITERATIONS: "the number of iterations is 0",
    Status.WRONG_LENGTH: "the output or a text has a wrong length",
    Status.BAD_FORMAT: "no password hash has the text",
    Status.TOO_MANY_ITERATIONS: "the text has more iterations than the caller takes",
    Status.BAD_SALT: "a new password hash can't have the salt",
    Status.UNSPECIFIED: "an input is out of its limits, or the verification failed",
    # /texts
}


class Error(ValueError):
    """A call was refused. `status` is the library's number for the reason."""

    def __init__(self, status: int, reason: str = "") -> None:
        super().__init__(status, reason or _REASONS.get(status, f"status {status}"))
        self.status = Status(status)

    def __str__(self) -> str:
        return str(self.args[1])


class UnknownScheme(Error):
    """No scheme of password hashes has this text (`Status.BAD_FORMAT`)."""


class TooManyIterations(Error):
    """The text of a password hash names more iterations than the caller's limit
    (`Status.TOO_MANY_ITERATIONS`)."""


_CLASSES = {Status.BAD_FORMAT: UnknownScheme, Status.TOO_MANY_ITERATIONS: TooManyIterations}


def refusal(status: int, reason: str = "") -> Error:
    """The exception for a status, which the extension raises."""
    return _CLASSES.get(Status(status), Error)(status, reason)
