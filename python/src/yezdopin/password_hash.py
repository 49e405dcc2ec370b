# SPDX-License-Identifier: ISC
"""Password hashes by PBKDF2 as other systems keep them, by the proved calls of libyezdopin.

    >>> from yezdopin import password_hash
    >>> kept = "pbkdf2_sha1$1000$kXq0Wz3vT9bYh2LrE8mNpA$2U/l/68EaoUIrkh0GedCmjQYvmg="
    >>> password_hash.verify(kept, b"correct horse battery staple", max_iterations=2_000_000)
    True
    >>> password_hash.verify(kept, b"another", max_iterations=2_000_000)
    False
    >>> password_hash.info(kept)
    Info(scheme='django-sha1', iterations=1000)
    >>> password_hash.is_supported("$2b$12$R9h/cIPz0gi.URNNX3kh2OPST9/PgBkqquzi.Ss7KIUgO2t0jWMUW")
    False
    >>> password_hash.new(
    ...     "django-sha1", b"correct horse battery staple",
    ...     iterations=1000, salt=b"kXq0Wz3vT9bYh2LrE8mNpA") == kept
    True

The texts are those of Django, Werkzeug, RustCrypto's PHC strings, Mosquitto, passlib and
PostgreSQL. PostgreSQL prepares a password that is not ASCII by SASLprep (RFC 4013), and keeps one
that SASLprep prohibits as it is: so do `new` and `verify` for its texts.
"""

from __future__ import annotations

import os
import typing
from typing import TYPE_CHECKING

from yezdopin import _native
from yezdopin._errors import Error, TooManyIterations, UnknownScheme
from yezdopin._saslprep import prepared as _prepared
from yezdopin._texts import bytes_of as _bytes_of

if TYPE_CHECKING:
    from _typeshed import ReadableBuffer as _Buffer

__all__ = ["SCHEMES", "Info", "TooManyIterations", "UnknownScheme", "info", "is_supported", "new",
           "verify"]

SCHEMES = (
    # schemes: made by tools/lists.py
    "django-sha256", "django-sha1", "werkzeug-sha256", "werkzeug-sha512", "phc-sha256",
    "phc-sha512", "mosquitto", "passlib-sha1", "passlib-sha256", "passlib-sha512", "postgresql",
    "werkzeug-sha1",
    # /schemes
)
"""The schemes of texts, as `new` takes them and `info` tells them."""


class Info(typing.NamedTuple):
    """What `info` tells of a text."""

    scheme: str
    iterations: int


def _password_for(scheme: str, password: _Buffer) -> _Buffer:
    """The bytes that the scheme's system derives from."""
    return _prepared(memoryview(password).tobytes()) if scheme == "postgresql" else password


def _scheme_of(text: str | _Buffer) -> str:
    """The scheme of a text, or none where the text is refused."""
    try:
        return info(text).scheme
    except Error:
        return ""


def info(text: str | _Buffer) -> Info:
    """Of which scheme this text is, one of `SCHEMES`, and how many iterations it names.

    It derives nothing. `Error` is raised where the text has more than 1024 bytes (status 4,
    `YZ_WRONG_LENGTH`), and `UnknownScheme` where no hash has it (status 5, `YZ_BAD_FORMAT`).
    """
    return Info(*_native.password_hash_info(_bytes_of(text)))


def is_supported(text: str | _Buffer) -> bool:
    """Whether the text is a hash of one of `SCHEMES`, so that `info` tells its scheme, and `verify`
    takes it where its iterations are within the limit."""
    return _scheme_of(text) != ""


def new(scheme: str, password: _Buffer, *, iterations: int, salt: _Buffer | None = None) -> str:
    """The text of the hash of a password, of one of `SCHEMES`, which `verify` takes.

    A salt is made of `os.urandom` where none is given; a given one should be random, and of this
    hash alone. How many iterations a system takes changes each year, so there is no default.
    `ValueError` is raised for another scheme and for a text that is not UTF-8, as its salt may make
    it, and `Error` for no iterations (status 3, `YZ_NO_ITERATIONS`), where the text would have more
    than 1024 bytes (status 4, `YZ_WRONG_LENGTH`), and for an empty salt and for one with a dollar
    sign where the scheme writes it as it is, as those of Django and Werkzeug do (status 7,
    `YZ_BAD_SALT`). `OverflowError` is raised for more than 2**32 - 1 iterations, which no text
    names.
    """
    if salt is None:
        salt = _native.password_hash_salt(scheme, os.urandom(16))
    return _native.password_hash_new(scheme, _password_for(scheme, password), salt, iterations)


def verify(text: str | _Buffer, password: _Buffer, *, max_iterations: int) -> bool:
    """Whether the hash of this text is the password's.

    `Error` is raised for a limit below 1 (status 3, `YZ_NO_ITERATIONS`) and where the text has more
    than 1024 bytes (status 4, `YZ_WRONG_LENGTH`), `UnknownScheme` where no hash has it (status 5,
    `YZ_BAD_FORMAT`), and `TooManyIterations` where it names more than `max_iterations`, before
    anything is derived (status 6, `YZ_TOO_MANY_ITERATIONS`). Whoever wrote the text chose its
    iterations, and so the time of a test: the limit is the caller's. A text names at most
    2**32 - 1 iterations, so that this limit and any above it, such as 10**10, refuse none.
    """
    text = _bytes_of(text)
    password = _password_for(_scheme_of(text), password)
    return _native.password_hash_verify(text, password, max_iterations)
