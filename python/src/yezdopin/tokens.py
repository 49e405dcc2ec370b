# SPDX-License-Identifier: ISC
"""Signed tokens (JWS, RFC 7515, as JSON Web Tokens are made of them) and one-time passwords (HOTP,
RFC 4226; TOTP, RFC 6238), by the proved calls of libyezdopin.

    >>> from yezdopin import tokens
    >>> key = b"a key of thirty-two random bytes"
    >>> token = tokens.sign(b'{"sub":"alice"}', key)
    >>> tokens.verify(token, key)
    b'{"sub":"alice"}'
    >>> tokens.verify(token[:-1] + "A", key)
    Traceback (most recent call last):
    yezdopin._errors.Error: not a token that the key signed

A device and a server that share a secret:

    >>> secret = b"12345678901234567890"
    >>> otp = tokens.totp(secret, 59)
    >>> otp
    '287082'
    >>> tokens.find_totp(secret, otp, 59 + 30)
    1

Payloads are bytes. No call reads the claims in them: whether a token has expired is for the caller
to test, and for whom it was made. Algorithms are HS256, HS384 and HS512, and there is none by
public keys. The algorithm of a token is the caller's; one that the token names is compared with it.
"""

from __future__ import annotations

import time as _time
from typing import TYPE_CHECKING

from yezdopin import _native
from yezdopin._errors import Error as _Error
from yezdopin._hashes import native_hash as _native_hash
from yezdopin._texts import bytes_of as _bytes_of

if TYPE_CHECKING:
    from typing import Any as _Any
    from typing import Callable as _Callable

    from _typeshed import ReadableBuffer as _Buffer

    _Hash = str | _Callable[..., _Any]

_UNSPECIFIED = 8  # YZ_UNSPECIFIED
_MIN_KEY_LEN = 16  # RFC 4226, section 4

__all__ = ["find_hotp", "find_totp", "hotp", "sign", "totp", "verify"]


def _token_of(text: str | _Buffer) -> _Buffer:
    """A token that stays as it is: what is decoded is what was verified, whatever other threads
    write meanwhile."""
    return memoryview(text).tobytes() if not isinstance(text, (bytes, str)) else _bytes_of(text)


def _known(digest: _Hash) -> _Any:
    return _native_hash(digest) or digest


def _otp_key(key: _Buffer, allow_short_key: bool) -> _Buffer:
    """A key of one-time passwords, which is refused where it is short and nobody allows that, and
    always where it is empty, since everybody has that one."""
    length = memoryview(key).nbytes
    if length == 0 and allow_short_key:
        raise _Error(_UNSPECIFIED, "the key of one-time passwords is empty")
    if not allow_short_key and length < _MIN_KEY_LEN:
        reason = f"a key of one-time passwords has at least {_MIN_KEY_LEN} bytes"
        raise _Error(_UNSPECIFIED, f"{reason}, where allow_short_key is not set")
    return key


def _seconds(time: int | None) -> int:
    return int(_time.time()) if time is None else time


def sign(payload: _Buffer, key: _Buffer, algorithm: str = "HS256") -> str:
    """The token of a payload, under the header `{"alg":"HS256","typ":"JWT"}` or that of the
    algorithm (RFC 7515, section 5.1).

    `Error` is raised for another algorithm (status 1, `YZ_UNKNOWN_ALGORITHM`), and for a key that
    is shorter than a digest of it: 32, 48 or 64 bytes (status 8, `YZ_UNSPECIFIED`).
    """
    return _native.tokens_sign(payload, key, algorithm)


def verify(token: str | _Buffer, key: _Buffer, algorithm: str = "HS256") -> bytes:
    """The payload of a token that the key signed (RFC 7515, section 5.2).

    `Error` is raised for any other text (status 8, `YZ_UNSPECIFIED`), and for a key and an
    algorithm as `sign` does. The header of a token is `{"alg":"HS256","typ":"JWT"}`,
    `{"typ":"JWT","alg":"HS256"}` or `{"alg":"HS256"}`, letter by letter, with the name of the
    algorithm, as most systems write it. It is read only once the signature is right.
    """
    return _native.tokens_verify(_token_of(token), key, algorithm)


def hotp(
    key: _Buffer,
    counter: int,
    *,
    digits: int = 6,
    digest: _Hash = "sha1",
    allow_short_key: bool = False,
) -> str:
    """The one-time password of a counter (RFC 4226, section 5.3).

    The hash is a name, or a constructor of `yezdopin` or `hashlib`. `Error` is raised for another
    one (status 1, `YZ_UNKNOWN_ALGORITHM`), for other than 6 to 8 digits (status 4,
    `YZ_WRONG_LENGTH`), and for a key of less than 16 bytes (RFC 4226, section 4; status 8,
    `YZ_UNSPECIFIED`) unless `allow_short_key` is true and it has one at least; `OverflowError` for
    a counter that has not 64 bits.
    """
    return _native.tokens_hotp(_otp_key(key, allow_short_key), counter, digits, _known(digest))


def totp(
    key: _Buffer,
    time: int | None = None,
    *,
    digits: int = 6,
    digest: _Hash = "sha1",
    interval: int = 30,
    allow_short_key: bool = False,
) -> str:
    """The one-time password of a time in seconds since 1970, which is now where it is None (RFC
    6238, section 4.2).

    As `hotp`, and `Error` is raised for an interval of 0 seconds too (status 8, `YZ_UNSPECIFIED`),
    and `OverflowError` for one of more than 32 bits.
    """
    known = _known(digest)
    return _native.tokens_totp(
        _otp_key(key, allow_short_key), _seconds(time), digits, known, interval
    )


def find_hotp(
    key: _Buffer,
    otp: str | _Buffer,
    first: int,
    count: int,
    *,
    digits: int = 6,
    digest: _Hash = "sha1",
    allow_short_key: bool = False,
) -> int | None:
    """The first of `count` counters from `first` on whose one-time password this is, with each of
    its digits, or None (RFC 4226, section 7.4). None is above 2**64 - 1.

    A password is for one use: keep the counter, and refuse one that is not above the last. 0 is a
    counter too: test that it `is not None`. `count` bounds the time of a search, and `hotp` says
    what is raised.
    """
    known = _known(digest)
    return _native.tokens_find_hotp(
        _otp_key(key, allow_short_key), _bytes_of(otp), first, count, digits, known
    )


def find_totp(
    key: _Buffer,
    otp: str | _Buffer,
    time: int | None = None,
    *,
    back: int = 1,
    ahead: int = 1,
    digits: int = 6,
    digest: _Hash = "sha1",
    interval: int = 30,
    allow_short_key: bool = False,
) -> int | None:
    """The first step whose one-time password this is, or None: of a time in seconds since 1970,
    which is now where it is None, `back` steps before it and `ahead` after it (RFC 6238, section
    5.2). A step is its number since 1970.

    As `find_hotp`, and `totp` says what else is raised.
    """
    seconds, known = _seconds(time), _known(digest)
    return _native.tokens_find_totp(
        _otp_key(key, allow_short_key), _bytes_of(otp), seconds, back, ahead, digits, known,
        interval,
    )
