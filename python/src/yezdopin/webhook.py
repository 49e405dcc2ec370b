# SPDX-License-Identifier: ISC
"""The headers with which GitHub, Stripe and others sign what they send to a webhook, by the proved
calls of libyezdopin.

    >>> from yezdopin import webhook
    >>> secret, body = b"It's a Secret to Everybody", b"Hello, World!"
    >>> header = "sha256=757107ea0eb2509fc211221cce984b8a37570b6d7586c22c46f4379c8b043e17"
    >>> webhook.verify_github(secret, body, header)
    True
    >>> webhook.verify_github(secret, b"Hello, world!", header)
    False

A body is the bytes of the request, before anything reads them as JSON. A header is text or bytes,
and None where the request has none: a verification answers False then, as it does for any other
header that is not the body's, and for an empty secret, under which everybody can sign.
"""

from __future__ import annotations

import time as _time
from typing import TYPE_CHECKING

from yezdopin import _native
from yezdopin._hashes import native_hash as _native_hash
from yezdopin._texts import bytes_of as _bytes_of

if TYPE_CHECKING:
    from typing import Any as _Any
    from typing import Callable as _Callable

    from _typeshed import ReadableBuffer as _Buffer

__all__ = ["verify_github", "verify_hex", "verify_stripe"]


def _header_of(header: str | _Buffer | None) -> _Buffer:
    """The bytes of a header. One that is missing is an empty one, which no tag has."""
    return b"" if header is None else _bytes_of(header)


def verify_hex(
    algorithm: str | _Callable[..., _Any],
    secret: _Buffer,
    body: _Buffer,
    header: str | _Buffer | None,
    prefix: str | _Buffer = "",
) -> bool:
    """Whether the header is `prefix` and behind it the tag of the body (HMAC, RFC 2104) in hex
    digits, in lower case.

    The hash is a name, or a constructor of `yezdopin` or `hashlib`. `Error` is raised for another
    one (status 1, `YZ_UNKNOWN_ALGORITHM`).
    """
    known = _native_hash(algorithm) or algorithm
    return _native.webhook_verify_hex(
        known, secret, body, _header_of(header), _bytes_of(prefix)
    )


def verify_github(secret: _Buffer, body: _Buffer, header: str | _Buffer | None) -> bool:
    """Whether the header is what GitHub sends as `X-Hub-Signature-256` with the body: `sha256=` and
    the body's tag by SHA-256 in hex digits."""
    return _native.webhook_verify_github(secret, body, _header_of(header))


def verify_stripe(
    secret: _Buffer,
    body: _Buffer,
    header: str | _Buffer | None,
    *,
    tolerance: int = 300,
    now: int | None = None,
) -> bool:
    """Whether the header is what Stripe sends as `Stripe-Signature` with the body, signed no more
    than `tolerance` seconds before `now`, which is the time in seconds since 1970, and now where it
    is None. The secret is the endpoint's, with its `whsec_`.

    A header may be sent again within the tolerance: keep the ids of events. `OverflowError` is
    raised for a number that has not 64 bits.
    """
    seconds = int(_time.time()) if now is None else now
    return _native.webhook_verify_stripe(secret, body, _header_of(header), tolerance, seconds)
