# SPDX-License-Identifier: ISC
"""The Finished messages and PSK binders of TLS 1.3 (RFC 8446, 4.4.4 and 4.2.11.2), by the proved
calls of libyezdopin.

    >>> import hashlib
    >>> from yezdopin import tls13
    >>> key = tls13.binder_key("sha256", b"a key that both have", is_external=True)
    >>> client_hello = b"up to the binders"
    >>> binder = tls13.finished("sha256", key, hashlib.sha256(client_hello).digest())
    >>> tls13.verify_finished("sha256", key, hashlib.sha256(client_hello).digest(), binder)
    True

A base key is a traffic secret, or for a binder the binder key. The hash of the transcript is that
of the messages before the Finished, and for a binder that of the ClientHello up to the binders.
"""

from __future__ import annotations

from typing import TYPE_CHECKING

from yezdopin import _native

if TYPE_CHECKING:
    from _typeshed import ReadableBuffer as _Buffer

__all__ = ["binder_key", "finished", "verify_finished"]


def finished(hash_name: str, base_key: _Buffer, transcript_hash: _Buffer) -> bytes:
    """The verify_data of a Finished, or a binder (RFC 8446, 4.4.4).

    `Error` is raised for a hash without HMAC (status 1, `YZ_UNKNOWN_ALGORITHM`), and where the base
    key or the hash of the transcript has not as many bytes as a digest (status 4,
    `YZ_WRONG_LENGTH`).
    """
    return _native.tls13_finished(hash_name, base_key, transcript_hash)


def verify_finished(
    hash_name: str, base_key: _Buffer, transcript_hash: _Buffer, verify_data: _Buffer
) -> bool:
    """Whether the other party's `verify_data` is what `finished` gives.

    `finished` says what is raised. A `verify_data` of another length is False.
    """
    return _native.tls13_verify_finished(hash_name, base_key, transcript_hash, verify_data)


def binder_key(hash_name: str, psk: _Buffer, *, is_external: bool) -> bytes:
    """The base key of the binders of a PSK (RFC 8446, 7.1), which is external where the parties
    have it from elsewhere, and else of a ticket.

    `Error` is raised for a hash as `finished` does, and for an empty PSK (status 8,
    `YZ_UNSPECIFIED`).
    """
    return _native.tls13_binder_key(hash_name, psk, is_external)
