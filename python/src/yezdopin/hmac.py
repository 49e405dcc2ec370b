# SPDX-License-Identifier: ISC
"""Tags (HMAC, RFC 2104) in the shape of `hmac`, by the proved calls of libyezdopin.

    >>> from yezdopin import hmac
    >>> tag = hmac.new(b"Jefe", b"what do ya want for nothing?", "sha256").hexdigest()
    >>> tag[:8]
    '5bdcc146'
    >>> key = hmac.Key(b"Jefe", "sha256")
    >>> key.verify(b"what do ya want for nothing?", bytes.fromhex(tag))
    True

The hash is a name, or a constructor of `yezdopin` or `hashlib`, and the library makes the tag. Of
any other constructor, or module with `new`, it is made here, over objects of that hash.
"""

from __future__ import annotations

import warnings
from typing import TYPE_CHECKING, Any, Callable

from yezdopin import _native
from yezdopin._hashes import native_hash as _native_hash
from yezdopin._native import compare_digest

if TYPE_CHECKING:
    from _typeshed import ReadableBuffer as _Buffer

__all__ = [
    "HMAC",
    "Key",
    "compare_digest",
    "digest",
    "digest_size",
    "new",
    "trans_36",
    "trans_5C",
    "verify",
]

# As in `hmac`: each byte exclusive or that of the inner and of the outer pad, and no size, which is
# the hash's.
trans_36 = bytes(byte ^ 0x36 for byte in range(256))
trans_5C = bytes(byte ^ 0x5C for byte in range(256))
digest_size = None

_LEAST_BLOCK = 16


def _constructor(digestmod: Any) -> Callable[..., Any]:
    """A constructor of digests for a name, a constructor or a module."""
    if callable(digestmod):
        return digestmod  # type: ignore[no-any-return]
    if isinstance(digestmod, str):
        return lambda data=b"": _native.new(digestmod, data)
    return digestmod.new  # type: ignore[no-any-return]


class Key(_native.Key):
    """A key, whose two blocks are run once for all tags under it. Threads may share it."""

    __slots__ = ()

    def __new__(cls, key: _Buffer, digestmod: Any) -> Key:
        known = _native_hash(digestmod)
        return super().__new__(cls, key, digestmod if known is None else known)

    def new(self, msg: _Buffer | None = None) -> HMAC:
        """The tag of a message in pieces."""
        made = HMAC.__new__(HMAC)
        made._hold(self._begin(msg))
        return made


class HMAC:
    """The tag of a message in pieces, as `hmac.HMAC`."""

    __slots__ = ("_hmac", "_inner", "_outer", "block_size", "digest_size")

    blocksize = 64  # where another hash doesn't say its own

    _hmac: _native.Tag | None
    _inner: Any
    _outer: Any
    block_size: int
    digest_size: int

    def __init__(
        self, key: _Buffer, msg: _Buffer | None = None, digestmod: Any = ""
    ) -> None:
        if not digestmod:
            raise TypeError("missing required argument 'digestmod'")
        known = _native_hash(digestmod)
        if known is None:
            self._init_old(key, msg, digestmod)
        else:
            self._init_hmac(key, msg, known)

    def _init_hmac(self, key: _Buffer, msg: _Buffer | None, digestmod: Any) -> None:
        self._hold(_native.hmac_new(key, msg, digestmod))

    def _hold(self, tag: _native.Tag) -> None:
        """Stores a tag of the library."""
        self._hmac, self._inner, self._outer = tag, None, None
        self.digest_size = tag.digest_size
        self.block_size = tag.block_size

    def _init_old(self, key: _Buffer, msg: _Buffer | None, digestmod: Any) -> None:
        """RFC 2104 over objects of any hash."""
        begin = _constructor(digestmod)
        self._hmac, self._inner, self._outer = None, begin(), begin()
        self.digest_size = self._inner.digest_size
        self.block_size = self._block_size()
        block = bytes(memoryview(key))
        if len(block) > self.block_size:
            block = begin(block).digest()
        block = block.ljust(self.block_size, b"\0")
        self._inner.update(block.translate(trans_36))
        self._outer.update(block.translate(trans_5C))
        if msg is not None:
            self._inner.update(msg)

    def _block_size(self) -> int:
        """The hash's block length, or the usual one with a warning."""
        said: int | None = getattr(self._inner, "block_size", None)
        if said is not None and said >= _LEAST_BLOCK:
            return said
        warning = f"the hash has block_size {said}: taking {self.blocksize}"
        warnings.warn(warning, RuntimeWarning, stacklevel=4)
        return self.blocksize

    @property
    def name(self) -> str:
        """The hash, as 'hmac-sha256'."""
        return self._hmac.name if self._hmac is not None else f"hmac-{self._inner.name}"

    def update(self, msg: _Buffer) -> None:
        """Adds bytes to the message."""
        running = self._inner if self._hmac is None else self._hmac
        running.update(msg)

    def _finished(self) -> _native.Digest | _native.Tag:
        """The object whose digest is the tag of the message so far."""
        if self._hmac is not None:
            return self._hmac
        outer: _native.Digest = self._outer.copy()
        outer.update(self._inner.digest())
        return outer

    def digest(self) -> bytes:
        """The tag of the message so far, to which more may be added."""
        return self._finished().digest()

    def hexdigest(self) -> str:
        """The tag as hex digits."""
        return self._finished().hexdigest()

    def copy(self) -> HMAC:
        """An independent copy."""
        other = type(self).__new__(type(self))
        other.block_size, other.digest_size = self.block_size, self.digest_size
        if self._hmac is not None:
            other._hmac, other._inner, other._outer = self._hmac.copy(), None, None
        else:
            other._hmac, other._inner, other._outer = None, self._inner.copy(), self._outer.copy()
        return other

    __copy__ = copy

    def __deepcopy__(self, memo: Any) -> HMAC:
        return self.copy()

    def __reduce_ex__(self, protocol: Any) -> Any:
        raise TypeError("cannot pickle 'HMAC' object")


def new(key: _Buffer, msg: _Buffer | None = None, digestmod: Any = "") -> HMAC:
    """The tag of a message in pieces, as `hmac.new`."""
    return HMAC(key, msg, digestmod)


def digest(key: _Buffer, msg: _Buffer, digest: Any) -> bytes:
    """The tag of a message, as `hmac.digest`."""
    known = _native_hash(digest)
    if known is None:
        return HMAC(key, msg, digest).digest()
    return _native.hmac_digest(key, msg, known)


def verify(key: _Buffer, msg: _Buffer, tag: _Buffer, digest: Any) -> bool:
    """Whether `tag` is the whole tag of a message."""
    known = _native_hash(digest)
    if known is None:
        return compare_digest(HMAC(key, msg, digest).digest(), tag)
    return _native.hmac_verify(key, msg, tag, known)
