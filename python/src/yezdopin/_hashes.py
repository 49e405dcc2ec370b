# SPDX-License-Identifier: ISC
"""The hashes that tags and one-time passwords take."""

from __future__ import annotations

import hashlib
from typing import Any

from yezdopin import _native

__all__ = ["KEYED", "NAMES", "native_hash"]

# names: made by tools/lists.py
NAMES = ("sha1", "sha256", "sha384", "sha512", "sha512_256")
KEYED = ("sha1", "sha256", "sha384", "sha512")
# /names

# The constructors that stand for the library's hashes, each with what the extension takes for it.
_KNOWN: list[tuple[Any, Any]] = [
    *((it, it) for it in (getattr(_native, name) for name in NAMES)),
    *((getattr(hashlib, name), name) for name in KEYED),
]


def native_hash(digestmod: Any) -> Any:
    """What the extension takes for a hash of the library, or None for another hash."""
    if isinstance(digestmod, str):
        return digestmod
    return next((known for constructor, known in _KNOWN if constructor is digestmod), None)
