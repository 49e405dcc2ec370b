# SPDX-License-Identifier: ISC
"""Texts, which callers have as `str` or as bytes."""

from __future__ import annotations

from typing import TYPE_CHECKING

if TYPE_CHECKING:
    from _typeshed import ReadableBuffer as _Buffer

__all__ = ["bytes_of"]


def bytes_of(text: str | _Buffer) -> _Buffer:
    """The bytes of a text. No text is refused here: the call that reads it does so."""
    return text.encode("utf-8", "surrogatepass") if isinstance(text, str) else text
