# SPDX-License-Identifier: ISC
"""Digests of files."""

from __future__ import annotations

import typing
from typing import TYPE_CHECKING, Any, Callable, overload

from yezdopin._native import Digest, new

if TYPE_CHECKING:
    from _typeshed import ReadableBuffer as _Buffer

__all__ = ["file_digest"]

_PIECE_LEN = 2**18


class _Running(typing.Protocol):
    """What file_digest asks of an object of another hash."""

    def update(self, data: _Buffer, /) -> Any: ...


_Hash = typing.TypeVar("_Hash", bound=_Running)


# The underscores say the same as the slash below, to tools that don't read it in overloads.
@overload
def file_digest(__fileobj: Any, __digest: str, *, _bufsize: int = ...) -> Digest: ...
@overload
def file_digest(__fileobj: Any, __digest: Callable[[], _Hash], *, _bufsize: int = ...) -> _Hash: ...
def file_digest(
    fileobj: Any, digest: str | Callable[[], Any], /, *, _bufsize: int = _PIECE_LEN
) -> Any:
    """The digest of what is left of a file that is open for reading bytes, as `hashlib` has it.

    `digest` is the name of an algorithm, or what gives an object to update.
    """
    running = new(digest) if isinstance(digest, str) else digest()
    if hasattr(fileobj, "getbuffer"):
        running.update(fileobj.getbuffer())
        return running
    is_readable = getattr(fileobj, "readable", lambda: False)
    if not (hasattr(fileobj, "readinto") and is_readable()):
        raise ValueError(f"{fileobj!r} isn't a file that is open for reading bytes")
    piece = bytearray(_bufsize)
    view = memoryview(piece)
    while size := fileobj.readinto(piece):
        running.update(view[:size])
    if size is None:
        raise BlockingIOError("the file has no bytes yet, and isn't at its end")
    return running
