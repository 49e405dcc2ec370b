# SPDX-License-Identifier: ISC
"""Merkle trees of transparency logs (RFC 9162, the same as in RFC 6962), by the proved calls of
libyezdopin.

    >>> from yezdopin import merkle
    >>> leaves = [merkle.leaf(entry) for entry in (b"one", b"two", b"three")]
    >>> root = merkle.root(leaves)
    >>> path = merkle.inclusion_path(leaves, 2)
    >>> merkle.verify_inclusion(leaves[2], 2, 3, path, root)
    True
    >>> merkle.verify_inclusion(merkle.leaf(b"four"), 2, 3, path, root)
    False
    >>> proof = merkle.consistency_path(leaves, 2)
    >>> merkle.verify_consistency(2, merkle.root(leaves[:2]), 3, root, proof)
    True

A hash has 32 bytes, and a path is an iterable of hashes. A verification answers False to whatever
is no proof: to a hash of another length, and to an index or a size that no tree has, such as -1 or
2**64. That a root is the log's is for the caller to know: who signed it, and whether others see the
same.
"""

from __future__ import annotations

from typing import TYPE_CHECKING

from yezdopin import _native

if TYPE_CHECKING:
    from typing import Iterable as _Iterable

    from _typeshed import ReadableBuffer as _Buffer

__all__ = [
    "consistency_path",
    "inclusion_path",
    "leaf",
    "root",
    "verify_consistency",
    "verify_inclusion",
]


def leaf(entry: _Buffer) -> bytes:
    """The hash of an entry as a leaf, which is not its digest: a byte 0 stands before it."""
    return _native.merkle_leaf(entry)


def root(leaves: _Iterable[_Buffer]) -> bytes:
    """The root of the tree over the hashes of leaves. `ValueError` is raised for one that has not
    32 bytes."""
    return _native.merkle_root(leaves)


def inclusion_path(leaves: _Iterable[_Buffer], index: int) -> list[bytes]:
    """The path that proves that the leaf at `index`, from 0 on, is in the tree over `leaves`.

    `Error` is raised where there is no such leaf (status 8, `YZ_UNSPECIFIED`), and `ValueError` for
    a hash that has not 32 bytes.
    """
    return _native.merkle_inclusion_path(leaves, index)


def consistency_path(leaves: _Iterable[_Buffer], first_size: int) -> list[bytes]:
    """The path that proves that the tree over the first `first_size` of `leaves` is the beginning
    of the tree over all.

    `Error` is raised where `first_size` is 0 or not below the number of leaves (status 8,
    `YZ_UNSPECIFIED`), and `ValueError` for a hash that has not 32 bytes.
    """
    return _native.merkle_consistency_path(leaves, first_size)


def verify_inclusion(
    hash: _Buffer, index: int, size: int, path: _Iterable[_Buffer], root: _Buffer
) -> bool:
    """Whether the path proves that the leaf with this hash, which `leaf` gives, is at `index`, from
    0 on, in the tree of `size` leaves with this root."""
    return _native.merkle_verify_inclusion(hash, index, size, path, root)


def verify_consistency(
    first_size: int, first: _Buffer, second_size: int, second: _Buffer, path: _Iterable[_Buffer]
) -> bool:
    """Whether the path proves that the tree of `first_size` leaves with the root `first` is the
    beginning of the tree of `second_size` leaves with the root `second`.

    There is no proof for an empty tree, or for two of one size: compare their roots.
    """
    return _native.merkle_verify_consistency(first_size, first, second_size, second, path)
