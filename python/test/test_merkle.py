# SPDX-License-Identifier: ISC
"""Merkle trees: the roots and paths of Certificate Transparency's merkle_verifier_test.go, what is
no proof, and what raises. tests/merkle.py of the repository has many more."""

import unittest

import shared  # by which `trees` is found
import yezdopin
from trees import ENTRIES, PATHS, PROOFS, ROOTS
from yezdopin import merkle

LEAVES = [merkle.leaf(it) for it in ENTRIES]
PATH_OF_FIRST = PATHS[0][2]
NO_SIZES = (-1, -(2**64), 2**64, 2**200)
NO_HASHES = (b"", bytes(31), bytes(33), bytes(64))


class Known(unittest.TestCase):
    def test_roots(self):
        for size, root in enumerate(ROOTS):
            self.assertEqual(merkle.root(LEAVES[:size]), root)
            self.assertEqual(merkle.root(memoryview(it) for it in LEAVES[:size]), root)

    def test_inclusion(self):
        for index, size, path in PATHS:
            root = ROOTS[size]
            self.assertEqual(merkle.inclusion_path(LEAVES[:size], index), path)
            self.assertIs(merkle.verify_inclusion(LEAVES[index], index, size, path, root), True)
            self.assertTrue(
                merkle.verify_inclusion(
                    hash=bytearray(LEAVES[index]), index=index, size=size, path=iter(path),
                    root=memoryview(root),
                )
            )
            for wrong in (path + [root], [root] + path, path[1:], path[::-1]):
                if wrong != path:
                    self.assertIs(
                        merkle.verify_inclusion(LEAVES[index], index, size, wrong, root), False
                    )

    def test_consistency(self):
        for first, size, path in PROOFS:
            self.assertEqual(merkle.consistency_path(LEAVES[:size], first), path)
            self.assertIs(
                merkle.verify_consistency(first, ROOTS[first], size, ROOTS[size], path), True
            )
            for wrong in (path + [ROOTS[0]], path[1:], path[::-1], []):
                self.assertIs(
                    merkle.verify_consistency(first, ROOTS[first], size, ROOTS[size], wrong), False
                )


class NoProof(unittest.TestCase):
    """What no tree has: the answer is False, since a proof comes from others."""

    def test_sizes(self):
        path = PATH_OF_FIRST
        for wrong in (*NO_SIZES, 8, 2**64 - 1):
            self.assertFalse(merkle.verify_inclusion(LEAVES[0], wrong, 8, path, ROOTS[8]))
            self.assertFalse(merkle.verify_consistency(wrong, ROOTS[1], 8, ROOTS[8], path))
        for wrong in (*NO_SIZES, 0, 1, 9, 16, 2**64 - 1):
            self.assertFalse(merkle.verify_inclusion(LEAVES[0], 0, wrong, path, ROOTS[8]))
            self.assertFalse(merkle.verify_consistency(1, ROOTS[1], wrong, ROOTS[8], path))
        self.assertFalse(merkle.verify_consistency(0, ROOTS[0], 8, ROOTS[8], []))
        self.assertFalse(merkle.verify_consistency(8, ROOTS[8], 8, ROOTS[8], []))

    def test_hashes(self):
        path = PATH_OF_FIRST
        for wrong in NO_HASHES:
            others = [path[0], wrong, path[2]]
            self.assertFalse(merkle.verify_inclusion(wrong, 0, 8, path, ROOTS[8]))
            self.assertFalse(merkle.verify_inclusion(LEAVES[0], 0, 8, path, wrong))
            self.assertFalse(merkle.verify_inclusion(LEAVES[0], 0, 8, others, ROOTS[8]))
            self.assertFalse(merkle.verify_consistency(1, wrong, 8, ROOTS[8], path))
            self.assertFalse(merkle.verify_consistency(1, ROOTS[1], 8, wrong, path))
            self.assertFalse(merkle.verify_consistency(1, ROOTS[1], 8, ROOTS[8], others))
        self.assertFalse(merkle.verify_inclusion(LEAVES[0], 0, 8, [ROOTS[0]] * 100_000, ROOTS[8]))

    def test_longer_hashes(self):
        """The right hashes with a byte behind them."""
        path, leaf, root = PATH_OF_FIRST, LEAVES[0], ROOTS[8]
        self.assertTrue(merkle.verify_inclusion(leaf, 0, 8, path, root))
        longer = [path[0], path[1] + b"\0", path[2]]
        self.assertFalse(merkle.verify_inclusion(leaf + b"\0", 0, 8, path, root))
        self.assertFalse(merkle.verify_inclusion(leaf, 0, 8, path, root + b"\0"))
        self.assertFalse(merkle.verify_inclusion(leaf, 0, 8, longer, root))
        self.assertTrue(merkle.verify_consistency(1, ROOTS[1], 8, root, path))
        self.assertFalse(merkle.verify_consistency(1, ROOTS[1] + b"\0", 8, root, path))
        self.assertFalse(merkle.verify_consistency(1, ROOTS[1], 8, root, longer))


class Raised(unittest.TestCase):
    def test_no_path(self):
        for size in range(9):
            for index in (size, size + 1, *NO_SIZES):
                with self.assertRaises(yezdopin.Error) as caught:
                    merkle.inclusion_path(LEAVES[:size], index)
                self.assertEqual(caught.exception.status, 8)
                self.assertIn(str(index), str(caught.exception))
            for first in (0, size, size + 1, *NO_SIZES):
                with self.assertRaises(yezdopin.Error):
                    merkle.consistency_path(LEAVES[:size], first)

    def test_no_hashes(self):
        for wrong in NO_HASHES:
            for call in (
                lambda: merkle.root([LEAVES[0], wrong]),
                lambda: merkle.inclusion_path([wrong], 0),
                lambda: merkle.consistency_path([LEAVES[0], wrong], 1),
            ):
                self.assertRaisesRegex(ValueError, "32 bytes", call)

    def test_types(self):
        path = PATH_OF_FIRST
        for call in (
            lambda: merkle.leaf("text"),
            lambda: merkle.leaf(None),
            lambda: merkle.root(b"bytes"),
            lambda: merkle.root(7),
            lambda: merkle.inclusion_path(LEAVES, "0"),
            lambda: merkle.inclusion_path(LEAVES, 1.0),
            lambda: merkle.consistency_path(None, 1),
            lambda: merkle.verify_inclusion(LEAVES[0].hex(), 0, 8, path, ROOTS[8]),
            lambda: merkle.verify_inclusion(LEAVES[0], 0.0, 8, path, ROOTS[8]),
            lambda: merkle.verify_inclusion(LEAVES[0], 0, None, path, ROOTS[8]),
            lambda: merkle.verify_inclusion(LEAVES[0], 0, 8, path[0], ROOTS[8]),
            lambda: merkle.verify_inclusion(LEAVES[0], 0, 8, [*path, 7], ROOTS[8]),
            lambda: merkle.verify_inclusion(LEAVES[0], -1, 8, path, "root"),
            lambda: merkle.verify_consistency(1, ROOTS[1], 8, ROOTS[8], None),
            lambda: merkle.verify_consistency(1, ROOTS[1], 8, ROOTS[8]),
        ):
            self.assertRaises(TypeError, call)


if __name__ == "__main__":
    unittest.main()
