# SPDX-License-Identifier: ISC
"""The tree of vectors/merkle: its entries, roots and nodes, and proofs by the names of nodes."""

import pathlib

FILE = pathlib.Path(__file__).resolve().parents[2] / "vectors/merkle/certificate_transparency.txt"
LINES = [it.split(" ") for it in FILE.read_text().splitlines() if not it.startswith("#")]


def lines_of(word):
    """What stands behind the word of each line that begins with it."""
    return [rest for first, *rest in LINES if first == word]


ENTRIES = [bytes.fromhex(it.strip("-")) for (it,) in lines_of("entry")]
ROOTS = [bytes.fromhex(root) for _, root in lines_of("root")]
NODES = {name: bytes.fromhex(it) for name, it in lines_of("node")}
# The index of an entry and a size, or the sizes of two trees, each with the proof's nodes.
PATHS, PROOFS = (
    [(int(first), int(size), [NODES[it] for it in names])
     for first, size, *names in lines_of(word)] for word in ("inclusion", "consistency")
)
