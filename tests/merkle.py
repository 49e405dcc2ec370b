#!/usr/bin/env python3
# SPDX-License-Identifier: ISC
"""Holds the trees and proofs of crates/ring_merkle, and the calls for C over it, to RFC 9162,
section 2.1, written out here.

The program over the crate answers the vectors of Certificate Transparency, and lines on trees of
each size up to 300 and of sizes up to 2^64 - 1, as this reading over Python's `hashlib` does: the
roots, the paths of both kinds, and whether a path proves what it says, also where its length, its
order, an index, a size or a bit of a hash is another one. The C library, made of the text in
generated and called by `ctypes`, answers the same lines. Of docs/MERKLE.md the example in C
accepts the entries of Certificate Transparency, and that in Python asks a log of the form of RFC
6962, section 4, by the package. The last line is 'N passed, M failed'.
"""

import base64
import ctypes
import hashlib
import http.server
import json
import os
import pathlib
import random
import re
import shutil
import subprocess
import sys
import sysconfig
import tempfile
import threading
import urllib.parse

sys.dont_write_bytecode = True
sys.path.append(str(pathlib.Path(__file__).resolve().parent / "lib"))
import counted
from run import ROOT, differing
from trees import ENTRIES, PATHS, PROOFS, ROOTS

# What a status of the C library is called in a line: YZ_OK, and YZ_UNSPECIFIED.
VERDICTS = {0: "true", 8: "false"}
HASH_LEN, MOST_HASHES = 32, 65
PAGE = ROOT / "docs/MERKLE.md"

# --- RFC 9162, section 2.1 ---


def sha256(data):
    return hashlib.sha256(data).digest()


def leaf_hash(entry):
    return sha256(b"\0" + entry)


def split(entries):
    """The list split at the largest power of two smaller than its length."""
    k = 1
    while 2 * k < len(entries):
        k *= 2
    return entries[:k], entries[k:]


def mth(leaves):
    """MTH (2.1.1), over leaf hashes."""
    if len(leaves) < 2:
        return leaves[0] if leaves else sha256(b"")
    front, back = split(leaves)
    return sha256(b"\1" + mth(front) + mth(back))


def path(m, leaves):
    """PATH (2.1.3.1)."""
    if len(leaves) == 1:
        return []
    front, back = split(leaves)
    if m < len(front):
        return path(m, front) + [mth(back)]
    return path(m - len(front), back) + [mth(front)]


def subproof(m, leaves, whole):
    """SUBPROOF (2.1.4.1)."""
    if m == len(leaves):
        return [] if whole else [mth(leaves)]
    front, back = split(leaves)
    if m <= len(front):
        return subproof(m, front, whole) + [mth(back)]
    return subproof(m - len(front), back, False) + [mth(front)]


def steps(fn, sn, path):
    """The values of a path with the sides on which they stand; whether sn is 0 exactly at the end
    (2.1.3.2, step 4; 2.1.4.2, step 6)."""
    sides = []
    for value in path:
        if sn == 0:
            return sides, False
        right = fn & 1 == 1 or fn == sn
        sides.append((value, right))
        if right:
            while not (fn & 1 or fn == 0):
                fn, sn = fn >> 1, sn >> 1
        fn, sn = fn >> 1, sn >> 1
    return sides, sn == 0


def join(value, right, reached):
    return sha256(b"\1" + (value + reached if right else reached + value))


def climb(hashed, index, size, path):
    """The root to which a path leads; None where its length is wrong."""
    sides, ended = steps(index, size - 1, path)
    for value, right in sides:
        hashed = join(value, right, hashed)
    return hashed if ended else None


def is_included(hashed, index, size, path, root):
    """The verification of an inclusion proof (2.1.3.2)."""
    return index < size and climb(hashed, index, size, path) == root


def is_consistent(first_size, first, second_size, second, path):
    """The verification of a consistency proof (2.1.4.2), for 0 < first_size < second_size."""
    if not 0 < first_size < second_size or not path:
        return False
    if first_size & (first_size - 1) == 0:
        path = [first, *path]
    fn, sn = first_size - 1, second_size - 1
    while fn & 1:
        fn, sn = fn >> 1, sn >> 1
    front = whole = path[0]
    sides, ended = steps(fn, sn, path[1:])
    for value, right in sides:
        front = join(value, right, front) if right else front
        whole = join(value, right, whole)
    return ended and front == first and whole == second


# --- lines, with the answers of this reading ---


def words(hashes):
    return " ".join(it.hex() for it in hashes)


def listed(entries):
    return " ".join(it.hex() or "-" for it in entries)


def include(hashed, index, size, path, root):
    line = f"include {hashed.hex()} {index} {size} {root.hex()} {words(path)}".strip()
    return line, str(is_included(hashed, index, size, path, root)).lower()


def consistent(first_size, first, second_size, second, path):
    line = f"consistent {first_size} {first.hex()} {second_size} {second.hex()} {words(path)}"
    answer = is_consistent(first_size, first, second_size, second, path)
    return line.strip(), str(answer).lower()


def are_vectors():
    """Certificate Transparency's roots, paths and proofs are made and accepted."""
    entries, roots = ENTRIES, ROOTS
    wanted = []
    for size, root in enumerate(roots):
        wanted.append((f"root {listed(entries[:size])}".strip(), root.hex()))
    for index, size, nodes in PATHS:
        line, answer = include(leaf_hash(entries[index]), index, size, nodes, roots[size])
        wanted += [(line, "true"), (f"path {index} {listed(entries[:size])}", words(nodes) or "-")]
        if answer != "true":
            raise ValueError(f"the reading refuses a vector: {line}")
    for first, size, nodes in PROOFS:
        line, answer = consistent(first, roots[first], size, roots[size], nodes)
        wanted += [(line, "true"), (f"proof {first} {listed(entries[:size])}", words(nodes) or "-")]
        if answer != "true":
            raise ValueError(f"the reading refuses a vector: {line}")
    return wanted


def small_trees(rng):
    """Trees of each size up to 40: each path and each proof, and what lies past them."""
    for size in range(41):
        entries = [rng.randbytes(rng.choice([0, 1, 5, 32, 64, 65, 200])) for _ in range(size)]
        leaves = [leaf_hash(it) for it in entries]
        yield f"root {listed(entries)}".strip(), mth(leaves).hex()
        for index in range(size + 2):
            made = words(path(index, leaves)) or "-" if index < size else "refused"
            yield f"path {index} {listed(entries)}".strip(), made
            made = words(subproof(index, leaves, True)) if 0 < index < size else "refused"
            yield f"proof {index} {listed(entries)}".strip(), made


def larger_trees(rng):
    """Trees of each size up to 300: a path and a proof of each."""
    for size in range(41, 301):
        entries = [rng.randbytes(3) for _ in range(size)]
        leaves = [leaf_hash(it) for it in entries]
        index, first = rng.randrange(size), rng.randrange(1, size)
        yield f"root {listed(entries)}", mth(leaves).hex()
        yield f"path {index} {listed(entries)}", words(path(index, leaves))
        yield f"proof {first} {listed(entries)}", words(subproof(first, leaves, True))


def are_made():
    """Roots, paths and proofs of trees of each size up to 300 are those of the definitions."""
    rng = random.Random(9162)
    return [*small_trees(rng), *larger_trees(rng)]


def altered(rng, path):
    """The path, and others: longer, shorter, in another order, and with another bit."""
    yield path
    yield [*path, rng.randbytes(32)]
    yield [rng.randbytes(32), *path]
    yield path[:-1]
    yield path[1:]
    yield path[::-1]
    if path:
        place, bit = rng.randrange(len(path)), rng.randrange(256)
        number = int.from_bytes(path[place], "big") ^ 1 << bit
        yield [*path[:place], number.to_bytes(32, "big"), *path[place + 1 :]]


def inclusion_lines(rng, size, leaves):
    """Of a tree a path, altered in each way, for it and for other indices, sizes and hashes."""
    index = rng.randrange(size)
    made, root = path(index, leaves), mth(leaves)
    for other in altered(rng, made):
        yield include(leaves[index], index, size, other, root)
    places = [(index + 1, size), (index ^ 1, size), (index, size + 1), (index, size - 1)]
    places += [(index, 2 * size), (index, 2**64 - 1), (2**64 - 1, size), (size, size), (0, 0)]
    for other_index, other_size in places:
        yield include(leaves[index], other_index, other_size, made, root)
    yield include(rng.randbytes(32), index, size, made, root)
    yield include(leaves[index], index, size, made, rng.randbytes(32))


def consistency_lines(rng, size, leaves):
    """The same of a proof of a beginning."""
    m = rng.randrange(1, size)
    made, first, second = subproof(m, leaves, True), mth(leaves[:m]), mth(leaves)
    for other in altered(rng, made):
        yield consistent(m, first, size, second, other)
    sizes = [(m + 1, size), (m - 1, size), (m, size + 1), (m, size - 1), (m, m), (size, m)]
    sizes += [(0, size), (m, 2 * size), (m, 2**64 - 1), (2**63, 2**64 - 1), (size, size)]
    for other_m, other_size in sizes:
        yield consistent(other_m, first, other_size, second, made)
    yield consistent(m, second, size, second, made)
    yield consistent(m, first, size, first, made)
    yield consistent(m, rng.randbytes(32), size, second, made)


def are_altered():
    """10,000 proofs, altered in length, order, index, size or a bit, are answered as the RFC says.
    """
    rng, wanted = random.Random(2141), []
    while len(wanted) < 10_000:
        size = rng.randrange(2, 70)
        leaves = [rng.randbytes(32) for _ in range(size)]
        wanted += inclusion_lines(rng, size, leaves)
        wanted += consistency_lines(rng, size, leaves)
    return wanted


def are_large():
    """Paths of trees of up to 2^64 - 1 leaves, and of each length beside the right one."""
    rng, wanted = random.Random(2132), []
    for _ in range(60):
        size = rng.choice([2**64 - 1, 2**63, 2**63 + 1, 1 << rng.randrange(64), 5_000_000])
        size = rng.choice([size, rng.randrange(1, 2**64)])
        index = rng.choice([0, size - 1, size // 2, rng.randrange(size)])
        hashed, values = rng.randbytes(32), [rng.randbytes(32) for _ in range(66)]
        for length in range(67):
            root = climb(hashed, index, size, values[:length])
            if root or length > 60:
                root = root or rng.randbytes(32)
                wanted.append(include(hashed, index, size, values[:length], root))
    return wanted


def are_bad_lines():
    """Lines of no form that is known are told apart from what is refused."""
    zeros = "00" * 32
    lines = ["", "root", "roots", "root 0", "root 0g", "path", "path x 00", "path 1", "proof 1 00"]
    lines += [f"include {zeros} 0 1", f"include {zeros[2:]} 0 1 {zeros}"]
    lines += [f"include {zeros} 0 18446744073709551616 {zeros}", f"consistent 1 {zeros} 2 0"]
    bad = "bad line"
    wanted = [mth([]).hex(), bad, bad, bad, bad, bad, "refused", "refused", bad, bad, bad, bad]
    return list(zip(lines[1:], wanted))


# --- the C library ---


def hash_array(hashes):
    """Hashes as a call takes them, and their number."""
    return b"".join(hashes), ctypes.c_size_t(len(hashes))


def bytes_in(word):
    return bytes.fromhex(word.replace("-", ""))


class Library:
    """The calls on trees of a shared library, by lines."""

    def __init__(self, file):
        self.calls = ctypes.CDLL(str(file))

    def leaf(self, entry):
        made = ctypes.create_string_buffer(HASH_LEN)
        if self.calls.yz_merkle_leaf(entry, ctypes.c_size_t(len(entry)), made):
            raise ValueError("a leaf is refused")
        return made.raw

    def root(self, *words):
        made = ctypes.create_string_buffer(HASH_LEN)
        leaves = [self.leaf(bytes_in(it)) for it in words]
        status = self.calls.yz_merkle_root(*hash_array(leaves), made)
        return "refused" if status else made.raw.hex()

    def made(self, call, first, *words):
        out = ctypes.create_string_buffer(MOST_HASHES * HASH_LEN)
        leaves, count = [self.leaf(bytes_in(it)) for it in words], ctypes.c_size_t()
        first, room = ctypes.c_size_t(int(first)), ctypes.c_size_t(MOST_HASHES)
        if call(*hash_array(leaves), first, out, room, ctypes.byref(count)):
            return "refused"
        return words_of(out.raw[: count.value * HASH_LEN]) or "-"

    def path(self, *words):
        return self.made(self.calls.yz_merkle_inclusion_path, *words)

    def proof(self, *words):
        return self.made(self.calls.yz_merkle_consistency_path, *words)

    def include(self, hashed, index, size, root, *values):
        index, size = ctypes.c_uint64(int(index)), ctypes.c_uint64(int(size))
        path = hash_array([bytes_in(it) for it in values])
        call = self.calls.yz_merkle_verify_inclusion
        return VERDICTS[call(bytes_in(hashed), index, size, *path, bytes_in(root))]

    def consistent(self, first_size, first, second_size, second, *values):
        sizes = ctypes.c_uint64(int(first_size)), ctypes.c_uint64(int(second_size))
        path = hash_array([bytes_in(it) for it in values])
        call = self.calls.yz_merkle_verify_consistency
        return VERDICTS[call(sizes[0], bytes_in(first), sizes[1], bytes_in(second), *path)]

    def differing(self, wanted):
        """Of pairs of a line and its answer: those that the library answers otherwise."""
        for line, want in wanted:
            word, *others = line.split(" ")
            answer = getattr(self, word)(*others)
            if answer != want:
                yield line, answer


def words_of(hashes):
    return words(hashes[at : at + HASH_LEN] for at in range(0, len(hashes), HASH_LEN))


def build(room):
    """Builds the shared library in a folder, whose path is given."""
    environment = {name: it for name, it in os.environ.items() if not name.startswith("MAKE")}
    command = ["make", "-s", "-C", ROOT, f"OUT={room}", "all"]
    subprocess.run(command, check=True, stdout=subprocess.DEVNULL, env=environment)
    return next(pathlib.Path(room).glob("libyezdopin.so.*.*"))


def build_package(room):
    """Builds the Python package over the library of a folder, and gives the folder it is in."""
    made = pathlib.Path(room) / "python"
    command = [sys.executable, "-B", ROOT / "python/build_backend.py", made]
    subprocess.run(command, check=True, env={**os.environ, "YEZDOPIN_LIB_DIR": room})
    return made


# --- the examples of the page ---


class Log(http.server.BaseHTTPRequestHandler):
    """A log of certificates (RFC 6962, section 4), whose entries and hashes `server` has."""

    def do_GET(self):
        call, _, fields = self.path.rpartition("/")[2].partition("?")
        told = {name: it[0] for name, it in urllib.parse.parse_qs(fields).items()}
        answer = json.dumps(getattr(self, call.replace("-", "_"))(**told)).encode()
        self.send_response(200)
        self.end_headers()
        self.wfile.write(answer)

    def log_message(self, *_):
        pass

    def get_sth(self):
        root = base64.b64encode(self.server.root).decode()
        return {"tree_size": len(self.server.leaves), "sha256_root_hash": root}

    def get_entries(self, start, end):
        chosen = self.server.entries[int(start) : int(end) + 1]
        return {"entries": [{"leaf_input": base64.b64encode(it).decode()} for it in chosen]}

    def get_proof_by_hash(self, hash, tree_size):
        leaves = self.server.leaves[: int(tree_size)]
        index = leaves.index(base64.b64decode(hash))
        audit = [base64.b64encode(it).decode() for it in path(index, leaves)]
        return {"leaf_index": index, "audit_path": audit}


def example(mark):
    """The page's example in a language."""
    return re.search(rf"^```{mark}\n(.*?)^```$", PAGE.read_text(), re.M | re.S)[1]


def knows_entries(room):
    """The entries of Certificate Transparency whose paths the page's example in C refuses, and the
    other ones for which it accepts them."""
    made, flags = f"{room}/is_logged.so", ["-shared", "-fPIC", f"-I{ROOT}/c/include"]
    command = ["cc", *flags, "-x", "c", "-", "-x", "none", f"{room}/libyezdopin.a", "-o", made]
    subprocess.run(command, input=example("c"), text=True, check=True)
    is_logged = ctypes.CDLL(made).is_logged
    is_logged.restype = ctypes.c_bool
    for index, size, nodes in PATHS:
        index, size = ctypes.c_uint64(index), ctypes.c_uint64(size)
        values = hash_array(nodes)
        given = index, size, *values, ROOTS[size.value]
        entry = ENTRIES[index.value]
        for said in (entry, entry + b"\0"):
            answer = is_logged(said, ctypes.c_size_t(len(said)), *given)
            if answer != (said == entry):
                yield f"{said.hex()} at {index.value} of {size.value}", str(answer)


def asks_a_log(package):
    """The lines that docs/MERKLE.md's example prints of an honest log and of one whose root is
    another, which are not those that the page tells."""
    code = example("python")
    server = http.server.ThreadingHTTPServer(("127.0.0.1", 0), Log)
    server.entries = [b"entry %d" % i for i in range(1100)]
    server.leaves = [leaf_hash(it) for it in server.entries]
    code, count = re.subn("https://[^\"]*", f"http://127.0.0.1:{server.server_port}/log", code)
    threading.Thread(target=server.serve_forever, daemon=True).start()
    environment = {**os.environ, "PYTHONPATH": str(package), "no_proxy": "127.0.0.1"}
    command = [sys.executable, "-B", "-c", code]
    answers = []
    for root in (mth(server.leaves), bytes(HASH_LEN)):
        server.root = root
        run = subprocess.run(command, env=environment, capture_output=True, text=True, timeout=60)
        answers.append(run.stdout + run.stderr)
    server.shutdown()
    wanted = ["True\n", "False\n"]
    return [] if answers == wanted and count == 1 else [(code, "".join(answers))]


def over(case, differing_of, who):
    """A case whose lines are answered by someone."""

    def run():
        return list(differing_of(case()))

    run.__doc__ = f"{case.__doc__.strip().rstrip('.')}; {who}."
    return run


def example_cases(room):
    """The cases with the page's examples."""

    def in_c():
        """docs/MERKLE.md's example in C knows the entries of Certificate Transparency."""
        return list(knows_entries(room))

    def in_python():
        """docs/MERKLE.md's example in Python says yes to an honest log alone."""
        return asks_a_log(build_package(room))

    return in_c, in_python


def main():
    cases = (are_vectors, are_made, are_altered, are_large)
    tried = [(over(it, differing, "the crate"), "") for it in (*cases, are_bad_lines)]
    lacking = " ".join(it for it in ("make", "cc") if not shutil.which(it))
    headers = pathlib.Path(sysconfig.get_paths()["include"]) / "Python.h"
    with tempfile.TemporaryDirectory() as room:
        by_c = None if lacking else Library(build(room)).differing
        tried += [(over(it, by_c, "the C library"), lacking) for it in cases]
        in_c, in_python = example_cases(room)
        tried += [(in_c, lacking), (in_python, lacking or "Python.h" * (not headers.is_file()))]
        return counted.report(*counted.run_answered(tried))


if __name__ == "__main__":
    sys.exit(main())
