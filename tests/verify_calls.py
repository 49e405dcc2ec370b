#!/usr/bin/env python3
# SPDX-License-Identifier: ISC
"""Tries the checker of the library's whole calls, and the library by it (docs/VERIFY_CALLS.md).

    tests/verify_calls.py [--anew] [WORD..]     all tests, or those with one of these words

The definition stands beside hashlib and hmac, and open lengths beside Python's numbers. Then the
library's calls are checked at some lengths, and so are copies with a fault, each of which has to be
refused, for x86-64 and for 64-bit ARM. The libraries are built by make first. Nothing is tried
again where neither a library nor the checker has changed since all passed, for the user of this
machine: --anew tries all. The last line is 'N passed, M failed'.
"""

import base64
import collections
import hashlib
import importlib.machinery
import importlib.util
import multiprocessing
import os
import pathlib
import random
import re
import shutil
import subprocess
import sys
import tempfile
import types
import unittest

sys.dont_write_bytecode = True
ROOT = pathlib.Path(__file__).resolve().parent.parent
sys.path += [str(ROOT / "tests/lib"), str(ROOT / "verify")]
import counted
import functions
import kernels
import lengths
import mutate_calls
import standards
import terms
import texts
import merkle_trees as trees
from elf import Library
from machine import Refused
from test_terms import Evaluated

LIBRARY, ARM_LIBRARY = ROOT / "out/libyezdopin.so", ROOT / "out/aarch64/libyezdopin.so"
HAS_COMPILER = shutil.which("aarch64-linux-gnu-gcc")
KEPT = pathlib.Path(os.environ.get("XDG_CACHE_HOME") or "~/.cache").expanduser() / "yezdopin"


class ValuesOf(dict):
    """The bits of open numbers, where these are given."""

    def __init__(self, numbers):
        super().__init__()
        self.numbers = numbers

    def __missing__(self, key):
        name, i = key
        which, q = re.fullmatch(r"two (\d) \+ (-?\d+)", name).groups()
        return self.numbers[int(which)] + int(q) >> i & 1


class Lengths(unittest.TestCase):
    """Words of lengths that are open, beside numbers."""

    STEPS = (1, 64, 128)

    def setUp(self):
        self.source = random.Random(1)

    def value(self, word, n):
        """The number that a word is, where n is this one."""
        places = [lengths._PLACE_OF.get(bit) for bit in word]
        bits = [bit if bit < 2 else place[1] + n >> place[2] & 1
                for bit, place in zip(word, places)]
        return sum(bit << i for i, bit in enumerate(bits))

    def random_words(self):
        """Pairs of words, and numbers n at which they are looked at."""
        for step in self.STEPS:
            of = lengths.opened(f"test {step}", 2, 2**50)
            for _ in range(150):
                numbers = [self.source.choice([0, 1, step - 1, step, 2 * step,
                                               self.source.randrange(2**20)]) for _ in "ab"]
                a = lengths.length(of, step, numbers[0])
                b = self.source.choice([terms.constant(numbers[1], 64),
                                        lengths.length(of, step, numbers[1])])
                yield a, b, [2, 3, 2**50 - 1, 2**50, self.source.randrange(2, 2**50)]

    def test_sums(self):
        """Sums, differences, masks and shifts of open lengths are those of numbers."""
        count = 0
        for a, b, numbers in self.random_words():
            mask = terms.constant(-64, 64)
            found = [(terms.add(a, b), lambda x, y: x + y),
                     (terms.subtract(a, b), lambda x, y: x - y),
                     (terms.subtract(b, a), lambda x, y: y - x),
                     (terms.and_words(a, mask), lambda x, y: x & -64),
                     (terms.shifted_right(a, 7), lambda x, y: x >> 7)]
            for word, expected in found:
                if lengths.value_of(word) is None and any(
                        bit > 1 and bit not in lengths._PLACE_OF for bit in word):
                    continue  # a sum that isn't looked into
                for n in numbers:
                    count += 1
                    self.assertEqual(self.value(word, n), expected(
                        self.value(a, n), self.value(b, n)) % 2**64)
        self.assertGreater(count, 5000)

    def test_known_bits(self):
        """The lowest bits of a sum are numbers where those of its words are, and no others."""
        for _ in range(300):
            count, bits = self.source.randrange(1, 31), 32
            numbers = [self.source.randrange(2**count) for _ in "ab"]
            a, b = (terms.constant(it, count) + terms.fresh("high", bits - count)
                    for it in numbers)
            for word, expected in [(terms.add(a, b), sum(numbers)),
                                   (terms.subtract(a, b), numbers[0] - numbers[1])]:
                self.assertEqual(terms.number_of(word[:count]), expected % 2**count)
                self.assertEqual([bit for bit in word[count:] if bit < 2], [])

    def test_decisions(self):
        """What is decided of open lengths is so of each number."""
        decided = 0
        for a, b, numbers in self.random_words():
            pairs = [(self.value(a, n), self.value(b, n)) for n in numbers]
            for answer, of_numbers in [
                    (terms.borrow(a, b), lambda x, y: x < y),
                    (terms.borrow(b, a), lambda x, y: y < x),
                    (terms.is_zero(a), lambda x, y: x == 0),
                    (terms.is_zero(terms.subtract(a, b)), lambda x, y: x == y),
                    (terms.carry(a, b), lambda x, y: x + y >= 2**64)]:
                if answer < 2:
                    decided += 1
                    self.assertEqual({answer}, {int(of_numbers(x, y)) for x, y in pairs})
        self.assertGreater(decided, 1000)

    def test_two_open(self):
        """Sums of two open numbers have one form, and their values and what is decided of them are
        those of numbers."""
        opens = [lengths.opened(f"two {i}", 2, 2**50) for i in range(2)]
        decided = 0
        for _ in range(150):
            step, by = self.source.choice([1, 8, 64, 128]), self.source.randrange(4)
            r, s = self.source.randrange(300), self.source.choice([0, 1, 2**49, 2**63 - 1])
            a, b = (lengths.length(it, step, self.source.randrange(-step, 200)) for it in opens)
            word = terms.add(terms.shifted_left(terms.add(a, b, terms.constant(r, 64)), by),
                             terms.constant(s, 64))
            self.assertEqual(word, terms.combination([(b, 1 << by), (a, 1 << by)], (r << by) + s,
                                                     64))
            number = terms.constant(self.source.choice([5 * step << by, s, 2**60]), 64)
            answers = [terms.borrow(word, number), terms.is_zero(word), terms.carry(word, number)]
            for _ in range(4):
                values = ValuesOf([self.source.choice([2, 3, 2**32, 2**50]) for _ in opens])
                x, y, z, it = map(Evaluated(values).word, (a, b, number, word))
                self.assertEqual(it, ((x + y + r << by) + s) % 2**64)
                for answer, true in zip(answers, (it < z, it == 0, it + z >= 2**64)):
                    if answer < 2:
                        decided += 1
                        self.assertEqual(answer, int(true))
        self.assertGreater(decided, 300)

    def test_open(self):
        """A comparison that holds of some numbers alone isn't decided."""
        of = lengths.opened("test", 2, 2**50)
        length = lengths.length(of, 64, 10)
        for number in (64 * 2 + 11, 2**32, 64 * 2**50 + 10):
            self.assertGreater(terms.borrow(length, terms.constant(number, 64)), 1)
        self.assertGreater(terms.is_zero(terms.subtract(length, terms.constant(64 * 9 + 10, 64))),
                           1)
        self.assertGreater(terms.is_zero(terms.shifted_right(length, 32)), 1)

    def test_bytes(self):
        """Only bytes that are surely inside are read from an input of an open length."""
        of = lengths.opened("test", 2, 2**50)
        region = lengths.OpenRegion("input", lengths.length(of, 64, 10), None)
        inside = [(lengths.length(of, 64, 0), 10), (lengths.length(of, 64, -128), 138),
                  (terms.constant(0, 64), 138)]
        outside = [(lengths.length(of, 64, 0), 11), (lengths.length(of, 64, 64), 1),
                   (terms.constant(0, 64), 139), (terms.constant(-1, 64), 1)]
        for offset, size in inside:
            self.assertIsNotNone(region.offset(offset, size))
        for offset, size in outside:
            self.assertIsNone(region.offset(offset, size))


# Entries and the root of the tree over them: of Certificate Transparency's own tests.
ENTRIES = ["", "00", "10", "2021", "3031", "40414243", "5051525354555657",
           "606162636465666768696a6b6c6d6e6f"]
ROOT_OF_ENTRIES = "5dc9da79a70659a9ad559cb701ded9a2ab9d823aad2f4960cfe370eff4604328"


class Definitions(unittest.TestCase):
    """Tables of few bits, texts and trees."""

    def setUp(self):
        self.source = random.Random(1)

    def test_tables(self):
        """What is looked at by tables has the values of numbers, in all cases of the bits."""
        terms.FEW_ATOMS, width, count = 6, 10, 0
        self.addCleanup(setattr, terms, "FEW_ATOMS", 0)
        for _ in range(60):
            atoms = terms.fresh("few", 6, secret=False)

            def word():
                found = [0] * width
                for i in range(width):
                    for _ in range(self.source.randrange(3)):
                        pair = self.source.choice(atoms), self.source.choice((1, *atoms))
                        found[i] = terms.xor(found[i], terms.both(*pair))
                return tuple(found)

            a, b = word(), word()
            ors = terms.or_words(a, b) + (terms.xor(1, terms.is_zero(a)),)
            results = [(terms.add(a, b), lambda x, y: (x + y) % 1024),
                       (terms.subtract(a, b), lambda x, y: (x - y) % 1024),
                       ((terms.borrow(a, b),), lambda x, y: int(x < y)),
                       ((terms.carry(a, b),), lambda x, y: x + y >> width),
                       (ors, lambda x, y: x | y | (x != 0) << width)]
            for case in range(64):
                values = {bit: case >> i & 1 for i, bit in enumerate(atoms)}
                x, y = (value_of(it, values) for it in (a, b))
                for found, expected in results:
                    self.assertEqual(value_of(found, values), expected(x, y))
                    count += 1
                for it in ors:  # which are those of the sets that are noted
                    values_of_set = [value_of((bit,), values) for bit in terms.members((it,))]
                    self.assertEqual(any(values_of_set), value_of((it,), values))
        self.assertGreater(count, 15_000)

    def test_ors(self):
        """An answer by the or of all bits that differ is shown, by tables too; one by a bit fewer
        or more, or with another status, is refused."""
        terms.FEW_ATOMS = texts.FEW_ATOMS
        self.addCleanup(setattr, terms, "FEW_ATOMS", 0)
        found, right, others = (trees.public_bytes(it, 20) for it in ("found", "right", "others"))
        bits = terms.joined(map(terms.xor_words, found, right))
        self.assertEqual(len(terms.monomials_of(by_tables(bits))), 255)

        def is_shown(unequal, status=functions.UNSPECIFIED):
            word = tuple(unequal if status >> i & 1 else 0 for i in range(32))
            try:
                functions.answers(answering(word), found, right, "a call")
            except Refused:
                return False
            return True

        for or_of in (by_tables, terms.or_of):
            self.assertTrue(is_shown(or_of(bits)))
            wrong = [bits[:i] + bits[i + 1:] for i in range(len(bits))]
            wrong += [bits + (it,) for it in terms.joined(others + found)]
            wrong += [tuple(it for j, it in enumerate(bits) if j % 8 != i) for i in range(8)]
            for it in wrong:
                self.assertFalse(is_shown(or_of(it)))
            self.assertFalse(is_shown(terms.xor(1, or_of(bits))))
            for status in (functions.WRONG_LENGTH, functions.UNSPECIFIED | 1):
                self.assertFalse(is_shown(or_of(bits), status))

    def test_texts(self):
        """Base64 and hex are Python's."""
        terms.FEW_ATOMS = texts.FEW_ATOMS
        self.addCleanup(setattr, terms, "FEW_ATOMS", 0)
        for length in range(40):
            data = self.source.randbytes(length)
            plain = standards.plain(data)
            for found, expected in [
                    (texts.base64(plain), base64.b64encode(data)),
                    (texts.base64(plain, texts.URL_SAFE, False),
                     base64.urlsafe_b64encode(data).rstrip(b"=")),
                    (texts.adapted(plain), base64.b64encode(data, b"./").rstrip(b"=")),
                    (texts.in_hex(plain), data.hex().encode())]:
                self.assertEqual(bytes(map(terms.number_of, found)), expected)

    def test_trees(self):
        """A root is Certificate Transparency's, and each path leads to the roots."""
        block = standards.Real()
        leaves = [trees.hashed(block, standards.plain(b"\0" + bytes.fromhex(it)))
                  for it in ENTRIES]
        self.assertEqual(bytes(map(terms.number_of, trees.tree(block, leaves))).hex(),
                         ROOT_OF_ENTRIES)
        block = standards.Opaque()
        for n in range(1, 14):
            leaves = [[terms.fresh(f"leaf {i}.{j}", 8) for j in range(32)] for i in range(n)]
            root = trees.tree(block, leaves)
            for m in range(n):
                path = trees.inclusion(block, m, leaves)
                self.assertEqual(len(path), trees.inclusion_len(m, n))
                self.assertEqual(trees.included(block, leaves[m], m, n, path), root)
                if m:
                    first = trees.tree(block, leaves[:m])
                    path = trees.consistency(block, m, leaves)
                    self.assertEqual(len(path), trees.consistency_len(m, n))
                    self.assertEqual(trees.consistent(block, m, n, first, path), (first, root))


def by_tables(bits):
    """The or of bits, as code has it that looks whether a byte of ors is zero."""
    return terms.xor(1, terms.is_zero(tuple(terms.or_of(bits[i::8]) for i in range(8))))


def answering(word):
    """What runs a call that answers with this word."""
    end = types.SimpleNamespace(registers={"result": word})
    return types.SimpleNamespace(cpu=types.SimpleNamespace(RESULTS=["result"]),
                                 call=lambda *_: [end])


def value_of(word, values):
    """The number that a word is, where its atoms have these values."""
    return sum(sum(all(values[atom] for atom in terms.atoms_of(monomial))
                   for monomial in terms.monomials_of(bit)) % 2 << i
               for i, bit in enumerate(word) if bit)


class Calls(unittest.TestCase):
    """The definition, and the library's calls."""

    def test_definition(self):
        """Digests, HMAC, HKDF and PBKDF2 of the definition are those of hashlib and hmac."""
        self.assertEqual(standards.compare(), 180)

    def test_calls(self):
        """The library's calls give the definition's bytes at some lengths, for all contents."""
        self.check_calls(LIBRARY, "calls")

    def check_calls(self, library, table):
        done = subprocess.run([ROOT / "verify/check_calls", "--quick", library], check=False,
                              stdout=subprocess.PIPE, text=True)
        self.assertRegex(done.stdout, r"\n\d{3,} calls shown, 0 refused\n$")
        self.assertEqual(done.returncode, 0)
        counts = collections.Counter()
        for group, count in re.findall(r"^(\w+) \w+: (\d+) calls, ", done.stdout, re.M):
            counts[group] += int(count)
        self.assertEqual(counts, on_page(table), "the table of docs/VERIFY_CALLS.md is another")

    def test_left_out(self):
        """A function of the header that no case has run is named."""
        loader = importlib.machinery.SourceFileLoader("check", str(ROOT / "verify/check_calls"))
        check = importlib.util.module_from_spec(importlib.util.spec_from_loader("check", loader))
        loader.exec_module(check)
        names = check.not_run({})
        self.assertIn("yz_digest", names)
        ran = {name: {"digest"} for name in names if name != "yz_digest"}
        self.assertEqual(check.not_run(ran), ["yz_digest"])

    @unittest.skipUnless(HAS_COMPILER, "aarch64-linux-gnu-gcc")
    def test_calls_for_arm(self):
        """So do those of the library for 64-bit ARM."""
        self.check_calls(ARM_LIBRARY, "calls for ARM")

    @unittest.skipUnless(HAS_COMPILER, "aarch64-linux-gnu-gcc")
    def test_faults_for_arm(self):
        """Faults in the library for 64-bit ARM are refused."""
        with tempfile.TemporaryDirectory() as room:
            done = subprocess.run([sys.executable, ROOT / "verify/mutate_calls.py", ARM_LIBRARY,
                                   room], check=False, stdout=subprocess.PIPE, text=True)
        self.assertEqual(done.stdout.count("found: "), len(mutate_calls.OF_ARM), done.stdout)
        self.assertEqual(done.returncode, 0)


def on_page(table):
    """How many calls of each group the page says that the quick lengths have."""
    text = (ROOT / "docs/VERIFY_CALLS.md").read_text()
    text = text.partition(f"<!-- {table}: ")[2].partition(f"<!-- /{table} -->")[0]
    return {group: int(count) for group, count in re.findall(r"^\|`(\w+)`\|(\d+)\|", text, re.M)}


class Faults(unittest.TestCase):
    """Copies of the library with a fault, which have to be refused."""


def tried(number):
    """Whether a fault is found, and what is said of it."""
    fault, library = mutate_calls.FAULTS[number], LOADED[0]
    with tempfile.TemporaryDirectory() as folder:
        return mutate_calls.found(library, fault, folder, kernels.rows(library))


LOADED = []


def add_faults():
    """A test for each fault; all are tried side by side at the first."""
    answers = []

    def answer(number):
        if not answers:
            LOADED.append(Library(str(LIBRARY)))
            kernels.rows(LOADED[0])
            with multiprocessing.get_context("fork").Pool(
                    min(4, len(os.sched_getaffinity(0))), maxtasksperchild=4) as pool:
                answers.extend(pool.map(tried, range(len(mutate_calls.FAULTS)), 1))
        return answers[number]

    for i, fault in enumerate(mutate_calls.FAULTS):
        def test(self, number=i):
            is_found, text = answer(number)
            self.assertTrue(is_found, text)
        test.__doc__ = f"Refused: {fault.what}."
        setattr(Faults, f"test_{i:02}_{fault.what.replace(' ', '_')}", test)


def digest():
    """The sum of all that a verdict depends on."""
    found = hashlib.sha256(LIBRARY.read_bytes())
    if HAS_COMPILER:
        found.update(ARM_LIBRARY.read_bytes())
    for path in (*sorted((ROOT / "verify").iterdir()), pathlib.Path(__file__)):
        if path.is_file():
            found.update(path.name.encode() + b"\0" + path.read_bytes())
    return found.hexdigest()


def main():
    names = [it for it in sys.argv[1:] if it != "--anew"]
    for words in ([], ["ARCH=aarch64"]) if HAS_COMPILER else ([],):
        made = subprocess.run(["make", "-C", ROOT, *words], stdin=subprocess.DEVNULL,
                              stdout=subprocess.DEVNULL, check=False)
        if made.returncode:
            print("the library could not be built\n0 passed, 1 failed")
            return 1
    kept = KEPT / f"verify-calls-{digest()}"
    if kept.exists() and not names and "--anew" not in sys.argv:
        print(kept.read_text(), end="")
        return 0
    add_faults()
    terms.OPAQUE_OR = True
    suite = counted.suite((Lengths, Definitions, Faults, Calls), names)
    counts = counted.run(suite, sys.stdout).counts()
    status = counted.report(*counts)
    if not status and not names and not counts[2]:
        KEPT.mkdir(parents=True, exist_ok=True)
        kept.write_text("neither the library nor the checker has changed since all tests passed\n"
                        f"{counts[0]} passed, 0 failed\n")
    return status


if __name__ == "__main__":
    sys.exit(main())
