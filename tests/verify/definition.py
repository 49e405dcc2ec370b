# SPDX-License-Identifier: ISC
"""The executable definition, verify/fips180_4.py and standards.py, and the terms."""

import hashlib
import pathlib
import random
import re
import unittest

import fips180_4
import standards
import terms
import test_terms

ROOT = pathlib.Path(__file__).resolve().parent.parent.parent
SHA2 = (ROOT / "crates/ring_core/specs/Sha2.antt").read_text()
SHA1 = (ROOT / "crates/ring_core/specs/Sha1.antt").read_text()
TABLE = (ROOT / "crates/ring/specs/Table.antt").read_text()
WORD = (ROOT / "crates/ring_core/specs/Word.antt").read_text()


def numbers_of(text, name):
    """The list of numbers that is the definition of a name."""
    found = re.search(rf"^{name} =((?:\s+|∷|0x[0-9a-f]+|\[\])+)$", text, re.M)
    return [int(it, 16) for it in re.findall(r"0x[0-9a-f]+", found[1])]


def fields_of(name):
    """The numbers of a family, by the names of its fields."""
    found = re.search(rf"^{name} = record \{{(.*?)^\}}", SHA2, re.M | re.S)
    return {key: [int(it) for it in re.findall(r"\d+", value)]
            for key, value in re.findall(r"(\w+) = ([^;]*);", found[1])}


class Definition(unittest.TestCase):
    def test_hashlib(self):
        """The definition gives the digests of hashlib, at each length up to 300."""
        self.assertEqual(fips180_4.compare_with_hashlib(), 903)

    def test_vectors(self):
        """The definition gives each digest of vectors/digest.txt under its three functions."""
        lines = (ROOT / "vectors/digest.txt").read_text().splitlines()
        names = {"SHA1": "SHA-1", "SHA256": "SHA-256", "SHA512": "SHA-512"}
        compared = 0
        for line, answer in zip(lines, lines[1:]):
            words = line.split()
            if len(words) == 3 and words[0] == "digest" and words[1] in names:
                if not re.fullmatch(r"-|[0-9a-f,-]+", words[2]):
                    continue
                message = bytes.fromhex(re.sub("[-,]", "", words[2]))
                found = fips180_4.digest(fips180_4.FUNCTIONS[names[words[1]]], message)
                self.assertEqual(found.hex(), answer.split()[1], line[:80])
                compared += 1
        self.assertGreaterEqual(compared, 13)

    def test_families(self):
        """Constants, rotations and rounds are those of the proved definition."""
        for family, name in ((fips180_4.SHA256, "256"), (fips180_4.SHA512, "512")):
            fields = fields_of(f"family_{name}")
            self.assertEqual(list(family.K), numbers_of(SHA2, f"constants_{name}"))
            self.assertEqual([family.width], fields["bits"])
            self.assertEqual([family.rounds], fields["rounds"])
            for key, counts in (("big_0", family.Sigma0), ("big_1", family.Sigma1),
                                ("small_0", family.sigma0), ("small_1", family.sigma1)):
                self.assertEqual(list(counts), fields[key], key)

    def test_first_words(self):
        """The first chaining words are those of the proved definition."""
        for it in standards.ALGORITHMS.values():
            name = it.name.lower().replace("-", "").replace("/", "_")
            self.assertEqual(list(it.first), numbers_of(TABLE, f"{name}_words"), it.name)

    def test_sha1_constants(self):
        """SHA-1's four constants are those of the proved definition."""
        text = SHA1.partition("round_constant t =")[2].partition("\n\n")[0]
        self.assertEqual(list(fips180_4.SHA1_K), [int(it, 16) for it in
                                                  re.findall(r"0x[0-9a-f]+", text)])

    def test_last_block(self):
        """A block function over random words is hashlib's: of two blocks, the second one's."""
        source = random.Random(2)
        for function in fips180_4.FUNCTIONS.values():
            name = function.name.lower().replace("-", "")
            for _ in range(50):
                message = source.randbytes(source.randrange(4 * function.width))
                self.assertEqual(fips180_4.digest(function, message),
                                 hashlib.new(name, message).digest())


class Terms(unittest.TestCase):
    def test_numbers(self):
        """Terms have the values that Python's numbers have, of random expressions."""
        self.assertGreater(test_terms.compare(), 10000)

    def test_normal_form(self):
        """Sums and polynomials of one function have one form, whatever the order."""
        source = random.Random(3)
        for width in (32, 64):
            words = [terms.fresh(f"normal {width} {i}", width) for i in range(5)]
            for _ in range(30):
                order = source.sample(words, 5)
                left = order[0]
                for it in order[1:]:
                    left = terms.add(left, it)
                right = terms.add(terms.add(*order[3:]), terms.add(*order[:3]))
                self.assertEqual(left, right)
                self.assertEqual(terms.subtract(left, order[0]),
                                 terms.add(*[it for it in words if it is not order[0]]))
                a, b, c = order[:3]
                selected = terms.xor_words(terms.and_words(a, b),
                                           terms.and_words(terms.inverted(a), c))
                other = terms.xor_words(c, terms.and_words(a, terms.xor_words(b, c)))
                self.assertEqual(selected, other)
                self.assertNotEqual(selected, terms.xor_words(other, b))


CASES = (Definition, Terms)
