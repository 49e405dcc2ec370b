# SPDX-License-Identifier: ISC
"""FIPS 180-4, sections 4 and 6: the block functions of SHA-1, SHA-256 and SHA-512, over any kind of
words: `Numbers` computes, `Symbols` makes the terms of terms.py. Everything here is to be read
beside the standard; `python3 fips180_4.py` compares it with hashlib.
"""

from collections import namedtuple

import terms


class Numbers:
    """Words as numbers."""

    def __init__(self, width):
        self.width, self.ones = width, (1 << width) - 1

    def constant(self, number):
        return number

    def add(self, *words):
        return sum(words) & self.ones

    def xor(self, first, *others):
        for it in others:
            first ^= it
        return first

    def both(self, a, b):
        return a & b

    def inverted(self, a):
        return a ^ self.ones

    def rotr(self, a, n):
        return (a >> n | a << (self.width - n)) & self.ones

    def shr(self, a, n):
        return a >> n


class Symbols:
    """Words as terms."""

    def __init__(self, width):
        self.width = width

    def constant(self, number):
        return terms.constant(number, self.width)

    add = staticmethod(terms.add)
    both = staticmethod(terms.and_words)
    inverted = staticmethod(terms.inverted)
    rotr = staticmethod(terms.rotated_right)
    shr = staticmethod(terms.shifted_right)

    @staticmethod
    def xor(first, *others):
        for it in others:
            first = terms.xor_words(first, it)
        return first


# 4.1: the functions.

def ch(o, x, y, z):
    return o.xor(o.both(x, y), o.both(o.inverted(x), z))


def maj(o, x, y, z):
    return o.xor(o.both(x, y), o.both(x, z), o.both(y, z))


def parity(o, x, y, z):
    return o.xor(x, y, z)


# 4.1.2 and 4.1.3: Σ0, Σ1 by three rotations; σ0, σ1 by two rotations and a shift.
Family = namedtuple("Family", "width rounds Sigma0 Sigma1 sigma0 sigma1 K")


def Sigma(o, counts, x):
    return o.xor(*(o.rotr(x, n) for n in counts))


def sigma(o, counts, x):
    return o.xor(o.rotr(x, counts[0]), o.rotr(x, counts[1]), o.shr(x, counts[2]))


def primes(count):
    found, n = [], 2
    while len(found) < count:
        if all(n % p for p in found):
            found.append(n)
        n += 1
    return found


def integer_root(n, k):
    low, high = 0, 1 << (n.bit_length() // k + 1)
    while low < high:
        middle = (low + high + 1) // 2
        low, high = (middle, high) if middle ** k <= n else (low, middle - 1)
    return low


def root_bits(prime, k, width):
    """The first `width` bits of the fractional part of a prime's k-th root (4.2.2, 4.2.3)."""
    return integer_root(prime << (k * width), k) & ((1 << width) - 1)


SHA256 = Family(32, 64, (2, 13, 22), (6, 11, 25), (7, 18, 3), (17, 19, 10),
                tuple(root_bits(p, 3, 32) for p in primes(64)))
SHA512 = Family(64, 80, (28, 34, 39), (14, 18, 41), (1, 8, 7), (19, 61, 6),
                tuple(root_bits(p, 3, 64) for p in primes(80)))


def sha2_block(o, family, H, M):
    """6.2.2 and 6.4.2: the next chaining words from H and the sixteen words M of a block."""
    W = list(M)
    for t in range(16, family.rounds):
        W.append(o.add(sigma(o, family.sigma1, W[t - 2]), W[t - 7],
                       sigma(o, family.sigma0, W[t - 15]), W[t - 16]))
    a, b, c, d, e, f, g, h = H
    for t in range(family.rounds):
        T1 = o.add(h, Sigma(o, family.Sigma1, e), ch(o, e, f, g), o.constant(family.K[t]), W[t])
        T2 = o.add(Sigma(o, family.Sigma0, a), maj(o, a, b, c))
        h, g, f, e, d, c, b, a = g, f, e, o.add(d, T1), c, b, a, o.add(T1, T2)
    return [o.add(x, y) for x, y in zip((a, b, c, d, e, f, g, h), H)]


SHA1_K = (0x5a827999, 0x6ed9eba1, 0x8f1bbcdc, 0xca62c1d6)  # 4.2.1: of twenty rounds each


def sha1_block(o, _, H, M):
    """6.1.2."""
    def rotl(x, n):
        return o.rotr(x, 32 - n)
    W = list(M)
    for t in range(16, 80):
        W.append(rotl(o.xor(W[t - 3], W[t - 8], W[t - 14], W[t - 16]), 1))
    a, b, c, d, e = H
    for t in range(80):
        f = (ch, parity, maj, parity)[t // 20]
        T = o.add(rotl(a, 5), f(o, b, c, d), e, o.constant(SHA1_K[t // 20]), W[t])
        e, d, c, b, a = d, c, rotl(b, 30), a, T
    return [o.add(x, y) for x, y in zip((a, b, c, d, e), H)]


Function = namedtuple("Function", "name width words family block")
FUNCTIONS = {it.name: it for it in [
    Function("SHA-1", 32, 5, None, sha1_block),
    Function("SHA-256", 32, 8, SHA256, sha2_block),
    Function("SHA-512", 64, 8, SHA512, sha2_block)]}


def first_constants(function):
    """K of the first sixteen rounds (4.2)."""
    return function.family.K[:16] if function.family else SHA1_K[:1] * 16


def next_state(function, o, H, M):
    return function.block(o, function.family, H, M)


# The rest is for the comparison alone: padding (5.1) and the first chaining words (5.3).

def digest(function, message):
    size = function.width // 8
    o = Numbers(function.width)
    H = {"SHA-1": [0x67452301, 0xefcdab89, 0x98badcfe, 0x10325476, 0xc3d2e1f0]}.get(
        function.name, [root_bits(p, 2, function.width) for p in primes(8)])
    padded = message + b"\x80" + bytes(-(len(message) + 1 + 2 * size) % (16 * size))
    padded += (8 * len(message)).to_bytes(2 * size, "big")
    for i in range(0, len(padded), 16 * size):
        M = [int.from_bytes(padded[j:j + size], "big") for j in range(i, i + 16 * size, size)]
        H = next_state(function, o, H, M)
    return b"".join(it.to_bytes(size, "big") for it in H)


def compare_with_hashlib():
    import hashlib
    for function in FUNCTIONS.values():
        name = function.name.lower().replace("-", "")
        for length in [*range(0, 300), 1000]:
            message = hashlib.shake_128(bytes([length % 256])).digest(length)
            assert digest(function, message) == hashlib.new(name, message).digest(), name
    return len(FUNCTIONS) * 301


if __name__ == "__main__":
    print(compare_with_hashlib(), "digests as hashlib's")
