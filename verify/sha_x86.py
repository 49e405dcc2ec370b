# SPDX-License-Identifier: ISC
"""The SHA instructions of x86-64, by Intel's manual. Words of a vector are listed from the highest,
as there."""

import fips180_4
from terms import add, constant, cut, joined, rotated_left, xor_words

SYMBOLS = fips180_4.Symbols(32)


def high_first(vector):
    return cut(vector, 32)[::-1]


def vector_of(*words):
    return joined(words[::-1])


def sha256rnds2(a, b, wk):
    C, D, G, H = high_first(a)
    A, B, E, F = high_first(b)
    family = fips180_4.SHA256
    for WK in cut(wk, 32)[:2]:
        T = add(fips180_4.ch(SYMBOLS, E, F, G), fips180_4.Sigma(SYMBOLS, family.Sigma1, E), WK, H)
        new = add(T, fips180_4.maj(SYMBOLS, A, B, C), fips180_4.Sigma(SYMBOLS, family.Sigma0, A))
        A, B, C, D, E, F, G, H = new, A, B, C, add(T, D), E, F, G
    return vector_of(A, B, E, F)


def small_sigma0(x):
    return fips180_4.sigma(SYMBOLS, fips180_4.SHA256.sigma0, x)


def small_sigma1(x):
    return fips180_4.sigma(SYMBOLS, fips180_4.SHA256.sigma1, x)


def sha256msg1(a, b):
    W3, W2, W1, W0 = high_first(a)
    W4 = b[:32]
    return vector_of(add(W3, small_sigma0(W4)), add(W2, small_sigma0(W3)),
                     add(W1, small_sigma0(W2)), add(W0, small_sigma0(W1)))


def sha256msg2(a, b):
    X3, X2, X1, X0 = high_first(a)
    W15, W14, _, _ = high_first(b)
    W16, W17 = add(X0, small_sigma1(W14)), add(X1, small_sigma1(W15))
    W18, W19 = add(X2, small_sigma1(W16)), add(X3, small_sigma1(W17))
    return vector_of(W19, W18, W17, W16)


def sha1msg1(a, b):
    W0, W1, W2, W3 = high_first(a)
    W4, W5, _, _ = high_first(b)
    return vector_of(xor_words(W2, W0), xor_words(W3, W1), xor_words(W4, W2), xor_words(W5, W3))


def sha1msg2(a, b):
    X0, X1, X2, X3 = high_first(a)
    _, W13, W14, W15 = high_first(b)
    W16 = rotated_left(xor_words(X0, W13), 1)
    W17 = rotated_left(xor_words(X1, W14), 1)
    W18 = rotated_left(xor_words(X2, W15), 1)
    W19 = rotated_left(xor_words(X3, W16), 1)
    return vector_of(W16, W17, W18, W19)


def sha1nexte(a, b):
    first, *others = high_first(b)
    return vector_of(add(first, rotated_left(high_first(a)[0], 30)), *others)


def sha1rnds4(number, a, b):
    number %= 4  # the processor reads two bits of it
    A, B, C, D = high_first(a)
    W = high_first(b)  # the first has E in it
    f = (fips180_4.ch, fips180_4.parity, fips180_4.maj, fips180_4.parity)[number]
    K = constant((0x5a827999, 0x6ed9eba1, 0x8f1bbcdc, 0xca62c1d6)[number], 32)
    E = constant(0, 32)
    for i in range(4):
        new = add(f(SYMBOLS, B, C, D), rotated_left(A, 5), W[i], E, K)
        A, B, C, D, E = new, A, rotated_left(B, 30), C, D
    return vector_of(A, B, C, D)
