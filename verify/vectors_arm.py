# SPDX-License-Identifier: ISC
"""Instructions of 64-bit ARM over vectors, as far as the kernels have them, and its SHA
instructions: each takes (state, instruction)."""

import fips180_4
import terms
from machine import Unknown
from operands_arm import Element, Vector, place, put, word
from terms import (add, constant, cut, joined, number_of, rotated_left, shifted_left, shifted_right,
                   xor_words)


def load_and_repeat(state, it):
    target, memory = it.operands
    part = state.load(place(state, memory, None), target.part // 8)
    put(state, target, part * (128 // target.part))


def load_part(state, it):
    target, memory = it.operands
    if not isinstance(target, Element):
        raise Unknown("a load of whole vectors")
    put(state, target, state.load(place(state, memory, None), target.width // 8))


def shift_each(state, it):
    """ushl: words by numbers of their own, which are to the right where they are below zero."""
    target, source, counts = it.operands
    parts = []
    for part, count in zip(cut(word(state, source), target.part),
                           cut(word(state, counts), target.part)):
        by = number_of(count[:8])
        if by is None:
            state.refuse("a shift by a number that is not known")
        parts.append(shifted_left(part, by) if by < 128 else shifted_right(part, 256 - by))
    put(state, target, joined(parts))


def widen(state, it):
    """uxtl: words with zeros above."""
    target, source = it.operands
    put(state, target, joined(part + (0,) * (target.part - source.part)
                              for part in cut(word(state, source), source.part)))


def shift_and_add(state, it):
    target, source, by = it.operands
    parts = zip(cut(word(state, target), target.part), cut(word(state, source), target.part))
    put(state, target, joined(add(a, shifted_right(b, by.number)) for a, b in parts))


def move_repeated(state, it):
    target, number, *shifts = it.operands
    value = number.number << (shifts[0].by if shifts else 0)
    put(state, target, constant(value, target.part) * (128 // target.part))


def add_each(state, it):
    target, *sources = it.operands
    a, b = (cut(word(state, of), target.part) for of in sources)
    put(state, target, joined(map(add, a, b)))


def add_neighbours(state, it):
    """addp: the sums of two neighbours in both vectors."""
    target, low, high = it.operands
    parts = cut(word(state, low) + word(state, high), target.part)
    put(state, target, joined(map(add, parts[::2], parts[1::2])))


def add_parts(state, it):
    target, source = it.operands
    parts = cut(word(state, source), source.part)
    while len(parts) > 1:
        parts = list(map(add, parts[::2], parts[1::2]))
    put(state, target, parts[0])


def greatest_part(state, it):
    """umaxv: of numbers, or of parts that are all ones or all zeros."""
    target, source = it.operands
    parts = cut(word(state, source), source.part)
    numbers = [number_of(part) for part in parts]
    if None not in numbers:
        put(state, target, constant(max(numbers), source.part))
    elif all(part == part[:1] * source.part for part in parts):
        found = 0
        for part in parts:
            found = terms.either(found, part[0])
        put(state, target, (found,) * source.part)
    else:
        state.refuse("the greatest of words that are not known")


def compare_parts(state, it):
    """cmeq, with a vector or with zeros."""
    target, first, other = it.operands
    pairs = zip(cut(word(state, first), target.part),
                cut(word(state, other, 128), target.part))
    put(state, target, joined((terms.is_zero(xor_words(a, b)),) * target.part for a, b in pairs))


def extract(state, it):
    target, low, high, number = it.operands
    both = word(state, low) + word(state, high)
    put(state, target, both[8 * number.number:8 * number.number + 128])


def permute(function):
    def run(state, it):
        target, first, other = it.operands
        put(state, target, joined(function(cut(word(state, first), target.part),
                                           cut(word(state, other), target.part))))
    return run


def interleaved(start):
    return lambda a, b: [x for pair in list(zip(a, b))[start * len(a) // 2:][:len(a) // 2]
                         for x in pair]


def transposed(start):
    return lambda a, b: [x for pair in zip(a[start::2], b[start::2]) for x in pair]


def reverse_in(width):
    def run(state, it):
        target, source = it.operands
        if not isinstance(target, Vector) or target.part != 8:
            raise Unknown("a reversal but of bytes")
        put(state, target, joined(joined(cut(part, 8)[::-1])
                                  for part in cut(word(state, source), width)))
    return run


def duplicate(state, it):
    target, source = it.operands
    put(state, target, word(state, source)[:target.part] * (128 // target.part))


def bit_insert_false(state, it):
    """bif: bits of a word where a mask has none."""
    target, first, mask = (word(state, of) for of in it.operands)
    put(state, it.operands[0], tuple(map(terms.choice, mask, target, first)))


def bit_select(state, it):
    target, first, other = (word(state, of) for of in it.operands)
    put(state, it.operands[0], tuple(map(terms.choice, target, first, other)))


# The SHA instructions, by Arm's manual.

SYMBOLS = fips180_4.Symbols(32)
FAMILY = fips180_4.SHA256


def sha256hash(X, Y, W, part1):
    X, Y = cut(X, 32), cut(Y, 32)
    for w in cut(W, 32):
        chs, maj = fips180_4.ch(SYMBOLS, *Y[:3]), fips180_4.maj(SYMBOLS, *X[:3])
        t = add(Y[3], fips180_4.Sigma(SYMBOLS, FAMILY.Sigma1, Y[0]), chs, w)
        X[3] = add(t, X[3])
        Y[3] = add(t, fips180_4.Sigma(SYMBOLS, FAMILY.Sigma0, X[0]), maj)
        X, Y = [Y[3], *X[:3]], [X[3], *Y[:3]]
    return joined(X if part1 else Y)


def small_sigma(counts, x):
    return fips180_4.sigma(SYMBOLS, counts, x)


def sha256su0(d, n):
    d, n = cut(d, 32), cut(n, 32)
    return joined(add(small_sigma(FAMILY.sigma0, t), x) for t, x in zip([*d[1:], n[0]], d))


def sha256su1(d, n, m):
    d, n, m = cut(d, 32), cut(n, 32), cut(m, 32)
    seven_before, result = [*n[1:], m[0]], []
    for e in range(4):
        two_before = (m[2], m[3], *result)[e]
        result.append(add(small_sigma(FAMILY.sigma1, two_before), d[e], seven_before[e]))
    return joined(result)


def sha1hash(f):
    def run(d, n, m):
        X, Y = cut(d, 32), n
        for w in cut(m, 32):
            Y = add(Y, rotated_left(X[0], 5), f(SYMBOLS, *X[1:]), w)
            X[1] = rotated_left(X[1], 30)
            X, Y = [Y, *X[:3]], X[3]
        return joined(X)
    return run


def sha1su0(d, n, m):
    return xor_words(xor_words(d[64:] + n[:64], d), m)


def sha1su1(d, n):
    T = cut(xor_words(d, shifted_right(n, 32)), 32)
    return joined([*(rotated_left(it, 1) for it in T[:3]),
                   xor_words(rotated_left(T[3], 1), rotated_left(T[0], 2))])


def over_vectors(function):
    """An instruction whose destination is its first source."""
    return lambda state, it: put(state, it.operands[0],
                                 function(*(word(state, of) for of in it.operands)))


TABLE = {
    "usra": shift_and_add, "movi": move_repeated, "ushl": shift_each, "uxtl": widen,
    "ld1r": load_and_repeat, "ld1": load_part, "ext": extract,
    "zip1": permute(interleaved(0)), "zip2": permute(interleaved(1)),
    "uzp1": permute(lambda a, b: (a + b)[::2]), "uzp2": permute(lambda a, b: (a + b)[1::2]),
    "trn1": permute(transposed(0)), "trn2": permute(transposed(1)),
    "addp": add_neighbours, "addv": add_parts, "umaxv": greatest_part, "cmeq": compare_parts,
    "bif": bit_insert_false, "rev32": reverse_in(32), "rev64": reverse_in(64), "dup": duplicate,
    "bsl": bit_select,
    "sha256h": over_vectors(lambda d, n, m: sha256hash(d, n, m, True)),
    "sha256h2": over_vectors(lambda d, n, m: sha256hash(n, d, m, False)),
    "sha256su0": over_vectors(sha256su0), "sha256su1": over_vectors(sha256su1),
    "sha1c": over_vectors(sha1hash(fips180_4.ch)), "sha1m": over_vectors(sha1hash(fips180_4.maj)),
    "sha1p": over_vectors(sha1hash(fips180_4.parity)), "sha1su0": over_vectors(sha1su0),
    "sha1su1": over_vectors(sha1su1),
    "sha1h": over_vectors(lambda _, n: rotated_left(n, 30)),
}
