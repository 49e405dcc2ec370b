# SPDX-License-Identifier: ISC
"""Open lengths: numbers r + step * n, where r and the step are known, and n is any public number
of a range. What terms.py asks of them is decided by their bounds, or not at all.

The word of such a number is the bits of r, and above them those of n + q: for each q that occurs
these are bits of their own. So a remainder by the step is a number, a count of steps is n + q, and
each number of this form has one representation. Nothing is said of other words."""

from collections import namedtuple

import terms
from machine import Region

# A number n that is open: how many bits it has, and between which numbers it is.
Open = namedtuple("Open", "name width lowest highest")
# A value: number + factor * n, without a carry out of its word.
Value = namedtuple("Value", "number factor open")
_BITS, _PLACE_OF = {}, {}  # by (open, q) the bits of n + q; of each such bit: (open, q, i)
_VALUES = {}


def opened(name, lowest, highest):
    """A number of which is known that it is between two others."""
    terms.OPEN = OPEN
    return Open(name, highest.bit_length(), lowest, highest)


def bits(number, q):
    """The bits of n + q."""
    if (number, q) not in _BITS:
        _BITS[number, q] = found = terms.fresh(f"{number.name} + {q}", number.width, secret=False)
        _PLACE_OF.update((bit, (number, q, i)) for i, bit in enumerate(found))
    return _BITS[number, q]


def word(value, width=64):
    """The word of a value, or None where it has none: the factor is no power of two, or the number
    may be below zero or too large."""
    number, factor, of = value
    if factor <= 0 or factor & (factor - 1):
        return None
    shift = factor.bit_length() - 1
    q, rest = divmod(number, factor)
    if of.lowest + q < 0 or of.highest + q >= 1 << of.width or shift + of.width > width:
        return None
    return terms.constant(rest, shift) + bits(of, q) + (0,) * (width - shift - of.width)


def length(of, step, rest):
    """rest + step * n, as a word of 64 bits."""
    return word(Value(rest, step, of))


def value_of(word_):
    """The value of a word of this form, or None."""
    if word_ not in _VALUES:
        _VALUES[word_] = _value_of(word_)
    return _VALUES[word_]


def _value_of(word_):
    shift = next((i for i, bit in enumerate(word_) if bit > 1), None)
    if shift is None:
        return Value(terms.number_of(word_), 0, None)
    if word_[shift] not in _PLACE_OF:
        return None
    of, q, first = _PLACE_OF[word_[shift]]
    end = shift + of.width
    if first or word_[shift:end] != bits(of, q) or any(it > 1 for it in word_[end:]):
        return None
    outside = terms.number_of(word_[:shift] + (0,) * of.width + word_[end:])
    return Value(outside + (q << shift), 1 << shift, of)


def bounds(value):
    """The least and the greatest number that a value is."""
    if value.factor == 0:
        return value.number, value.number
    ends = [value.number + value.factor * it for it in (value.open.lowest, value.open.highest)]
    return min(ends), max(ends)


def range_of(word_):
    """The least and the greatest number that a word is, where it is a value or a sum of some; or
    None."""
    if value := value_of(word_):
        return bounds(value)
    if (found := terms.sum_of(word_)) is None:
        return None
    least = greatest = terms.signed(found[0], len(word_))
    for of, times in found[1]:
        value = value_of(of)
        if value is None:
            return None
        ends = [terms.signed(times, len(word_)) * it for it in bounds(value)]
        least, greatest = least + min(ends), greatest + max(ends)
    return (least, greatest) if least >= 0 and greatest < 1 << len(word_) else None


def difference(a, b):
    """A value less another, or None where they have different open numbers."""
    if a is None or b is None or None is not a.open != b.open is not None:
        return None
    factor = a.factor - b.factor
    return Value(a.number - b.number, factor, (a.open or b.open) if factor else None)


def offset_of(word_):
    """A number for an offset: of one that is open, one that is far beyond all that are known."""
    value = value_of(word_)
    return value.number + (value.factor << 70)


class OpenRegion(Region):
    """Bytes that are read, of an open length. One that is at a known offset, and one that is at a
    known offset before or after step * n, have their own names, also where both are the same."""

    def __init__(self, name, length_, fill):
        self.length = value_of(length_)
        super().__init__(name, 0, bounds(self.length)[0], fill=fill)
        self.far = self.length.factor << 70  # as offset_of has step * n

    def copy(self):
        return self

    def offset(self, word_, size):
        """The offset of so many bytes that are surely inside, or None."""
        value = value_of(word_)
        if value and value.factor == 0:
            return value.number if value.number + size <= self.high else None
        if not value or (value.factor, value.open) != self.length[1:]:
            return None
        if bounds(value)[0] < 0 or value.number + size > self.length.number:
            return None
        return offset_of(word_)

    def has_at(self, start, count):
        """Whether so many bytes from a start on are surely inside, both being words."""
        rest = difference(self.length, value_of(start))
        left = rest and difference(rest, value_of(count))
        return left is not None and bounds(left)[0] >= 0

    def bytes_after(self, offset):
        """The least number of bytes from an offset to the end."""
        if offset < self.far >> 1:
            return self.high - offset
        return self.far + self.length.number - offset


class _Decisions:
    """What terms.py asks."""

    @staticmethod
    def is_zero(word_):
        found = range_of(word_)
        return 0 if found and found[0] > 0 else None

    @staticmethod
    def is_below(a, b):
        if found := difference(value_of(a), value_of(b)):
            least, greatest = bounds(found)
            return 0 if least >= 0 else 1 if greatest < 0 else None
        ranges = range_of(a), range_of(b)
        if None in ranges:
            return None
        (a_least, a_greatest), (b_least, b_greatest) = ranges
        return 0 if a_least >= b_greatest else 1 if a_greatest < b_least else None

    @staticmethod
    def carry(a, b, with_one):
        """0 where two numbers and a bit are surely less than their words have room for."""
        ranges = range_of(a), range_of(b)
        return None if None in ranges or sum(it[1] for it in ranges) + 1 >> len(a) else 0

    @staticmethod
    def parts(word_):
        """A word as a number plus a factor times a word: that of n itself where it is a value, or
        that of a sum of some."""
        value = value_of(word_)
        base = value and value.factor and word(Value(0, 1, value.open), len(word_))
        return (value.number, value.factor, base) if base else \
            terms.multiple_of_sum(word_) or (0, 1, word_)

    @staticmethod
    def sum_of(parts, number, width):
        """A number plus parts, pairs of a word and a factor, as a word; or None."""
        factor, of = 0, None
        for leaf, times in parts:
            value = value_of(leaf)
            if value is None or len(leaf) != width or None is not of != value.open is not None:
                return None
            of = value.open or of
            times -= 1 << width if times >> (width - 1) else 0
            number, factor = number + times * value.number, factor + times * value.factor
        if of is None:
            return None
        if not factor:
            return terms.constant(number % (1 << width), width)
        # The word is a number from 0 on: the one of these that is.
        lowest = bounds(Value(number, factor, of))[0]
        return word(Value(number - (lowest >> width << width), factor, of), width)


OPEN = _Decisions()
