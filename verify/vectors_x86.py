# SPDX-License-Identifier: ISC
"""Instructions of x86-64 over vectors, as far as the kernels have them: each takes (state,
instruction, the name without the prefix `v`, whether it has that)."""

import terms
from machine import Pointer, Unknown, whole
from operands_x86 import Immediate, Memory, Vector, read, word, write
from sha_x86 import sha1msg1, sha1msg2, sha1nexte, sha1rnds4, sha256msg1, sha256msg2, sha256rnds2
from terms import (add, and_words, constant, cut, inverted, joined, number_of, or_words,
                   shifted_left, shifted_right, xor_words)

# Each of PACKED gives a vector of 128 bits from two, the first of which
# is what the instruction without a third operand overwrites. On 256 bits it runs on both halves.

def each(width, function):
    return lambda a, b: joined(map(function, cut(a, width), cut(b, width)))


def equal_words(a, b):
    if a == b:
        return constant(-1, len(a))
    x, y = number_of(a), number_of(b)
    if terms.OPAQUE_OR:
        return (terms.is_zero(xor_words(a, b)),) * len(a)
    if x is None or y is None:
        raise Unknown("a comparison of words that are not known")
    return constant(0, len(a))


def shuffle_bytes(a, b):
    places = [number_of(it) for it in cut(b, 8)]
    if None in places:
        raise Unknown("a shuffle by bytes that depend on data")
    parts = cut(a, 8)
    return joined(constant(0, 8) if it & 0x80 else parts[it & 15] for it in places)


def shuffle_words(number, a):
    parts = cut(a, 32)
    return joined(parts[number >> i & 3] for i in (0, 2, 4, 6))


def shuffle_two(number, a, b):
    x, y = cut(a, 32), cut(b, 32)
    return joined([x[number & 3], x[number >> 2 & 3], y[number >> 4 & 3], y[number >> 6 & 3]])


def blend(width):
    def run(number, a, b):
        return joined(y if number >> i & 1 else x
                      for i, (x, y) in enumerate(zip(cut(a, width), cut(b, width))))
    return run


def align(number, a, b):
    return ((b + a) + (0,) * 256)[8 * number:8 * number + 128] if number < 32 else constant(0, 128)


def unpacked(start):
    """Bytes of two halves in turn."""
    def run(a, b):
        halves = zip(cut(a[start:start + 64], 8), cut(b[start:start + 64], 8))
        return joined(x + y for x, y in halves)
    return run


def by_counts(function):
    """A shift of each word by a number of its own."""
    def run(a, b):
        count = number_of(b)
        if count is None:
            raise Unknown("a shift by a number that is not known")
        return function(a, count)
    return run


PACKED = {
    "paddd": each(32, add), "paddq": each(64, add), "pxor": xor_words, "por": or_words,
    "pand": and_words, "pandn": lambda a, b: and_words(inverted(a), b), "xorps": xor_words,
    "andps": and_words, "orps": or_words, "pcmpeqd": each(32, equal_words),
    "pcmpeqb": each(8, equal_words), "pshufb": shuffle_bytes,
    "punpcklbw": unpacked(0), "punpckhbw": unpacked(64),
    "punpcklqdq": lambda a, b: a[:64] + b[:64], "punpckhqdq": lambda a, b: a[64:] + b[64:],
    "punpckldq": lambda a, b: a[:32] + b[:32] + a[32:64] + b[32:64],
    "punpckhdq": lambda a, b: a[64:96] + b[64:96] + a[96:] + b[96:],
    "psllvq": each(64, by_counts(shifted_left)), "psrlvq": each(64, by_counts(shifted_right)),
    "psllvd": each(32, by_counts(shifted_left)), "psrlvd": each(32, by_counts(shifted_right)),
    "movlhps": lambda a, b: a[:64] + b[:64], "sha256msg1": sha256msg1, "sha256msg2": sha256msg2,
    "sha1msg1": sha1msg1, "sha1msg2": sha1msg2, "sha1nexte": sha1nexte,
}
PACKED_SHIFTS = {
    "psrlw": (16, shifted_right), "psllw": (16, shifted_left),
    "pslld": (32, shifted_left), "psrld": (32, shifted_right),
    "psllq": (64, shifted_left), "psrlq": (64, shifted_right),
    "pslldq": (128, lambda a, n: shifted_left(a, 8 * n)),
    "psrldq": (128, lambda a, n: shifted_right(a, 8 * n)),
}
WITH_NUMBER = {"shufps": shuffle_two, "palignr": align, "pblendw": blend(16),
               "sha1rnds4": sha1rnds4}


def packed(state, it, name, has_three):
    """An instruction of PACKED, with a prefix `v` or without."""
    source, target = it.operands[0], it.operands[-1]
    first = it.operands[1] if has_three else target
    width = target.width
    a = read(state, first, width)
    # Without `v`, a vector in memory has to be aligned.
    b = read(state, source, width, aligned=not has_three)
    result = joined(map(PACKED[name], cut(a, 128), cut(b, 128)))
    finish(state, target, result, has_three)


def finish(state, target, result, clears):
    """Writes a vector; an instruction with `v` clears what is above."""
    if clears:
        result += (0,) * (256 - len(result))
    state.vectors[target.number] = result + state.vectors[target.number][len(result):]


def packed_shift(state, it, name, has_v):
    count, target = it.operands[0], it.operands[-1]
    width, function = PACKED_SHIFTS[name]
    if not isinstance(count, Immediate):
        raise Unknown("a shift by a register")
    source = it.operands[1] if has_v else target
    result = joined(function(part, count.number) for part in cut(read(state, source, target.width),
                                                                 width))
    finish(state, target, result, has_v)


def with_number(state, it, name, has_v):
    number, source, target = it.operands[0], it.operands[1], it.operands[-1]
    first = it.operands[2] if has_v else target
    a = read(state, first, target.width)
    b = read(state, source, target.width, aligned=not has_v)
    result = joined(WITH_NUMBER[name](number.number, x, y)
                    for x, y in zip(cut(a, 128), cut(b, 128)))
    finish(state, target, result, has_v)


def shuffled(state, it, _, has_v):
    number, source, target = it.operands
    a = read(state, source, target.width, aligned=not has_v)
    finish(state, target, joined(shuffle_words(number.number, part) for part in cut(a, 128)), has_v)


def extended(narrow, wide):
    """pmovzx: words with zeros above."""
    def run(state, it, _, has_v):
        source, target = it.operands
        parts = cut(word(state, source, target.width * narrow // wide), narrow)
        finish(state, target, joined(of + (0,) * (wide - narrow) for of in parts), has_v)
    return run


def blended(state, it, _, has_v):
    number, source, target = it.operands[0], it.operands[1], it.operands[-1]
    first = it.operands[2] if has_v else target
    if not has_v and isinstance(source, Memory):
        raise Unknown("blendps with memory")
    result = blend(32)(number.number, read(state, first, target.width),
                       read(state, source, target.width))
    finish(state, target, result, has_v)


def permuted(state, it, _, has_v):
    number, source, target = it.operands
    parts = cut(read(state, source, 256), 64)
    finish(state, target, joined(parts[number.number >> i & 3] for i in (0, 2, 4, 6)), has_v)


def permuted_words(state, it, _, has_v):
    source, places, target = it.operands
    parts = cut(read(state, source, 256), 32)
    numbers = [number_of(of[:3]) for of in cut(read(state, places, 256), 32)]
    if None in numbers:
        raise Unknown("a permutation by places that depend on data")
    finish(state, target, joined(parts[of] for of in numbers), has_v)


def extracted_half(state, it, _, __):
    number, source, target = it.operands
    half = cut(read(state, source, 256), 128)[number.number & 1]
    if isinstance(target, Vector):
        finish(state, target, half, True)
    else:
        write(state, target, half, 128)


def inserted_half(state, it, _, has_v):
    number, source, first, target = it.operands
    parts = cut(read(state, first, 256), 128)
    parts[number.number & 1] = read(state, source, 128)
    finish(state, target, joined(parts), has_v)


def permuted_halves(state, it, _, has_v):
    number, source, first, target = it.operands
    parts = cut(read(state, first, 256), 128) + cut(read(state, source, 256), 128)
    number = number.number
    finish(state, target, joined(constant(0, 128) if number >> (i + 3) & 1 else
                                 parts[number >> i & 3] for i in (0, 4)), has_v)


def inserted(width):
    def run(state, it, _, has_v):
        number, source = it.operands[:2]
        target = it.operands[-1]
        parts = cut(read(state, it.operands[2] if has_v else target, 128), width)
        parts[number.number % len(parts)] = word(state, source, width)[:width]
        finish(state, target, joined(parts), has_v)
    return run


def extracted(width):
    def run(state, it, _, __):
        number, source, target = it.operands
        part = whole(cut(read(state, source, 128), width)[number.number % (128 // width)])
        write(state, target, part if isinstance(target, Memory) or isinstance(part, Pointer) else
              part + (0,) * (target.width - width), width)
    return run


def broadcast(width):
    def run(state, it, _, has_v):
        source, target = it.operands
        value = read(state, source, width)
        finish(state, target, value * (target.width // width), has_v)
    return run


def moved(is_aligned):
    def run(state, it, _, has_v):
        source, target = it.operands
        width = (target if isinstance(target, Vector) else source).width
        value = read(state, source, width, is_aligned)
        if isinstance(target, Vector):
            finish(state, target, value, has_v)
        else:
            write(state, target, value, width, is_aligned)
    return run


def moved_low(width):
    """movd, movq, movss, movsd, of which the rest of a vector is cleared."""
    def run(state, it, _, has_v):
        source, target = it.operands
        if isinstance(target, Vector):
            if isinstance(source, Vector) and width == 32:
                raise Unknown("movss between vectors")
            value = word(state, source, width)
            finish(state, target, value + (0,) * (128 - width), has_v)
        else:
            value = whole(read(state, source, width))
            write(state, target, value if isinstance(target, Memory) or isinstance(value, Pointer)
                  else value + (0,) * (target.width - width), width)
    return run


def moved_scalar(width):
    """movss and movsd, which between vectors keep the rest."""
    def run(state, it, name, has_v):
        source, target = it.operands
        if isinstance(source, Vector) and isinstance(target, Vector):
            value = read(state, source, width) + read(state, target, 128)[width:]
            finish(state, target, value, has_v)
        else:
            moved_low(width)(state, it, name, has_v)
    return run


def moved_half(low):
    """movlps and movhps: the lower or the upper half of a vector from memory or to it."""
    def run(state, it, _, __):
        source, target = it.operands
        if isinstance(target, Vector):
            parts = cut(read(state, target, 128), 64)
            parts[low] = word(state, source, 64)
            finish(state, target, joined(parts), False)
        else:
            write(state, target, cut(read(state, source, 128), 64)[low], 64)
    return run


def cleared_uppers(state, *_):
    for i in range(16):
        state.vectors[i] = state.vectors[i][:128] + (0,) * 128


def rounds_by_xmm0(state, it, *_):
    wk, source, target = it.operands
    if wk != Vector(0, 128):
        raise Unknown("sha256rnds2 by another vector than xmm0")
    finish(state, target, sha256rnds2(read(state, target, 128), read(state, source, 128, True),
                                      read(state, wk, 128)), False)


def highest_bits(state, it, _, __):
    """pmovmskb: the highest bit of each byte."""
    source, target = it.operands
    bits = read(state, source, source.width)[7::8]
    write(state, target, bits + (0,) * (target.width - len(bits)), target.width)


def inserted_words(state, it, _, has_v):
    """insertps: a word of a vector into another, of which some are cleared."""
    number, source, target = it.operands[0].number, it.operands[1], it.operands[-1]
    parts = cut(read(state, it.operands[2] if has_v else target, 128), 32)
    if isinstance(source, Vector):
        value = cut(read(state, source, 128), 32)[number >> 6]
    else:
        value = word(state, source, 32)
    parts[number >> 4 & 3] = value
    finish(state, target, joined(constant(0, 32) if number >> i & 1 else part
                                 for i, part in enumerate(parts)), has_v)


SPECIAL = {
    "blendps": blended, "insertf128": inserted_half, "broadcastss": broadcast(32),
    "broadcastsd": broadcast(64), "permps": permuted_words, "permpd": permuted,
    "pmovzxdq": extended(32, 64), "pmovzxbq": extended(8, 64), "pmovzxbd": extended(8, 32),
    "pmovzxwd": extended(16, 32), "pmovzxbw": extended(8, 16),
    "pmovmskb": highest_bits, "pbroadcastb": broadcast(8),
    "insertps": inserted_words, "pinsrw": inserted(16), "pinsrb": inserted(8),
    "pextrb": extracted(8), "pextrw": extracted(16),
    "pshufd": shuffled, "pblendd": blended, "permq": permuted, "permd": permuted_words,
    "extracti128": extracted_half,
    "inserti128": inserted_half, "perm2i128": permuted_halves, "pinsrd": inserted(32),
    "pinsrq": inserted(64), "pextrd": extracted(32), "pextrq": extracted(64),
    "extractps": extracted(32), "pbroadcastd": broadcast(32), "pbroadcastq": broadcast(64),
    "broadcasti128": broadcast(128), "movdqa": moved(True), "movaps": moved(True),
    "movdqu": moved(False), "movups": moved(False), "movd": moved_low(32), "movq": moved_low(64),
    "movss": moved_scalar(32), "movsd": moved_scalar(64), "movlps": moved_half(0),
    "movhps": moved_half(1), "zeroupper": cleared_uppers, "sha256rnds2": rounds_by_xmm0,
}
