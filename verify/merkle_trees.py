# SPDX-License-Identifier: ISC
"""Merkle trees (RFC 9162, section 2.1): the definition, to be read beside the RFC, and what each
public function has to do at some sizes. Nothing of a tree is secret: a branch may depend on it."""

import standards
import terms
from calls import answer, content, given, room, same, unknown_bytes, unwritten
from functions import OK, UNSPECIFIED, WRONG_LENGTH, source, writes
from machine import Refused
from standards import ALGORITHMS

SHA256, HASH_LEN = ALGORITHMS[2], 32


def hashed(block, data):
    return standards.digest(block, SHA256, data)


def node(block, left, right):
    """HASH(0x01 || left || right)"""
    return hashed(block, standards.plain(b"\1") + left + right)


def split_of(count):
    """The largest power of two smaller than n."""
    return 1 << ((count - 1).bit_length() - 1)


def tree(block, leaves):
    """2.1.1: MTH, over the hashes of leaves."""
    if not leaves:
        return hashed(block, [])
    if len(leaves) == 1:
        return leaves[0]
    k = split_of(len(leaves))
    return node(block, tree(block, leaves[:k]), tree(block, leaves[k:]))


def inclusion(block, m, leaves):
    """2.1.3.1: PATH(m, D_n)"""
    if len(leaves) == 1:
        return []
    k = split_of(len(leaves))
    if m < k:
        return inclusion(block, m, leaves[:k]) + [tree(block, leaves[k:])]
    return inclusion(block, m - k, leaves[k:]) + [tree(block, leaves[:k])]


def consistency(block, m, leaves, is_whole=True):
    """2.1.4.1: SUBPROOF(m, D_n, b)"""
    if m == len(leaves):
        return [] if is_whole else [tree(block, leaves)]
    k = split_of(len(leaves))
    if m <= k:
        return consistency(block, m, leaves[:k], is_whole) + [tree(block, leaves[k:])]
    return consistency(block, m - k, leaves[k:], False) + [tree(block, leaves[:k])]


def shifted(fn, sn, until):
    while fn and fn & 1 != until:
        fn, sn = fn >> 1, sn >> 1
    return fn, sn


def included(block, leaf, index, size, path):
    """2.1.3.2: the root that a path leads to, or None where it is refused whatever the root is."""
    if index >= size:
        return None
    fn, sn, r = index, size - 1, leaf
    for p in path:
        if sn == 0:
            return None
        if fn & 1 or fn == sn:
            r = node(block, p, r)
            fn, sn = shifted(fn, sn, 1)
        else:
            r = node(block, r, p)
        fn, sn = fn >> 1, sn >> 1
    return r if sn == 0 else None


def consistent(block, first_size, second_size, first, path):
    """2.1.4.2: the two roots that a path leads to, or None."""
    if not 0 < first_size < second_size or not path:
        return None
    values = [first, *path] if first_size & (first_size - 1) == 0 else path
    fn, sn = shifted(first_size - 1, second_size - 1, 0)
    fr = sr = values[0]
    for c in values[1:]:
        if sn == 0:
            return None
        if fn & 1 or fn == sn:
            fr, sr = node(block, c, fr), node(block, c, sr)
            fn, sn = shifted(fn, sn, 1)
        else:
            sr = node(block, sr, c)
        fn, sn = fn >> 1, sn >> 1
    return (fr, sr) if sn == 0 else None


def steps(fn, sn):
    """How many values the iterations of 2.1.3.2 and 2.1.4.2 take until sn is 0."""
    count = 0
    while sn:
        count += 1
        if not fn & 1 and fn == sn:
            fn, sn = shifted(fn, sn, 1)
        fn, sn = fn >> 1, sn >> 1
    return count


def inclusion_len(index, size):
    """How many hashes a path has that may be accepted, or 1 where none has."""
    return steps(index, size - 1) if index < size else 1


def consistency_len(first_size, second_size):
    if not 0 < first_size < second_size:
        return 1
    fn, sn = shifted(first_size - 1, second_size - 1, 0)
    is_power = first_size & (first_size - 1) == 0
    return steps(fn, sn) + (not is_power)


# The calls.

def public_bytes(name, count):
    data = unknown_bytes(name, count)
    terms.publish(*data)
    return data


def hashes(name, count):
    data = public_bytes(name, HASH_LEN * count)
    return [data[i:i + HASH_LEN] for i in range(0, len(data), HASH_LEN)]


def merkle_leaf(calls, _, length):
    expected = hashed(calls.block, standards.plain(b"\0") + unknown_bytes("entry", length))
    out = room("hash", HASH_LEN)
    writes(calls, out, expected, "yz_merkle_leaf", *source("entry", length), out)


def merkle_root(calls, _, count):
    out = room("root", HASH_LEN)
    writes(calls, out, tree(calls.block, hashes("leaves", count)), "yz_merkle_root",
           given("leaves", HASH_LEN * count), (count,), out)


def assumed(path):
    """What a path assumes: bits that are all 0, and sets of bits of which one at least is 1."""
    zeros, ones = set(), []
    for condition, taken in path:
        truth = condition if taken else terms.xor(condition, 1)
        if (bits := terms.zeros_of(truth)) is not None:
            zeros |= bits
        if (bits := terms.zeros_of(terms.xor(truth, 1))) is not None:
            ones.append(bits)
    return zeros, ones


def accepts_where(ends, pairs):
    """A verification of what is public, which may branch on it: answers YZ_OK exactly where all
    these pairs of words are equal, or never where `pairs` is None, and else YZ_UNSPECIFIED."""
    differ = {bit for a, b in pairs or () for bit in terms.xor_words(a, b) if bit}
    accepted = 0
    for end in ends:
        zeros, ones = assumed(end.path)
        value = end.registers[end.program.result][:32]
        unequal = value[UNSPECIFIED.bit_length() - 1]
        if terms.number_of(value) is None:  # by a bit, and no branch
            bits = terms.zeros_of(terms.xor(unequal, 1))
            is_right = bits is not None and bits <= differ <= bits | zeros and value == tuple(
                unequal if 1 << i == UNSPECIFIED else 0 for i in range(32))
            accepted += 1
        elif answer(end) == OK:
            is_right = differ <= zeros
            accepted += 1
        else:
            is_right = answer(end) == UNSPECIFIED and (
                pairs is None or any(bits <= differ for bits in ones))
        if not is_right:
            raise Refused("a verification answers by something else than equality")
    if accepted != (pairs is not None):
        raise Refused(f"a verification that accepts in {accepted} ways")


def merkle_verify_inclusion(calls, _, index, size, count):
    leaf, root = (public_bytes(it, HASH_LEN) for it in ("hash", "root"))
    found = included(calls.block, leaf, index, size, hashes("path", count))
    ends = calls.call("yz_merkle_verify_inclusion", given("hash", HASH_LEN), (index,), (size,),
                      given("path", HASH_LEN * count), (count,), given("root", HASH_LEN))
    accepts_where(ends, found and list(zip(found, root)))


def merkle_verify_consistency(calls, _, first_size, second_size, count):
    first, second = (public_bytes(it, HASH_LEN) for it in ("first", "second"))
    found = consistent(calls.block, first_size, second_size, first, hashes("path", count))
    ends = calls.call("yz_merkle_verify_consistency", (first_size,), given("first", HASH_LEN),
                      (second_size,), given("second", HASH_LEN), given("path", HASH_LEN * count),
                      (count,))
    accepts_where(ends, found and list(zip(found[0] + found[1], first + second)))


def merkle_path(calls, name, expected, number, count, more):
    """A call that writes a path into room for `more` hashes more than there are, or fewer."""
    size = max(0, len(expected or []) + more)
    out, written = room("path", HASH_LEN * size), room("path count", 8, 8)
    status = UNSPECIFIED if expected is None else WRONG_LENGTH if size < len(expected) else OK
    for end in calls.call(name, given("leaves", HASH_LEN * count), (count,), (number,), out,
                          (size,), written):
        if answer(end) != status:
            raise Refused(f"{name} answers {answer(end)}, not {status}")
        if status != OK:
            unwritten(end, out, written)
            continue
        flat, before = [it for of in expected for it in of], unknown_bytes("path", HASH_LEN * size)
        same("the path", content(end, out), flat + before[len(flat):])
        same("the count", content(end, written), terms.cut(terms.constant(len(expected), 64), 8))


def merkle_inclusion_path(calls, _, index, count, more=0):
    leaves = hashes("leaves", count)
    expected = inclusion(calls.block, index, leaves) if index < count else None
    merkle_path(calls, "yz_merkle_inclusion_path", expected, index, count, more)


def merkle_consistency_path(calls, _, first_size, count, more=0):
    leaves = hashes("leaves", count)
    expected = consistency(calls.block, first_size, leaves) if 0 < first_size < count else None
    merkle_path(calls, "yz_merkle_consistency_path", expected, first_size, count, more)
