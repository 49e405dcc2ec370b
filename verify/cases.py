# SPDX-License-Identifier: ISC
"""At which lengths each public function is run by check_calls.

"Every length" is each number below two blocks, and each remainder above any number of blocks from
two on. So the cases of one input are 3 * 64 or 3 * 128. Other inputs have a length of their own
meanwhile. Of two inputs with open lengths, each remainder of one is run beside some of the other:
not all pairs, and not all combinations."""

import hashlib
import itertools
from collections import namedtuple

import asking
import functions
import lengths
import sundry
import terms
import texts
import merkle_trees
import webhooks
from calls import SHA, V3
from standards import ALGORITHMS

Case = namedtuple("Case", "group features function arguments")
Above = namedtuple("Above", "rest")  # a length: so many bytes above any number of blocks from 2 on
ANY = "any"  # a number of iterations
TAGS = (1, 2, 3, 4)  # the algorithms of tags
EDGES = {0, 1, 20, 32, 48, 49, 55, 56, 63, 64, 65, 111, 112, 119, 120, 127, 128, 129}
GROUPS = ("digest", "pieces", "dispatch", "hmac", "hmac_key", "made", "hkdf", "pbkdf2", "each",
          "trees", "tokens", "headers", "passwords", "plain", "ask", "refused", "whole")
FEW = 64  # where one of so many is run
# What a salt of letters is made of: divisions of 128 bits are run of numbers alone.
RANDOM = [bytes(16), b"\xff" * 16, *(hashlib.shake_128(bytes([it])).digest(16) for it in range(6))]
# Public functions that no case runs: their password is the tag's bits from a place that the tag
# tells (RFC 4226, 5.3), divided by a power of ten: an address and a time by a secret.
NOT_SHOWN = ("yz_hotp", "yz_totp", "yz_hotp_find", "yz_totp_find")

MODULES = (functions, merkle_trees, texts, webhooks, sundry, asking)  # with the cases' functions


def prepared(name):
    """The function of a case, and how deep a stack it may take, of which the header says 20 KiB for
    password hashes. terms.py looks at as much by tables as the case needs."""
    module = next(it for it in MODULES if hasattr(it, name))
    terms.FEW_ATOMS = getattr(module, "FEW_ATOMS", 0)
    return getattr(module, name), 20480 if name.startswith("hash_") else 8192


def given_for(function, arguments):
    """The arguments of a function's case, in which open lengths and numbers are words, each of a
    number of its own."""
    step = ALGORITHMS[arguments[0]].block_len if arguments[0] in ALGORITHMS else 64
    most = (1 << 55) - 8
    if function.startswith("jws") or function.startswith("hash"):
        return list(arguments)
    if function == "several_pieces":  # of one message
        most //= max(1, sum(isinstance(it, Above) for it in arguments))
    return [lengths.length(_opened(i, 2, most), step, it.rest)
            if isinstance(it, Above) else
            lengths.word(lengths.Value(0, 1, _opened(i, 1, (1 << 32) - 1)), 32)
            if it == ANY else it for i, it in enumerate(arguments)]


def _opened(i, least, greatest):
    """The open number of an argument. Of blocks there are so many that a length in bits has room
    for it."""
    return lengths.opened(f"n{i}", least, greatest)


def processors(number, some=False):
    """Features under which the code is another, for an algorithm; with `some`, all four."""
    return [0, V3, SHA, V3 | SHA] if some else [0, V3, SHA] if number < 3 else [0, V3]


def every(number, step):
    """Every length of an input, or one of `step` and those at which the code is another; of FEW
    and more only some of the latter."""
    block_len = ALGORITHMS[number].block_len
    last = block_len - block_len // 8 - 1  # the longest rest that needs no further block
    if step == 1:
        below = set(range(2 * block_len))
    elif step < FEW:
        below = {it for it in EDGES if it < 2 * block_len} | set(range(0, 2 * block_len, step))
    else:
        below = {0, last, last + 1, block_len} if step == FEW else {last + 1}
    return [*sorted(below), *(Above(it) for it in sorted(below) if it < block_len)]


def pairs(number, step):
    """Two open lengths: each remainder of one, or one of `step`, beside some of the other."""
    block_len = ALGORITHMS[number].block_len
    last = block_len - block_len // 8 - 1
    some = [0, last, last + 1, block_len - 1]
    if step >= FEW:
        return [(Above(last + 1), Above(block_len - 1))]
    rests = sorted({*some, *range(0, block_len, step)})
    found = {(a, b) for a in rests for b in some}
    return [(Above(a), Above(b)) for a, b in sorted(found | {(b, a) for a, b in found})]


def threes(number, step):
    """Three open lengths: all combinations of some remainders."""
    block_len = ALGORITHMS[number].block_len
    last = block_len - block_len // 8 - 1
    some = (0, 1, last, last + 1, block_len - 1) if step < FEW else (last + 1,)
    return itertools.product(map(Above, some), repeat=3)


def cases(step):
    """All cases, of each algorithm and input one length of `step`."""
    for of in (digests, tags, keys, derived, made, merkle, tokens, headers, passwords, plain, asked,
               refused, whole):
        yield from (Case(group, features, function, arguments)
                    for group, features, function, *arguments in of(step))


def digests(step):
    for number in ALGORITHMS:
        for features in processors(number):
            for length in every(number, step):
                yield "digest", features, "digest", number, length
            for at in range(0, 201, step + 5 * (step == FEW)):
                yield "pieces", features, "pieces", number, 200, at
            for length in every(number, step):
                if isinstance(length, Above):
                    yield "pieces", features, "several_pieces", number, 17, length
                    yield "pieces", features, "several_pieces", number, length, 70
            for pair in pairs(number, step):
                yield "pieces", features, "several_pieces", number, *pair
            for three in threes(number, step):
                yield "pieces", features, "several_pieces", number, *three
            for list_ in [(), (10,), (0, 70, 130)]:
                yield "each", features, "each", number, *list_
        for features in processors(number, True):
            for length in (0, 55, 56, 64, 111, 112, 1000)[::1 if step < FEW else 4]:
                yield "dispatch", features, "digest", number, length
            yield "dispatch", features, "digest", number, 0, True
            yield "dispatch", features, "pieces", number, 300, 1, 70, 70, 200


def tags(step):
    for number in TAGS:
        for features in processors(number):
            for length in every(number, step):
                yield "hmac", features, "hmac_sign", number, length, 30
                yield "hmac", features, "hmac_sign", number, 20, length
            for pair in pairs(number, step):
                yield "hmac", features, "hmac_sign", number, *pair
            for pair in pairs(number, 16 * step):
                yield "hmac_key", features, "hmac_key", number, *pair
            for length in every(number, 16 * step):
                yield "hmac_key", features, "hmac_key", number, length, 30
                yield "hmac_key", features, "hmac_verify", number, 50, length
            for at in range(0, 101, 10 * step):
                yield "hmac_key", features, "hmac_pieces", number, 20, 100, at


def keys(step):
    for number in TAGS:
        for features in (0, V3):
            for salt, secret, info, length in [
                    (0, 0, 0, 1), (0, 20, 0, 20), (10, 32, 10, 32), (64, 20, 5, 64),
                    (130, 140, 80, 100), (13, 22, 10, 42), (80, 80, 80, 82),
                    (5, 32, 150, 200)][::1 if step < FEW else 4]:
                yield "hkdf", features, "hkdf", number, salt, secret, info, length
                yield "hkdf", features, "hkdf_extract", number, salt, secret
                yield "hkdf", features, "hkdf_expand", number, secret, info, length
            for length in every(number, step if step < FEW else 2 * step):
                yield "hkdf", features, "hkdf_extract", number, length, 20
                yield "hkdf", features, "hkdf_extract", number, 20, length
                yield "hkdf", features, "hkdf_expand", number, length, 10, 20
                yield "hkdf", features, "hkdf_expand", number, 32, length, 100
            for pair in pairs(number, 4 * step):
                yield "hkdf", features, "hkdf_extract", number, *pair
                yield "hkdf", features, "hkdf_expand", number, *pair, 42
            for label, context, length in [
                    (12, 32, 32), (1, 0, 1), (249, 255, 100), (3, 0, 12), (6, 48, 48), (7, 0, 16),
                    (10, 64, 64), (50, 55, 300)][::1 if step < FEW else 4]:
                for secret in (32, 0, 129, Above(5))[::1 if step < FEW else 3]:
                    yield "hkdf", features, "hkdf_expand_label", number, secret, label, context, \
                        length
            yield "hkdf", features, "tls13_finished", number
            for psk in (1, 32, 48, 64, 131, Above(5))[::1 if step < FEW else 4]:
                for is_external in (0, 1):
                    yield "hkdf", features, "tls13_binder_key", number, psk, is_external
        yield "hkdf", V3 * (number & 1), "refused_finished", number


def derived(step):
    for number in TAGS:
        for features in (0, V3):
            for iterations in (1, 2, 3, ANY) if step < FEW else (2, ANY):
                for salt, secret, length in [
                        (8, 10, 1), (16, 0, 20), (0, 70, 32), (60, 129, 64), (16, 10, 81),
                        (16, 10, 130), (16, 10, 260), (16, 10, 333)][::1 if step < FEW else 5]:
                    yield "pbkdf2", features, "pbkdf2", number, iterations, salt, secret, length
                yield "pbkdf2", features, "pbkdf2_verify", number, iterations, 16, 10, 20
                yield "pbkdf2", features, "pbkdf2_verify", number, iterations, 16, 10, 100
            for length in every(number, 4 * step):
                yield "pbkdf2", features, "pbkdf2", number, ANY, length, 10, 20
                yield "pbkdf2", features, "pbkdf2", number, ANY, 16, length, 20
            for pair in pairs(number, 16 * step):
                yield "pbkdf2", features, "pbkdf2", number, ANY, *pair, 20


def made(step):
    """Keys and contexts of any bytes."""
    for number in ALGORITHMS:
        block_len = ALGORITHMS[number].block_len
        for features in processors(number):
            for length in every(number, 16 * step):
                yield "made", features, "made_key", number, length
            for pending in (0, 1, 17, block_len - 9, block_len - 1)[::1 if step < FEW else 3]:
                for length in every(number, 16 * step):
                    yield "made", features, "made_context", number, pending, length


def merkle(step):
    """Merkle trees, which are of SHA-256."""
    counts = range(18) if step < FEW else (0, 1, 5)
    sizes = [*range(1, 10), 1 << 63, (1 << 63) + 5, (1 << 64) - 1] if step < FEW else [1, 5]
    for features in processors(2):
        for length in every(2, step):
            yield "trees", features, "merkle_leaf", 2, length
        for count in counts:
            yield "trees", features, "merkle_root", 2, count
            for number in {0, 1, count // 2, count - 1, count} - {-1}:
                for more in (0, 1, -1):
                    yield "trees", features, "merkle_inclusion_path", 2, number, count, more
                    yield "trees", features, "merkle_consistency_path", 2, number, count, more
        for size in sizes:
            for number in {0, 1, 2, 3, 4, size // 2, size - 1, size}:
                for function, right in (
                        ("merkle_verify_inclusion", merkle_trees.inclusion_len(number, size)),
                        ("merkle_verify_consistency", merkle_trees.consistency_len(number, size))):
                    for count in {right, right + 1, max(0, right - 1)}:
                        yield "trees", features, function, 2, number, size, count


def tokens(step):
    for number in (2, 3, 4):
        output_len = ALGORITHMS[number].output_len
        for features in processors(number):
            for payload in (*range(12), 31, 100, 300) if step < FEW else (10,):
                yield "tokens", features, "jws_sign", number, output_len, payload
                yield "tokens", features, "jws_verify", number, output_len, payload
            for key in (output_len + 1, 2 * output_len + 7) if step < FEW else ():
                yield "tokens", features, "jws_sign", number, key, 20
                yield "tokens", features, "jws_verify", number, key, 20
            if step >= FEW and number > 2:
                continue
            for more in (-1, 7):
                yield "tokens", features, "jws_sign", number, output_len, 10, more
            for header in (b'{"alg":"HS%d"}', b'{"typ":"JWT","alg":"HS%d"}'):
                yield "tokens", features, "jws_verify", number, output_len, 10, \
                    header % (8 * output_len)
    for number in (0, *ALGORITHMS, 6, 65538) if step < FEW else (1, 2):
        yield "tokens", 0, "jws_refused", number
        yield "tokens", V3, "jws_refused", number


def headers(step):
    """Headers of webhooks: Stripe's also at the last second, and one later."""
    for number in TAGS:
        for features in processors(number):
            for secret, body in ((20, 40), (1, 0), (32, 100), (131, 200))[::1 if step < FEW else 4]:
                yield "headers", features, "webhook_verify", number, secret, body
                if step < FEW:
                    yield "headers", features, "webhook_verify", number, secret, body, b""
                for now in (webhooks.TIME, webhooks.TIME + 300) if number == 2 else ():
                    yield "headers", features, "webhook_verify_stripe", 2, secret, body, now, 300
    yield "headers", 0, "webhook_verify_stripe", 2, 20, 40, webhooks.TIME + 301, 300
    yield "headers", V3, "webhook_verify_stripe", 2, 20, 40, 0, 0, 3
    for number in (0, *ALGORITHMS, 6, 65538) if step < FEW else (1, 2, 5):
        yield "headers", V3 * (number & 1), "webhook_refused", number


def passwords(step):
    """Of the quick ones some schemes, each by one set of features."""
    for scheme, it in texts.SCHEMES.items():
        if step >= FEW and scheme not in (1, 4, 5, 11):
            continue
        chosen = processors(it.algorithm) if step < FEW else [V3 * (scheme & 1)]
        for features in chosen:
            for salt, password in [(16, 10), (1, 0), (22, 64), (16, 200)][::1 if step < FEW else 4]:
                yield "passwords", features, "hash_new", scheme, 1, salt, password
                yield "passwords", features, "hash_verify", scheme, 1, salt, password, 1
                if step < FEW:
                    yield "passwords", features, "hash_verify", scheme, 3, salt, password, 1000
            if step < FEW or scheme == 1:
                yield "passwords", features, "hash_new", scheme, 1, 16, 10, 5
                yield "passwords", features, "hash_new", scheme, 1, 16, 10, -1
                yield "passwords", features, "hash_verify", scheme, 100000, 16, 10, 99999
        if step >= FEW and scheme != 1:
            continue
        for iterations in (1, 720000, (1 << 32) - 1)[::1 if step < FEW else 3]:
            yield "passwords", 0, "hash_info", scheme, iterations, 16
        for random in RANDOM if it.salt is texts.as_it_is else [None]:
            for more in (-1, 0, 6):
                yield "passwords", 0, "hash_salt", scheme, more, random
        yield "passwords", 0, "hash_refused", scheme
    for scheme in (0, 13, 1 << 16 | 1):
        yield "passwords", 0, "hash_refused", scheme


def plain(step):
    """Calls that run no block function."""
    for features in processors(1, True):
        for number in (0, *ALGORITHMS, 6, 65537):
            yield "plain", features, "numbers", number
    for number in (*range(9), 9, 255, (1 << 32) - 1):
        yield "plain", 0, "status_text", number
    for a in range(0, 301 if step < FEW else 80, 1 if step < FEW else 13):
        yield "plain", 0, "clear", 2, a
        for b in {a, a + 1, max(0, a - 1)}:
            yield "plain", 0, "equal", 2, a, b


def asked(_):
    for basic in (0, 1, 6, 7, 13, (1 << 31) - 1):
        for extended in (1 << 31, (1 << 31) + 1, (1 << 31) + 8):
            for value in asking.VALUES:
                yield "ask", 0, "ask", 2, basic, extended, value


def refused(_):
    for number in (0, *ALGORITHMS, 6, 255, 256, 65537, (1 << 32) - 1):
        for features in processors(1, True):
            yield "refused", features, "refused", number


def whole(step):
    for number in ALGORITHMS if step < FEW else ():
        for features in (0, V3):
            yield "whole", features, "digest", number, 3
            yield "whole", features, "digest", number, 120
            yield "whole", features, "each", number, 0, 3, 70, 130
            yield "whole", features, "each", number, *range(53, 61)
