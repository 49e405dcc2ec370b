# SPDX-License-Identifier: ISC
"""The calls of the table, verification by verification, with the answers that must come. These are
of `hashlib` and `hmac`, and of the readings of the RFCs that tests/tokens.py, tests/merkle.py and
tests/password_hashes.py have."""

import hashlib
import hmac
import random
import string

import merkle
import password_hashes
import tokens
from near import Table, ends_of

ALGORITHMS = tokens.OTP_HASHES
# Around the ends of blocks with and without their padding, where a call releases Python's GIL, at
# the pieces in which the package for JavaScript copies a message (64 KiB), and where `subtle` gives
# it to a worker (256 KiB).
LENGTHS = [
    0, 1, 2, 55, 56, 57, 63, 64, 65, 100, 111, 112, 113, 119, 120, 127, 128, 129, 191, 192, 193,
    255, 256, 257, 2047, 2048, 2049, 4095, 4096, 4097, 65535, 65536, 65537, 131073, 200000, 262143,
    262144, 262145,
]
KEY_LENGTHS = [0, 1, 15, 16, 63, 64, 65, 127, 128, 129, 2047, 2048, 2049, 65536, 65537]
# Of a token that is shorter each symbol is changed.
SHORT_TOKEN = 400
SYMBOLS = string.ascii_letters.encode() + string.digits.encode() + b"-_"


def verdict(is_right):
    return "match" if is_right else "mismatch"


def some_bytes(name, length):
    return random.Random(name).randbytes(length)


MESSAGE = some_bytes("message", max(LENGTHS))
KEY = some_bytes("key", 65537)


# --- tags ---


def tags_at(table, name, key, length, places=None):
    """The tag of a message of a length, and what is near it."""
    message, key_field = table.first(MESSAGE, length), table.first(KEY, key)
    right = hmac.digest(KEY[:key], MESSAGE[:length], ALGORITHMS[name])
    table.call("match", "hmac-verify", name, key_field, message, right)
    for field, value in table.near(right, places):
        table.call(verdict(value == right), "hmac-verify", name, key_field, message, field)


def other_tags(table, name, length):
    """Tags that are right of another message, another key or another algorithm."""
    message, key = MESSAGE[:length], KEY[:32]
    others = [hmac.digest(key, message, other) for other in ALGORITHMS.values()]
    others += [hmac.digest(key, MESSAGE[: length + 1], "sha256"), hmac.digest(b"", message, "sha1")]
    others += [hashlib.new(ALGORITHMS[name], message).digest(), bytes(32), bytes(64)]
    right = hmac.digest(key, message, ALGORITHMS[name])
    for tag in [*others, *(it[: len(right)] for it in others), *(it + it for it in others)]:
        answer = verdict(tag == right)
        table.call(answer, "hmac-verify", name, key, table.first(MESSAGE, length), tag)


def tags_before_zero(table, name):
    """A tag that ends with a zero, which is another one without it."""
    for length in range(2000):
        right = hmac.digest(KEY[:32], MESSAGE[:length], ALGORITHMS[name])
        if right[-1] == 0:
            break
    message = table.first(MESSAGE, length)
    table.call("match", "hmac-verify", name, KEY[:32], message, right)
    for field, value in table.near(right):
        table.call(verdict(value == right), "hmac-verify", name, KEY[:32], message, field)


def other_keys(table, name):
    """Keys near the right one: zeros behind one that is no longer than a block change nothing (RFC
    2104, section 2)."""
    for length in (16, 63, 64, 127, 128, 129):
        key, message = KEY[:length], MESSAGE[:100]
        tag = hmac.digest(key, message, ALGORITHMS[name])
        for field, value in table.near(key, ends_of(key, 2)):
            answer = verdict(hmac.digest(value, message, ALGORITHMS[name]) == tag)
            table.call(answer, "hmac-verify", name, field, message, tag)


def tags(table):
    for name in ALGORITHMS:
        for length in LENGTHS:
            tags_at(table, name, 32, length)
            other_tags(table, name, length)
        for length in KEY_LENGTHS:
            tags_at(table, name, length, 100, (0, 1, 9, 18, 19))
        tags_before_zero(table, name)
        other_keys(table, name)


# --- keys from passwords ---


def derived_at(table, name, iterations, secret, salt, length, places=None):
    """A derived key of a length, and what is near it: of each length above 0 the first bytes are
    right."""
    long = hashlib.pbkdf2_hmac(ALGORITHMS[name], secret, salt, iterations, 2 * length + 64)
    for field, value in [(long[:length], long[:length]), *table.near(long[:length], places)]:
        answer = verdict(len(value) > 0 and long.startswith(value))
        table.call(answer, "pbkdf2-verify", name, iterations, secret, salt, field)


def derived_keys(table):
    for name, digest in ALGORITHMS.items():
        block = hashlib.new(digest).digest_size
        # Up to three rounds run one by one, and more side by side, by 4, 8 or 16.
        for rounds in (1, 2, 3, 4, 5, 8, 9, 16, 17, 33):
            for length in (rounds * block - 1, rounds * block, rounds * block + 1):
                places = None if rounds < 2 else ends_of(bytes(length), 3)
                derived_at(table, name, 2, KEY[:20], MESSAGE[:8], length, places)
        for iterations in (1, 3, 1000):
            derived_at(table, name, iterations, KEY[:20], MESSAGE[:8], 32, (0, 1, 31))
        for length in KEY_LENGTHS:
            derived_at(table, name, 1, KEY[:length], MESSAGE[:8], 32, (0, 31))
            derived_at(table, name, 1, KEY[:20], MESSAGE[:length], 32, (0, 31))


# --- signed tokens ---


def payload_of(table, alg, key, token):
    """The field of the payload of a token under one of the three headers."""
    header = token.split(b".")[0]
    usual = [tokens.base64url((it % alg).encode()) for it in tokens.USUAL]
    made = tokens.payload_of(alg, key, token) if header in usual else None
    if made is None:
        return "mismatch"
    return table.first(MESSAGE, len(made)) if MESSAGE.startswith(made) else table.field(made)


def verify_token(table, alg, key, token, field=None):
    table.call(payload_of(table, alg, key, token), "jws-verify", alg, key, field or token)


def other_symbol(at, byte):
    """Another symbol of base64url, by one bit, or none at all."""
    if byte not in SYMBOLS or at % 11 == 10:
        return b"=.+/ \0A"[at % 7]
    symbols = tokens.SYMBOLS
    return symbols[symbols.index(byte) ^ 1 << at % 6]


def tokens_at(table, alg, key, payload):
    """The token of a payload, and what is near it."""
    token = tokens.signed_token(alg, key, (tokens.USUAL[0] % alg).encode(), payload)
    full_stop, is_short = token.rindex(b"."), len(token) < SHORT_TOKEN
    places = [*ends_of(token[:full_stop], 2), *range(full_stop, len(token))]
    places = range(len(token)) if is_short else places
    for field, value in [(token, token), *table.near(token, places, other_symbol)]:
        verify_token(table, alg, key, value, field)
    for place in (len(token) - 1, full_stop - 1) if is_short else ():
        for symbol in SYMBOLS:
            other = token[:place] + bytes([symbol]) + token[place + 1 :]
            verify_token(table, alg, key, other, f"{table.named(token)}={place}:{symbol:02x}")


def signed(alg, key, text):
    return text + b"." + tokens.base64url(tokens.tag_of(alg, key, text))


def other_tokens(table, alg, key):
    """Tokens that the key signed, under other headers or with parts that are no base64url."""
    others = [it.replace("%s", alg) for it in [*tokens.ACCEPTED, *tokens.OTHER_HEADERS]]
    names = ("HS256", "HS384", "HS512", "none", "RS256")
    others += ['{"alg":"%s","typ":"JWT"}' % it for it in names]
    texts = [tokens.base64url(it.encode()) + b".e30" for it in others]
    head = tokens.base64url((tokens.USUAL[0] % alg).encode())
    parts = (b"e31", b"e3", b"e", b"e30=", b"e3+", b"e3/", b"", b"e30 ")
    texts += [head + b"." + it for it in parts]
    texts += [head, head + b".e30.", head + b"..e30", head + b"=.e30", b".e30", b"", b".", b".."]
    for text in texts:
        for token in (signed(alg, key, text), text + b".", text):
            verify_token(table, alg, key, token)
    token = signed(alg, key, head + b".e30")
    for part in (token.split(b".")[-1] + b"=", b"", token.split(b".")[-1].swapcase()):
        other = b".".join([*token.split(b".")[:2], part])
        verify_token(table, alg, key, other)


def jws(table):
    for alg, digest in tokens.HASHES.items():
        least = hashlib.new(digest).digest_size
        key = KEY[:least]
        # Payloads whose tokens, and what of these is signed, end around 2 KiB and 64 KiB.
        of_tokens = [(it - 38 - least * 4 // 3) * 3 // 4 for it in (2048, 65536)]
        of_signed = [(it - 37) * 3 // 4 for it in (2048, 65536)]
        around = [it + more for it in [*of_tokens, *of_signed] for more in (-1, 0, 1)]
        for length in [0, 1, 2, 3, 4, 5, 16, 64, 100, *around]:
            tokens_at(table, alg, key, MESSAGE[:length])
        other_tokens(table, alg, key)
        for length in (0, 1, least - 1, least + 1, 63, 64, 65, 127, 128, 129, 2048, 65537):
            token = tokens.signed_token(alg, KEY[:length], (tokens.USUAL[0] % alg).encode(), b"{}")
            answer = b"{}".hex() if length >= least else "mismatch"
            table.call(answer, "jws-verify", alg, table.first(KEY, length), token)


# --- one-time passwords ---


def password_of(name, key, counter, places):
    return f"{tokens.hotp(name, key, counter, places):0{places}}".encode()


def other_digit(at, byte):
    """Another digit, or what is none."""
    return (byte - 48 + 1 + at) % 10 + 48 if at % 3 else b"/:\0 "[at % 4]


def found(name, key, first, past, places, text):
    """The counter that is found, or that there is none. A text has as many bytes as digits."""
    answer = tokens.found(name, key, first, past, places, text)
    return "mismatch" if answer == "none" else answer


def counters(table, name, key, counter, places):
    """The password of a counter and what is near it, in windows around the counter."""
    right = password_of(name, key, counter, places)
    texts = [(right, right), *table.near(right, None, other_digit), (right[::-1], right[::-1])]
    texts += [(it, it) for it in (b"", b"+" + right[1:], b" " + right, "１２３４５６".encode())]
    others = [password_of(name, key, counter, it) for it in (5, 6, 7, 8, 9)]
    texts += [(it, it) for it in others if it != right]
    for before, count in ((0, 1), (3, 4), (3, 3), (0, 0), (7, 9), (20, 60)):
        first = max(0, counter - before)
        for field, text in texts if before == 3 else texts[:4]:
            answer = found(name, key, first, first + count, places, text)
            table.call(answer, "hotp-find", name, key, first, count, places, field)


def steps(table, name, key, time, step, places):
    """The password of a time and what is near it, in windows that have its step, end before it or
    begin behind it."""
    now = time // step
    for away in (-2, -1, 0, 1, 2):
        if not 0 <= now + away < 2**64:
            continue
        right = password_of(name, key, now + away, places)
        texts = [(right, right), *table.near(right, None, other_digit)]
        for back, ahead in ((0, 0), (1, 1), (2, 0), (0, 2), (9, 9)):
            for field, text in texts if away == 0 else texts[:1]:
                answer = found(name, key, max(0, now - back), now + ahead + 1, places, text)
                table.call(answer, "totp-find", name, key, time, step, back, ahead, places, field)


def one_time_passwords(table):
    for name in ALGORITHMS:
        for places in (6, 7, 8):
            for counter in (0, 1, 2**32, 2**64 - 1):
                counters(table, name, KEY[:20], counter, places)
            for time, step in ((0, 30), (59, 30), (60, 30), (2**64 - 1, 1), (2**40, 2**32 - 1)):
                steps(table, name, KEY[:20], time, step, places)
        # No package takes an empty key.
        for length in KEY_LENGTHS[1:]:
            counters(table, name, KEY[:length], 5, 6)


# --- Merkle trees ---


def row(hashes):
    return b"".join(hashes)


def hashes_in(value):
    return [value[at : at + 32] for at in range(0, len(value), 32)]


def inclusion(table, size, leaves, index, places):
    """The path of a leaf, and what is near it and near the hashes."""
    root, path = merkle.mth(leaves), row(merkle.path(index, leaves))

    def call(hash_field, hashed, at, of, path_field, of_path, root_field, of_root):
        is_right = len(of_path) % 32 == 0 and len(hashed) == len(of_root) == 32
        is_right = is_right and merkle.is_included(hashed, at, of, hashes_in(of_path), of_root)
        word = "merkle-inclusion"
        if len(of_path) % 32 or len(hashed) != 32 or len(of_root) != 32:
            word += "-of-other-lengths"
        table.call(verdict(is_right), word, hash_field, at, of, path_field, root_field)

    leaf, whole, right = table.field(leaves[index]), table.field(root), table.field(path)
    for at in {index, index + 1, index ^ 1, index + size, size, 2**64 - 1, 0, max(index - 1, 0)}:
        call(leaf, leaves[index], at, size, right, path, whole, root)
    for of in {0, index, index + 1, size - 1, size + 1, 2 * size, 2**63, 2**64 - 1}:
        call(leaf, leaves[index], index, of, right, path, whole, root)
    others = [(table.field(it), it) for it in (b"", path + path, path + root, leaves[0] + path)]
    others += [(table.field(it), it) for it in (row(reversed(hashes_in(path))), path[32:], root)]
    for field, value in [*(table.near(path, places) if path else ()), *others]:
        call(leaf, leaves[index], index, size, field, value, whole, root)
    for field, value in table.near(leaves[index], places):
        call(field, value, index, size, right, path, whole, root)
    for field, value in table.near(root, places):
        call(leaf, leaves[index], index, size, right, path, field, value)


def consistency(table, size, leaves, first_size, places):
    """The path of a beginning, and what is near it and near the roots."""
    first, second = merkle.mth(leaves[:first_size]), merkle.mth(leaves)
    path = row(merkle.subproof(first_size, leaves, True))

    def call(small, one_field, one, great, other_field, other, path_field, of_path):
        is_right = len(of_path) % 32 == 0 and len(one) == len(other) == 32
        is_right = is_right and merkle.is_consistent(small, one, great, other, hashes_in(of_path))
        word = "merkle-consistency"
        if len(of_path) % 32 or len(one) != 32 or len(other) != 32:
            word += "-of-other-lengths"
        table.call(verdict(is_right), word, small, one_field, great, other_field, path_field)

    one, other, right = table.field(first), table.field(second), table.field(path)
    for small, great in ((first_size, size), (0, size), (size, size), (first_size + 1, size),
                         (first_size, size + 1), (size, first_size), (first_size, 2**64 - 1),
                         (first_size, 0), (2 * first_size, 2 * size)):
        call(small, one, first, great, other, second, right, path)
    others = [b"", path + path, path + second, first + path, row(reversed(hashes_in(path)))]
    for field, value in [*table.near(path, places), *((table.field(it), it) for it in others)]:
        call(first_size, one, first, size, other, second, field, value)
    for field, value in table.near(first, places):
        call(first_size, field, value, size, other, second, right, path)
    for field, value in table.near(second, places):
        call(first_size, one, first, size, field, value, right, path)


def trees(table):
    leaves = [merkle.leaf_hash(bytes([it])) for it in range(130)]
    # One that ends with a zero, and is none without it.
    hashes = (merkle.leaf_hash(it.to_bytes(2, "big")) for it in range(65536))
    leaves[0] = next(it for it in hashes if it[-1] == 0)
    for size in (1, 2, 3, 4, 5, 6, 7, 8, 9, 16, 17, 33, 64, 65, 130):
        few = sorted({0, 1, size // 2, size - 2, size - 1} & {*range(size)})
        for index in few:
            places = None if size < 6 else ends_of(bytes(32 * size.bit_length()), 2)
            places = places and [it for it in places if it < 32]
            inclusion(table, size, leaves[:size], index, places)
            if index > 0:
                consistency(table, size, leaves[:size], index, places)


# --- password hashes ---

MOST_ITERATIONS = 3000


def other_letter(at, byte):
    """Another byte of ASCII, of a symbol that a text may have."""
    if at % 5 == 4:
        return b"$:,= \0."[at % 7]
    place = SYMBOLS.find(byte)
    return SYMBOLS[(place + 1 + at % 3) % len(SYMBOLS)] if place >= 0 else b"x"[0]


def password_answer(text, password, most=MOST_ITERATIONS):
    return verdict(password_hashes.verify_answer(text, password, most) == "ok")


def texts_of(table, scheme, password):
    """The text of a password, and what is near both."""
    salt = b"kXq0Wz3vT9bYh2LrE8mNpA"
    text = password_hashes.made(scheme, 7, salt, password)
    for field, value in [(text, text), *table.near(text, None, other_letter)]:
        table.call(password_answer(value, password), "password-verify", field, password,
                   MOST_ITERATIONS)
    for most in (1, 6, 7, 8, 2**32 - 1):
        table.call(password_answer(text, password, most), "password-verify", text, password, most)
    for field, value in table.near(password, None, other_letter) if password else ():
        if scheme != "postgresql" or value.isascii():
            table.call(password_answer(text, value), "password-verify", text, field,
                       MOST_ITERATIONS)


def password_texts(table):
    for scheme in password_hashes.SCHEMES:
        for password in (b"", b"x", b"correct horse battery staple", b"p" * 64, b"q" * 129):
            texts_of(table, scheme, password)
        text = password_hashes.made(scheme, 7, b"salt", KEY[:16].hex().encode())
        for longer in (b" " * 1024, b"\0" * 1025, text * 20):
            table.call("mismatch", "password-verify", text + longer, b"x", MOST_ITERATIONS)
        for length in (2047, 2048, 2049, 65536, 65537):
            password = KEY.hex().encode()[:length]
            text = password_hashes.made(scheme, 1, b"salt", password)
            table.call("match", "password-verify", text, password, MOST_ITERATIONS)
            for other in (password[:-1], b""):
                table.call("mismatch", "password-verify", text, other, MOST_ITERATIONS)


# --- webhooks ---

# A body ends around 2 KiB, where Python's GIL is released, or 64 KiB.
BODY_LENGTHS = [0, 1, 55, 56, 63, 64, 65, 119, 127, 128, 129, 2047, 2048, 2049, 65535, 65536, 65537,
                200000]
PREFIXES = [b"", b"sha256=", b"v0=", b"\0\xff", b"x" * 300]
NOW = 1_700_000_000
LAST = 2**64 - 1


def hex_tag(name, secret, message):
    return hmac.new(secret, message, ALGORITHMS[name]).hexdigest().encode()


def other_sign(at, byte):
    """Another letter or digit of a header, the same letter in capitals, or neither."""
    if at % 5 == 4:
        return b"\0 ,=;:-"[at % 7]
    return byte ^ 0x20 if at % 2 and bytes([byte]).isalpha() else byte ^ 1


def other_headers(name, prefix, secret, body):
    """Headers that are right of another body, secret, hash or prefix, or in another form."""
    right, tag = hex_tag(name, secret, body), hmac.digest(secret, body, ALGORITHMS[name])
    others = [hex_tag(it, secret, body) for it in ALGORITHMS] + [hex_tag(name, body, secret)]
    others += [hex_tag(name, secret, body + b"\0"), hex_tag(name, secret, b""), right.upper()]
    others += [hashlib.new(ALGORITHMS[name], body).hexdigest().encode(), tokens.base64url(tag), tag]
    headers = [prefix + it for it in others] + [right, prefix, b"", b"sha1=" + right]
    return headers + [prefix + prefix + right, right + prefix, prefix.upper() + right, b"=" + right]


def hex_headers(table, name, prefix, key, length, places=None):
    """The header of a body under a secret of a length, and others."""
    secret, body = table.first(KEY, key), table.first(MESSAGE, length)
    right = prefix + hex_tag(name, KEY[:key], MESSAGE[:length])
    others = other_headers(name, prefix, KEY[:key], MESSAGE[:length])
    words = [("webhook-hex", name, prefix)]
    if (name, prefix) == ("SHA256", b"sha256="):
        words.append(("webhook-github",))
    for field, value in [*((it, it) for it in [right, *others]),
                         *table.near(right, places, other_sign)]:
        # No package takes an empty secret.
        answer = verdict(value == right and key > 0)
        for it in words:
            table.call(answer, *it, secret, body, field)


def stripe_answer(secret, body, header, now, tolerance):
    """Stripe's rule, where the time is first, in digits alone."""
    first, _, items = header.partition(b",")
    digits = first.removeprefix(b"t=")
    if not secret or first != b"t=" + digits or not digits.isdigit():
        return "mismatch"
    time = int(digits)
    if digits != str(time).encode() or time > LAST or now > time + tolerance:
        return "mismatch"
    right = b"v1=" + hex_tag("SHA256", secret, digits + b"." + body)
    return verdict(right in items.split(b","))


STRIPE_FORMS = (
    "t={t},v1={g},v0={o}", "t={t},v0={o},v1={o},v1={g}", "t={t},v1={o}", "t={t},v0={g}", "t={t}",
    "t={t},", "v1={g}", "", ",", "t=", "t=,v1={g}", "t={t},v1={g},", "t={t},,v1={g}",
    "v1={g},t={t}", "t={t}, v1={g}", "t={t} ,v1={g}", "t={t},v1={g}=x", "t={t},v1={g},v1={g}",
    "t=0{t},v1={g}", "t=+{t},v1={g}", "t=-{t},v1={g}", "t={t}.0,v1={g}", "t= {t},v1={g}",
    "t={t},t={later},v1={g}", "t={later},t={t},v1={g}", "t={later},v1={g}", "t={t};v1={g}",
    "t={t},v1={G}", "T={t},v1={g}", "t={t},V1={g}", "t={t},{g}", "{t},v1={g}", "t={t}v1={g}",
    "t={t},v1={g}\0", "t={huge},v1={g}",
)


def stripe_headers(table, key, length, time):
    """Stripe's header of a body, and others, at times around the end of the tolerance."""
    secret, body = table.first(KEY, key), table.first(MESSAGE, length)

    def call(header, field, now, tolerance):
        answer = stripe_answer(KEY[:key], MESSAGE[:length], header, now, tolerance)
        table.call(answer, "webhook-stripe", secret, body, field, now, tolerance)

    tag = hex_tag("SHA256", KEY[:key], b"%d.%s" % (time, MESSAGE[:length])).decode()
    right = f"t={time},v1={tag}".encode()
    words = {"t": time, "g": tag, "G": tag.upper(), "o": "0" * 64, "later": time + 1}
    others = [it.format(huge=time + 2**64, **words).encode() for it in STRIPE_FORMS]
    of_body = hex_tag("SHA256", KEY[:key], MESSAGE[:length]).decode()
    others += [f"t={time},v1={of_body}".encode(), f"sha256={tag}".encode()]
    for field, value in [*((it, it) for it in [right, *others]),
                         *table.near(right, None, other_sign)]:
        call(value, field, time, 300)
    after = {time + it for it in (-301, -300, -1, 0, 1, 299, 300, 301, 3600, 999 * time)}
    for now in sorted({it for it in after if 0 <= it <= LAST} | {0, 300, LAST}):
        for tolerance in (0, 1, 300, time, LAST - time, LAST):
            call(right, table.field(right), now, tolerance)


def webhooks(table):
    for name in ALGORITHMS:
        for prefix in PREFIXES:
            hex_headers(table, name, prefix, 20, 100, None if len(prefix) < 100 else (0, 299, 300))
        for length in BODY_LENGTHS:
            hex_headers(table, name, b"sha256=", 32, length, (0, 6, 7, 38, 45))
        for length in KEY_LENGTHS:
            hex_headers(table, name, b"sha256=", length, 100, (0, 6, 7, 38, 45))
    for length in BODY_LENGTHS:
        stripe_headers(table, 32, length, NOW)
    for length in KEY_LENGTHS:
        stripe_headers(table, length, 20, NOW)
    for time in (0, 1, 9, 10, LAST - 300, LAST - 1, LAST):
        stripe_headers(table, 20, 20, time)


# --- TLS 1.3 ---


def verify_data(digest, base_key, transcript):
    """RFC 8446, 4.4.4. HKDF-Expand-Label (7.1) to a digest's length is one block of HKDF."""
    length = hashlib.new(digest).digest_size
    info = length.to_bytes(2, "big") + bytes([14]) + b"tls13 finished" + bytes([0])
    return hmac.digest(hmac.digest(base_key, info + bytes([1]), digest), transcript, digest)


def finished_at(table, name, seed):
    """The verify_data of a base key and a transcript, and what is near all three."""
    digest = ALGORITHMS[name]
    base_key = some_bytes(f"base key {name} {seed}", hashlib.new(digest).digest_size)
    transcript = hashlib.new(digest, base_key).digest()
    # The whole of a key that ends with a zero is another one without it, but not to HMAC.
    base_key = base_key[:-1] + b"\0" if seed == 0 else base_key
    right = verify_data(digest, base_key, transcript)

    def call(key_field, key, hash_field, covered, field, data):
        is_right = (key, covered, data) == (base_key, transcript, right)
        table.call(verdict(is_right), "tls13-finished", name, key_field, hash_field, field)

    key_field, hash_field, field = map(table.field, (base_key, transcript, right))
    call(key_field, base_key, hash_field, transcript, field, right)
    call(hash_field, transcript, key_field, base_key, field, right)
    others = [verify_data(it, base_key, transcript) for it in ALGORITHMS.values()]
    others += [b"", bytes(len(right)), hmac.digest(base_key, transcript, digest), base_key]
    for other_field, other in [*((table.field(it), it) for it in others), *table.near(right)]:
        call(key_field, base_key, hash_field, transcript, other_field, other)
    for other_field, other in table.near(base_key):
        call(other_field, other, hash_field, transcript, field, right)
    for other_field, other in table.near(transcript):
        call(key_field, base_key, other_field, other, field, right)


def finished(table):
    for name in ALGORITHMS:
        for seed in range(4):
            finished_at(table, name, seed)


# --- comparison ---


def pairs(table):
    lengths = [1, 2, 7, 8, 9, 15, 16, 17, 31, 32, 33, 64, 65, 128, 2047, 2048, 2049, 65536, 65537]
    for length in lengths:
        value = MESSAGE[:length]
        places = None if length < 66 else ends_of(value, 20)
        table.call("match", "equal", value, value)
        for field, other in table.near(value, places):
            table.call(verdict(other == value), "equal", value, field)
            table.call(verdict(other == value), "equal", field, value)
    table.call("match", "equal", b"", b"")


def lines():
    """All lines of the table."""
    table = Table()
    for part in (tags, derived_keys, jws, one_time_passwords, trees, password_texts, webhooks,
                 finished, pairs):
        part(table)
    return table.lines
