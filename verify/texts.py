# SPDX-License-Identifier: ISC
"""Texts: base64 (RFC 4648), signed tokens (JWS, RFC 7515 and 7518, section 3.2), and password
hashes as other systems keep them (docs/PASSWORD_HASHES.md): the definitions, and what each public
function has to do at some lengths.

A byte as text is a table's letter at a place of 6 or 4 bits. What stands in a text is no secret, as
the header says: the payload and the tag of a token, the salt and the hash of a password. A call may
read tables at such places. Keys, passwords and the right tag of a token that is verified are
secret."""

import string
from collections import namedtuple

import standards
import terms
from calls import answer, content, given, room, same, unknown_bytes, unwritten
from functions import OK, UNSPECIFIED, WRONG_LENGTH, answers, refuses, source
from machine import Refused
from standards import ALGORITHMS, length_of, plain

UNKNOWN_ALGORITHM, NO_ITERATIONS, BAD_FORMAT, TOO_MANY, BAD_SALT = 1, 3, 5, 6, 7
FEW_ATOMS = 8  # of what terms.py looks at by tables: a byte
LETTERS = (string.ascii_uppercase + string.ascii_lowercase + string.digits).encode()
BASE64, URL_SAFE, ADAPTED = LETTERS + b"+/", LETTERS + b"-_", LETTERS + b"./"
HEX = b"0123456789abcdef"
DIGITS = (string.ascii_letters + string.digits).encode()  # of a salt of letters
SALT_LETTERS = 22


def in_letters(data, letters, bits):
    """Bytes as groups of bits, the highest first, each a letter; the last with zeros behind."""
    flat = [bit for it in data for bit in it[::-1]]
    flat += [0] * (-len(flat) % bits)
    return [terms.by_cases(lambda it: letters[it], 8, tuple(flat[i:i + bits][::-1]))
            for i in range(0, len(flat), bits)]


def base64(data, letters=BASE64, padded=True):
    found = in_letters(data, letters, 6)
    return found + plain(b"=" * (-len(found) % 4 if padded else 0))


# RFC 7515, 3.1: the compact form.

def signing_input(it, payload, header=None):
    header = header or b'{"alg":"HS%d","typ":"JWT"}' % (8 * it.output_len)
    dot = plain(b".")
    return base64(plain(header), URL_SAFE, False) + dot + base64(payload, URL_SAFE, False)


def token_of(text, tag):
    return text + plain(b".") + base64(tag, URL_SAFE, False)


def public_bytes(name, count):
    data = unknown_bytes(name, count)
    terms.publish(*data)
    return data


def text_region(name, text):
    region = given(name, len(text))
    region.cells.update(enumerate(text))
    return region


def jws_sign(calls, number, key, payload, more=0):
    """With room for some bytes more than the token has, or fewer."""
    it, body = ALGORITHMS[number], public_bytes("payload", payload)
    text = signing_input(it, body)
    tag = standards.hmac(calls.block, it, unknown_bytes("signing key", key), text)
    terms.publish(*tag)
    expected = token_of(text, tag)
    writes_text(calls, expected, more, "yz_jws_sign", number, *source("signing key", key),
                *source("payload", payload))


def writes_text(calls, expected, more, name, *arguments):
    """A call that writes a text at the start of its room, and how long it is."""
    size = len(expected) + more
    out, written = room("text", size), room("text length", 8, 8)
    status = OK if more >= 0 else WRONG_LENGTH
    for end in calls.call(name, *arguments, out, (size,), written):
        if answer(end) != status:
            raise Refused(f"{name} answers {answer(end)}, not {status}")
        if status != OK:
            unwritten(end, out, written)
            continue
        same("the text", content(end, out), expected + unknown_bytes("text", size)[len(expected):])
        same("the length", content(end, written),
             terms.cut(terms.constant(len(expected), 64), 8))


def jws_verify(calls, number, key, payload, header=None):
    """A token of any payload and any tag: YZ_OK exactly where the tag is the right one. That answer
    is no secret, and the payload is written where it is YZ_OK."""
    it, body = ALGORITHMS[number], public_bytes("payload", payload)
    text = signing_input(it, body, header)
    tag = public_bytes("tag", it.output_len)
    right = standards.hmac(calls.block, it, unknown_bytes("key", key), text)
    unequal = terms.xor(1, terms.is_zero(terms.joined(map(terms.xor_words, tag, right))))
    terms.publish((unequal,))
    token = token_of(text, tag)
    out, written = room("out", len(token)), room("out length", 8, 8)
    ends = calls.call("yz_jws_verify", number, *source("key", key), text_region("token", token),
                      (len(token),), out, (len(token),), written)
    paths = {end.path: end for end in ends}
    if set(paths) not in ({((unequal, True),), ((unequal, False),)},
                          {((terms.xor(1, unequal), True),), ((terms.xor(1, unequal), False),)}):
        raise Refused("a token is refused by something else than its tag")
    for ((condition, taken),), end in paths.items():
        if (condition == unequal) == taken:
            if answer(end) != UNSPECIFIED:
                raise Refused(f"yz_jws_verify answers {answer(end)} to another tag")
            same("what isn't written", content(end, out) + content(end, written),
                 unknown_bytes("out", len(token)) + unknown_bytes("out length", 8))
            continue
        if answer(end) != OK:
            raise Refused(f"yz_jws_verify answers {answer(end)} to the right tag")
        same("the payload", content(end, out), body + unknown_bytes("out", len(token))[payload:])
        same("the length", content(end, written), terms.cut(terms.constant(payload, 64), 8))


def jws_refused(calls, number):
    """A key that is too short, an algorithm that is none, texts that are no tokens."""
    it = ALGORITHMS.get(number)
    out, written = room("out", 200), room("out length", 8, 8)
    text = text_region("token", plain(b"a.b.c"))
    key = it.output_len - 1 if it and number in (2, 3, 4) else 64
    status = UNSPECIFIED if number in (2, 3, 4) else UNKNOWN_ALGORITHM
    refuses(calls, status, "yz_jws_sign", number, *source("key", key), *source("payload", 3), out,
            (200,), written, out=(out, written))
    refuses(calls, status, "yz_jws_verify", number, *source("key", key), text, (5,), out, (200,),
            written, out=(out, written))
    if status == UNKNOWN_ALGORITHM:
        return
    key, short = source("key", it.output_len), room("short", 4)
    refuses(calls, WRONG_LENGTH, "yz_jws_verify", number, *key, text, (5,), short, (4,), written,
            out=(short, written))
    for of in (b"", b".", b"..", b"a", b"a.b", b"a.b.c.d", b"YQ.YQ.YQ=="):
        text = text_region("token", plain(of))
        refuses(calls, UNSPECIFIED, "yz_jws_verify", number, *key, text, (len(of),), out, (200,),
                written, out=(out, written))


# Password hashes: by the number of the header, the prefix, the algorithm, the bytes that are kept,
# and how the salt and these are written.
Scheme = namedtuple("Scheme", "prefix algorithm kept salt encoding")


def as_it_is(data):
    return data


def in_hex(data):
    return in_letters(data, HEX, 4)


def unpadded(data):
    return base64(data, padded=False)


def adapted(data):
    return base64(data, ADAPTED, False)


SCHEMES = {
    1: Scheme(b"pbkdf2_sha256$", 2, 32, as_it_is, base64),
    2: Scheme(b"pbkdf2_sha1$", 1, 20, as_it_is, base64),
    3: Scheme(b"pbkdf2:sha256:", 2, 32, as_it_is, in_hex),
    4: Scheme(b"pbkdf2:sha512:", 4, 64, as_it_is, in_hex),
    5: Scheme(b"$pbkdf2-sha256$i=", 2, 32, unpadded, unpadded),
    6: Scheme(b"$pbkdf2-sha512$i=", 4, 32, unpadded, unpadded),
    7: Scheme(b"$7$", 4, 64, base64, base64),
    8: Scheme(b"$pbkdf2$", 1, 20, adapted, adapted),
    9: Scheme(b"$pbkdf2-sha256$", 2, 32, adapted, adapted),
    10: Scheme(b"$pbkdf2-sha512$", 4, 64, adapted, adapted),
    11: Scheme(b"SCRAM-SHA-256$", 2, 64, base64, base64),
    12: Scheme(b"pbkdf2:sha1:", 1, 20, as_it_is, in_hex),
}
PHC, POSTGRESQL = (5, 6), 11


def hash_text(number, iterations, salt, kept):
    it = SCHEMES[number]
    head = it.prefix + b"%d" % iterations + (b",l=%d" % len(kept) if number in PHC else b"")
    between = plain(b":" if number == POSTGRESQL else b"$")
    text = plain(head) + between + it.salt(salt) + plain(b"$")
    if number == POSTGRESQL:
        return text + base64(kept[:32]) + plain(b":") + base64(kept[32:])
    return text + it.encoding(kept)


def kept_of(block, number, iterations, salt, password):
    """What is kept of a password: what PBKDF2 derives, or StoredKey and ServerKey of RFC 5802."""
    it = ALGORITHMS[SCHEMES[number].algorithm]
    length = 32 if number == POSTGRESQL else SCHEMES[number].kept
    derived = standards.pbkdf2(block, it, password, salt, iterations, length)
    if number != POSTGRESQL:
        return derived
    client = standards.hmac(block, it, derived, plain(b"Client Key"))
    server = standards.hmac(block, it, derived, plain(b"Server Key"))
    return standards.digest(block, it, client) + server


def salt_for(number, length):
    """A salt: any bytes, but where a text has it as it is none is a dollar sign, which ends it."""
    if SCHEMES[number].salt is not as_it_is:
        return public_bytes("salt", length)
    salt, end = public_bytes("salt of letters", length), standards.byte(ord("$"))
    terms.ASSUMED.update(terms.is_zero(terms.xor_words(it, end)) for it in salt)
    return salt


def kept_for(number):
    """What is kept: any bytes, but in hex ones alone, since branches tell its digits apart."""
    count = SCHEMES[number].kept
    if SCHEMES[number].encoding is in_hex:
        return plain(b"\xff" * count)
    return public_bytes("kept", count)


def hash_new(calls, number, iterations, salt, password, more=0):
    data, given_salt = salt_for(number, salt), None
    kept = kept_of(calls.block, number, iterations, data, unknown_bytes("new password", password))
    terms.publish(*kept)
    given_salt = text_region("salt", data)
    writes_text(calls, hash_text(number, iterations, data, kept), more, "yz_password_hash_new",
                number, iterations, given_salt, (salt,), *source("new password", password))


def hash_verify(calls, number, iterations, salt, password, most):
    """The text of some kept bytes: YZ_OK exactly where they are the password's."""
    data, kept = salt_for(number, salt), kept_for(number)
    text = hash_text(number, iterations, data, kept)
    name, arguments = "yz_password_hash_verify", (
        text_region("text", text), (len(text),), *source("password", password), most)
    if iterations > most:
        refuses(calls, TOO_MANY, name, *arguments)
        return
    right = kept_of(calls.block, number, iterations, data, unknown_bytes("password", password))
    answers(calls, kept, right, name, *arguments)


def hash_info(calls, number, iterations, salt):
    kept = kept_for(number)
    text = hash_text(number, iterations, salt_for(number, salt), kept)
    out = room("scheme", 4, 4), room("iterations", 4, 4)
    for end in calls.call("yz_password_hash_info", text_region("text", text), (len(text),), *out):
        if answer(end) != OK:
            raise Refused(f"yz_password_hash_info answers {answer(end)}")
        for region, found in zip(out, (number, iterations)):
            same(region.name, content(end, region), terms.cut(terms.constant(found, 32), 8))


def letters_of(random):
    """A salt of letters: the number's digits to the base 62, the lowest first."""
    number, found = int.from_bytes(random, "big"), b""
    while len(found) < SALT_LETTERS:
        number, digit = divmod(number, len(DIGITS))
        found += DIGITS[digit:digit + 1]
    return found


def hash_salt(calls, number, more=0, random=None):
    """A salt that is the random bytes; or of letters, from bytes that are numbers."""
    data = unknown_bytes("random", 16) if random is None else plain(random)
    salt = data if random is None else plain(letters_of(random))
    size = len(salt) + more
    out, written = room("salt", size), room("salt length", 8, 8)
    for end in calls.call("yz_password_hash_salt", number, text_region("random", data), (16,), out,
                          (size,), written):
        if answer(end) != (OK if more >= 0 else WRONG_LENGTH):
            raise Refused(f"yz_password_hash_salt answers {answer(end)}")
        if more < 0:
            unwritten(end, out, written)
            continue
        same("the salt", content(end, out), salt + unknown_bytes("salt", size)[len(salt):])
        same("the length", content(end, written), terms.cut(terms.constant(len(salt), 64), 8))


def hash_refused(calls, number):
    """Texts that are no hash, a salt that is none, no iterations, no scheme."""
    password, out, written = source("password", 10), room("out", 300), room("out length", 8, 8)
    both = (out, written)
    salt, long = source("salt", 16), 1025
    if number not in SCHEMES:
        refuses(calls, UNKNOWN_ALGORITHM, "yz_password_hash_new", number, 1, *salt, *password, out,
                (300,), written, out=both)
        refuses(calls, UNKNOWN_ALGORITHM, "yz_password_hash_salt", number, *source("random", 16),
                out, (300,), written, out=both)
        return
    refuses(calls, NO_ITERATIONS, "yz_password_hash_new", number, 0, *salt, *password, out, (300,),
            written, out=both)
    refuses(calls, BAD_SALT, "yz_password_hash_new", number, 1, *source("salt", 0), *password, out,
            (300,), written, out=both)
    refuses(calls, UNSPECIFIED, "yz_password_hash_salt", number, *source("random", 15), out,
            (300,), written, out=both)
    for at in (0, 4, 8) if SCHEMES[number].salt is as_it_is else ():
        data = salt_for(number, 9)
        data[at] = standards.byte(ord("$"))
        refuses(calls, BAD_SALT, "yz_password_hash_new", number, 1, text_region("salt", data), (9,),
                *password, out, (300,), written, out=both)
    kept = plain(bytes(range(SCHEMES[number].kept)))
    text = bytes(map(terms.number_of, hash_text(number, 7, plain(b"saltsalt"), kept)))
    numbers = room("scheme", 4, 4), room("iterations", 4, 4)
    for of, status in [(b"", BAD_FORMAT), (text[:-1], BAD_FORMAT), (text + b"=", BAD_FORMAT),
                       (text.replace(b"7", b"07", 1 + (number == 7)), BAD_FORMAT),
                       (b"x" + text, BAD_FORMAT), (text + bytes(long), WRONG_LENGTH)]:
        region = text_region("text", plain(of))
        refuses(calls, status, "yz_password_hash_info", region, (len(of),), *numbers, out=numbers)
        refuses(calls, status, "yz_password_hash_verify", region, (len(of),), *password, 100)
