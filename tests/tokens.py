#!/usr/bin/env python3
# SPDX-License-Identifier: ISC
"""Holds the tokens, one-time passwords and webhooks of crates/ring_tokens to what others compute.

The program over them answers the lines of vectors/tokens, whose answers stand there behind `#= `.
It signs and verifies tokens as a reading of RFC 7515 over Python's `hmac` does: with headers of
many kinds, and 10,000 broken ones. Claims, one-time passwords and the headers of webhooks are
compared with readings of RFC 7519, RFC 4226, RFC 6238 and Stripe's own rule, and with PyJWT, pyotp
and oathtool, both ways. What those accept and this crate refuses is a list here, as in
docs/TOKENS.md. Each request for memory is refused in turn. The last line is 'N passed, M failed',
and ', K skipped' where a peer is missing.
"""

import base64
import ctypes
import hashlib
import hmac
import json
import os
import pathlib
import random
import re
import shutil
import subprocess
import sys
import tempfile

sys.dont_write_bytecode = True
HERE = pathlib.Path(__file__).resolve().parent
sys.path += [str(HERE / "lib"), str(HERE.parent / "tools")]
import counted
import peers
import rows
from run import COMPILER, ROOT, answers, differing, file_case, short_of_memory

VECTORS = ROOT / "vectors/tokens"
PAGE = ROOT / "docs/TOKENS.md"
HASHES = {it.token: it.name.lower() for it in rows.TOKENS}
OTP_HASHES = {it.name: it.name.lower() for it in rows.KEYED}
INVALID, REFUSED = "not a valid token", "refused"
SYMBOLS = b"ABCDEFGHIJKLMNOPQRSTUVWXYZabcdefghijklmnopqrstuvwxyz0123456789-_"
# The headers that are read in place.
USUAL = ('{"alg":"%s","typ":"JWT"}', '{"typ":"JWT","alg":"%s"}', '{"alg":"%s"}')
# Headers that are accepted, and others that are not, with a name where PyJWT 2.6.0 takes them.
ACCEPTED = [
    *USUAL, ' { "alg" : "%s" , "kid" : "a\\u0062\\n" } \r\n', '{"al\\u0067":"%s"}',
    '{"alg":"%s","jwk":{"a":[1,2,{"b":null}]},"x":1.5e3}', '{"alg":"%s","ü":"€"}',
    '{"alg":"%s","b64":false}',
]
OTHER_HEADERS = {
    '{"alg":"%s","alg":"%s"}': "a name twice", '{"alg":"none","alg":"%s"}': "a name twice",
    '{"alg":"%s","al\\u0067":"none"}': "", '{"alg":"%s","x":{"y":1,"y":2}}': "a name twice",
    '{"alg":"%s","crit":["exp"],"exp":1}': "crit", '{"alg":"%s","crit":[]}': "crit",
    '{"alg":"%s","crit":null}': "crit", '\ufeff{"alg":"%s"}': "a byte order mark",
    '{"alg":"%s","x":NaN}': "NaN", '{"alg":"%s","x":"\\ud800"}': "a lone surrogate",
    '{"alg":"none"}': "", '{"alg":"None"}': "", '{"alg":["%s"]}': "", '{"alg":null}': "",
    '{"typ":"JWT"}': "", "{}": "", "[]": "", "null": "", '"%s"': "", '["alg","%s"]': "", "": "",
    '{"alg":"%s"': "", '{"alg":"%s"}x': "", '{"alg":"%s",}': "", '{"alg":"%s "}': "",
    '{"alg":"%s\\u0000"}': "", '{"alg":"%s","x":01}': "",
}


def digits(data):
    """A word of a line."""
    return data.hex() or "-"


def shown(data):
    """A text as a word of a line."""
    plain = data and all(33 <= byte < 127 for byte in data) and not data.startswith(b"hex:")
    return data.decode() if plain else f"hex:{digits(data)}"


# --- a reading of RFC 7515, sections 5.1 and 5.2, and of RFC 7518, section 3.2 ---


def base64url(data):
    return base64.urlsafe_b64encode(data).rstrip(b"=")


def tag_of(alg, key, signed):
    return hmac.new(key, signed, HASHES[alg]).digest()


def signed_token(alg, key, header, payload):
    signed = base64url(header) + b"." + base64url(payload)
    return signed + b"." + base64url(tag_of(alg, key, signed))


def once(pairs):
    """The members of an object in which no name comes twice."""
    if len(dict(pairs)) != len(pairs):
        raise ValueError("a name twice")
    return dict(pairs)


def no_constant(word):
    raise ValueError(word)


def lone_surrogates(text):
    return any(0xD800 <= ord(it) < 0xE000 for it in text)


def strict_json(data):
    """The value of a JSON text (RFC 8259); its strings are texts of Unicode."""
    value = json.loads(data.decode(), object_pairs_hook=once, parse_constant=no_constant)
    if lone_surrogates(json.dumps(value, ensure_ascii=False)):
        raise ValueError("a lone surrogate")
    return value


def header_is_accepted(alg, data):
    try:
        header = strict_json(data)
    except ValueError:
        return False
    return isinstance(header, dict) and header.get("alg") == alg and "crit" not in header


def payload_of(alg, key, token):
    """The payload of a valid token; None of any other text."""
    parts = token.split(b".")
    if len(parts) != 3:
        return None
    try:
        read = [base64.b64decode(it + b"=" * (-len(it) % 4), b"-_", True) for it in parts]
    except ValueError:
        return None
    if [base64url(it) for it in read] != parts or not header_is_accepted(alg, read[0]):
        return None
    return read[1] if read[2] == tag_of(alg, key, b".".join(parts[:2])) else None


def lines_on(alg, key, token):
    """The lines that verify a text, with their answers."""
    payload = payload_of(alg, key, token)
    answer = INVALID if payload is None else digits(payload)
    yield f"jws verify {alg} {digits(key)} {shown(token)}", answer
    usual = [base64url((it % alg).encode()) for it in USUAL]
    in_place = answer if token.split(b".")[0] in usual else INVALID
    yield f"jws verify-in-place {alg} {digits(key)} {shown(token)}", in_place


def random_key(rng, alg):
    length = hashlib.new(HASHES[alg]).digest_size
    return rng.randbytes(rng.choice([length, length, length + 1, 2 * length, 200]))


def header_of(alg, text):
    return text.replace("%s", alg).encode()


def are_signed():
    """Tokens are signed as RFC 7515 says, also in place, and verify to their payloads."""
    rng, wanted = random.Random(7515), []
    for alg in HASHES:
        for length in [*range(80), 1000, 20_000]:
            key, payload = random_key(rng, alg), rng.randbytes(length)
            token = signed_token(alg, key, header_of(alg, USUAL[0]), payload)
            for call in ("sign", "sign-in-place"):
                wanted.append((f"jws {call} {alg} {digits(key)} {digits(payload)}", token.decode()))
            wanted += lines_on(alg, key, token)
        short = bytes(hashlib.new(HASHES[alg]).digest_size - 1)
        wanted += [(f"jws {it} {alg} {digits(short)} 00", REFUSED) for it in ("sign", "verify")]
    return differing(wanted)


def have_headers():
    """Tokens with headers of many kinds are read as RFC 7515, section 5.2, says."""
    rng, wanted = random.Random(52), []
    for alg in HASHES:
        for text in [*ACCEPTED, *OTHER_HEADERS]:
            for _ in range(10):
                key, payload = random_key(rng, alg), rng.randbytes(rng.randrange(80))
                token = signed_token(alg, key, header_of(alg, text), payload)
                if (payload_of(alg, key, token) is None) != (text in OTHER_HEADERS):
                    return [(text, "the reading decides otherwise")]
                wanted += lines_on(alg, key, token)
        latin = signed_token(alg, key, b'{"alg":"%s","x":"\xff"}' % alg.encode(), b"")
        wanted += lines_on(alg, key, latin)
    return differing(wanted)


def other_last_symbol(token):
    """The text with another last symbol of its signature that decodes to the same bytes."""
    return token[:-1] + bytes([SYMBOLS[SYMBOLS.index(token[-1]) ^ 1]])


def broken(rng, alg, key, token):
    """Texts that a token becomes: cut, longer, with another byte, or with another signature."""
    head, payload, signature = token.split(b".")
    other = {"HS256": "HS384", "HS384": "HS512", "HS512": "HS256"}[alg]
    for _ in range(12):
        at, symbol = rng.randrange(len(token)), rng.choice(b"ABCabc019-_.=+/ \n")
        yield token[:at] + bytes([symbol]) + token[at + 1 :]
    yield from (token[: rng.randrange(len(token))] for _ in range(4))
    yield from (token[:-1], token + b"A", token + b"=", token + b"\n", b" " + token, token + b".")
    yield from (head + b"." + payload, head + b"." + payload + b".", b"", b"..", b".", payload)
    yield base64url(b'{"alg":"none"}') + b"." + payload + b"."
    yield head + b"." + payload + b"." + signature[: len(signature) // 2]
    yield head + b"." + payload + b"." + base64url(tag_of(other, key, head + b"." + payload))
    yield token[:-5] + b"$" + token[-5:]
    if len(signature) % 4:
        yield other_last_symbol(token)


def are_broken():
    """10,000 broken tokens are refused, and accepted only where nothing was changed."""
    rng, wanted = random.Random(10_000), []
    while len(wanted) < 20_000:
        alg = rng.choice(list(HASHES))
        key = random_key(rng, alg)
        header = header_of(alg, rng.choice(USUAL))
        token = signed_token(alg, key, header, rng.randbytes(rng.randrange(60)))
        for text in broken(rng, alg, key, token):
            if text != token and payload_of(alg, key, text) is not None:
                return [(text.decode(), "the reading accepts a broken token")]
            wanted += lines_on(alg, key, text)
    return differing(wanted)


def bad_payloads_are_refused():
    """A signature over a payload that is no canonical base64url makes no token."""
    wanted, key = [], bytes(range(64))
    for alg in HASHES:
        for payload in (b"A", b"AB", b"AAB", b"AA=", b"A+/A", b"AAAA=", b"AAA\n", b"AAAAA"):
            signed = base64url(header_of(alg, USUAL[0])) + b"." + payload
            wanted += lines_on(alg, key, signed + b"." + base64url(tag_of(alg, key, signed)))
    return differing(wanted)


# --- a reading of RFC 7519, sections 4.1.4 and 4.1.5 ---

NOW = 1_900_000_000
CLAIM_TEXTS = {
    b"{}": True, b"[]": False, b'"exp"': False, b"": False, b'{"a":{"exp":0}}': True,
    b'{"exp":"5"}': False, b'{"exp":5.5}': False, b'{"exp":5e9}': False, b'{"exp":null}': False,
    b'{"exp":-5}': False, b'{"exp":18446744073709551615}': True, b'{"exp":05}': False,
    b'{"exp":18446744073709551616}': False, b'{"exp":9,"exp":1}': False, b'{"exp":2}': True,
    b'{"exp":1}': False, b'{"nbf":1}': True, b'{"nbf":2}': False, b'{"nbf":1.0}': False,
    b'{"exp":9} x': False, b'{"exp":\xff}': False,
}


def claims_at_random(rng):
    """Claims, a leeway, and whether they are current."""
    steps = (-100, -61, -60, -59, -1, 0, 1, 59, 60, 61, 100)
    claims = {it: NOW + rng.choice(steps) for it in ("exp", "nbf") if rng.random() < 0.8}
    leeway = rng.choice([0, 60])
    current = NOW < claims.get("exp", NOW + 1) + leeway and claims.get("nbf", NOW) <= NOW + leeway
    return claims, leeway, current


def are_current():
    """Claims are current before `exp` and from `nbf` on, each moved by the leeway."""
    rng = random.Random(7519)
    wanted = [
        (f"jws current {digits(text)} 1 0", str(current).lower())
        for text, current in CLAIM_TEXTS.items()
    ]
    for _ in range(400):
        claims, leeway, current = claims_at_random(rng)
        text = digits(json.dumps(claims).encode())
        wanted.append((f"jws current {text} {NOW} {leeway}", str(current).lower()))
    return differing(wanted)


# --- a reading of RFC 4226, section 5.3, and of RFC 6238, section 4.2 ---


def hotp(name, key, counter, places):
    tag = hmac.new(key, counter.to_bytes(8, "big"), OTP_HASHES[name]).digest()
    offset = tag[-1] & 15
    return (int.from_bytes(tag[offset : offset + 4], "big") & 0x7FFFFFFF) % 10**places


def found(name, key, first, past, places, text):
    """The first counter of a window whose password the text is."""
    for counter in range(first, min(past, 2**64)):
        if f"{hotp(name, key, counter, places):0{places}}".encode() == text:
            return str(counter)
    return "none"


def texts_at_random(rng, password):
    """A password, and texts that are none."""
    yield password
    yield from (password[1:], b"0" + password, password[:-1], password + b" ", b"", b"+" + password)
    yield str(int(password)).encode()
    yield f"{(int(password) + 1) % 10 ** len(password):0{len(password)}}".encode()


def counters_are_found():
    """One-time passwords are those of RFC 4226, and are found in the counters of a window."""
    rng, wanted = random.Random(4226), []
    for _ in range(150):
        name, places = rng.choice(list(OTP_HASHES)), rng.choice([6, 7, 8])
        key = rng.randbytes(rng.randrange(1, 150))
        counter = rng.choice([0, 1, 2**32, 2**64 - 1, rng.randrange(2**64)])
        password = hotp(name, key, counter, places)
        wanted.append((f"hotp {name} {digits(key)} {counter} {places}", str(password)))
        for text in texts_at_random(rng, f"{password:0{places}}".encode()):
            first, count = max(0, counter - rng.randrange(4)), rng.randrange(6)
            line = f"hotp find {name} {digits(key)} {first} {count} {places} {shown(text)}"
            wanted.append((line, found(name, key, first, first + count, places, text)))
    return differing(wanted)


def steps_are_found():
    """One-time passwords of times are found in the steps before and after, to the ends of time."""
    rng, wanted = random.Random(6238), []
    for _ in range(150):
        name, places = rng.choice(list(OTP_HASHES)), rng.choice([6, 7, 8])
        key, step = rng.randbytes(20), rng.choice([1, 30, 60, 2**32 - 1])
        time = rng.choice([0, 29, 59, 2**64 - 1, rng.randrange(2**40)])
        now = time // step
        password = hotp(name, key, now, places)
        wanted.append((f"totp {name} {digits(key)} {time} {step} {places}", str(password)))
        for away in range(-3, 4):
            back, ahead = rng.randrange(4), rng.randrange(4)
            if 0 <= now + away < 2**64:
                text = f"{hotp(name, key, now + away, places):0{places}}".encode()
                line = f"totp find {name} {digits(key)} {time} {step} {back} {ahead} {places} "
                answer = found(name, key, max(0, now - back), now + ahead + 1, places, text)
                wanted.append((line + shown(text), answer))
    return differing(wanted)


# --- GitHub's and Stripe's headers ---


def hex_tag(key, data):
    return hmac.new(key, data, "sha256").hexdigest()


def github_headers():
    """GitHub's header is the tag of the body in lower case behind `sha256=`, and nothing else."""
    rng, wanted = random.Random("github"), []
    for length in [*range(0, 200, 3), 5000]:
        key, body = rng.randbytes(rng.randrange(1, 80)), rng.randbytes(length)
        tag = hex_tag(key, body)
        head = f"github {digits(key)} {digits(body)}"
        wanted.append((f"{head} sha256={tag}", "ok"))
        others = [f"sha256={tag[:-1]}", f"sha256={tag}0", tag, f"sha1={tag}", "sha256=", "hex:-"]
        others += [f"sha256={hex_tag(key, body + b'x')}", f"SHA256={tag}", f"sha256={tag.upper()}"]
        others = [it for it in others if it != f"sha256={tag}"]
        wanted += [(f"{head} {it}", REFUSED) for it in others]
    return differing(wanted)


def stripe_verifies(key, body, header, now, tolerance):
    """The rule of Stripe's own libraries (stripe-python's WebhookSignature.verify_header)."""
    try:
        items = [it.split("=", 2) for it in header.split(",")]
        time = int(next(it[1] for it in items if it[0] == "t"))
        tags = [it[1] for it in items if it[0] == "v1"]
    except (IndexError, StopIteration, ValueError):
        return False
    return hex_tag(key, f"{time}.".encode() + body) in tags and time >= now - tolerance


# Headers, and whether this crate refuses what Stripe's libraries accept.
STRIPE_HEADERS = {
    "t={t},v1={g}": False, "t={t},v1={g},v0={o}": False, "t={t},v0={o},v1={o},v1={g}": False,
    "t={t},v1={o}": False, "t={t},v0={g}": False, "t={t},v1={cut}": False, "t={t}": False,
    "v1={g}": False, "": False, "t={t},": False, "t={t},v1={g},": False, "t={t}, v1={g}": False,
    "t={later},v1={g}": False, "t={t},v1={upper}": False, "t={t},v1={g},v1={g}": False,
    "t={t},t={later},v1={g}": False, "t=0{t},v1={g}": True, "t=+{t},v1={g}": True,
    "v1={g},t={t}": True, "t={t},v1={g}=x": True,
}


def stripe_headers():
    """Stripe's headers are accepted as its libraries do, but for the forms of docs/TOKENS.md."""
    rng, wanted = random.Random("stripe"), []
    for i in range(60):
        key, body = b"whsec_" + rng.randbytes(24), json.dumps({"id": i}).encode()
        time = NOW + rng.choice([-700, -301, -300, -299, -1, 0, 5, 1000])
        good, other = hex_tag(key, f"{time}.".encode() + body), rng.randbytes(32).hex()
        for form, is_stricter in STRIPE_HEADERS.items():
            header = form.format(
                t=time, g=good, o=other, cut=good[:-1], later=time + 1, upper=good.upper()
            )
            accepted = stripe_verifies(key, body, header, NOW, 300) and not is_stricter
            line = f"stripe {digits(key)} {digits(body)} {shown(header.encode())} {NOW} 300"
            wanted.append((line, "ok" if accepted else REFUSED))
    return differing(wanted)


def empty_secrets_are_refused():
    """An empty secret is refused, though the password or the header is right under it."""
    wanted, body = [], b'{"id":1}'
    for name in OTP_HASHES:
        for places in (6, 7, 8):
            made = hotp(name, b"", 2, places)
            text = f"{made:0{places}}"
            if found(name, b"", 0, 9, places, text.encode()) != "2":
                return [(text, "the reading finds another counter")]
            lines = [f"hotp {name} - 2 {places}", f"hotp find {name} - 0 9 {places} {text}"]
            lines += [f"totp {name} - 60 30 {places}"]
            lines += [f"totp find {name} - 60 30 1 1 {places} {text}"]
            wanted += [(line, REFUSED) for line in lines]
    header = f"t={NOW},v1={hex_tag(b'', f'{NOW}.'.encode() + body)}"
    if not stripe_verifies(b"", body, header, NOW, 300):
        return [(header, "the reading refuses the header")]
    wanted.append((f"github - {digits(body)} sha256={hex_tag(b'', body)}", REFUSED))
    wanted.append((f"stripe - {digits(body)} {header} {NOW} 300", REFUSED))
    # A secret of one byte is none of these.
    wanted.append(("hotp SHA1 01 2 6", str(hotp("SHA1", bytes([1]), 2, 6))))
    wanted.append((f"github 01 {digits(body)} sha256={hex_tag(bytes([1]), body)}", "ok"))
    return differing(wanted)


# --- peers ---

# What PyJWT 2.6.0 accepts and this crate refuses, on the lines of `with_pyjwt`.
LENIENT = {"a name twice", "crit", "a byte order mark", "NaN", "a lone surrogate", "padding",
           "junk in the signature", "trailing bits"}  # fmt: skip
PYJWT = """
import base64, json, sys, jwt
def answer(kind, alg, key, text):
    key = bytes.fromhex(key)
    if kind == "sign":
        return jwt.api_jws.encode(bytes.fromhex(text), key, algorithm=alg)
    try:
        return jwt.api_jws.decode(bytes.fromhex(text), key, algorithms=[alg]).hex() or "-"
    except Exception:
        return None
json.dump([answer(*it) for it in json.load(sys.stdin)], sys.stdout)
"""
PYOTP = """
import base64, hashlib, json, sys, pyotp
def answer(name, key, counter, places):
    secret = base64.b32encode(bytes.fromhex(key)).decode()
    return pyotp.HOTP(secret, places, getattr(hashlib, name)).at(counter)
json.dump([answer(*it) for it in json.load(sys.stdin)], sys.stdout)
"""


def texts_for_pyjwt(rng, alg, key):
    """Texts, each with the name of what PyJWT may take and this crate refuses."""
    payload = rng.randbytes(rng.randrange(60))
    for text in ACCEPTED:
        if "b64" not in text:
            yield signed_token(alg, key, header_of(alg, text), payload), ""
    for text, kind in OTHER_HEADERS.items():
        yield signed_token(alg, key, header_of(alg, text), payload), kind
    token = signed_token(alg, key, header_of(alg, USUAL[0]), payload)
    yield from ((token[:-1], ""), (token + b"=", "padding"), (token[:-3] + b"AAA", ""))
    yield token[:-5] + b"$" + token[-5:], "junk in the signature"
    yield token + b"\n", "junk in the signature"
    if alg != "HS384":
        yield other_last_symbol(token), "trailing bits"


def with_pyjwt():
    """PyJWT: its tokens are verified, and it verifies ours and what we accept"""
    rng, questions, lines, kinds = random.Random("jwt"), [], [], []
    for alg in HASHES:
        for _ in range(20):
            key = random_key(rng, alg)
            for token, kind in texts_for_pyjwt(rng, alg, key):
                questions.append(("verify", alg, key.hex(), token.hex()))
                lines.append(f"jws verify {alg} {digits(key)} {shown(token)}")
                kinds.append(kind)
    wrong, theirs, ours = [], peers.asked("jwt", PYJWT, questions), answers(lines)
    for line, kind, their, our in zip(lines, kinds, theirs, ours):
        if (their or INVALID) != our and not (our == INVALID and kind in LENIENT):
            wrong.append((line, f"{our}, and by PyJWT {their} ({kind})"))
    key, payloads = bytes(range(64)), [rng.randbytes(it) for it in range(50)]
    pairs = [(alg, it) for alg in HASHES for it in payloads]
    tokens = peers.asked("jwt", PYJWT, [("sign", alg, key.hex(), it.hex()) for alg, it in pairs])
    wanted = []
    for (alg, payload), token in zip(pairs, tokens):
        for call in ("verify", "verify-in-place"):
            wanted.append((f"jws {call} {alg} {digits(key)} {token}", digits(payload)))
    return wrong + differing(wanted)


def passwords_at_random(rng, hashes):
    for _ in range(100):
        key = rng.randbytes(rng.randrange(16, 100))
        yield rng.choice(hashes), key, rng.randrange(2**40), rng.choice([6, 7, 8])


def with_pyotp():
    """pyotp: its one-time passwords are ours"""
    asks = list(passwords_at_random(random.Random("pyotp"), list(OTP_HASHES)))
    questions = [(OTP_HASHES[name], key.hex(), *more) for name, key, *more in asks]
    wanted = []
    for (name, key, counter, places), text in zip(asks, peers.asked("pyotp", PYOTP, questions)):
        head = f"{name} {digits(key)}"
        wanted.append((f"hotp {head} {counter} {places}", str(int(text))))
        wanted.append((f"hotp find {head} {counter} 1 {places} {text}", str(counter)))
    return differing(wanted)


def with_oathtool():
    """oathtool: its one-time passwords are ours"""
    wanted = []
    for name, key, time, places in passwords_at_random(random.Random("oath"), ["SHA1", "SHA256"]):
        time %= 2**31
        command = ["oathtool", f"--totp={OTP_HASHES[name]}", f"--digits={places}"]
        run = subprocess.run(
            [*command, f"--now=@{time}", key.hex()], stdout=subprocess.PIPE, text=True
        )
        head, text = f"{name} {digits(key)} {time} 30", run.stdout.strip()
        wanted.append((f"totp {head} {places}", str(int(text))))
        wanted.append((f"totp find {head} 0 0 {places} {text}", str(time // 30)))
    return differing(wanted)


# --- what remains ---


def are_bad_lines():
    """Lines of no form that is known are told apart from what is refused."""
    key = "00" * 64
    lines = ["jws", "jws verify", f"jws verify RS256 {key} a", f"jws verify HS256 {key}"]
    lines += [f"hotp SHA1 {key} 18446744073709551616 6", f"hotp SHA1 {key} 0 9", "github 00 00"]
    lines += [f"totp SHA1 {key} 0 0 6", f"hotp MD5 {key} 0 6", f"jws current 7b7d {2**64} 0"]
    lines += ["stripe 00 00 00 -1 0"]
    return differing([(line, "bad line") for line in lines])


def are_large():
    """A token of a megabyte is signed, verified and, with another last byte, refused."""
    key, payload = bytes(range(64)), bytes(1_000_000)
    token = signed_token("HS512", key, header_of("HS512", USUAL[0]), payload)
    other = token[:-1] + (b"A" if token[-1:] != b"A" else b"Q")
    wanted = [(f"jws sign HS512 {digits(key)} {digits(payload)}", token.decode())]
    wanted += [*lines_on("HS512", key, token), *lines_on("HS512", key, other)]
    return differing(wanted)


def requests_are_refused():
    """each request for memory refused in turn: its line is answered so, the next ones as ever"""
    key, payload = bytes(range(48)), b'{"exp":2,"nbf":1,"a":["\\n",{"b":1.5}]}'
    rows = [(f"jws current {digits(payload)} 1 0", "true")]
    for text in (USUAL[0], ACCEPTED[3], ACCEPTED[5], '{"alg":"none"}', "{"):
        token = signed_token("HS384", key, header_of("HS384", text), payload)
        rows += lines_on("HS384", key, token)
    token = signed_token("HS384", key, header_of("HS384", USUAL[0]), payload)
    for call in ("sign", "sign-in-place"):
        rows.append((f"jws {call} HS384 {digits(key)} {digits(payload)}", token.decode()))
    # Each line once more, where what came before was refused memory.
    return short_of_memory(2 * rows)


ALONE = (
    are_signed, have_headers, are_broken, bad_payloads_are_refused, are_current,
    counters_are_found, steps_are_found, github_headers, stripe_headers, empty_secrets_are_refused,
    are_bad_lines, are_large,
)


def library():
    """The example in C of docs/TOKENS.md, over the C library."""
    with tempfile.TemporaryDirectory() as room:
        environment = {name: it for name, it in os.environ.items() if not name.startswith("MAKE")}
        command = ["make", "-s", "-C", ROOT, f"OUT={room}", "all"]
        subprocess.run(command, check=True, stdout=subprocess.DEVNULL, env=environment)
        code = re.search(r"^```c\n(.*?)^```$", PAGE.read_text(), re.M | re.S)[1]
        flags = ["-shared", "-fPIC", f"-I{ROOT}/c/include", "-x", "c", "-", "-x", "none"]
        command = ["cc", *flags, f"{room}/libyezdopin.a", "-o", f"{room}/example.so"]
        subprocess.run(command, input=code, text=True, check=True)
        found = ctypes.CDLL(f"{room}/example.so")
    found.claims_of.restype = found.is_new_password.restype = ctypes.c_bool
    return found


def claims_by(calls, key, token):
    """What the example makes of a token."""
    room, count = ctypes.create_string_buffer(len(token)), ctypes.c_size_t()
    size = ctypes.c_size_t(len(token))
    known = calls.claims_of(key, token, size, room, size, ctypes.byref(count))
    return room.raw[: count.value] if known else None


def tokens_by_example(calls, rng):
    """The tokens that the example takes for others than they are."""
    for _ in range(100):
        key, payload = rng.randbytes(32), rng.randbytes(rng.randrange(99))
        token = signed_token("HS256", key, header_of("HS256", rng.choice(USUAL)), payload)
        for text in (token, *broken(rng, "HS256", key, token)):
            got = claims_by(calls, key, text)
            if got != payload_of("HS256", key, text):
                yield text.decode(errors="replace"), str(got)


def logins_by_example(calls, rng):
    """The logins that the example takes for others than they are."""
    for _ in range(500):
        key, now, last = rng.randbytes(20), rng.randrange(60, 2**40), ctypes.c_uint64()
        for shift in (-2, -1, 0, 1, 2, 0):
            typed = b"%06d" % hotp("SHA1", key, now // 30 + shift, 6)
            new = abs(shift) < 2 and now // 30 + shift > last.value
            given = key, ctypes.c_size_t(20), ctypes.c_uint64(now), typed
            if calls.is_new_password(*given, ctypes.byref(last)) != new:
                yield f"{key.hex()} {now} {shift}", typed.decode()


def example_in_c():
    """docs/TOKENS.md's example in C takes tokens as a reading of RFC 7515 does, and a password of
    a reading of RFC 6238 once."""
    calls, rng = library(), random.Random(19)
    return [*tokens_by_example(calls, rng), *logins_by_example(calls, rng)]


def cases():
    """Each case, and what is missing for it on this machine."""
    yield from ((file_case(file), "") for file in sorted(VECTORS.glob("*.txt")))
    yield from ((case, "") for case in ALONE)
    yield requests_are_refused, "" if COMPILER else "a C compiler"
    yield with_pyjwt, "" if peers.python_with("jwt") else "PyJWT"
    yield with_pyotp, "" if peers.python_with("pyotp") else "pyotp"
    yield with_oathtool, "" if shutil.which("oathtool") else "oathtool"
    yield example_in_c, " ".join(it for it in ("make", "cc") if not shutil.which(it))


def main():
    return counted.report(*counted.run_answered(cases()))


if __name__ == "__main__":
    sys.exit(main())
