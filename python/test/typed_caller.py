# SPDX-License-Identifier: ISC
"""A caller of the package, which `make python-types` holds to its types by `mypy --strict`."""

import hashlib
import io

import yezdopin
from yezdopin import hmac


def digests_of(path: str) -> list[str]:
    """Digests of a file and of buffers, by each kind of what `file_digest` takes."""
    with open(path, "rb") as file:
        first = yezdopin.file_digest(file, "sha256")
    second = yezdopin.file_digest(io.BytesIO(b"abc"), yezdopin.sha1)
    third = yezdopin.file_digest(io.BytesIO(b"abc"), hashlib.sha256)
    fourth = yezdopin.file_digest(io.BytesIO(b"abc"), lambda: yezdopin.new("sha512"))
    return [first.hexdigest(), second.copy().hexdigest(), third.hexdigest(), fourth.name]


def signs(message: bytes) -> bool:
    """A tag by two calls."""
    key = hmac.Key(b"a key", "sha256")
    tag: bytes = hmac.new(b"a key", message, yezdopin.sha256).digest()
    return key.verify(message, tag) and hmac.compare_digest(tag, key.sign(message))


def keeps(password: bytes) -> bool:
    """A new hash of a password, tested."""
    hashes = yezdopin.password_hash
    kept: str = hashes.new("phc-sha256", bytearray(password), iterations=1000)
    again: str = hashes.new(hashes.SCHEMES[0], password, iterations=1, salt=b"salt")
    told: yezdopin.password_hash.Info = hashes.info(kept)
    scheme: str = told.scheme
    is_old: bool = scheme != "phc-sha256" or told.iterations < 1_000_000
    return hashes.verify(kept, password, max_iterations=1000) and kept != again and is_old


def grows(entries: list[bytes]) -> bool:
    """The proofs that a log's last entry is in it, and that the log only grew by it."""
    merkle = yezdopin.merkle
    leaves = [merkle.leaf(memoryview(it)) for it in entries]
    size, root, first = len(leaves), merkle.root(leaves), merkle.root(iter(leaves[:-1]))
    path: list[bytes] = merkle.inclusion_path(leaves, size - 1)
    proof: list[bytes] = merkle.consistency_path(tuple(leaves), size - 1)
    is_in: bool = merkle.verify_inclusion(leaves[-1], size - 1, size, iter(path), root)
    return is_in and merkle.verify_consistency(size - 1, first, size, bytearray(root), proof)


def enters(payload: bytes, key: bytes, secret: bytes, otp: str, last: int) -> str:
    """The token of a user whose one-time password is new, or nothing."""
    tokens = yezdopin.tokens
    step: int | None = tokens.find_totp(secret, otp, digest=hashlib.sha256, back=2)
    counter: int | None = tokens.find_hotp(secret, otp.encode(), 0, 10, digest=yezdopin.sha1)
    made: str = tokens.hotp(secret, counter or 0, digits=8) + tokens.totp(memoryview(secret), 59)
    if step is None or step <= last or made == otp:
        return ""
    token: str = tokens.sign(bytearray(payload), key, "HS512")
    again: bytes = tokens.verify(token.encode(), key, algorithm="HS512")
    return token if again == payload else ""


def receives(secret: bytes, body: bytes, headers: dict[str, str]) -> bool:
    """Whether a webhook's request is one of those that sign."""
    webhook = yezdopin.webhook
    is_hubs: bool = webhook.verify_github(secret, body, headers.get("X-Hub-Signature-256"))
    header: bytes = headers.get("Stripe-Signature", "").encode()
    is_stripes = webhook.verify_stripe(bytearray(secret), body, header, tolerance=60, now=None)
    is_other: bool = webhook.verify_hex(hashlib.sha1, secret, memoryview(body), None, prefix=b"v=")
    return is_hubs or is_stripes or webhook.verify_hex("sha1", secret, body, "") or is_other


def binds(psk: bytes, client_hello: bytes, binder: bytes) -> bool:
    """Whether a ClientHello has the binder of a ticket's key."""
    key: bytes = yezdopin.tls13.binder_key("sha512", psk, is_external=False)
    covered = yezdopin.new("sha512", client_hello).digest()
    made: bytes = yezdopin.tls13.finished("sha512", bytearray(key), covered)
    return yezdopin.tls13.verify_finished("sha512", key, covered, binder) and made == binder


def names() -> set[str]:
    """The names of `hashlib` and `hmac` that are no calls."""
    pads: bytes = yezdopin.hmac.trans_36 + yezdopin.hmac.trans_5C
    size: None = yezdopin.hmac.digest_size
    return yezdopin.algorithms_available | {str(size), pads.hex()}
