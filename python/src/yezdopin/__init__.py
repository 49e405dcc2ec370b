# SPDX-License-Identifier: ISC
"""Digests, HKDF and PBKDF2 in the shape of `hashlib`, by the proved calls of libyezdopin.

    >>> import yezdopin
    >>> yezdopin.sha256(b"abc").hexdigest()[:8]
    'ba7816bf'
    >>> message = yezdopin.new("sha512")
    >>> message.update(b"hello, ")
    >>> message.update(b"world")
    >>> len(message.digest())
    64
    >>> digests = yezdopin.digest_each("sha256", [b"abc", b"", b"abc"])
    >>> digests[2].hex()[:8], digests[0] == digests[2]
    ('ba7816bf', True)

`yezdopin.hmac` has tags in the shape of `hmac`, `yezdopin.password_hash` writes and tests the
password hashes of other systems, `yezdopin.tokens` has signed tokens and one-time passwords,
`yezdopin.webhook` verifies signed requests, `yezdopin.merkle` proofs of transparency logs, and
`yezdopin.tls13` has Finished messages and binders; `import yezdopin` gives all. Buffers are
anything with bytes in one piece: `bytes`, `bytearray`, `memoryview`, arrays. What the library
refuses raises `Error`, a `ValueError`.
"""

from __future__ import annotations

from yezdopin._errors import Error, Status
from yezdopin._files import file_digest
from yezdopin._hashes import NAMES as _NAMES
from yezdopin._native import (
    Digest,
    __version__,
    compare_digest,
    digest_each,
    hkdf,
    hkdf_expand,
    hkdf_expand_label,
    hkdf_extract,
    new,
    pbkdf2_hmac,
    pbkdf2_hmac_verify,
    # constructors: made by tools/lists.py
    sha1,
    sha256,
    sha384,
    sha512,
    sha512_256,
    # /constructors
)

# After the extension, so that where that can't be imported the error says so.
from yezdopin import hmac as hmac
from yezdopin import merkle as merkle
from yezdopin import password_hash as password_hash
from yezdopin import tls13 as tls13
from yezdopin import tokens as tokens
from yezdopin import webhook as webhook

__all__ = [
    "Digest",
    "Error",
    "Status",
    "__version__",
    "algorithms_available",
    "algorithms_guaranteed",
    "compare_digest",
    "digest_each",
    "file_digest",
    "hkdf",
    "hkdf_expand",
    "hkdf_expand_label",
    "hkdf_extract",
    "new",
    "pbkdf2_hmac",
    "pbkdf2_hmac_verify",
    # exported: made by tools/lists.py
    "sha1",
    "sha256",
    "sha384",
    "sha512",
    "sha512_256",
    # /exported
]

algorithms_guaranteed = set(_NAMES)
algorithms_available = set(algorithms_guaranteed)
