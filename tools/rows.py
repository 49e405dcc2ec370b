# SPDX-License-Identifier: ISC
"""What all doors have, once: algorithms, statuses, schemes of password hashes, limits.

tools/lists.py writes the lists of the packages and pages from these rows, and tests/door_lists.py
compares the rows with the definitions of the crates, which the proofs are about. A new algorithm is
a new row here. Lengths are in bytes.
"""

from typing import NamedTuple

BROKEN = "broken: for what must still read old data"


class Algorithm(NamedTuple):
    """A digest algorithm (FIPS 180-4, figure 1)."""

    name: str  # behind `YZ_` in C, and in lines of vectors
    number: int
    title: str  # the standard's
    section: str
    output_len: int
    chaining_len: int
    block_len: int
    openssl: str  # its names in OpenSSL, the first that which OpenSSL calls it by
    token: str = ""  # its name in tokens under HMAC (RFC 7518, 3.2)
    is_keyed: bool = True  # whether it has HMAC, HKDF, PBKDF2 and one-time passwords
    note: str = ""


ALGORITHMS = (
    Algorithm("SHA1", 1, "SHA-1", "6.1", 20, 20, 64, "SHA1:SHA-1:SSL3-SHA1:1.3.14.3.2.26",
              note=BROKEN),
    Algorithm("SHA256", 2, "SHA-256", "6.2", 32, 32, 64,
              "SHA2-256:SHA-256:SHA256:2.16.840.1.101.3.4.2.1", token="HS256"),
    Algorithm("SHA384", 3, "SHA-384", "6.5", 48, 64, 128,
              "SHA2-384:SHA-384:SHA384:2.16.840.1.101.3.4.2.2", token="HS384"),
    Algorithm("SHA512", 4, "SHA-512", "6.4", 64, 64, 128,
              "SHA2-512:SHA-512:SHA512:2.16.840.1.101.3.4.2.3", token="HS512"),
    Algorithm("SHA512_256", 5, "SHA-512/256", "6.7", 32, 64, 128,
              "SHA2-512/256:SHA-512/256:SHA512-256:2.16.840.1.101.3.4.2.6", is_keyed=False,
              note="digests alone"),
)
KEYED = tuple(it for it in ALGORITHMS if it.is_keyed)
TOKENS = tuple(it for it in ALGORITHMS if it.token)

# The statuses, by their numbers from 0 on: the name behind `YZ_`, and what all doors say of it.
STATUSES = (
    ("OK", "success"),
    ("UNKNOWN_ALGORITHM", "the number names no algorithm or scheme of this call"),
    ("UNKNOWN_CONTEXT", "the bytes can be no context or key"),
    ("NO_ITERATIONS", "the number of iterations is 0"),
    ("WRONG_LENGTH", "the output or a text has a wrong length"),
    ("BAD_FORMAT", "no password hash has the text"),
    ("TOO_MANY_ITERATIONS", "the text has more iterations than the caller takes"),
    ("BAD_SALT", "a new password hash can't have the salt"),
    ("UNSPECIFIED", "an input is out of its limits, or the verification failed"),
)

# The schemes of password hashes, by their numbers from 1 on: the name, and whose text it is.
SCHEMES = (
    ("django-sha256", "Django's `PBKDF2PasswordHasher`."),
    ("django-sha1", "Django's `PBKDF2SHA1PasswordHasher`."),
    ("werkzeug-sha256", "Werkzeug's `pbkdf2:sha256`."),
    ("werkzeug-sha512", "Werkzeug's `pbkdf2:sha512`."),
    ("phc-sha256", "A PHC string, `$pbkdf2-sha256$i=..,l=32`."),
    ("phc-sha512", "A PHC string, `$pbkdf2-sha512$i=..,l=32`."),
    ("mosquitto", "Mosquitto's, by SHA-512."),
    ("passlib-sha1", "passlib's `pbkdf2_sha1`."),
    ("passlib-sha256", "passlib's `pbkdf2_sha256`."),
    ("passlib-sha512", "passlib's `pbkdf2_sha512`."),
    ("postgresql", "PostgreSQL's, for a role: `SCRAM-SHA-256$..`."),
    ("werkzeug-sha1", "Werkzeug's `pbkdf2:sha1`."),
)

# The limits and lengths of calls, by the names that they have behind `YZ_` in the header, or would
# have there.
LIMITS = {
    "DIGEST_CONTEXT_LEN": 216,
    "HMAC_KEY_LEN": 136,
    "HMAC_CONTEXT_LEN": 280,
    "MAX_LABEL_LEN": 249,
    "MAX_CONTEXT_LEN": 255,
    "MAX_PASSWORD_HASH_LEN": 1024,
    "SALT_RANDOM_LEN": 16,
    "MAX_SALT_LEN": 22,
    "MERKLE_HASH_LEN": 32,
    "MERKLE_MAX_PATH": 65,
    "JWS_REST_LEN": 38,  # of a token what is neither payload nor tag: the header, two full stops
    "OTP_MIN_DIGITS": 6,
    "OTP_MAX_DIGITS": 8,
}
