# SPDX-License-Identifier: ISC
"""Django's PBKDF2 hashers, by the proved calls of libyezdopin.

    PASSWORD_HASHERS = [
        "yezdopin.django.PBKDF2PasswordHasher",
        "yezdopin.django.PBKDF2SHA1PasswordHasher",
        "django.contrib.auth.hashers.BCryptSHA256PasswordHasher",
    ]

The texts are Django's own: Django's hashers take those of these, and the other way round. Rows of
other hashers stay with theirs, and Django hashes a password anew at a login where its row isn't of
the first.
"""

from __future__ import annotations

from django.contrib.auth import hashers  # type: ignore[import]
from django.utils.encoding import force_bytes  # type: ignore[import]

from yezdopin import password_hash
from yezdopin._errors import Error

__all__ = ["PBKDF2PasswordHasher", "PBKDF2SHA1PasswordHasher"]


class _Proved:
    """What both do in the place of Django's."""

    scheme: str
    iterations: int
    max_iterations = 10_000_000

    def encode(self, password: str | bytes, salt: str, iterations: int | None = None) -> str:
        """The text of a password's hash. It is refused as Django's is: by `TypeError` for no
        password, by `ValueError` for an empty salt and for one with a dollar sign."""
        if password is None:
            raise TypeError("password must be provided.")
        return password_hash.new(self.scheme, force_bytes(password), salt=force_bytes(salt),
                                 iterations=iterations or self.iterations)

    def verify(self, password: str | bytes, encoded: str) -> bool:
        """Whether the text is of this password's hash. It is False for a text of another scheme,
        and for one that names more than `max_iterations`."""
        try:
            return password_hash.verify(encoded, force_bytes(password),
                                        max_iterations=self.max_iterations)
        except Error:
            return False


class PBKDF2PasswordHasher(_Proved, hashers.PBKDF2PasswordHasher):
    """Django's `PBKDF2PasswordHasher`, with its number of iterations."""

    scheme = "django-sha256"


class PBKDF2SHA1PasswordHasher(_Proved, hashers.PBKDF2SHA1PasswordHasher):
    """Django's `PBKDF2SHA1PasswordHasher`, with its number of iterations."""

    scheme = "django-sha1"
