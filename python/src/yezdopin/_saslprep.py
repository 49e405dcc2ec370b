# SPDX-License-Identifier: ISC
"""SASLprep as PostgreSQL applies it to a password before it derives keys from it.

    >>> saslprep("Ⅸ\\u00ad")
    'IX'

RFC 4013 tests the normalized text for what it prohibits, PostgreSQL the text before that.
"""

from __future__ import annotations

import stringprep
import unicodedata

__all__ = ["prepared", "saslprep"]

# What is prohibited (RFC 4013, 2.3 and 2.5), by the tables of RFC 3454.
_PROHIBITED = (
    stringprep.in_table_a1,  # unassigned
    stringprep.in_table_c12,  # spaces beside the ASCII one
    stringprep.in_table_c21_c22,  # controls
    stringprep.in_table_c3,  # private use
    stringprep.in_table_c4,  # no characters
    stringprep.in_table_c5,  # surrogates
    stringprep.in_table_c6,  # not for plain text
    stringprep.in_table_c7,  # not for canonical text
    stringprep.in_table_c8,  # changes of the display
    stringprep.in_table_c9,  # tags
)


def _mapped(text: str) -> str:
    """The text with each space as the ASCII one, and without what is mapped to nothing (2.1)."""
    spaced = "".join(" " if stringprep.in_table_c12(it) else it for it in text)
    return "".join(it for it in spaced if not stringprep.in_table_b1(it))


def _mixes_directions(text: str) -> bool:
    """Whether it has characters from right to left, and not these alone at both ends and none
    from left to right (RFC 3454, 6)."""
    if not any(map(stringprep.in_table_d1, text)):
        return False
    ends = stringprep.in_table_d1(text[0]) and stringprep.in_table_d1(text[-1])
    return not ends or any(map(stringprep.in_table_d2, text))


def saslprep(text: str) -> str:
    """The text as PostgreSQL prepares it. `ValueError` is raised for what it prohibits."""
    mapped = _mapped(text)
    if not mapped:
        raise ValueError("SASLprep leaves nothing of the text")
    if any(test(it) for it in mapped for test in _PROHIBITED):
        raise ValueError("the text has a character that SASLprep prohibits")
    if _mixes_directions(mapped):
        raise ValueError("the text has characters from right to left where SASLprep prohibits them")
    return unicodedata.normalize("NFKC", mapped)


def prepared(password: bytes) -> bytes:
    """The bytes that PostgreSQL derives from for a password of UTF-8.

    They are its SASLprep; but the password itself where it is ASCII or no UTF-8, and where SASLprep
    prohibits it or leaves nothing of it.
    """
    if password.isascii():
        return password
    try:
        return saslprep(password.decode()).encode()
    except ValueError:
        return password
