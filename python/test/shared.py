# SPDX-License-Identifier: ISC
"""What the tests of the package's shape share."""

import hashlib
import pathlib
import sys

import yezdopin
from yezdopin import hmac as tags

ROOT = pathlib.Path(__file__).resolve().parents[2]
sys.path += [str(ROOT / "tools"), str(ROOT / "tests/lib")]
import rows

NAMES = [it.name.lower() for it in rows.ALGORITHMS]
SIGNING = [it.name.lower() for it in rows.KEYED]
TOKENS = {it.token: it.name.lower() for it in rows.TOKENS}
LONG = bytes(range(256)) * 64  # long enough for an update that lets other threads run


def every_object():
    """Each kind of object that holds a context or a key."""
    yield yezdopin.sha256(b"message")
    yield tags.Key(b"key", "sha256")
    yield tags.Key(b"key", "sha256")._begin(b"message")
    yield tags.new(b"key", b"message", "sha256")
    yield tags.new(b"key", b"message", Foreign)


class Foreign:
    """A hash that the library doesn't know: SHA-256 under another name."""

    name, digest_size, block_size = "foreign", 32, 64

    def __init__(self, data=b""):
        self._running = hashlib.sha256(data)

    def update(self, data):
        self._running.update(data)

    def digest(self):
        return self._running.digest()

    def hexdigest(self):
        return self._running.hexdigest()

    def copy(self):
        other = Foreign()
        other._running = self._running.copy()
        return other
