# SPDX-License-Identifier: ISC
"""What `hashlib` and `hmac` take, answer and raise: names, arguments, hashes, text, files."""

import hashlib
import hmac
import inspect
import io
import os
import pathlib
import pickle
import re
import ssl
import subprocess
import sys
import tempfile
import types
import unittest
import warnings

import yezdopin
from shared import NAMES, SIGNING, Foreign
from yezdopin import _native, merkle, tls13, tokens, webhook
from yezdopin import hmac as tags

PYPROJECT = pathlib.Path(__file__).resolve().parents[1] / "pyproject.toml"


class Names(unittest.TestCase):
    def test_sets(self):
        self.assertEqual(yezdopin.algorithms_guaranteed, set(NAMES))
        self.assertLessEqual(yezdopin.algorithms_guaranteed, yezdopin.algorithms_available)
        self.assertIsNot(yezdopin.algorithms_guaranteed, yezdopin.algorithms_available)
        for name in ("algorithms_guaranteed", "algorithms_available"):
            self.assertIs(type(getattr(yezdopin, name)), type(getattr(hashlib, name)))
        said = re.search('^version = "(.*)"$', PYPROJECT.read_text(), re.M).group(1)
        self.assertEqual(yezdopin.__version__, said)

    def test_modules(self):
        """Their modules come with the package, and hmac's has the names of `hmac`."""
        names = ("hmac", "merkle", "password_hash", "tls13", "tokens", "webhook")
        modules = [f"yezdopin.{it}" for it in names]
        told = ", ".join(f"{it}.__name__" for it in modules)
        command = [sys.executable, "-c", f"import yezdopin; print({told})"]
        done = subprocess.run(command, capture_output=True, text=True, check=True)
        self.assertEqual(done.stdout.split(), modules)
        theirs = [it for it in vars(hmac) if not it.startswith("_")]
        self.assertIn("trans_5C", theirs)
        self.assertEqual([it for it in theirs if it not in tags.__all__], [])
        for name in ("trans_5C", "trans_36", "digest_size"):
            self.assertEqual(getattr(tags, name), getattr(hmac, name))

    def test_sizes(self):
        for name in NAMES:
            ours, theirs = yezdopin.new(name), hashlib.new(name)
            self.assertEqual((ours.name, ours.digest_size), (theirs.name, theirs.digest_size))
            self.assertEqual(ours.block_size, theirs.block_size)
            self.assertIs(type(getattr(yezdopin, name)()), yezdopin.Digest)
            self.assertIn(name, repr(ours))

    @unittest.skipIf(ssl.OPENSSL_VERSION_INFO < (3,), "OpenSSL had other names before 3.0")
    def test_as_openssl(self):
        """A name is one of ours where OpenSSL has it for the same hash, and else none."""
        spelled = ["{}", "sha{}", "sha-{}", "sha2-{}", "SHA{}", "SHA-{}", "SHA2-{}", "Sha-{}"]
        spelled += ["sha_{}", "sha--{}", "s-h-a-{}", " sha{}", "sha3-{}", "hmac-sha{}"]
        spelled += ["RSA-SHA{}", "sha2_{}", "2.16.840.1.101.3.4.2.{}", "sha{}é"]
        numbers = ["1", "2", "3", "6", "256", "384", "512", "512-256", "512/256", "512_256", ""]
        others = ["SSL3-SHA1", "1.3.14.3.2.26", "", "-", "md5", "shake256", "sha" * 40]
        tried = [form.format(number) for form in spelled for number in numbers] + others
        for name in tried:
            try:
                want = hashlib.new(name).name
            except ValueError:
                want = None
            if want not in NAMES:
                with self.assertRaises(ValueError, msg=name):
                    yezdopin.new(name)
            else:
                self.assertEqual(yezdopin.new(name).name, want)
        # OpenSSL 3.5 takes the first of these, and earlier ones don't.
        for name in ("sha256 ", "sha256\0", "\0sha256", "\ud800"):
            with self.assertRaises(ValueError):
                yezdopin.new(name)

    def test_signatures(self):
        said = str(inspect.signature(yezdopin.sha256))
        self.assertEqual(said, "(data=b'', *, usedforsecurity=True, string=Ellipsis)")
        for name in yezdopin.__all__:
            it = getattr(yezdopin, name)
            if callable(it) and it not in (yezdopin.Digest, yezdopin.Error):
                self.assertTrue(it.__doc__, name)
                inspect.signature(it)
        for module in (merkle, tls13, tokens, webhook):
            for name in module.__all__:
                word = module.__name__.rpartition(".")[2]
                ours, native = getattr(module, name), getattr(_native, f"{word}_{name}")
                self.assertTrue(ours.__doc__ and native.__doc__, name)
                taken = inspect.signature(ours).parameters, inspect.signature(native).parameters
                words = [word for word in taken[0] if word != "allow_short_key"]
                self.assertEqual(words, list(taken[1]))


class Arguments(unittest.TestCase):
    def test_keywords(self):
        for name in NAMES:
            make, want = getattr(yezdopin, name), hashlib.new(name, b"abc").digest()
            for made in (
                make(b"abc", usedforsecurity=False),
                make(data=b"abc"),
                make(string=b"abc", usedforsecurity=True),
                yezdopin.new(name, b"abc", usedforsecurity=False),
                yezdopin.new(name=name, data=b"abc"),
                yezdopin.new(name, string=b"abc"),
            ):
                self.assertEqual(made.digest(), want)

    def test_wrong_calls(self):
        made = yezdopin.sha256()
        for call in (
            lambda: yezdopin.sha256(b"a", b"b"),
            lambda: yezdopin.sha256(b"a", data=b"b"),
            lambda: yezdopin.sha256(data=b"a", string=b"b"),
            lambda: yezdopin.sha256(other=b"a"),
            lambda: yezdopin.sha256(None),
            lambda: yezdopin.sha256("text"),
            lambda: yezdopin.sha256(7),
            lambda: yezdopin.new(),
            lambda: yezdopin.new(1),
            lambda: yezdopin.new(hashlib.sha256),
            lambda: yezdopin.Digest(),
            lambda: made.update(),
            lambda: made.update(None),
            lambda: made.digest(16),
            lambda: yezdopin.pbkdf2_hmac(b"sha1", b"", b"", 1),
            lambda: yezdopin.pbkdf2_hmac("sha1", "", b"", 1),
            lambda: yezdopin.pbkdf2_hmac("sha1", b"", b"", 1.5),
            lambda: yezdopin.hkdf("sha256", b"", b"", b""),
            lambda: yezdopin.hkdf("sha256", b"", b"", b"", "8"),
            lambda: yezdopin.hkdf_expand_label("sha256", b"", "derived", b"", 8),
            lambda: tags.Key("text", "sha256"),
            lambda: tags.Key(b"", 7),
            lambda: tags.Key(b""),
            lambda: tags.new("text", digestmod="sha256"),
            lambda: tags.new(b"key", b"message"),
            lambda: tags.HMAC(b"key", b"message", ""),
            lambda: tags.digest(b"key", None, "sha256"),
            lambda: _native.hmac_new(b"key"),
            lambda: setattr(yezdopin.Digest, "value", 1),
        ):
            self.assertRaises(TypeError, call)
        with self.assertRaises(AttributeError):
            made.value = 1
        for messages in (["text"], "text", b"bytes", [7], [b"", None], 7):
            with self.assertRaises(TypeError):
                yezdopin.digest_each("sha256", messages)

    def is_refused(self, status, call, *arguments):
        with self.assertRaises(yezdopin.Error) as caught:
            call(*arguments)
        self.assertEqual(caught.exception.status, status)
        again = pickle.loads(pickle.dumps(caught.exception))
        self.assertEqual((again.status, str(again)), (status, str(caught.exception)))

    def test_statuses(self):
        self.is_refused(1, yezdopin.new, "md5")
        self.is_refused(1, yezdopin.digest_each, "md5", [])
        self.is_refused(1, tags.Key, b"", "sha512_256")
        self.is_refused(1, tags.Key, b"", Foreign)
        self.is_refused(1, tags.new, b"", b"", yezdopin.sha512_256)
        self.is_refused(1, tags.digest, b"", b"", "sha512_256")
        self.is_refused(1, yezdopin.hkdf, "sha512_256", b"", b"", b"", 4)
        self.is_refused(1, yezdopin.hkdf_expand_label, "sha512_256", b"", b"x", b"", 4)
        self.is_refused(1, yezdopin.pbkdf2_hmac, "sha512_256", b"", b"", 1)
        self.is_refused(1, yezdopin.pbkdf2_hmac_verify, "sha512_256", b"", b"", 1, b"1234")
        self.is_refused(3, yezdopin.pbkdf2_hmac, "sha256", b"", b"", 0, 4)
        self.is_refused(3, yezdopin.pbkdf2_hmac_verify, "sha256", b"", b"", 0, b"1234")
        for name in SIGNING:
            most = 255 * yezdopin.new(name).digest_size
            self.assertEqual(len(yezdopin.hkdf(name, b"", b"", b"", most)), most)
            self.is_refused(4, yezdopin.hkdf, name, b"", b"", b"", most + 1)
            self.is_refused(4, yezdopin.hkdf_expand, name, b"", b"", 2**62)
            label = yezdopin.hkdf_expand_label
            self.assertEqual(len(label(name, b"", b"x" * 249, b"x" * 255, most)), most)
            self.is_refused(4, label, name, b"", b"x", b"", most + 1)
            self.is_refused(8, label, name, b"", b"", b"", 4)
            self.is_refused(8, label, name, b"", b"x" * 250, b"", 4)
            self.is_refused(8, label, name, b"", b"x", b"x" * 256, 4)
            self.is_refused(4, label, name, b"", b"", b"", most + 1)
        with self.assertRaisesRegex(ValueError, "unsupported hash type md5"):
            yezdopin.new("md5")

    def test_reasons(self):
        """The error says which input of a label is out of its limits, and which limits it has."""
        for label, context, reason in (
            (0, 0, "a label has 1 to 249 bytes, and this one has 0"),
            (250, 256, "a label has 1 to 249 bytes, and this one has 250"),
            (1, 256, "a context has at most 255 bytes, and this one has 256"),
        ):
            with self.assertRaises(yezdopin.Error) as caught:
                yezdopin.hkdf_expand_label("sha256", b"", b"x" * label, b"x" * context, 4)
            self.assertEqual(str(caught.exception), reason)

    def test_numbers(self):
        """What hashlib's PBKDF2 refuses is refused, by the same class of exceptions."""
        given = ("sha256", b"", b"")
        for iterations in (0, -1, -(2**80), 2**31, 2**32 - 1, 2**32, 2**63, 2**80, 1.5, "1"):
            with self.assertRaises(Exception) as theirs:
                hashlib.pbkdf2_hmac(*given, iterations, 4)
            for call in (yezdopin.pbkdf2_hmac, yezdopin.pbkdf2_hmac_verify):
                with self.assertRaises(type(theirs.exception)) as ours:
                    call(*given, iterations, 4 if call is yezdopin.pbkdf2_hmac else b"1234")
                if isinstance(iterations, int):
                    said = "iterations must be from 1 to 2147483647"
                    self.assertEqual(str(ours.exception), said)
        for length in (0, -1):
            with self.assertRaises(ValueError):
                yezdopin.pbkdf2_hmac(*given, 1, length)
        for length in (2**32 * 32, 2**80):
            with self.assertRaises(OverflowError):
                yezdopin.pbkdf2_hmac(*given, 1, length)
        with self.assertRaises(ValueError):
            yezdopin.hkdf("sha256", b"", b"", b"", -1)
        for length in (1.5, "1"):
            for call in (hashlib.pbkdf2_hmac, yezdopin.pbkdf2_hmac):
                self.assertRaises(TypeError, call, *given, 1, length)
            self.assertRaises(TypeError, yezdopin.hkdf, "sha256", b"", b"", b"", length)
        self.assertEqual(yezdopin.hkdf("sha256", b"", b"", b"", 0), b"")

    def test_index(self):
        """What has `__index__` is a number, as for hashlib."""

        class Three:
            def __index__(self):
                return 3

        given = "sha256", b"password", b"salt"
        want = hashlib.pbkdf2_hmac(*given, Three(), Three())
        self.assertEqual(yezdopin.pbkdf2_hmac(*given, Three(), Three()), want)
        for call in (
            lambda length: yezdopin.hkdf("sha256", b"key", b"salt", b"info", length),
            lambda length: yezdopin.hkdf_expand("sha256", bytes(32), b"info", length),
            lambda length: yezdopin.hkdf_expand_label("sha256", bytes(32), b"key", b"", length),
        ):
            self.assertEqual(call(Three()), call(3))
            self.assertEqual(len(call(3)), 3)


class Hashes(unittest.TestCase):
    """What `digestmod` may be."""

    def test_kinds(self):
        for name in SIGNING:
            module = types.SimpleNamespace(new=getattr(yezdopin, name))
            want = hmac.digest(b"key", b"message", name)
            for kind in (name, getattr(yezdopin, name), getattr(hashlib, name), module):
                made = tags.new(b"key", b"message", kind)
                self.assertEqual((made.digest(), made.hexdigest()), (want, want.hex()))
                self.assertEqual(tags.digest(b"key", b"message", kind), want)
                self.assertTrue(tags.verify(b"key", b"message", want, kind))
                self.assertFalse(tags.verify(b"key", b"message", want[:-1], kind))
                self.assertEqual(made.name, f"hmac-{name}")
            theirs = getattr(hashlib, name)
            self.assertIsNotNone(tags.new(b"", None, theirs)._hmac)
            self.assertEqual(tags.Key(b"key", theirs).sign(b"message"), want)

    def test_foreign(self):
        for key in (b"", b"key", bytearray(64), b"k" * 65, memoryview(b"k" * 200)):
            made = tags.new(key, digestmod=Foreign)
            made.update(b"message")
            other = made.copy()
            other.update(b"more")
            self.assertEqual(made.digest(), hmac.digest(bytes(key), b"message", "sha256"))
            self.assertEqual(other.digest(), hmac.digest(bytes(key), b"messagemore", "sha256"))
            self.assertEqual((made.name, made.digest_size), ("hmac-foreign", 32))
            self.assertEqual(made.block_size, 64)

    def test_small_blocks(self):
        small = type("Small", (Foreign,), {"block_size": 1})
        with warnings.catch_warnings(record=True) as caught:
            warnings.simplefilter("always")
            self.assertEqual(tags.new(b"key", b"", small).block_size, 64)
        self.assertEqual([it.category for it in caught], [RuntimeWarning])

    def test_shape(self):
        ours, theirs = tags.new(b"key", digestmod="sha512"), hmac.new(b"key", digestmod="sha512")
        for name in ("name", "digest_size", "block_size"):
            self.assertEqual(getattr(ours, name), getattr(theirs, name))
        self.assertIsInstance(tags.Key(b"key", "sha512").new(b"message"), tags.HMAC)
        self.assertEqual(tags.Key(b"key", "sha512").new().digest(), theirs.digest())


class Comparison(unittest.TestCase):
    def test_text(self):
        self.assertIs(tags.compare_digest, yezdopin.compare_digest)
        self.assertTrue(yezdopin.compare_digest("text", "text"))
        self.assertFalse(yezdopin.compare_digest("text", "texx"))
        self.assertFalse(yezdopin.compare_digest("text", "tex"))
        self.assertTrue(yezdopin.compare_digest("", ""))
        surrogate = "\ud800"
        for a, b in (
            ("é", "é"), ("a", "é"), ("a", b"a"), (b"a", "a"), (1, b"a"), (surrogate, "a"),
            ("a", surrogate), (surrogate, surrogate), (surrogate, "é"), ("é", surrogate),
        ):
            for compare in (hmac.compare_digest, yezdopin.compare_digest):
                with self.assertRaises(TypeError):
                    compare(a, b)


class Files(unittest.TestCase):
    def test_files(self):
        data = os.urandom(700_000)
        with tempfile.TemporaryDirectory() as folder:
            path = pathlib.Path(folder, "file")
            path.write_bytes(data)
            for digest in ("sha256", yezdopin.sha256, hashlib.sha256):
                for opened in (path.open("rb"), path.open("rb", buffering=0), io.BytesIO(data)):
                    with opened:
                        got = yezdopin.file_digest(opened, digest).hexdigest()
                    self.assertEqual(got, hashlib.sha256(data).hexdigest())
            for mode in ("r", "wb"):
                with path.open(mode) as opened, self.assertRaises(ValueError):
                    yezdopin.file_digest(opened, "sha256")
        with self.assertRaises(ValueError):
            yezdopin.file_digest(None, "sha256")

    def test_no_bytes_yet(self):
        """A pipe without bytes that isn't at its end has no digest."""
        reading, writing = os.pipe()
        os.set_blocking(reading, False)
        with open(reading, "rb", buffering=0) as opened, open(writing, "wb", buffering=0) as other:
            other.write(b"first")
            with self.assertRaises(BlockingIOError):
                yezdopin.file_digest(opened, "sha256")


if __name__ == "__main__":
    unittest.main()
