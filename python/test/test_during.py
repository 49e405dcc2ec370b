# SPDX-License-Identifier: ISC
"""What other threads do while a call runs: they resize and release its buffers, write into them,
and call on the same key. And what a call leaves of a key in the process's memory."""

import hashlib
import hmac
import os
import pathlib
import subprocess
import sys
import threading
import unittest

import yezdopin
from shared import SIGNING
from yezdopin import hmac as tags
from yezdopin import merkle, password_hash, tls13, tokens, webhook

KEY = bytes(range(64))
LONG_LEN = 30_000_000


class Buffers(unittest.TestCase):
    """A buffer is held until the call that reads it is over."""

    def setUp(self):
        self.usual = sys.getswitchinterval()
        sys.setswitchinterval(1000)  # a thread runs where another lets it, and not by the clock

    def tearDown(self):
        sys.setswitchinterval(self.usual)

    def looked_at(self, call, look):
        """Calls in a thread, and looks while the call runs. Where it was over first, it tries
        again."""
        for _ in range(20):
            begins, done = threading.Event(), []

            def work():
                begins.set()
                call()
                done.append(True)

            thread = threading.Thread(target=work)
            thread.start()
            begins.wait()
            was_done = bool(done)
            found = None if was_done else look()
            thread.join()
            if not was_done:
                return found
        self.fail("no call was seen while it ran")

    def test_are_held(self):
        """None of a call's buffers can be resized or released while it runs."""
        long, few = bytearray(LONG_LEN), bytearray(KEY)
        key = tags.Key(KEY, "sha1")
        text = bytearray(password_hash.new("django-sha1", b"p", iterations=300_000).encode())
        for data, call in (
            (long, lambda it: yezdopin.sha1(it)),
            (long, lambda it: yezdopin.digest_each("sha256", [b"", it])),
            (long, lambda it: tags.digest(b"key", it, "sha1")),
            (long, lambda it: tags.digest(it, b"", "sha1")),
            (few, lambda it: tags.digest(it, long, "sha1")),
            (long, lambda it: tags.verify(b"key", it, b"tag", "sha1")),
            (long, lambda it: tags.verify(it, b"", b"tag", "sha1")),
            (few, lambda it: tags.verify(b"key", long, it, "sha1")),
            (long, lambda it: tags.Key(it, "sha1")),
            (long, lambda it: key.sign(it)),
            (long, lambda it: key.verify(it, b"tag")),
            (few, lambda it: key.verify(long, it)),
            (long, lambda it: tags.new(b"key", it, "sha1")),
            (long, lambda it: tags.new(it, digestmod="sha1")),
            (long, lambda it: tags.compare_digest(it, it)),
            (long, lambda it: yezdopin.hkdf("sha1", it, b"", b"", 20)),
            (few, lambda it: yezdopin.hkdf("sha1", long, it, it, 20)),
            (long, lambda it: yezdopin.hkdf_extract("sha1", it, b"")),
            (few, lambda it: yezdopin.hkdf_expand("sha1", it, long, 20)),
            (few, lambda it: yezdopin.hkdf_expand_label("sha1", long, it, it, 20)),
            (few, lambda it: yezdopin.pbkdf2_hmac("sha1", it, b"", 200_000)),
            (few, lambda it: yezdopin.pbkdf2_hmac("sha1", b"", it, 200_000)),
            (few, lambda it: yezdopin.pbkdf2_hmac_verify("sha1", it, b"", 200_000, b"key")),
            (few, lambda it: yezdopin.pbkdf2_hmac_verify("sha1", b"", b"", 200_000, it)),
            (text, lambda it: password_hash.verify(it, b"q", max_iterations=300_000)),
            (few, lambda it: password_hash.verify(text, it, max_iterations=300_000)),
            (few, lambda it: password_hash.new("phc-sha256", it, iterations=200_000, salt=b"s")),
            (few, lambda it: password_hash.new("phc-sha256", b"", iterations=200_000, salt=it)),
            (long, lambda it: tokens.sign(it, KEY)),
            (few, lambda it: tokens.sign(long, it)),
            (few, lambda it: tokens.find_hotp(it, "no otp", 0, 200_000)),
            (bytearray(b"no otp"), lambda it: tokens.find_totp(KEY, it, 0, ahead=200_000)),
            (long, lambda it: merkle.leaf(it)),
            (long, lambda it: webhook.verify_github(b"key", it, "no tag")),
            (few, lambda it: webhook.verify_github(it, long, "no tag")),
            (few, lambda it: webhook.verify_github(b"key", long, it)),
            (few, lambda it: webhook.verify_hex("sha1", b"key", long, "no tag", it)),
            (long, lambda it: webhook.verify_hex("sha1", it, b"", "no tag")),
            (bytearray(b"t=0,v1=no tag"),
             lambda it: webhook.verify_stripe(b"key", long, it, now=0)),
            (long, lambda it: tls13.binder_key("sha1", it, is_external=True)),
        ):
            self.is_held(data, call)

    def is_held(self, data, call):
        view = memoryview(data)

        def look():
            with self.assertRaises(BufferError):
                view.release()
            return True

        with self.subTest(call.__code__.co_firstlineno, arguments=call.__code__.co_consts):
            # A view is released where no call has borrowed it, and its buffer resized.
            self.assertTrue(self.looked_at(lambda: call(view), look))
            view.release()
            data.append(data.pop())

    def test_written(self):
        """A token that another thread writes is accepted with its own payload alone."""
        payload = bytes(300_000)
        token = tokens.sign(payload, KEY).encode()
        shared, is_over, place = bytearray(token), threading.Event(), len(token) // 2

        def write():
            while not is_over.is_set():
                for byte in b"BA" * 50:
                    shared[place] = byte

        thread = threading.Thread(target=write)
        sys.setswitchinterval(1e-6)
        thread.start()
        try:
            found = []
            for _ in range(300):
                try:
                    found.append(tokens.verify(shared, KEY))
                except yezdopin.Error:
                    found.append(None)
        finally:
            is_over.set()
            thread.join()
        self.assertLessEqual(set(found), {None, payload})
        self.assertIn(payload, found)


class Keys(unittest.TestCase):
    def test_together(self):
        """Threads that share a key, for short messages and for such as release the GIL, get its
        tags, and its verdicts."""
        wrong = []

        def work(key, name, message, right):
            for count in range(20):
                short = message[:count]
                answers = [
                    key.sign(message) == right, key.verify(message, right),
                    not key.verify(message, right[:-1]),
                    key.new(short).digest() == hmac.digest(KEY, short, name),
                    key.verify(short, hmac.digest(KEY, short, name)),
                ]
                if not all(answers):
                    wrong.append((name, message[0], count, answers))

        messages = [bytes([it]) * 1_000_000 for it in range(6)]
        for name in SIGNING:
            key = tags.Key(KEY, name)
            words = [(key, name, it, hmac.digest(KEY, it, name)) for it in messages]
            threads = [threading.Thread(target=work, args=it) for it in words]
            for thread in threads:
                thread.start()
            for thread in threads:
                thread.join()
        self.assertEqual(wrong, [])

    def test_freed_during_a_call(self):
        """A key that its last name leaves while a call runs stays until the call is over."""
        message, right = bytes(LONG_LEN), hmac.digest(KEY, bytes(LONG_LEN), "sha256")
        holder, found, begins = [tags.Key(KEY, "sha256")], [], threading.Event()

        def work():
            verify = holder[0].verify
            holder.clear()
            begins.set()
            found.append(verify(message, right))

        thread = threading.Thread(target=work)
        thread.start()
        begins.wait()
        others = [tags.Key(os.urandom(9), "sha256") for _ in range(1000)]
        thread.join()
        self.assertEqual((found, len(others)), ([True], 1000))


# A process of its own computes the words of a key, so that this one has them only masked.
MASKED = """
import ctypes, sys
from yezdopin import hmac
key = hmac.Key(bytes.fromhex(sys.argv[1]), sys.argv[2])
words = ctypes.string_at(id(key) + 24 + 8, 128)
for part in (words[:64], words[64:]):
    print(bytes(it ^ 0x5A for it in part.rstrip(b"\\0")).hex())
"""
MASK = bytes(it ^ 0x5A for it in range(256))
PART_LEN = 1 << 20


def places_of(masked):
    """How often bytes that are given masked stand in this process's writable memory, but for its
    stacks, of which the package promises nothing."""
    count, overlap = 0, len(masked)
    maps = pathlib.Path("/proc/self/maps").read_text().splitlines()
    with open("/proc/self/mem", "rb", 0) as memory:
        for line in maps:
            fields = line.split()
            if "w" not in fields[1] or line.endswith(("[stack]", "[vvar]")):
                continue
            first, last = (int(it, 16) for it in fields[0].split("-"))
            for at in range(first, last, PART_LEN):
                memory.seek(at)
                part = memory.read(min(PART_LEN + overlap, last - at))
                count += part.translate(MASK).count(masked)
    return count


class Memory(unittest.TestCase):
    def test_words_of_keys(self):
        """No call leaves the words of a key in memory that is freed, and this search finds those of
        one that is held."""
        value, long = os.urandom(32), bytes(100_000)
        token = tokens.sign(b"{}", value)
        text = password_hash.new("phc-sha256", value, iterations=2)
        tag = hmac.digest(value, long, "sha256")
        command = [sys.executable, "-c", MASKED, value.hex(), "sha256"]
        said = subprocess.run(command, check=True, capture_output=True, text=True).stdout
        masked = [bytes.fromhex(it) for it in said.split()]
        self.assertEqual(len(masked), 2)
        held = tags.Key(value, "sha256"), tags.new(value, digestmod="sha256")
        self.assertTrue(all(places_of(it) >= 2 for it in masked))
        del held
        for call in (
            lambda: tags.digest(value, long, "sha256"),
            lambda: tags.verify(value, long, tag, "sha256"),
            lambda: tags.Key(value, "sha256").sign(long),
            lambda: tags.Key(value, "sha256").sign(b"short"),
            lambda: tags.Key(value, "sha256").verify(long, tag),
            lambda: tags.Key(value, "sha256").new(long).copy().hexdigest(),
            lambda: tags.new(value, long, "sha256").copy().digest(),
            lambda: yezdopin.hkdf_extract("sha256", long, value),
            lambda: yezdopin.hkdf_expand("sha256", value, long, 99),
            lambda: yezdopin.hkdf_expand_label("sha256", value, b"label", b"", 99),
            lambda: yezdopin.pbkdf2_hmac("sha256", value, long, 2),
            lambda: yezdopin.pbkdf2_hmac_verify("sha256", value, long, 2, tag),
            lambda: password_hash.verify(text, value, max_iterations=2),
            lambda: password_hash.new("phc-sha256", value, iterations=2),
            lambda: tokens.sign(long, value),
            lambda: tokens.verify(token, value),
            lambda: self.assertRaises(yezdopin.Error, tokens.verify, token + "A", value),
            lambda: tokens.find_totp(value, "123456", 0, digest="sha256"),
            lambda: tokens.hotp(value, 0, digest="sha256"),
            lambda: webhook.verify_github(value, long, tag),
            lambda: webhook.verify_hex("sha256", value, long, tag.hex(), "x"),
            lambda: webhook.verify_stripe(value, long, "t=1,v1=00", now=1),
            lambda: tls13.finished("sha256", value, tag),
            lambda: tls13.verify_finished("sha256", value, tag, tag),
            lambda: self.assertRaises(TypeError, tags.new, value, "text", "sha256"),
            lambda: self.assertRaises(TypeError, tags.Key(value, "sha256").verify, b"", "text"),
        ):
            with self.subTest(call.__code__.co_firstlineno):
                call()
                self.assertEqual([places_of(it) for it in masked], [0, 0])


if __name__ == "__main__":
    unittest.main()
