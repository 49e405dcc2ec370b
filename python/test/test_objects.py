# SPDX-License-Identifier: ISC
"""What holds contexts, keys and buffers: copies, pickles, threads, memory."""

import array
import copy
import ctypes
import gc
import hashlib
import hmac
import importlib
import inspect
import io
import mmap
import os
import pathlib
import pickle
import resource
import sys
import tempfile
import threading
import tracemalloc
import unittest

import yezdopin
from shared import LONG, NAMES, SIGNING, every_object
from yezdopin import _native, tokens
from yezdopin import hmac as tags


class Copies(unittest.TestCase):
    def test_copies(self):
        """A copy goes on by itself, and its end leaves the original as it was."""
        for make in (copy.copy, copy.deepcopy, lambda it: it.copy()):
            for it in every_object():
                if isinstance(it, _native.Key):
                    continue
                before = it.digest()
                other = make(it)
                self.assertEqual(other.digest(), before)
                other.update(b"more")
                self.assertNotEqual(other.digest(), before)
                other.update(LONG)
                del other
                gc.collect()
                self.assertEqual(it.digest(), before)

    def test_keys(self):
        key = tags.Key(b"key", "sha256")
        want = key.sign(b"message")
        for make in (copy.copy, copy.deepcopy):
            other = make(key)
            self.assertEqual(other.sign(b"message"), want)
            del other
        self.assertEqual(key.sign(b"message"), want)
        self.assertEqual(copy.deepcopy({"key": key})["key"].sign(b"message"), want)

    def test_pickles(self):
        for it in every_object():
            for protocol in range(pickle.HIGHEST_PROTOCOL + 1):
                with self.assertRaises(TypeError):
                    pickle.dumps(it, protocol)
            with self.assertRaises(TypeError):
                it.__reduce_ex__(4)

    def test_subclasses(self):
        """A class of one's own over Key frees what it has."""

        class Named(tags.Key):
            def __init__(self, key, digestmod):
                self.note = [self]  # a cycle, which the collector must find

        made = [Named(b"key", "sha256") for _ in range(100)]
        want = hmac.digest(b"key", b"message", "sha256")
        self.assertEqual({it.sign(b"message") for it in made}, {want})
        del made
        self.assertGreaterEqual(gc.collect(), 100)
        for final in (yezdopin.Digest, _native.Tag):
            self.assertRaises(TypeError, type, "Derived", (final,), {})


class Threads(unittest.TestCase):
    def run_all(self, works):
        threads = [threading.Thread(target=work) for work in works]
        for thread in threads:
            thread.start()
        for thread in threads:
            thread.join()

    def test_apart(self):
        """Objects share nothing."""
        wrong = []

        def work():
            for _ in range(300):
                message = os.urandom(20000)
                if yezdopin.sha256(message).digest() != hashlib.sha256(message).digest():
                    wrong.append(message)

        self.run_all([work] * 4)
        self.assertEqual(wrong, [])

    def test_together(self):
        """Updates of one object by many threads, of short and of long pieces, are each whole."""
        for make in (lambda: yezdopin.sha1(), lambda: tags.new(b"key", digestmod="sha1")):
            together, alone = make(), make()
            data = b"eight ch" * 40000

            def work(size):
                for at in range(0, len(data), size):
                    together.update(data[at : at + size])
                    together.copy().digest()

            sizes = [320000, 32000, 3200, 2048, 2040, 800, 320000]
            self.run_all([lambda size=size: work(size) for size in sizes])
            alone.update(data * len(sizes))
            self.assertEqual(together.hexdigest(), alone.hexdigest())

    def during_update(self, make, data, look):
        """Updates an object with long data in a thread, and looks at it while the update runs: a
        thread runs only where another lets it, and an update lets others once it has the object's
        lock. Where the other thread was done first, it tries again."""
        usual = sys.getswitchinterval()
        sys.setswitchinterval(1000)
        try:
            for _ in range(20):
                it, begins, done = make(), threading.Event(), []

                def work():
                    begins.set()
                    it.update(data)
                    done.append(True)

                thread = threading.Thread(target=work)
                thread.start()
                begins.wait()
                was_done = bool(done)
                found = None if was_done else look(it)
                thread.join()
                if not was_done:
                    return found
        finally:
            sys.setswitchinterval(usual)
        self.fail("no update was seen while it ran")

    def test_reads_wait(self):
        """What reads an object waits for the update that another thread is in."""
        data = bytes(100_000_000)
        for make in (yezdopin.sha512, lambda: tags.Key(b"key", "sha512")._begin()):
            whole = make()
            whole.update(data)
            for look in (
                lambda it: it.digest(), lambda it: bytes.fromhex(it.hexdigest()),
                lambda it: it.copy().digest(),
            ):
                self.assertEqual(self.during_update(make, data, look), whole.digest())

    def test_buffer_is_held(self):
        """The buffer of an update can't be resized while it runs."""
        data = bytearray(100_000_000)

        def resized(it):
            try:
                data.append(1)
            except BufferError:
                return False
            return True

        for make in (yezdopin.sha512, lambda: tags.Key(b"key", "sha512")._begin()):
            self.assertIs(self.during_update(make, data, resized), False)

    def test_others_run(self):
        """A long call lets other threads run."""
        data, text, key = bytes(30_000_000), "x" * 30_000_000, tags.Key(b"key", "sha256")
        turns, is_over = [], threading.Event()

        def count():
            while not is_over.wait(0.001):
                turns.append(0)

        def turns_during(call):
            before = len(turns)
            call()
            return len(turns) - before

        thread, usual = threading.Thread(target=count), sys.getswitchinterval()
        thread.start()
        sys.setswitchinterval(1000)  # a thread runs where another lets it, and not by the clock
        try:
            for call in (
                lambda: yezdopin.sha1(data),
                lambda: tags.new(b"key", data, "sha1"),
                lambda: tags.new(data, digestmod="sha1"),
                lambda: tags.Key(data, "sha1"),
                lambda: key.sign(data),
                lambda: key.verify(data, b"tag"),
                lambda: tags.digest(b"key", data, "sha256"),
                lambda: tags.digest(data, b"", "sha256"),
                lambda: tags.verify(b"key", data, b"tag", "sha256"),
                lambda: tags.verify(data, b"", b"tag", "sha256"),
                lambda: tags.compare_digest(data, data),
                lambda: tags.compare_digest(text, text),
                lambda: yezdopin.digest_each("sha256", [data[:5_000_000]] * 4),
                lambda: yezdopin.hkdf("sha256", data, b"", b"", 32),
                lambda: yezdopin.hkdf("sha256", b"", data, b"", 32),
                lambda: yezdopin.hkdf("sha256", b"", b"", data, 32),
                lambda: yezdopin.hkdf_extract("sha256", data),
                lambda: yezdopin.hkdf_extract("sha256", b"", data),
                lambda: yezdopin.hkdf_expand("sha256", data, b"", 32),
                lambda: yezdopin.hkdf_expand("sha256", bytes(32), data, 32),
                lambda: yezdopin.hkdf_expand_label("sha256", data, b"label", b"", 32),
                lambda: yezdopin.pbkdf2_hmac("sha256", b"", b"", 200_000),
                lambda: tokens.sign(data, LONG),
                lambda: tokens.sign(b"", data),
                lambda: self.assertRaises(yezdopin.Error, tokens.verify, data, LONG),
                lambda: self.assertRaises(yezdopin.Error, tokens.verify, b"..", data),
                lambda: tokens.find_hotp(LONG, "no otp", 0, 200_000),
                lambda: tokens.find_totp(LONG, "no otp", 0, ahead=200_000),
            ):
                with self.subTest(inspect.getsource(call).strip()):
                    self.assertTrue(any(turns_during(call) for _ in range(20)))
            self.assertEqual(turns_during(lambda: yezdopin.sha1(data[:2047])), 0)
        finally:
            sys.setswitchinterval(usual)
            is_over.set()
            thread.join()


def memory_at(address, length):
    """What stands at an address, also where an object was freed."""
    return ctypes.string_at(address, length)


# Of an object: a context, of a digest and of a tag, begins behind a lock and an algorithm; a key
# behind an algorithm. Their lengths are the header's.
CONTEXT, KEY, LENGTHS = 32, 24, {"digest": 216, "tag": 280, "key": 136}


class Wiping(unittest.TestCase):
    """What is freed holds no context and no key."""

    def is_wiped(self, make, start, length):
        gc.collect()
        it = make()
        address, whole = id(it), type(it).__basicsize__
        self.assertLessEqual(start + length, whole)
        before = memory_at(address, whole)[start : start + length]
        self.assertGreater(len(before) - before.count(0), 15)
        del it
        after = memory_at(address, whole)[start : start + length]
        self.assertEqual(after, bytes(length))

    def test_contexts(self):
        message, key = os.urandom(100), tags.Key(os.urandom(20), "sha512")
        for name in NAMES:
            for make in (lambda: yezdopin.new(name, message), lambda: yezdopin.new(name).copy()):
                self.is_wiped(make, CONTEXT, LENGTHS["digest"])
        for make in (lambda: key._begin(message), lambda: key._begin(message).copy()):
            self.is_wiped(make, CONTEXT, LENGTHS["tag"])

    def test_keys(self):
        for name in SIGNING:
            self.is_wiped(lambda: tags.Key(os.urandom(20), name), KEY, LENGTHS["key"])

    def test_stack(self):
        """The calls that make a key, or a tag of a key's value, leave no key on the stack."""
        value, mask = os.urandom(20), bytes(it ^ 0x5A for it in range(256))
        key = tags.Key(value, "sha256")
        # The first of its words, masked, so that no copy of this test's own is found.
        masked = memory_at(id(key) + KEY + 8, 64).translate(mask)
        del key
        for call in (
            lambda: _native.hmac_new(value, b"", "sha256"), lambda: tags.Key(value, "sha256"),
            lambda: _native.hmac_new(value, b"", digestmod="sha256"),
        ):
            deep(30, lambda: call() and None)
            self.assertEqual(main_stack().count(masked.translate(mask)), 0)


def deep(depth, call):
    """Calls from further down the stack, where what comes later writes nothing."""
    return call() if depth == 0 else list(map(lambda it: deep(it, call), [depth - 1]))[0]


def main_stack():
    """The bytes of the stack of the process's first thread, also of its free part."""
    maps = pathlib.Path("/proc/self/maps").read_text().splitlines()
    line = next(it for it in maps if it.endswith("[stack]"))
    first, last = (int(it, 16) for it in line.split()[0].split("-"))
    found = bytearray(last - first)
    with open("/proc/self/mem", "rb", 0) as memory:
        memory.seek(first)
        memory.readinto(found)
    return found


IN_EACH = """
import hashlib, hmac, yezdopin
for count in range(200):
    message = bytes(range(256)) * count
    assert yezdopin.sha256(message).digest() == hashlib.sha256(message).digest()
    tag = yezdopin.hmac.Key(b"key", "sha256").sign(message)
    assert tag == hmac.digest(b"key", message, "sha256")
try:
    yezdopin.new("md5")
except yezdopin.Error as error:
    assert error.status == 1
else:
    raise AssertionError("md5 was not refused")
"""


class Interpreters(unittest.TestCase):
    """Interpreters of one process, which have a GIL of their own each from Python 3.12 on."""

    def test_at_once(self):
        module = "_interpreters" if sys.version_info >= (3, 13) else "_xxsubinterpreters"
        interpreters, wrong = importlib.import_module(module), []

        def work():
            interpreter = interpreters.create()
            try:
                fault = interpreters.run_string(interpreter, IN_EACH)
                wrong.extend([] if fault is None else [fault])
            except Exception as fault:
                wrong.append(fault)
            finally:
                interpreters.destroy(interpreter)

        threads = [threading.Thread(target=work) for _ in range(4)]
        for thread in threads:
            thread.start()
        for thread in threads:
            thread.join()
        self.assertEqual(wrong, [])
        self.assertEqual(yezdopin.sha256(b"").digest(), hashlib.sha256(b"").digest())


class Buffers(unittest.TestCase):
    def test_kinds(self):
        for data in (b"", b"x", LONG):
            kinds = [data, bytearray(data), memoryview(data), memoryview(bytearray(data))]
            kinds += [array.array("B", data), io.BytesIO(data).getbuffer(), memoryview(data)[0:]]
            kinds += [type("Mine", (bytes,), {})(data)]
            if data:
                room = mmap.mmap(-1, len(data))
                room[:] = data
                kinds.append(room)
            if len(data) % 8 == 0:
                kinds += [array.array("d", data), memoryview(data).cast("Q")]
            if data == LONG:
                kinds.append(memoryview(data).cast("B", (64, 256)))
            want, tag = hashlib.sha256(data).digest(), hmac.digest(data, data, "sha256")
            for kind in kinds:
                self.assertEqual(yezdopin.sha256(kind).digest(), want)
                self.assertEqual(tags.digest(kind, kind, "sha256"), tag)
                self.assertTrue(tags.Key(kind, "sha256").verify(kind, memoryview(tag)))
            self.assertEqual(yezdopin.digest_each("sha256", kinds), [want] * len(kinds))

    def test_in_pieces(self):
        """What doesn't lie in one piece is refused, as hashlib does."""
        view = memoryview(b"0123456789")
        released = memoryview(b"0123")
        released.release()
        for data in (view[::2], view[::-1], released):
            for call in (hashlib.sha256, yezdopin.sha256, yezdopin.sha256().update):
                with self.assertRaises((BufferError, ValueError)):
                    call(data)
            with self.assertRaises((BufferError, ValueError)):
                yezdopin.digest_each("sha256", [b"first", data])

    def test_given_back(self):
        """Each buffer is given back, where a call is refused too."""
        lent = bytearray(b"data")
        count = sys.getrefcount(lent)
        yezdopin.sha256(lent).update(lent)
        yezdopin.digest_each("sha256", [lent, lent])
        tags.Key(lent, "sha256").verify(lent, lent)
        yezdopin.pbkdf2_hmac_verify("sha256", lent, lent, 1, lent)
        yezdopin.hkdf("sha256", lent, lent, lent, 4)
        yezdopin.compare_digest(lent, lent)
        tokens.totp(lent, 0, allow_short_key=True)
        tokens.find_totp(lent, lent, 0, allow_short_key=True)
        tokens.verify(tokens.sign(lent, LONG).encode(), LONG)
        for call in (
            lambda: yezdopin.digest_each("sha256", [lent, "text"]),
            lambda: tags.digest(lent, "text", "sha256"),
            lambda: yezdopin.pbkdf2_hmac("sha256", lent, lent, 0),
            lambda: yezdopin.pbkdf2_hmac("sha256", lent, lent, 1, 0),
            lambda: yezdopin.hkdf("sha256", lent, lent, lent, 10**6),
            lambda: yezdopin.compare_digest(lent, 1),
            lambda: tokens.sign(lent, lent),
            lambda: tokens.verify(lent, LONG),
            lambda: tokens.verify(lent, "text"),
            lambda: tokens.hotp(lent, 0),
            lambda: tokens.hotp(lent, 0, digits=9, allow_short_key=True),
            lambda: tokens.find_hotp(lent, 1, 0, 1, allow_short_key=True),
            lambda: tokens.find_hotp(lent, lent, 0, 1, digits=9, allow_short_key=True),
        ):
            self.assertRaises((TypeError, ValueError), call)
        lent.append(1)  # a BufferError where a view is still held
        self.assertEqual(sys.getrefcount(lent), count)

    def test_no_copies(self):
        """No call takes memory for a copy of what it reads."""
        with tempfile.TemporaryFile() as file:
            file.truncate(2**28)
            file.flush()
            lent = mmap.mmap(file.fileno(), 2**28, access=mmap.ACCESS_READ)
        usage = pathlib.Path("/proc/self/statm")
        most, _ = resource.getrlimit(resource.RLIMIT_AS)
        now = int(usage.read_text().split()[0]) * mmap.PAGESIZE
        resource.setrlimit(resource.RLIMIT_AS, (now + 2**27, most))
        try:
            digest = yezdopin.sha1(memoryview(lent)).hexdigest()
        finally:
            resource.setrlimit(resource.RLIMIT_AS, (most, most))
        self.assertEqual(digest, hashlib.sha1(lent).hexdigest())

    def test_memory(self):
        """Nothing is kept of calls that are made again and again."""
        key = tags.Key(b"key", "sha256")

        def calls():
            for it in every_object():
                copy.copy(it)
            yezdopin.digest_each("sha256", [b"one"] * 9)
            yezdopin.new("sha512", string=LONG).hexdigest()
            key.verify(b"message", key.new(LONG).digest())
            yezdopin.hkdf("sha256", b"", b"", b"", 100)
            derived = yezdopin.pbkdf2_hmac("sha1", b"", b"", 1)
            yezdopin.pbkdf2_hmac_verify("sha1", b"", b"", 1, derived)
            yezdopin.compare_digest("a", "a")
            tokens.verify(tokens.sign(b"payload", LONG), LONG)
            tokens.find_hotp(LONG, tokens.hotp(LONG, 1000), 1000, 1)
            self.assertRaises(yezdopin.Error, tokens.verify, "..", LONG)
            self.assertRaises(yezdopin.Error, tokens.hotp, b"key", 0)
            self.assertRaises(yezdopin.Error, tokens.hotp, LONG, 0, digits=9)
            self.assertRaises(yezdopin.Error, yezdopin.new, "md5")
            self.assertRaises(yezdopin.Error, yezdopin.hkdf, "sha1", b"", b"", b"", 9999)
            self.assertRaises(TypeError, yezdopin.digest_each, "sha256", [b"one", "text"])

        def kept_after(times):
            for _ in range(times):
                calls()
            gc.collect()
            counted = [None, True, LONG, yezdopin.Digest, tags.Key, yezdopin.Error]
            return tracemalloc.get_traced_memory()[0], *map(sys.getrefcount, counted)

        times = 1000
        tracemalloc.start()
        try:
            before, after = kept_after(times), kept_after(times)
        finally:
            tracemalloc.stop()
        self.assertLess(after[0] - before[0], 16 * times)  # no object is smaller
        for few, many in zip(before[1:], after[1:]):
            self.assertLess(many - few, times // 2)


if __name__ == "__main__":
    unittest.main()
