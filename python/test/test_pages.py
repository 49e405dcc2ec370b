# SPDX-License-Identifier: ISC
"""The functions of the pages' examples, with what a login and an endpoint meet."""

import hmac
import http.client
import http.server
import pathlib
import re
import threading
import time
import unittest
from unittest import mock

import yezdopin
from yezdopin import password_hash, tokens

PAGES = pathlib.Path(__file__).resolve().parents[2]


def example(page, name):
    """The names that the block of a page makes in which a function or a class is defined."""
    blocks = re.findall(r"^```python\n(.*?)^```", (PAGES / page).read_text(), re.M | re.S)
    (block,) = [it for it in blocks if re.search(rf"^(?:def|class) {name}\(", it, re.M)]
    names = {}
    exec(block, names)  # pylint: disable=exec-used
    return names


class User:
    name, secret, last_step = "a user", b"a secret of 16 or more", -1


class Tokens(unittest.TestCase):
    def test_a_session(self):
        made, user, key = example("docs/TOKENS.md", "log_in"), User(), bytes(32)
        typed = tokens.totp(user.secret)
        token = made["log_in"](user, typed, key)
        self.assertEqual(made["user_of"](token, key), "a user")
        self.assertIsNone(made["log_in"](user, typed, key))
        self.assertIsNone(made["user_of"](token, bytes(31) + b"1"))
        past = tokens.sign(b'{"sub": "a user", "exp": %d}' % (time.time() - 1), key)
        for refused in (None, "", token[:-1], token + "A", past):
            with self.subTest(refused):
                self.assertIsNone(made["user_of"](refused, key))
        for refused in (None, "", "0", typed[:-1], typed + "0"):
            with self.subTest(refused):
                self.assertIsNone(made["log_in"](user, refused, key))


class Webhooks(unittest.TestCase):
    SECRET, BODY, NAME = b"a secret of the webhook", b'{"action": "opened"}', "X-Hub-Signature-256"

    def test_an_endpoint(self):
        """It takes a body with the header that `hmac` makes of it, and no other request."""
        with mock.patch.dict("os.environb", {b"WEBHOOK_SECRET": self.SECRET}):
            made = example("python/README.md", "Hook")
        made["Hook"].log_message = lambda *_: None
        server = http.server.HTTPServer(("127.0.0.1", 0), made["Hook"])
        thread = threading.Thread(target=server.serve_forever)
        thread.start()
        right = f"sha256={hmac.new(self.SECRET, self.BODY, 'sha256').hexdigest()}"
        of_another = f"sha256={hmac.new(b'another', self.BODY, 'sha256').hexdigest()}"
        try:
            self.assertEqual(self.posted(server, self.BODY, {self.NAME: right}), 204)
            for body, headers in (
                (self.BODY, {}), (self.BODY, {self.NAME: ""}), (self.BODY, {self.NAME: right[:-1]}),
                (self.BODY, {self.NAME: right.upper()}), (self.BODY, {self.NAME: of_another}),
                (self.BODY, {"X-Hub-Signature": right}), (b"{}", {self.NAME: right}),
                (b"", {self.NAME: right}), (self.BODY + b" ", {self.NAME: right}),
            ):
                with self.subTest(headers=headers):
                    self.assertEqual(self.posted(server, body, headers), 403)
        finally:
            server.shutdown()
            thread.join()
            server.server_close()

    @staticmethod
    def posted(server, body, headers):
        """The status that a server answers."""
        to = http.client.HTTPConnection(*server.server_address[:2], timeout=60)
        to.request("POST", "/", body, headers)
        answer = to.getresponse()
        answer.read()
        to.close()
        return answer.status


class Passwords(unittest.TestCase):
    PASSWORD = b"a password"

    def setUp(self):
        try:
            self.made = example("python/README.md", "log_in")
        except ImportError:
            self.skipTest("passlib is not here")
        self.made["WANTED"] = password_hash.Info("django-sha256", 1000)
        self.kept = []

    def logs_in(self, row, password=PASSWORD):
        return self.made["log_in"](row, password, self.kept.append)

    def test_a_mixed_table(self):
        """Each row of a password lets it in, and one that isn't today's is hashed anew."""
        from passlib import hash as others

        rows = {
            "today's": password_hash.new("django-sha256", self.PASSWORD, iterations=1000),
            "fewer iterations": password_hash.new("django-sha256", self.PASSWORD, iterations=999),
            "another scheme": password_hash.new("phc-sha512", self.PASSWORD, iterations=2000),
            "scrypt": others.scrypt.using(rounds=4).hash(self.PASSWORD),
            "crypt": others.sha512_crypt.using(rounds=1000).hash(self.PASSWORD),
        }
        for name, row in rows.items():
            with self.subTest(name):
                self.kept.clear()
                self.assertIs(self.logs_in(row, b"another"), False)
                self.assertEqual(self.kept, [])
                self.assertIs(self.logs_in(row), True)
                self.assertEqual(len(self.kept), name != "today's")
                for new in self.kept:
                    self.assertEqual(password_hash.info(new), self.made["WANTED"])
                    self.assertIs(self.logs_in(new), True)

    def test_rows_of_no_password(self):
        """No row ends in an exception: of no user, of no password, cut, or of another's making."""
        right = password_hash.new("django-sha256", self.PASSWORD, iterations=1000)
        for row in (
            None, "", "!", "!7sLdCnEEbUgmLTnb9dWEYdaCZJq0ESfKRyEIkdpf", "*", "x" * 5000, right[:-1],
            right.replace("$1000$", "$4294967295$"), "bcrypt_sha256$$", "md5$salt$00", "plain text",
            "$2b$12$short",
        ):
            with self.subTest(row):
                self.assertIs(self.logs_in(row), False)
        self.assertEqual(self.kept, [])

    def test_passwords_that_others_raise_for(self):
        """Of a row of another hash a password is wrong too where passlib raises for it."""
        from passlib import hash as others

        row = others.sha512_crypt.using(rounds=1000).hash(self.PASSWORD)
        for password in (b"a\0password", b"x" * 5000, b"\xff"):
            with self.subTest(password):
                self.assertIs(self.logs_in(row, password), False)
        self.assertEqual(self.kept, [])

    def test_names_of_refusals(self):
        many = password_hash.new("django-sha256", self.PASSWORD, iterations=1000)
        with self.assertRaises(password_hash.TooManyIterations) as caught:
            password_hash.verify(many, self.PASSWORD, max_iterations=999)
        self.assertIs(caught.exception.status, yezdopin.Status.TOO_MANY_ITERATIONS)
        self.assertRaises(password_hash.UnknownScheme, password_hash.verify, "!", self.PASSWORD,
                          max_iterations=1)


if __name__ == "__main__":
    unittest.main()
