# SPDX-License-Identifier: ISC
"""Texts of `encode` and `check` beside Django, Werkzeug, passlib and PostgreSQL."""

import password_hashes as hashes
import peers
from store import Case, bare
from texts import OTHER_PASSWORD, SCHEMES, VERIFIED, check


class OtherSystems(Case):
    """Each system verifies what `encode` writes, and `check` takes what it makes."""

    def test_django(self):
        """Django."""
        self.assert_schemes_of("django")

    def test_werkzeug(self):
        """Werkzeug."""
        self.assert_schemes_of("werkzeug")

    def test_passlib(self):
        """passlib."""
        self.assert_schemes_of("passlib")

    def assert_schemes_of(self, module):
        """A module and this program take each other's texts, of each of the module's schemes."""
        if not peers.python_with(module):
            self.skipTest(module)
        schemes = [scheme for scheme in SCHEMES if scheme.startswith(f"{module}-")]
        self.assertTrue(schemes)
        for scheme in schemes:
            with self.subTest(scheme=scheme):
                self.assert_both_ways(module, scheme)

    def assert_both_ways(self, module, scheme):
        """A module and this program take each other's texts."""
        written = bare("encode", scheme, "--iterations", "1000", line=b"correct horse")[2]
        ours = written.strip().decode()
        questions = [("verify", scheme, word, ours) for word in ("correct horse", "correct hors")]
        theirs, *found = hashes.asked(module, [("make", scheme, "correct horse"), *questions])
        self.assertEqual(found, [True, False], ours)
        self.assertEqual(check(theirs.encode(), b"correct horse"), VERIFIED, theirs)
        self.assertEqual(check(theirs.encode(), b"correct hors"), OTHER_PASSWORD, theirs)

    def test_postgresql(self):
        """PostgreSQL keeps our text and lets its password log in; `check` takes PostgreSQL's."""
        if not hashes.postgres_bin():
            self.skipTest("PostgreSQL")
        server = hashes.Server(str(self.new_path()))
        self.addCleanup(server.stop)
        words = ("encode", "postgresql", "--iterations", "5000")
        ours = bare(*words, line=b"correct horse")[2].strip().decode()
        self.assertEqual(server.create("ours", ours), ours)
        for password, answer in (("correct horse", "1"), ("correct hors", None)):
            self.assertEqual(server.ask("ours", password, "SELECT 1"), answer)
        theirs = server.create("theirs", "correct horse").encode()
        self.assertEqual(check(theirs, b"correct horse"), VERIFIED)
        self.assertEqual(check(theirs, b"correct hors"), OTHER_PASSWORD)
