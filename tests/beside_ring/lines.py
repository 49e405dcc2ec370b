# SPDX-License-Identifier: ISC
"""Lines of ./bench (docs/LINES.md), made at random: of each kind, and broken ones."""

import hashlib
import hmac
import pathlib
import random
import re
import sys

sys.path.append(str(pathlib.Path(__file__).resolve().parents[2] / "tools"))
import rows

# By an algorithm's name: that in hashlib, the bytes of a block, of what the padding has at least,
# and of a digest.
ALGORITHMS = {
    it.name: (it.name.lower() if it.is_keyed else None, it.block_len, 1 + it.block_len // 8,
              it.output_len)
    for it in rows.ALGORITHMS
}
KEYED = [name for name, row in ALGORITHMS.items() if row[0]]
MAX_ROUNDS = 255  # of HKDF
MAX_LEN = 65536  # of an output
LONG_LEN = 70000  # of some inputs
# Fields that are no name, or no name of a keyed algorithm; and such that are no number, or are past
# a limit of some field.
NO_NAMES = ("sha256", "SHA-256", "SHA3_256", "SHA512_256", "SHA2560", "")
NO_NUMBERS = ("00", "01", "+1", "-1", "1.0", "0x1", "", "65537", "4294967296", "9" * 20)
CHARACTERS = "0123456789abcdefABCDEFgGxX,-_ +.\t\r\0\x7f\xe9#"
# More iterations than these would take long.
TOO_SLOW = re.compile(r"pbkdf2\S* \S+ [1-9]\d{4,9} ")


class Maker:
    """What makes lines from a seed."""

    def __init__(self, seed):
        self.rng = random.Random(seed)

    def one_in(self, count):
        """Whether this is one of so many cases."""
        return self.rng.randrange(count) == 0

    def near(self, unit, less=0):
        """A number around one of the first multiples of a unit, or that less a few."""
        rng = self.rng
        end = rng.randrange(5) * unit - rng.choice((0, less))
        return max(0, end + rng.randrange(-2, 3))

    def data(self, name):
        """Bytes, as many as decide where a block or its padding ends, or any number of them."""
        _, block_len, padding_len, digest_len = ALGORITHMS[name]
        lengths = (self.near(block_len, padding_len), self.near(digest_len),
                   self.rng.randrange(4 * block_len))
        is_long = self.one_in(300)
        return self.rng.randbytes(
            self.rng.randrange(LONG_LEN) if is_long else self.rng.choice(lengths))

    def digits(self, data):
        """Hex digits of lower, upper or mixed case."""
        case = self.rng.randrange(8)
        if case > 1:
            return data.hex()
        return data.hex().upper() if case else "".join(
            self.rng.choice((it, it.upper())) for it in data.hex())

    def field(self, data):
        """A field of bytes."""
        return self.digits(data) or "-"

    def pieces(self, data):
        """A field of pieces, empty ones too."""
        cuts = sorted(self.rng.randrange(len(data) + 1) for _ in range(self.rng.choice((0, 1, 5))))
        ends = zip([0, *cuts], [*cuts, len(data)])
        return ",".join(self.digits(data[begin:end]) for begin, end in ends) or "-"

    def altered(self, value):
        """A value as it is, or with another bit, or shorter or longer, or another one."""
        rng, case = self.rng, self.rng.randrange(9)
        if case < 3:
            return value
        if case < 6:
            at = rng.randrange(max(1, len(value)))
            return value[:at] + bytes(it ^ 1 << rng.randrange(8) for it in value[at : at + 1]) \
                + value[at + 1 :]
        return (value[: rng.randrange(len(value) + 1)], value + rng.randbytes(1),
                rng.randbytes(len(value)))[case - 6]

    def digest(self):
        """A line of a digest."""
        name = self.rng.choice(list(ALGORITHMS))
        return f"digest {name} {self.pieces(self.data(name))}"

    def hmac(self):
        """A line of a tag."""
        name = self.rng.choice(KEYED)
        return f"hmac {name} {self.field(self.data(name))} {self.pieces(self.data(name))}"

    def hmac_verify(self):
        """A line that verifies a tag."""
        name = self.rng.choice(KEYED)
        key, message = self.data(name), self.data(name)
        tag = self.altered(hmac.digest(key, message, ALGORITHMS[name][0]))
        return f"hmac-verify {name} {self.field(key)} {self.pieces(message)} {self.field(tag)}"

    def hkdf(self):
        """A line of HKDF, about one in twenty at or past the most output."""
        name = self.rng.choice(KEYED)
        digest_len = ALGORITHMS[name][3]
        most = MAX_ROUNDS * digest_len
        size = self.near(digest_len)
        if self.one_in(20):
            size = self.rng.choice((most - 1, most, most + 1, most + 1, MAX_LEN))
        salt, secret, info = (self.data(name) for _ in range(3))
        return f"hkdf {name} {self.field(salt)} {self.field(secret)} {self.pieces(info)} {size}"

    def of_pbkdf2(self):
        """The name, the iterations, the secret and the salt of a derivation, and a length."""
        name = self.rng.choice(KEYED)
        iterations = self.rng.randrange(1, 1000 if self.one_in(200) else 8)
        size = self.near(ALGORITHMS[name][3])
        return name, iterations, self.data(name), self.data(name), size

    def pbkdf2(self):
        """A line of PBKDF2."""
        name, iterations, secret, salt, size = self.of_pbkdf2()
        return f"pbkdf2 {name} {iterations} {self.field(secret)} {self.field(salt)} {size}"

    def pbkdf2_verify(self):
        """A line that verifies a value of PBKDF2, some of which are empty."""
        name, iterations, secret, salt, size = self.of_pbkdf2()
        value = b""
        if size > 0:
            made = hashlib.pbkdf2_hmac(ALGORITHMS[name][0], secret, salt, iterations, size)
            value = self.altered(made)
        fields = " ".join(map(self.field, (secret, salt, value)))
        return f"pbkdf2-verify {name} {iterations} {fields}"

    def line(self):
        """A line of any kind."""
        return self.rng.choice((self.digest, self.hmac, self.hmac_verify, self.hkdf, self.pbkdf2,
                                self.pbkdf2_verify))()

    def with_another_field(self, line):
        """A line with a field changed, lost or doubled."""
        fields, rng = line.split(" "), self.rng
        at = rng.randrange(len(fields))
        fields[at : at + 1] = rng.choice((
            [rng.choice(NO_NAMES)], [rng.choice(NO_NUMBERS)], ["-"], [], 2 * fields[at : at + 1],
            [fields[at], ""], [fields[at].swapcase()], [fields[at][:-1]],
        ))
        return " ".join(fields)

    def with_another_character(self, line):
        """A line with a character changed, lost or added."""
        at, end = self.rng.randrange(len(line)), self.rng.randrange(2)
        return line[:at] + self.rng.choice((*CHARACTERS, "")) + line[at + end :]

    def broken(self):
        """A line that mostly is of no form. One that gets no answer isn't made."""
        line = ""
        while not line.strip("\r") or line[0] == "#" or TOO_SLOW.match(line):
            change = self.rng.choice((self.with_another_field, self.with_another_character))
            line = change(self.line()) + self.rng.choice(("", "", "\r"))
        return line
