# SPDX-License-Identifier: ISC
"""Fields of calls: bytes by a name that a line gives them, and what is near them."""

# Shorter bytes stand in a field as they are.
SHORT_LEN = 24


class Table:
    """Lines that name bytes, and lines of calls, each with the answer that must come below it."""

    def __init__(self):
        self.lines, self.names = [], {}

    def named(self, value):
        """The name of some bytes, which a line before the next call gives them."""
        if value not in self.names:
            self.names[value] = f"v{len(self.names)}"
            self.lines.append(f"let {self.names[value]} {value.hex()}")
        return "@" + self.names[value]

    def field(self, value):
        """The field of some bytes."""
        return self.named(value) if len(value) > SHORT_LEN else value.hex() or "-"

    def first(self, value, length):
        """The field of the first bytes of some."""
        return f"{self.named(value)}<{length}" if length > SHORT_LEN else self.field(value[:length])

    def call(self, answer, word, *fields):
        """Adds a call: bytes as fields, and numbers and names as they are."""
        shown = [self.field(it) if isinstance(it, bytes) else str(it) for it in fields]
        self.lines += [" ".join([word, *shown]), f"#= {answer}"]

    def near(self, value, places=None, other=None):
        """What is near some bytes: fields, each with its bytes. These are none of them, each cut,
        each byte changed, and longer ones; of a long value those at some places alone. `other`
        gives the byte for one that is changed."""
        places = range(len(value)) if places is None else places
        other = other or (lambda at, byte: byte ^ 1 << at % 8)
        name = self.named(value)
        for at in places:
            byte = other(at, value[at])
            yield f"{name}={at}:{byte:02x}", value[:at] + bytes([byte]) + value[at + 1 :]
            yield self.first(value, at), value[:at]
        if len(value) > 1:
            yield f"{name}>1", value[1:]
        for more in (b"\0", b"\xff", value[-1:], value[:1], b" ", b"\n", value):
            if more and len(more) < 1000:
                yield f"{name}+{more.hex()}", value + more


def ends_of(value, count):
    """The places of the first and the last bytes, and of some between them."""
    places = {*range(count), *range(len(value) - count, len(value))}
    places |= {len(value) * it // 8 for it in range(8)}
    places |= {2**it + more for it in range(6, 18) for more in (-1, 0)}
    return sorted(it for it in places if 0 <= it < len(value))
