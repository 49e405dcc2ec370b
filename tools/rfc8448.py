"""Reads the traces of RFC 8448: each of its sections as lines for the program of `ring_schedules`.

`python3 tools/rfc8448.py rfc8448.txt` writes vectors/schedules/rfc8448_section*.txt anew. Each line
asks for what one step of the RFC computes, and the RFC's value stands behind `#= `. The hash that a
Finished covers is not in the text: it is computed of the messages, as it is of those whose hash the
text has.
"""

import dataclasses
import hashlib
import pathlib
import re
import sys

ROOT = pathlib.Path(__file__).resolve().parent.parent
TITLES = {
    3: "a handshake of one round trip, with X25519",
    4: "a resumed handshake with early data, under the PSK of section 3's ticket",
    5: "a handshake with a HelloRetryRequest, with P-256",
    6: "a handshake in which the client authenticates itself",
    7: "a handshake in compatibility mode",
}
ZEROS = bytes(32)
EARLY = ("c e traffic", "e exp master")
STAGED = (
    *EARLY, "c hs traffic", "s hs traffic", "c ap traffic", "s ap traffic", "exp master",
    "res master",
)
HELLO_RETRY_REQUEST = hashlib.sha256(b"HelloRetryRequest").digest()


@dataclasses.dataclass
class Step:
    """What one party does, and the bytes that the text gives for it by their names."""

    party: str
    title: str
    fields: dict


def lines_of(text):
    """The lines without the page's foot and head."""
    for line in text.splitlines():
        if line.strip() and not re.match(r"Thomson .*\[Page|RFC 8448 .*2019", line):
            yield line


def steps_of(text):
    """The steps of each section, by its number."""
    sections, steps, name = {}, [], None
    for line in lines_of(text):
        if head := re.match(r"(\d)\.  \S", line):
            steps, name = sections.setdefault(int(head[1]), []), None
        elif step := re.match(r"   \{(client|server)\}  (.*)", line):
            steps.append(Step(step[1], step[2], {}))
        elif field := re.match(r"      (\S.*) \(\d+ octets\):  (.*)", line):
            name = field[1]
            steps[-1].fields[name] = field[2]
        elif name and re.match(r"         [0-9a-f]{2}\b", line):
            steps[-1].fields[name] += line
    return sections


def bytes_in(step, name):
    return bytes.fromhex(step.fields[name].replace("(empty)", ""))


def word(data):
    return data.hex() or "-"


def sha256(data):
    return hashlib.sha256(data).digest()


class Trace:
    """One section, step by step: its transcript so far, its secrets, and its lines."""

    def __init__(self):
        self.messages, self.secrets, self.lines = [], {}, []
        self.psk = self.shared = None

    def ask(self, line, value):
        """A line, and the value that the text has for it."""
        if f"{line}\n#= {value.hex()}" not in self.lines:
            self.lines.append(f"{line}\n#= {value.hex()}")

    def transcript(self):
        """The hash of the messages (RFC 8446, 4.4.1): before a HelloRetryRequest stands the hash of
        one."""
        messages = list(self.messages)
        if len(messages) > 1 and messages[1][6:38] == HELLO_RETRY_REQUEST:
            messages[0] = bytes([254, 0, 0, 32]) + sha256(messages[0])
        return sha256(b"".join(messages))

    def ask_of_stage(self, secret, output, value):
        label, transcript = self.secrets[secret]
        psk = "none" if self.psk is None else word(self.psk)
        shared = "none" if label in (*EARLY, "res binder") else word(self.shared)
        secret_word = label.replace(" ", "-")
        words = f"{psk} {shared} {secret_word} {word(transcript)} {output}"
        self.ask(f"tls13 SHA256 {words}", value)

    def ask_label(self, secret, label, context, value):
        words = (word(data) for data in (secret, label.encode(), context))
        self.ask(f"expand-label SHA256 {' '.join(words)} {len(value)}", value)

    def extract(self, step):
        salt = bytes_in(step, "salt") if "salt" in step.fields else ZEROS
        material, secret = bytes_in(step, "IKM"), bytes_in(step, "secret")
        self.ask(f"extract SHA256 {word(salt)} {word(material)}", secret)
        if '"early"' in step.title:
            self.psk, self.early = None if material == ZEROS else material, secret
        elif '"handshake"' in step.title:
            self.shared = material

    def derive(self, step):
        label = step.title.split('"')[1].removeprefix("tls13 ")
        transcript, value = bytes_in(step, "hash"), bytes_in(step, "expanded")
        assert transcript == (sha256(b"") if label == "derived" else self.transcript()), step
        self.ask_label(bytes_in(step, "PRK"), label, transcript, value)
        if label in STAGED:
            self.secrets[value] = label, transcript
            self.ask_of_stage(value, "secret", value)

    def finish(self, step, covered):
        secret = bytes_in(step, "PRK")
        self.ask_of_stage(secret, "finished", bytes_in(step, "expanded"))
        self.ask_of_stage(secret, f"finished:{covered.hex()}", bytes_in(step, "finished"))

    def bind(self, step):
        secret, prefix = bytes_in(step, "PRK"), bytes_in(step, "ClientHello prefix")
        covered = bytes_in(step, "binder hash")
        assert covered == sha256(prefix), step
        self.ask_label(self.early, "res binder", sha256(b""), secret)
        self.secrets[secret] = "res binder", b""
        self.finish(step, covered)

    def give_keys(self, step):
        secret = bytes_in(step, "PRK")
        self.ask_of_stage(secret, "key:16", bytes_in(step, "key expanded"))
        self.ask_of_stage(secret, "iv", bytes_in(step, "iv expanded"))

    def resume(self, step):
        nonce = bytes_in(step, "hash")
        self.ask_of_stage(bytes_in(step, "PRK"), f"psk:{nonce.hex()}", bytes_in(step, "expanded"))

    def construct(self, step):
        (message,) = (bytes_in(step, name) for name in step.fields)
        if "NewSessionTicket" not in step.title:
            self.messages.append(message)

    def send(self, step):
        """A ClientHello is sent with the binders, which the message as it was made lacks."""
        if len(self.messages) == 1 and step.party == "client":
            self.messages = [bytes_in(step, "payload")]

    def take(self, step):
        kinds = {
            "extract secret": self.extract,
            "derive secret": self.derive,
            "calculate finished": lambda step: self.finish(step, self.transcript()),
            "calculate PSK binder": self.bind,
            "derive write traffic keys": self.give_keys,
            "derive read traffic keys": self.give_keys,
            "generate resumption secret": self.resume,
            "construct": self.construct,
            "send handshake record": self.send,
        }
        known = [kind for kind in kinds if step.title.startswith(kind)]
        if not step.fields or not known:
            return
        before = len(self.lines)
        kinds[known[0]](step)
        if len(self.lines) > before:
            self.lines.insert(before, f"\n# The {step.party}: {step.title.rstrip(':')}.")


def vectors_of(text):
    """The text of each section's vectors, by its number."""
    made = {}
    for section, title in TITLES.items():
        trace = Trace()
        for step in steps_of(text)[section]:
            trace.take(step)
        head = f"# RFC 8448, section {section}: {title}; SHA-256. Made by tools/rfc8448.py.\n"
        made[section] = head + "\n".join(trace.lines) + "\n"
    return made


def file_of(section):
    return ROOT / f"vectors/schedules/rfc8448_section{section}.txt"


if __name__ == "__main__":
    for number, vectors in vectors_of(pathlib.Path(sys.argv[1]).read_text()).items():
        file_of(number).write_text(vectors)
