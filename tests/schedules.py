#!/usr/bin/env python3
# SPDX-License-Identifier: ISC
"""Holds the key schedules of crates/ring_schedules to what others compute.

The program over them answers the lines of vectors/schedules, whose answers stand there behind
`#= `. It answers lines at random as a reading of the RFCs over Python's `hmac` does, and as
`openssl kdf TLS13-KDF` does. From handshakes of OpenSSL's s_server and s_client on loopback, with
both hashes, it gives the secrets of their key logs, the Finished messages, the binder, the exported
bytes and the PSK of the ticket. The vectors are compared with the RFCs' texts in /usr/share/doc/RFC
(Debian's doc-rfc-*), of which tools/rfc8448.py makes those of RFC 8448 anew. The last line is
'N passed, M failed', and ', K skipped' where OpenSSL or the texts are missing.
"""

import contextlib
import gzip
import hashlib
import hmac
import pathlib
import random
import re
import shutil
import socket
import subprocess
import sys
import tempfile
import time

sys.dont_write_bytecode = True
HERE = pathlib.Path(__file__).resolve().parent
sys.path += [str(HERE / "lib"), str(HERE.parent / "tools")]
import counted
import rfc8448
from run import ROOT, differing, file_case

HASHES = {"SHA256": "sha256", "SHA384": "sha384"}
SUITES = {"SHA256": "TLS_AES_128_GCM_SHA256", "SHA384": "TLS_AES_256_GCM_SHA384"}
EXPORTED = ("EXPORTER-test", 40)
# The texts of the RFCs, of Debian's packages doc-rfc-informational and doc-rfc-std-proposed.
NAMES = ("informational/rfc8448", "proposed-standard/rfc9001", "proposed-standard/rfc9369")
TEXTS = {name: pathlib.Path(f"/usr/share/doc/RFC/{name}.txt.gz") for name in NAMES}


def digits(data):
    """A word of a line."""
    return data.hex() or "-"


# --- a reading of the RFCs over `hmac` alone ---


def extract(name, salt, material):
    return hmac.new(salt, material, HASHES[name]).digest()


def expand(name, secret, info, length):
    made, block = b"", b""
    for i in range(1, -(-length // len(extract(name, b"", b""))) + 1):
        block = hmac.new(secret, block + info + bytes([i]), HASHES[name]).digest()
        made += block
    return made[:length]


def expand_label(name, secret, label, context, length):
    """None where a length is out of its limits."""
    full = b"tls13 " + label
    if not 7 <= len(full) <= 255 or len(context) > 255 or length > 255 * size(name):
        return None
    info = length.to_bytes(2, "big") + bytes([len(full)]) + full + bytes([len(context)]) + context
    return expand(name, secret, info, length)


def size(name):
    return hashlib.new(HASHES[name]).digest_size


def digest(name, data):
    return hashlib.new(HASHES[name], data).digest()


def derive(name, secret, label, transcript):
    return expand_label(name, secret, label, transcript, size(name))


# Each secret of TLS 1.3: its stage, counted from 0, and its label.
SECRETS = {
    "c-e-traffic": (0, b"c e traffic"),
    "e-exp-master": (0, b"e exp master"),
    "c-hs-traffic": (1, b"c hs traffic"),
    "s-hs-traffic": (1, b"s hs traffic"),
    "c-ap-traffic": (2, b"c ap traffic"),
    "s-ap-traffic": (2, b"s ap traffic"),
    "exp-master": (2, b"exp master"),
    "res-master": (2, b"res master"),
}
BINDERS = {"ext-binder": b"ext binder", "res-binder": b"res binder"}


def stages(name, psk, shared):
    """Early Secret, Handshake Secret and Master Secret; None stands for an absent secret."""
    zeros = bytes(size(name))
    made = [extract(name, zeros, zeros if psk is None else psk)]
    for material in (shared, None):
        salt = derive(name, made[-1], b"derived", digest(name, b""))
        made.append(extract(name, salt, zeros if material is None else material))
    return made


def output(name, secret, kind, word):
    """What a line asks of a secret: the word that ends it, and its bytes."""
    key, _, rest = word.partition(":")
    if key == "secret":
        return secret
    if key in ("key", "iv"):
        return expand_label(name, secret, key.encode(), b"", int(rest or 12))
    if key == "next":
        return derive(name, secret, b"traffic upd", b"")
    if key == "finished":
        finished = derive(name, secret, b"finished", b"")
        return hmac.new(finished, bytes.fromhex(rest), HASHES[name]).digest() if rest else finished
    if key == "psk":
        return derive(name, secret, b"resumption", unword(rest))
    label, context, length = rest.split(":")
    inner = derive(name, secret, unword(label), digest(name, b""))
    hashed = digest(name, unword(context))
    return inner and expand_label(name, inner, b"exporter", hashed, int(length))


def unword(word):
    return bytes.fromhex("" if word == "-" else word)


# --- lines at random, from a seed, so that a failure can be repeated ---


def random_extract(rng):
    name = rng.choice(list(HASHES))
    salt, material = (rng.randbytes(rng.randrange(200)) for _ in range(2))
    return f"extract {name} {digits(salt)} {digits(material)}", extract(name, salt, material)


def random_expand(rng):
    """Lengths at and beside their limits among them."""
    name = rng.choice(list(HASHES))
    most = 255 * size(name)
    secret = rng.randbytes(rng.choice([0, size(name), rng.randrange(300)]))
    label = rng.randbytes(rng.choice([0, 1, 248, 249, 250, rng.randrange(1, 20)]))
    context = rng.randbytes(rng.choice([0, 254, 255, 256, size(name)]))
    length = rng.choice([0, 1, 12, size(name), size(name) + 1, most, most + 1, rng.randrange(500)])
    line = f"expand-label {name} {digits(secret)} {digits(label)} {digits(context)} {length}"
    return line, expand_label(name, secret, label, context, length)


def random_output(rng, secret, name):
    if secret in BINDERS:
        return rng.choice(["finished", f"finished:{rng.randbytes(size(name)).hex()}"])
    if secret == "res-master":
        return rng.choice(["secret", f"psk:{digits(rng.randbytes(rng.choice([0, 1, 8, 255])))}"])
    if secret.endswith("exp-master"):
        label = digits(rng.randbytes(rng.choice([0, 1, 20, 249, 250])))
        context = digits(rng.randbytes(rng.randrange(300)))
        return rng.choice(["secret", f"export:{label}:{context}:{rng.randrange(200)}"])
    transcript, key_len = rng.randbytes(size(name)).hex(), rng.choice([0, 16, 32])
    plain = ["secret", "iv", "next", "finished"]
    return rng.choice([*plain, f"finished:{transcript}", f"key:{key_len}"])


def random_tls13(rng):
    name, secret = rng.choice(list(HASHES)), rng.choice([*SECRETS, *BINDERS])
    psk, shared = (rng.choice([None, rng.randbytes(rng.randrange(150))]) for _ in range(2))
    transcript, word = rng.randbytes(size(name)), random_output(rng, secret, name)
    words = ("none" if psk is None else digits(psk), "none" if shared is None else digits(shared))
    line = f"tls13 {name} {' '.join(words)} {secret} {transcript.hex()} {word}"
    if secret in BINDERS:
        stage, label, hashed = 0, BINDERS[secret], digest(name, b"")
    else:
        (stage, label), hashed = SECRETS[secret], transcript
    made = derive(name, stages(name, psk, shared)[stage], label, hashed)
    return line, output(name, made, secret, word)


# What RFC 9369, section 3.3, says otherwise than RFC 9001, sections 5.2, 5.4 and 6.1: the salt of
# the initial secret, and the beginning of the labels. The salts of both versions stand so in
# aioquic and quic-go too.
SALTS = {
    1: bytes.fromhex("38762cf7f55934b34d179ae6a4c80cadccbb7f0a"),
    2: bytes.fromhex("0dede3def700a6db819381be6e269dcbf9bd2ed9"),
}
PREFIXES = {1: b"quic ", 2: b"quicv2 "}
LABELS = {"key:16": (b"key", 16), "iv": (b"iv", 12), "hp:32": (b"hp", 32), "next": (b"ku", 0)}


def packet_output(name, secret, version, word):
    """What a line asks of a secret of QUIC: the word that ends it, and its bytes."""
    if word == "secret":
        return secret
    label, length = LABELS[word]
    return expand_label(name, secret, PREFIXES[version] + label, b"", length or size(name))


def random_packet(rng):
    name, version, word = rng.choice(list(HASHES)), rng.choice([1, 2]), rng.choice([*LABELS])
    secret = rng.randbytes(size(name))
    line = f"packet {version} {name} {secret.hex()} {word}"
    return line, packet_output(name, secret, version, word)


def random_initial(rng):
    version, side = rng.choice([1, 2]), rng.choice(["client", "server"])
    word = rng.choice(["secret", *LABELS])
    # A connection ID has up to 20 bytes (RFC 9000, section 17.2).
    connection_id = rng.randbytes(rng.randrange(21))
    initial = extract("SHA256", SALTS[version], connection_id)
    secret = derive("SHA256", initial, f"{side} in".encode(), b"")
    line = f"quic {version} {digits(connection_id)} {side} {word}"
    return line, packet_output("SHA256", secret, version, word)


def are_as_hmac():
    """2000 lines at random are answered as a reading of the RFCs over Python's hmac does."""
    rng, wanted = random.Random(8446), []
    makers = (random_extract, random_expand, random_tls13, random_packet, random_initial)
    for _ in range(400):
        for make in makers:
            line, bytes_wanted = make(rng)
            wanted.append((line, "refused" if bytes_wanted is None else digits(bytes_wanted)))
    return differing(wanted)


# --- OpenSSL's KDF ---


def kdf(name, mode, length, **options):
    """TLS13-KDF of OpenSSL; options of no bytes are left out."""
    given = [f"{key}:{value}" for key, value in options.items() if value]
    given += [f"digest:{name[:3]}2-{name[3:]}", f"mode:{mode}", "prefix:tls13 "]
    words = [word for option in given for word in ("-kdfopt", option)]
    command = ["openssl", "kdf", "-keylen", str(length), *words, "TLS13-KDF"]
    run = subprocess.run(command, stdout=subprocess.PIPE)
    return run.stdout.decode().replace(":", "").strip().lower()


def kdf_stages(name, psk, shared):
    """Early Secret, Handshake Secret and Master Secret by OpenSSL."""
    length = size(name)
    made = [kdf(name, "EXTRACT_ONLY", length, hexkey=psk)]
    for material in (shared, ""):
        options = {"hexsalt": made[-1], "hexkey": material, "label": "derived"}
        made.append(kdf(name, "EXTRACT_ONLY", length, **options))
    return made


def kdf_lines(name, secret, made, line):
    """Lines of a secret, its key and its IV, with OpenSSL's answers."""
    yield f"{line} secret", made
    if secret.endswith("traffic"):
        yield f"{line} key:16", kdf(name, "EXPAND_ONLY", 16, hexkey=made, label="key")
        yield f"{line} iv", kdf(name, "EXPAND_ONLY", 12, hexkey=made, label="iv")


def are_as_openssl_kdf():
    """Secrets at random, their keys and their IVs are those of OpenSSL's TLS13-KDF."""
    rng, wanted = random.Random(8448), []
    for name in [*HASHES] * 2:
        length, psk, shared = size(name), rng.randbytes(32).hex(), rng.randbytes(32).hex()
        stage_secrets = kdf_stages(name, psk, shared)
        for secret, (stage, label) in SECRETS.items():
            transcript = rng.randbytes(length).hex()
            options = {"hexkey": stage_secrets[stage], "label": label.decode()}
            made = kdf(name, "EXPAND_ONLY", length, **options, hexdata=transcript)
            line = f"tls13 {name} {psk} {shared} {secret} {transcript}"
            wanted += kdf_lines(name, secret, made, line)
    return differing(wanted)


# --- OpenSSL's handshakes ---


class Handshake:
    """What `-msg` prints of a handshake: its messages in order."""

    def __init__(self, text):
        self.messages, taking = [], False
        for line in text.split("\n"):
            head = re.match(r"(?:>>>|<<<) .*, Handshake \[length [0-9a-f]+\], (\w+)", line)
            if head:
                self.messages.append((head.group(1), bytearray()))
            elif taking and re.fullmatch(r"    [0-9a-f]{2}( [0-9a-f]{2})*", line.rstrip()):
                self.messages[-1][1].extend(bytes.fromhex(line))
                continue  # the next line may belong to the message too
            taking = bool(head)

    def all(self, name):
        """The messages of this name."""
        return [bytes(message) for title, message in self.messages if title == name]

    def before(self, name, number=0):
        """The messages before that of this name with this number, counted from 0, joined."""
        places = [i for i, (title, _) in enumerate(self.messages) if title == name]
        return b"".join(bytes(message) for _, message in self.messages[: places[number]])

    def to(self, name, number=0):
        """The messages to that one, itself among them."""
        return self.before(name, number) + self.all(name)[number]

    def verify_data(self, number):
        """What a Finished holds after its head of four bytes."""
        return self.all("Finished")[number][4:].hex()


def log_of(file):
    """The secrets of a key log by their labels."""
    rows = [line.split() for line in file.read_text().split("\n") if line and line[0] != "#"]
    return {label: secret.lower() for label, _, secret in rows}


@contextlib.contextmanager
def server(folder, name, *options):
    """An s_server with the hash's suite on a free port, which is given. It writes a key log, and
    its messages to a file."""
    with socket.socket() as probe:
        probe.bind(("127.0.0.1", 0))
        port = probe.getsockname()[1]
    command = ["openssl", "s_server", "-accept", f"127.0.0.1:{port}", "-tls1_3"]
    command += ["-cert", "cert.pem", "-key", "key.pem", "-ciphersuites", SUITES[name]]
    command += ["-keylogfile", "server.log", "-msg", *options]
    with open(folder / "server.txt", "wb") as out:
        run = subprocess.Popen(command, cwd=folder, stdin=subprocess.PIPE, stdout=out, stderr=out)
        try:
            wait_for(lambda: b"ACCEPT" in (folder / "server.txt").read_bytes())
            yield port
        finally:
            run.kill()
            run.wait()


def wait_for(holds):
    """Waits until it holds, for ten seconds at most."""
    for _ in range(200):
        if holds():
            return
        time.sleep(0.05)


def client(folder, port, *options):
    """The text of an s_client that ends once it has a ticket: it is given longer until it has."""
    command = ["openssl", "s_client", "-connect", f"127.0.0.1:{port}", "-tls1_3"]
    command += ["-keylogfile", "client.log", "-msg"]
    command += ["-keymatexport", EXPORTED[0], "-keymatexportlen", str(EXPORTED[1]), *options]
    pipes = {"stdin": subprocess.PIPE, "stdout": subprocess.PIPE, "stderr": subprocess.DEVNULL}
    for pause in (0.3, 1, 3, 9):
        run = subprocess.Popen(command, cwd=folder, **pipes)
        time.sleep(pause)
        text = run.communicate(b"Q\n", timeout=20)[0].decode(errors="replace")
        if "Resumption PSK" in text.rpartition("NewSessionTicket")[2]:
            break
    return text


def line_of(name, psk, shared, secret, messages, word):
    """A line for a secret of the hash of these messages."""
    return f"tls13 {name} {psk} {shared} {secret} {digest(name, messages).hex()} {word}"


def psk_handshake(folder, name):
    """A PSK, which is that of a ticket of a handshake before, and the text of a handshake under it
    alone."""
    with server(folder, name, "-early_data") as port:
        client(folder, port, "-sess_out", "session.pem")
    command = ["openssl", "sess_id", "-in", "session.pem", "-noout", "-text"]
    session = subprocess.run(command, cwd=folder, stdout=subprocess.PIPE).stdout.decode()
    (folder / "early").write_text("early data\n")
    # Without a group in common there is no (EC)DHE.
    common = ["-psk_session", "session.pem", "-allow_no_dhe_kex"]
    early = ["-early_data", "-no_anti_replay"]
    with server(folder, name, *common, "-groups", "P-256", *early) as port:
        text = client(folder, port, *common, "-groups", "X25519", "-early_data", "early")
    return shown(session, "Resumption PSK"), text


def shown(text, title):
    """The first hex digits that OpenSSL shows behind a title."""
    return re.search(rf"{title}: ([0-9A-F]+)", text).group(1).lower()


def peer_under_psk(folder, name):
    """OpenSSL's handshake under a PSK: secrets, Finished messages, binder, exported bytes, PSK."""
    psk, text = psk_handshake(folder, name)
    shake = Handshake(text)

    def line(secret, messages, word="secret"):
        return line_of(name, psk, "none", secret, messages, word)

    def finished(secret, base, messages):
        return line(secret, base, f"finished:{digest(name, messages).hex()}")

    hello, hellos = shake.to("ClientHello"), shake.to("ServerHello")
    binders_len = 3 + size(name)  # behind the ClientHello's part that a binder covers
    ticket = shake.all("NewSessionTicket")[0]
    nonce = ticket[13 : 13 + ticket[12]]
    export = f"export:{EXPORTED[0].encode().hex()}:-:{EXPORTED[1]}"
    ticket_psk = shown(text.partition("NewSessionTicket")[2], "Resumption PSK")
    wanted = [
        (finished("ext-binder", b"", hello[:-binders_len]), hello[-size(name) :].hex()),
        (finished("s-hs-traffic", hellos, shake.before("Finished")), shake.verify_data(0)),
        (finished("c-hs-traffic", hellos, shake.before("Finished", 1)), shake.verify_data(1)),
        (line("exp-master", shake.to("Finished"), export), shown(text, "Keying material")),
        (line("res-master", shake.to("Finished", 1), f"psk:{nonce.hex()}"), ticket_psk),
    ]
    for log in (log_of(folder / "client.log"), log_of(folder / "server.log")):
        for label, (secret, last) in LOGGED.items():
            wanted.append((line(secret, shake.to(last)), log[label]))
    return differing(wanted)


# The labels of a key log, with the secrets' names and the last message that each covers.
LOGGED = {
    "CLIENT_EARLY_TRAFFIC_SECRET": ("c-e-traffic", "ClientHello"),
    "EARLY_EXPORTER_SECRET": ("e-exp-master", "ClientHello"),
    "CLIENT_HANDSHAKE_TRAFFIC_SECRET": ("c-hs-traffic", "ServerHello"),
    "SERVER_HANDSHAKE_TRAFFIC_SECRET": ("s-hs-traffic", "ServerHello"),
    "SERVER_TRAFFIC_SECRET_0": ("s-ap-traffic", "Finished"),
    "EXPORTER_SECRET": ("exp-master", "Finished"),
    "CLIENT_TRAFFIC_SECRET_0": ("c-ap-traffic", "Finished"),
}


# X25519 (RFC 7748, section 5), for a client whose private key is known.
P = 2**255 - 19
PRIVATE_KEY = bytes(range(32))


def x25519(scalar, u):
    k = int.from_bytes(scalar, "little") & ~7 & ~(1 << 255) | 1 << 254
    x1 = int.from_bytes(u, "little") % 2**255
    x2, z2, x3, z3 = 1, 0, x1, 1
    for t in reversed(range(255)):
        if k >> t & 1:
            x2, z2, x3, z3 = x3, z3, x2, z2
        a, b, c, d = x2 + z2, x2 - z2, x3 + z3, x3 - z3
        aa, bb, da, cb = a * a % P, b * b % P, d * a % P, c * b % P
        x3, z3 = (da + cb) ** 2 % P, x1 * (da - cb) ** 2 % P
        x2, z2 = aa * bb % P, (aa - bb) * (aa + 121665 * (aa - bb)) % P
        if k >> t & 1:
            x2, z2, x3, z3 = x3, z3, x2, z2
    return (x2 * pow(z2, P - 2, P) % P).to_bytes(32, "little")


def vector(length_bytes, data):
    """A vector of the presentation language: its length, and its bytes (RFC 8446, section 3.4)."""
    return len(data).to_bytes(length_bytes, "big") + data


def client_hello(name):
    """A ClientHello with one suite and the private key's key share (RFC 8446, section 4.1.2)."""
    share = x25519(PRIVATE_KEY, (9).to_bytes(32, "little"))
    extensions = [
        (43, vector(1, b"\x03\x04")),
        (10, vector(2, b"\x00\x1d")),
        (13, vector(2, b"\x04\x03\x08\x04")),
        (51, vector(2, b"\x00\x1d" + vector(2, share))),
    ]
    joined = b"".join(kind.to_bytes(2, "big") + vector(2, data) for kind, data in extensions)
    suite = {"SHA256": b"\x13\x01", "SHA384": b"\x13\x02"}[name]
    version_and_random = b"\x03\x03" + bytes(range(32))
    vectors = [vector(1, b""), vector(2, suite), vector(1, b"\x00"), vector(2, joined)]
    body = version_and_random + b"".join(vectors)
    return b"\x01" + vector(3, body)


def share_of(hello):
    """The key share of a ServerHello with X25519."""
    return re.search(rb"\x00\x33\x00\x24\x00\x1d\x00\x20(.{32})", hello, re.DOTALL).group(1)


def has_finished(file, name):
    """Whether the messages in the file have a whole Finished."""
    found = Handshake(file.read_text(errors="replace")).all("Finished")
    return bool(found) and len(found[0]) == 4 + size(name)


def peer_with_x25519(folder, name):
    """OpenSSL's handshake with X25519 and a client with a fixed key: secrets, Finished message."""
    messages, log = folder / "server.txt", folder / "server.log"
    with server(folder, name) as port:
        with socket.create_connection(("127.0.0.1", port), timeout=10) as peer:
            peer.sendall(b"\x16\x03\x01" + vector(2, client_hello(name)))
            wait_for(lambda: log.exists() and "SERVER_TRAFFIC_SECRET_0" in log.read_text())
            wait_for(lambda: has_finished(messages, name))
    shake, secrets = Handshake(messages.read_text(errors="replace")), log_of(log)
    shared = x25519(PRIVATE_KEY, share_of(shake.all("ServerHello")[0])).hex()

    def line(secret, last, word="secret"):
        return line_of(name, "none", shared, secret, shake.to(last), word)

    covered = digest(name, shake.before("Finished")).hex()
    wanted = [(line("s-hs-traffic", "ServerHello", f"finished:{covered}"), shake.verify_data(0))]
    # The client ends the handshake here: the server has logged the secrets of its own messages.
    wanted += [(line(*LOGGED[key]), secrets[key]) for key in [*LOGGED][2:6]]
    return differing(wanted)


def with_peer(case, name):
    """A case with a peer, in a folder of its own with a certificate."""

    def run():
        with tempfile.TemporaryDirectory(prefix="schedules.") as folder:
            command = ["openssl", "req", "-x509", "-days", "2", "-subj", "/CN=localhost", "-nodes"]
            command += ["-newkey", "ec", "-pkeyopt", "ec_paramgen_curve:P-256"]
            command += ["-keyout", "key.pem", "-out", "cert.pem"]
            subprocess.run(command, cwd=folder, check=True, stderr=subprocess.DEVNULL)
            return case(pathlib.Path(folder), name)

    run.__doc__ = f"{name}: {case.__doc__}"
    return run


def text_of(name):
    return gzip.decompress(TEXTS[name].read_bytes()).decode()


def traces_are_of_the_text():
    """The vectors of RFC 8448 are what tools/rfc8448.py makes of the RFC's text."""
    made = rfc8448.vectors_of(text_of("informational/rfc8448"))
    texts = {rfc8448.file_of(section): text for section, text in made.items()}
    other = [file for file, text in texts.items() if file.read_text() != text]
    return [(file.name, "another text") for file in other]


def packets_case(name):
    """The vectors of an RFC on QUIC beside its text."""

    def run():
        text = re.sub(r"\s", "", text_of(f"proposed-standard/{name}"))
        values = re.findall("#= (.*)", (ROOT / f"vectors/schedules/{name}.txt").read_text())
        return [(value, "not in the text") for value in values if value not in text]

    run.__doc__ = f"Each value of vectors/schedules/{name}.txt stands in the RFC's text."
    return run


def cases():
    """Each case, and the file that it needs besides Python."""
    openssl = pathlib.Path(shutil.which("openssl") or "openssl")
    files = sorted((ROOT / "vectors/schedules").glob("*.txt"))
    yield from ((file_case(file), ROOT) for file in files)
    yield traces_are_of_the_text, TEXTS["informational/rfc8448"]
    for name in ("rfc9001", "rfc9369"):
        yield packets_case(name), TEXTS[f"proposed-standard/{name}"]
    yield are_as_hmac, ROOT
    yield are_as_openssl_kdf, openssl
    for case in (peer_under_psk, peer_with_x25519):
        yield from ((with_peer(case, name), openssl) for name in HASHES)


def main():
    tried = ((case, "" if needed.exists() else needed) for case, needed in cases())
    return counted.report(*counted.run_answered(tried))


if __name__ == "__main__":
    sys.exit(main())
