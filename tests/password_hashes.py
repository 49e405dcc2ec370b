#!/usr/bin/env python3
# SPDX-License-Identifier: ISC
"""Holds the password hashes of crates/ring_password_hash to what others read and write.

The program over them answers the lines of vectors/password_hashes, whose answers stand there behind
`#= `. It makes texts at random as Python's hashlib does, and reads and verifies thousands of broken
texts of each scheme as a reader of this script does. Django, Werkzeug, passlib, RustCrypto,
mosquitto_passwd and PostgreSQL make texts that it verifies, and verify those that it makes;
PostgreSQL is a server of the test's own on a socket. Each request for memory is refused in turn.
The last line is 'N passed, M failed', and ', K skipped' where a system is missing.
"""

import base64
import contextlib
import hashlib
import hmac
import os
import pathlib
import pwd
import random
import re
import shutil
import string
import subprocess
import sys
import tempfile

sys.dont_write_bytecode = True
sys.path.append(str(pathlib.Path(__file__).resolve().parent / "lib"))
import counted
import debian_crates
import peers
from run import COMPILER, ROOT, answers, differing, file_case, rows_of, short_of_memory

VECTORS = ROOT / "vectors/password_hashes"
REFUSED = "not a password hash"
TOO_MANY = "too many iterations"
PASSWORDS = [
    "x", "", "correct horse battery staple", "p" * 63, "p" * 64, "p" * 65, "q" * 300,
    "quo'te$\\", "Ünïcödé ☃",
]
# More iterations than any text of another system here has.
AMPLE_LIMIT = 1_000_000
# A longer text is of no scheme.
MAX_TEXT_LEN = 1024


def digits(data):
    """A word of a line."""
    return (data.encode() if isinstance(data, str) else data).hex() or "-"


def verdicts(text, password, other, limit=AMPLE_LIMIT):
    """Lines that verify a password and another one under a limit, with their answers."""
    return [
        (f"verify {text} {digits(password)} {limit}", "ok"),
        (f"verify {text} {digits(other)} {limit}", "wrong password"),
    ]


# --- a reader and a writer of texts, over hashlib alone ---


def no_pad(data):
    return base64.b64encode(data).rstrip(b"=")


def adapted(data):
    return no_pad(data).replace(b"+", b".")


def text_symbols(data):
    return data.hex().encode()


def plain(data):
    return data


def two_keys(data):
    return base64.b64encode(data[:32]) + b":" + base64.b64encode(data[32:])


# Each scheme: its prefix, its digest, the bytes that a text keeps, and how its salt and what it
# keeps are written.
SCHEMES = {
    "django-sha256": (b"pbkdf2_sha256$", "sha256", 32, plain, base64.b64encode),
    "django-sha1": (b"pbkdf2_sha1$", "sha1", 20, plain, base64.b64encode),
    "werkzeug-sha256": (b"pbkdf2:sha256:", "sha256", 32, plain, text_symbols),
    "werkzeug-sha512": (b"pbkdf2:sha512:", "sha512", 64, plain, text_symbols),
    "phc-sha256": (b"$pbkdf2-sha256$", "sha256", 32, no_pad, no_pad),
    "phc-sha512": (b"$pbkdf2-sha512$", "sha512", 32, no_pad, no_pad),
    "mosquitto": (b"$7$", "sha512", 64, base64.b64encode, base64.b64encode),
    "passlib-sha1": (b"$pbkdf2$", "sha1", 20, adapted, adapted),
    "passlib-sha256": (b"$pbkdf2-sha256$", "sha256", 32, adapted, adapted),
    "passlib-sha512": (b"$pbkdf2-sha512$", "sha512", 64, adapted, adapted),
    "postgresql": (b"SCRAM-SHA-256$", "sha256", 64, base64.b64encode, two_keys),
    "werkzeug-sha1": (b"pbkdf2:sha1:", "sha1", 20, plain, text_symbols),
}
PARAMETERS = ("i={c}", "i={c},l={n}", "l={n},i={c}")


def count_end(scheme):
    """What ends the parameters."""
    return b":" if scheme == "postgresql" else b"$"


def derived(scheme, password, salt, count, length):
    """What a text keeps of a password: PBKDF2's bytes, or SCRAM's two keys (RFC 5802, section 3,
    and RFC 7677)."""
    digest = SCHEMES[scheme][1]
    if scheme != "postgresql":
        return hashlib.pbkdf2_hmac(digest, password, salt, count, length)
    salted = hashlib.pbkdf2_hmac(digest, password, salt, count)
    names = (b"Client Key", b"Server Key")
    client, server = (hmac.new(salted, name, digest).digest() for name in names)
    return hashlib.sha256(client).digest() + server


def made(scheme, count, salt, password, parameters=1, length=None):
    """The text of a password."""
    prefix, _, usual, salt_form, kept_form = SCHEMES[scheme]
    length = length or usual
    head = PARAMETERS[parameters].format(c=count, n=length) if "phc" in scheme else str(count)
    kept = derived(scheme, password, salt, count, length)
    return prefix + head.encode() + count_end(scheme) + salt_form(salt) + b"$" + kept_form(kept)


def bytes_of_base64(field):
    """The bytes of base64, with padding, without it, or as passlib writes it."""
    for symbols in (field, field.replace(b".", b"+")):
        with contextlib.suppress(ValueError):
            yield base64.b64decode(symbols + b"=" * (-len(symbols) % 4), validate=True)


def decoded(form, field):
    """The bytes that a form writes as the field; None if there are none."""
    candidates = [field, *bytes_of_base64(field)]
    with contextlib.suppress(ValueError):
        candidates.append(bytes.fromhex(field.decode()))
    keys = [next(bytes_of_base64(key), b"") for key in field.split(b":")]
    candidates.append(b"".join(keys))
    return next((data for data in candidates if form(data) == field), None)


def is_count(word):
    return re.fullmatch(rb"[1-9][0-9]{0,9}", word) is not None and int(word) < 2**32


def count_and_length(scheme, word, usual):
    """The count that the parameters name and the length of what is kept; None for others."""
    if "phc" not in scheme:
        return (word, usual) if is_count(word) else None
    for form in PARAMETERS:
        pattern = form.format(c="(?P<c>[0-9]+)", n="(?P<n>[0-9]+)").encode()
        match = re.fullmatch(pattern, word)
        if match:
            length = match.groupdict().get("n", b"%d" % usual)
            named = b"l=" in word
            if is_count(match["c"]) and is_count(length) and (not named or 10 <= int(length) <= 64):
                return match["c"], int(length)
    return None


def parsed(text):
    """The scheme of a text and its count, its salt and what it keeps; None if it is of none."""
    if len(text) > MAX_TEXT_LEN:
        return None
    for scheme, (prefix, _, usual, salt_form, kept_form) in SCHEMES.items():
        head, end, rest = text[len(prefix) :].partition(count_end(scheme))
        fields = rest.split(b"$", 1)
        if not text.startswith(prefix) or not end or len(fields) != 2:
            continue
        named = count_and_length(scheme, head, usual)
        salt, kept = decoded(salt_form, fields[0]), decoded(kept_form, fields[1])
        if named and salt and kept and len(kept) == named[1]:
            return scheme, int(named[0]), salt, kept
    return None


def read_answer(text):
    """The answer to `read`: the scheme of the text and its count, and the text again."""
    found = parsed(text)
    return f"{found[0]} {found[1]} {shown(text)}" if found else REFUSED


def verify_answer(text, password, limit):
    """The answer to `verify`."""
    found = parsed(text)
    if found is None:
        return REFUSED
    scheme, count, salt, kept = found
    if count > limit:
        return TOO_MANY
    is_right = derived(scheme, password, salt, count, len(kept)) == kept
    return "ok" if is_right else "wrong password"


def shown(text):
    """The text as the program writes it."""
    try:
        return text.decode()
    except UnicodeDecodeError:
        return f"hex:{text.hex()}"


# --- at random, from a seed, so that a failure can be repeated ---


def random_salt(rng, scheme):
    if SCHEMES[scheme][3] is plain:
        symbols, length = string.ascii_letters + string.digits, rng.choice([1, 8, 22])
        return "".join(rng.choice(symbols) for _ in range(length)).encode()
    return rng.randbytes(rng.choice([1, 2, 3, 12, 16, 64]))


def lines_at_random(rng, scheme):
    """Lines of a text of the scheme at random, with their answers."""
    salt, password = random_salt(rng, scheme), rng.randbytes(rng.randrange(150))
    count = rng.randrange(1, 200)
    text = made(scheme, count, salt, password).decode()
    lower_limit = max(count - 1, 1)
    answer = "ok" if count <= lower_limit else TOO_MANY
    return [
        (f"make {scheme} {count} {digits(salt)} {digits(password)}", text),
        (f"read {text}", f"{scheme} {count} {text}"),
        *verdicts(text, password, password + b"!", count),
        (f"verify {text} {digits(password)} {lower_limit}", answer),
    ]


def are_as_hashlib():
    """Texts at random, of each scheme, are made and verified as by hashlib."""
    rng = random.Random(8018)
    return differing([
        row for scheme in SCHEMES for _ in range(12) for row in lines_at_random(rng, scheme)
    ])


def great_counts_cost_nothing():
    """A text of 4,294,967,295 iterations is refused at once under a lower limit, of each scheme."""
    wanted = []
    for scheme, (prefix, *_) in SCHEMES.items():
        whole, count = made(scheme, COUNT, b"salt", PASSWORD, 0), b"%d" % (2**32 - 1)
        rest = whole[len(prefix) :].replace(b"%d" % COUNT, count, 1)
        text = (prefix + rest).decode()
        wanted += [
            (f"read {text}", f"{scheme} {count.decode()} {text}"),
            (f"verify {text} {digits(PASSWORD)} {2**32 - 2}", TOO_MANY),
        ]
    # A derivation of so many takes a quarter of an hour.
    return differing(wanted, timeout=60)


# --- broken texts ---

# Of the whole texts, and the limit of the verifications.
COUNT, PASSWORD, LIMIT = 12, b"x", 20
# What each byte is changed to. A line feed would end a line of the answers.
OTHER_BYTES = b"$:,=+./-_09AZaz \0\x7f\x80\xff"
COUNTS = [
    *("", "0", "00", "01", "012", "-1", "+1", " 1", "1 ", "1_0", "1.0", "1e1", "0x1", "\u0661"),
    *("1", "20", "21", "2147483648", "4294967295", "4294967296", "4294967297", "42949672950"),
    *("18446744073709551617", "9" * 40),
]
LENGTHS = [0, 1, 2, 3, 9, 10, 11, 15, 16, 19, 20, 21, 31, 32, 33, 47, 48, 63, 64, 65, 96, 700]
PARAMETERS_OF_NONE = ["i=12,l=32,", ",i=12", "l=32", "i=12,i=12", "i=12;l=32", "i=", "i"]


def upper(data):
    return data.hex().upper().encode()


def never_padded(data):
    return base64.urlsafe_b64encode(data).rstrip(b"=")


def padded_twice(data):
    return base64.b64encode(data) + b"="


# The forms of the fields, and others.
FORMS = (
    plain, text_symbols, upper, base64.b64encode, base64.urlsafe_b64encode, no_pad, adapted,
    never_padded, padded_twice,
)


def broken_at(rng, text, at):
    """The texts that differ from this one at a place: with another byte there, with one more, with
    one or all of those on a side left out, and with two exchanged."""
    before, byte, after = text[:at], text[at], text[at + 1 :]
    near = {(byte + 1) % 256, (byte - 1) % 256, byte ^ 0x20, *rng.sample(range(256), 4)}
    others = [bytes([it]) for it in sorted({*OTHER_BYTES, *near} - {byte, ord("\n")})]
    more = [bytes([it]) for it in (byte, *rng.sample(OTHER_BYTES, 4))]
    changed = [before + it + after for it in others] + [before + it + text[at:] for it in more]
    exchanged = before + after[:1] + text[at : at + 1] + after[1:]
    return [*changed, before + after, before, text[at:], exchanged]


def heads(scheme):
    """Other texts of the count, and of the length where the scheme has one."""
    if "phc" not in scheme:
        return [it.encode() for it in (*COUNTS, *PARAMETERS_OF_NONE)]
    named = [(count, 32) for count in COUNTS] + [(COUNT, length) for length in (*LENGTHS, "032")]
    forms = [form.format(c=count, n=length) for form in PARAMETERS for count, length in named]
    return [it.encode() for it in (*forms, *PARAMETERS_OF_NONE)]


def parts_of(scheme, text):
    """The prefix of a text, its count, and then each end of a field and the next field."""
    prefix = SCHEMES[scheme][0]
    return [prefix, *re.split(rb"([:$])", text[len(prefix) :])]


def other_parts(rng, scheme, place):
    """What is put in the place of a part."""
    if place == 0:
        return [prefix for prefix, *_ in SCHEMES.values()]
    if place == 1:
        return heads(scheme)
    if place % 2 == 0:
        return [b"", b"$", b":", b"$$"]
    data = [form(rng.randbytes(length)) for form in FORMS for length in LENGTHS]
    return [it for it in data if b"\n" not in it]


def with_other_parts(rng, scheme, parts):
    """The texts that differ in one part."""
    for place in range(len(parts)):
        before, after = parts[:place], parts[place + 1 :]
        yield from (b"".join([*before, it, *after]) for it in other_parts(rng, scheme, place))


def whole_texts(rng, scheme):
    """Texts of a scheme, one for each way to name its parameters."""
    ways = range(len(PARAMETERS)) if "phc" in scheme else [0]
    return [made(scheme, COUNT, random_salt(rng, scheme), PASSWORD, way) for way in ways]


def of_each_length(scheme):
    """Texts with salts of lengths about the longest."""
    shortest = len(made(scheme, COUNT, b"", PASSWORD, 0))
    for length in range(MAX_TEXT_LEN + 3):
        text = made(scheme, COUNT, b"s" * length, PASSWORD, 0)
        if abs(len(text) - MAX_TEXT_LEN) < 6 or len(text) < shortest + 6:
            yield text


def broken_texts(rng, scheme):
    """Broken texts of a scheme, and some that are whole and have another count, salt or hash."""
    for text in whole_texts(rng, scheme):
        yield from (it for at in range(len(text)) for it in broken_at(rng, text, at))
        yield from with_other_parts(rng, scheme, parts_of(scheme, text))
    yield from of_each_length(scheme)


def broken_case(scheme):
    """A case with broken texts of a scheme."""

    def run():
        rest, wanted = f"{digits(PASSWORD)} {LIMIT}", []
        for text in broken_texts(random.Random(scheme), scheme):
            word = f"hex:{digits(text)}"
            wanted += [
                (f"read {word}", read_answer(text)),
                (f"verify {word} {rest}", verify_answer(text, PASSWORD, LIMIT)),
            ]
        return differing(wanted)

    run.__doc__ = f"broken texts of {scheme} are read and verified as by this script's reader"
    return run


def proof_and_signature():
    """The keys of RFC 7677's example give the proof and the signature of the RFC, section 3."""
    salt = base64.b64decode("W22ZaJ0SNY7soEsUEjb6gQ==")
    answer = answers([f"make postgresql 4096 {digits(salt)} {digits('pencil')}"])[0]
    stored, server = (base64.b64decode(key) for key in answer.split("$")[2].split(":"))
    nonce = "rOprNGfwEbeRWgbNEkqO%hvYDpWUa2RaTCAfuxFIlj)hNlF$k0"
    client_first = "n=user,r=rOprNGfwEbeRWgbNEkqO"
    server_first = f"r={nonce},s=W22ZaJ0SNY7soEsUEjb6gQ==,i=4096"
    message = f"{client_first},{server_first},c=biws,r={nonce}".encode()
    proof = base64.b64decode("dHzbZapWIk4jUhN+Ute9ytag9zjfMHgsqmmiz7AndVQ=")
    key = bytes(a ^ b for a, b in zip(proof, hmac.new(stored, message, "sha256").digest()))
    signature = base64.b64encode(hmac.new(server, message, "sha256").digest()).decode()
    is_proof = hashlib.sha256(key).digest() == stored
    is_signature = signature == "6rriTRBi23WpRR/wtup+mMhUZUn/dB5nLTJRsjl95G4="
    return [] if is_proof and is_signature else [("RFC 7677, section 3", answer)]


# --- requests for memory, of which one is refused ---


def each_request_is_refused():
    """each request for memory refused in turn: its line is answered so, and the others as ever"""
    files = [VECTORS / f"{scheme}.txt" for scheme in ("django", "postgresql")]
    return short_of_memory([row for file in files for row in rows_of(file)][:12])


# --- other systems ---

# What each module of Python does with a list of questions: it makes a text of a scheme and a
# password, or verifies one.
PEERS = {
    "django": """
from django.conf import settings
prefix = "django.contrib.auth.hashers.PBKDF2"
hashers = [prefix + "PasswordHasher", prefix + "SHA1PasswordHasher"]
settings.configure(PASSWORD_HASHERS=hashers)
from django.contrib.auth.hashers import check_password, make_password
def make(scheme, password): return make_password(password, hasher="pbkdf2_" + scheme.split("-")[1])
def verify(scheme, password, text): return check_password(password, text)
""",
    "werkzeug": """
from werkzeug.security import check_password_hash, generate_password_hash
def make(scheme, password):
    return generate_password_hash(password, "pbkdf2:%s:1000" % scheme.split("-")[1])
def verify(scheme, password, text): return check_password_hash(text, password)
""",
    "passlib": """
from passlib.hash import pbkdf2_sha1, pbkdf2_sha256, pbkdf2_sha512
hashes = {"sha1": pbkdf2_sha1, "sha256": pbkdf2_sha256, "sha512": pbkdf2_sha512}
def make(scheme, password, salt_size=16):
    return hashes[scheme.split("-")[1]].using(rounds=1000, salt_size=salt_size).hash(password)
def verify(scheme, password, text): return hashes[scheme.split("-")[1]].verify(password, text)
""",
}
# What a module is asked for texts that it writes too, and that are of no scheme.
UNREAD = {
    "werkzeug": [(f"werkzeug-{it}", "x") for it in ("sha224", "sha3_256", "md5", "SHA256")],
    "passlib": [(f"passlib-{it}", "x", 0) for it in ("sha1", "sha256", "sha512")],
}
ANSWER_ALL = """
import json, sys
print(json.dumps([globals()[q[0]](*q[1:]) for q in json.load(sys.stdin)]))
"""


def asked(module, questions):
    """What the module answers."""
    return peers.asked(module, PEERS[module] + ANSWER_ALL, questions)


def with_module(module):
    """A case with a module of Python, both ways."""

    def run():
        rng, schemes = random.Random(module), [it for it in SCHEMES if it.startswith(module)]
        pairs = [(scheme, password) for scheme in schemes for password in PASSWORDS]
        theirs = asked(module, [("make", *pair) for pair in pairs])
        wanted = []
        for (_, password), text in zip(pairs, theirs):
            wanted += verdicts(text, password, password + "y")
        salts = [digits(random_salt(rng, scheme)) for scheme, _ in pairs]
        lines = [
            f"make {scheme} 1000 {salt} {digits(password)}"
            for (scheme, password), salt in zip(pairs, salts)
        ]
        questions = []
        for (scheme, password), text in zip(pairs, answers(lines)):
            questions += [("verify", scheme, it, text) for it in (password, password + "y")]
        found = asked(module, questions)
        should_be = [True, False] * len(pairs)
        rows = zip(questions, found, should_be)
        wrong = [(str(question), str(answer)) for question, answer, want in rows if answer != want]
        return differing(wanted) + wrong

    run.__doc__ = f"{module}: its hashes are verified, and it verifies ours"
    return run


def unread_of(module):
    """A case with texts of a module that are refused."""

    def run():
        theirs = asked(module, [("make", *question) for question in UNREAD[module]])
        return differing([(f"read {text}", REFUSED) for text in theirs])

    run.__doc__ = f"{module}: what docs/PASSWORD_HASHES.md says that it writes too is refused"
    return run


def with_long_salts():
    """passlib: its texts of at most 1,024 bytes are verified, and longer ones are refused"""
    schemes = [scheme for scheme in SCHEMES if scheme.startswith("passlib")]
    questions = [("make", scheme, "x", size) for scheme in schemes for size in range(640, 760)]
    wanted, lengths = [], set()
    for text in asked("passlib", questions + [("make", scheme, "x", 1024) for scheme in schemes]):
        lengths.add(len(text))
        refused = (f"verify {text} {digits('x')} {AMPLE_LIMIT}", REFUSED)
        wanted += [refused] if len(text) > MAX_TEXT_LEN else verdicts(text, "x", "y")
    both = min(lengths) <= MAX_TEXT_LEN < max(lengths)
    return differing(wanted) + [("", "all on one side")] * (not both)


PEER = """
[package]
name = "peer"
version = "0.0.0"
edition = "2021"
[dependencies]
pbkdf2 = { version = ">=0.11, <0.13", features = ["simple"] }
[[bin]]
name = "peer"
path = "main.rs"
"""


def asked_rustcrypto(folder, lines):
    """What RustCrypto answers to lines, by a program over Debian's crates."""
    (folder / "Cargo.toml").write_text(PEER)
    shutil.copy(ROOT / "tests/password_hashes.rs", folder / "main.rs")
    peer = debian_crates.build(folder) / "peer"
    text = "".join(f"{line}\n" for line in lines).encode()
    run = subprocess.run([peer], input=text, stdout=subprocess.PIPE, check=True)
    return run.stdout.decode().split("\n")[:-1]


def with_rustcrypto():
    """RustCrypto: its hashes are verified, and it verifies ours"""
    rng, wanted = random.Random("rustcrypto"), []
    pairs = [(name, password) for name in ("sha256", "sha512") for password in PASSWORDS]
    with tempfile.TemporaryDirectory(prefix="password_hashes.") as name:
        folder = pathlib.Path(name)
        salts = [no_pad(rng.randbytes(16)).decode() for _ in pairs]
        lines = [
            f"make pbkdf2-{name} {salt} {digits(password)}"
            for (name, password), salt in zip(pairs, salts)
        ]
        for (_, password), text in zip(pairs, asked_rustcrypto(folder, lines)):
            wanted += verdicts(text, password, password + "y")
        lines = [
            f"make phc-{name} 1000 {rng.randbytes(16).hex()} {digits(password)}"
            for name, password in pairs
        ]
        questions = []
        for (_, password), text in zip(pairs, answers(lines)):
            questions += [f"verify {text} {digits(it)}" for it in (password, password + "y")]
        found = asked_rustcrypto(folder, questions)
    should_be = ["true", "false"] * len(pairs)
    wrong = [pair for pair, answer in zip(zip(questions, found), should_be) if pair[1] != answer]
    return differing(wanted) + wrong + [("", "too few answers")] * (len(found) != len(questions))


def with_mosquitto():
    """mosquitto: the hashes of mosquitto_passwd are verified"""
    wanted = []
    with tempfile.TemporaryDirectory(prefix="password_hashes.") as folder:
        for password in [password for password in PASSWORDS if password]:
            command = ["mosquitto_passwd", "-c", "-b", f"{folder}/file", "user", password]
            subprocess.run(command, check=True, capture_output=True)
            text = pathlib.Path(folder, "file").read_text().strip().partition(":")[2]
            wanted += verdicts(text, password, password + "y")
    return differing(wanted)


def postgres_bin():
    """The folder of PostgreSQL's programs."""
    found = sorted(pathlib.Path("/usr/lib/postgresql").glob("*/bin/initdb"))
    initdb = found[-1] if found else shutil.which("initdb")
    can_run = initdb and shutil.which("psql") and (os.getuid() or has_user())
    return pathlib.Path(initdb).parent if can_run else None


def has_user():
    """Whether there is a user that a server can run as."""
    return any(user.pw_name == "postgres" for user in pwd.getpwall())


class Server:
    """A server on a socket in the folder."""

    def __init__(self, folder):
        self.folder = pathlib.Path(folder)
        self.user = ["runuser", "-u", "postgres", "--"] if os.getuid() == 0 else []
        if self.user:
            shutil.chown(folder, "postgres")
        secret = self.folder / "secret"
        secret.write_text("super\n")
        secret.chmod(0o644)
        data = ("-D", f"{folder}/data")
        login = ("-A", "scram-sha-256", "-U", "super", "--pwfile", str(secret))
        self.run("initdb", *data, *login, "-N", "-E", "UTF8", "--locale=C")
        options = f"-c listen_addresses='' -c unix_socket_directories={folder} -c fsync=off"
        self.run("pg_ctl", *data, "-l", f"{folder}/log", "-w", "-o", options, "start")

    def run(self, program, *words):
        command = [*self.user, postgres_bin() / program, *words]
        subprocess.run(command, check=True, cwd=self.folder, stdout=subprocess.DEVNULL)

    def stop(self):
        self.run("pg_ctl", "-D", f"{self.folder}/data", "-m", "immediate", "stop")

    def ask(self, role, password, query):
        """The answer to a query; None if there is none."""
        command = ["psql", "-h", self.folder, "-U", role, "-d", "postgres", "-Atqc", query]
        env = dict(os.environ, PGPASSWORD=password)
        run = subprocess.run(command, env=env, stdout=subprocess.PIPE, stderr=subprocess.DEVNULL)
        return run.stdout.decode().rstrip("\n") if run.returncode == 0 else None

    def create(self, role, password):
        """Makes a role, and gives what is kept of its password."""
        quoted = "E'" + password.replace("\\", "\\\\").replace("'", "\\'") + "'"
        self.ask("super", "super", f"CREATE ROLE {role} LOGIN PASSWORD {quoted}")
        kept = f"SELECT rolpassword FROM pg_authid WHERE rolname = '{role}'"
        return self.ask("super", "super", kept)


def lines_of_theirs(server, passwords):
    """Lines that verify passwords by the server's verifiers, with their answers."""
    wanted = []
    for i, password in enumerate(passwords):
        text = server.create(f"theirs{i}", password)
        wanted += verdicts(text, password, password + "y", 4096)
    return wanted


def refused_of_ours(server, passwords):
    """Our verifiers that the server does not keep, or by which not the password alone logs in."""
    lines = [
        f"make postgresql {4096 + i} {digits(os.urandom(1 + 5 * i))} {digits(password)}"
        for i, password in enumerate(passwords)
    ]
    wrong = []
    for i, (password, text) in enumerate(zip(passwords, answers(lines))):
        role = f"ours{i}"
        kept = server.create(role, text)
        logged_in = [server.ask(role, word, "SELECT 1") for word in (password, password + "y")]
        if kept != text or logged_in != ["1", None]:
            wrong.append((text, f"{kept}, {logged_in}"))
    return wrong


def with_postgres():
    """PostgreSQL: its verifiers are verified, and it takes ours and lets their passwords log in"""
    passwords = [password for password in PASSWORDS if password and password.isascii()]
    with tempfile.TemporaryDirectory(prefix="password_hashes.") as folder:
        server = Server(folder)
        try:
            wanted = lines_of_theirs(server, passwords)
            return refused_of_ours(server, passwords) + differing(wanted)
        finally:
            server.stop()


ONE_BY_ONE = (proof_and_signature, are_as_hashlib, great_counts_cost_nothing)


def cases():
    """Each case, and what is missing for it on this machine."""
    files = sorted(VECTORS.glob("*.txt"))
    yield from ((file_case(file), "") for file in files)
    yield from ((case, "") for case in ONE_BY_ONE)
    yield from ((broken_case(scheme), "") for scheme in SCHEMES)
    yield each_request_is_refused, "" if COMPILER else "a C compiler"
    for module in PEERS:
        missing = "" if peers.python_with(module) else module
        yield with_module(module), missing
        if module in UNREAD:
            yield unread_of(module), missing
    yield with_long_salts, "" if peers.python_with("passlib") else "passlib"
    yield with_rustcrypto, debian_crates.lacking("pbkdf2", "password-hash")
    yield with_mosquitto, "" if shutil.which("mosquitto_passwd") else "mosquitto_passwd"
    yield with_postgres, "" if postgres_bin() else "PostgreSQL"


def main():
    return counted.report(*counted.run_answered(cases()))


if __name__ == "__main__":
    sys.exit(main())
