#!/usr/bin/env python3
# SPDX-License-Identifier: ISC
"""Tests that the algorithms, statuses, schemes and limits of tools/rows.py are those of the crates'
definitions, and that the lists of the packages and pages, which tools/lists.py makes, are not stale.

Of the definitions, which the contracts speak of, the table of algorithms, the numbers of statuses
and of schemes, and what each call has a number for are compared, and that the causes of refusals
are tested in the order of their statuses. Compared as well are what no list is made of: constants
beside what they are about, the numbers of statuses in docstrings and tests, the help of
./passwords, the table of docs/PASSWORD_HASHES.md, whose cells say what the rows do, and how many
files docs/ADDING.md lets a new algorithm change. Then each list and each other place is read again
with a planted fault, which must be found. The last line is 'N passed, M failed'.
"""

import functools
import itertools
import pathlib
import re
import subprocess
import sys

sys.dont_write_bytecode = True
ROOT = pathlib.Path(__file__).resolve().parent.parent
sys.path.append(str(ROOT / "tools"))
import lists
from rows import ALGORITHMS, KEYED, LIMITS, SCHEMES, STATUSES, TOKENS

TABLE = "crates/ring/specs/Table.antt"
HMAC = "crates/ring/specs/Hmac.antt"
STATUS = "crates/ring_c/specs/Status.antt"
NUMBERS = "crates/ring_c/specs/Number.antt"
HASHES = "crates/ring_c/specs/PasswordHashes.antt"
SCHEME = "crates/ring_password_hash/specs/Scheme.antt"
HELP = "crates/ring_passwords/src/about.rt"
PAGE = "docs/PASSWORD_HASHES.md"
RUST = "rust/src/password_hash.rs"
RECIPE = "docs/ADDING.md"
# What other programs make of the header, of comments and of the dispatcher.
MADE_OTHERWISE = ("c/man/yezdopin.3", "docs/API.md", "c/PLATFORMS.md")
FOLDERS = {"python/src/yezdopin": "*.py", "javascript/test": "*.mjs"}

# What the page says of each digest and of each way to write a field.
TITLES = {it.name: it.title for it in ALGORITHMS}
WRITTEN = {
    "Plain": "as it is", "Hex": "hex", "Base64": "base64", "Base64NoPad": "base64, no padding",
    "Adapted": "adapted base64",
}
ROW = re.compile(
    r'^row_of scheme\.(?P<variant>\w+) =\s+row \(codes "(?P<name>[^"]+)"\)'
    r' \(codes "(?P<prefix>[^"]+)"\)'
    r" (?P<named>true|false) (?P<keys>true|false) (?P<salt>\w+) (?P<kept>\w+) (?P<len>\d+)"
    r" (?P<digest>\w+)$", re.M,
)
LINE = re.compile(
    r"^\|`(?P<name>[a-z0-9-]+)`\|`(?P<text>[^\s|]+)`\|(?P<digest>[^\s|]+)\|(?P<salt>[^|]+)\|"
    r"(?P<kept>[^|]+)\|`(?P<constant>YZ_\w+)`, (?P<number>\d+)\|[^|]+\|$", re.M,
)
# Where a limit stands by itself: the file, what finds it, and its name in the rows.
LIMITS_ELSEWHERE = (
    (HASHES, r"^max_text_len = (\d+)$", "MAX_PASSWORD_HASH_LEN"),
    (RUST, r"^pub const MAX_TEXT_LEN: usize = (\d+);$", "MAX_PASSWORD_HASH_LEN"),
    (RUST, r"^pub const RANDOM_LEN: usize = (\d+);$", "SALT_RANDOM_LEN"),
    (RUST, r"^pub const MAX_SALT_LEN: usize = (\d+);$", "MAX_SALT_LEN"),
    ("rust/src/merkle.rs", r"^pub const HASH_LEN: usize = (\d+);$", "MERKLE_HASH_LEN"),
    ("rust/src/calls.rs", r"DigestContext of (\d+) ", "DIGEST_CONTEXT_LEN"),
    ("rust/src/calls.rs", r"HmacKey of (\d+) ", "HMAC_KEY_LEN"),
    ("rust/src/calls.rs", r"HmacContext of (\d+) ", "HMAC_CONTEXT_LEN"),
    (lists.HEADER, r"^} yz_digest_context; /\* (\d+) bytes \*/$", "DIGEST_CONTEXT_LEN"),
    (lists.HEADER, r"^} yz_hmac_key; /\* (\d+) bytes \*/$", "HMAC_KEY_LEN"),
    (lists.HEADER, r"^} yz_hmac_context; /\* (\d+) bytes \*/$", "HMAC_CONTEXT_LEN"),
    (lists.HEADER, r"^#define YZ_JWS_TOKEN_LEN\(n, m\) \((\d+) \+ ", "JWS_REST_LEN"),
)
OF_TYPES = ("DIGEST_CONTEXT_LEN", "HMAC_KEY_LEN", "HMAC_CONTEXT_LEN", "JWS_REST_LEN")

# A place, a text of it and what stands there instead: a fault that must be found.
PLANTED = (
    (TABLE, '(codes "SHA256") 2 4 32 32', '(codes "SHA256") 2 4 28 32'),
    (TABLE, '(codes "SHA512") 4 8', '(codes "SHA512") 4 4'),
    (TABLE, '(codes "SHA512_256") 5', '(codes "SHA512_256") 6'),
    (STATUS, "YZ_BAD_SALT = pos 7", "YZ_BAD_SALT = pos 9"),
    (STATUS, "  pub no_iterations : Bool\n  pub wrong_length : Bool\n",
     "  pub wrong_length : Bool\n  pub no_iterations : Bool\n"),
    (STATUS, "if c.bad_salt then YZ_BAD_SALT", "if c.bad_salt then YZ_BAD_FORMAT"),
    (NUMBERS, "nat_eq number 11 then Some Postgresql", "nat_eq number 11 then Some WerkzeugSha1"),
    (NUMBERS, "nat_eq number 4 then Some Hs512", "nat_eq number 5 then Some Hs512"),
    (HMAC, "sha512_256_row.number then None", "sha512_row.number then None"),
    (SCHEME, 'row (codes "mosquitto")', 'row (codes "mosquito")'),
    (SCHEME, '(codes "$7$") false false Base64', '(codes "$7$") false false Hex'),
    (HELP, "postgresql       werkzeug-sha1", "postgresql"),
    (PAGE, "|`phc-sha512`|`$pbkdf2-sha512$", "|`phc-sha512`|`$pbkdf2-sha256$"),
    (PAGE, "|`mosquitto`|`$7$101$SALT$HASH`|SHA-512|", "|`mosquitto`|`$7$101$SALT$HASH`|SHA-256|"),
    (PAGE, "|SHA-1|as it is|20 bytes, hex|", "|SHA-1|as it is|32 bytes, hex|"),
    (PAGE, "`YZ_POSTGRESQL`, 11", "`YZ_POSTGRESQL`, 12"),
    (lists.HEADER, "#define YZ_MAX_PASSWORD_HASH_LEN 1024", "#define YZ_MAX_PASSWORD_HASH_LEN 1023"),
    (lists.HEADER, "(38 + YZ_BASE64_LEN(n)", "(37 + YZ_BASE64_LEN(n)"),
    (RUST, "MAX_TEXT_LEN: usize = 1024", "MAX_TEXT_LEN: usize = 1025"),
    (RUST, "calls::YZ_BAD_SALT =>", "8 =>"),
    ("python/src/yezdopin/password_hash.py", "status 3", "status 4"),
    ("javascript/test/traces.mjs", "UNSPECIFIED = 8", "UNSPECIFIED = 5"),
    (RECIPE, "PBKDF2: at most 57", "PBKDF2: at most 50"),
)


def texts_of_repository():
    """The files that are compared, each with its text."""
    names = {TABLE, HMAC, STATUS, NUMBERS, SCHEME, HELP, PAGE, RECIPE, *lists.paths()}
    names |= {file for file, _, _ in LIMITS_ELSEWHERE}
    for folder, pattern in FOLDERS.items():
        names |= {str(it.relative_to(ROOT)) for it in (ROOT / folder).glob(pattern)}
    return {name: (ROOT / name).read_text() for name in sorted(names)}


def block(text, head, end="\n\n"):
    """What stands between a text and the next end behind it."""
    return text.partition(head)[2].partition(end)[0]


def different(place, found, wanted):
    """The fault of a place that has other values than the rows, or None."""
    return None if found == wanted else f"{place}: {found}, and not {wanted}"


def table_faults(texts):
    """The table of algorithms, and which numbers the calls have by the definitions."""
    found = re.findall(r'row_by \(codes "(\w+)"\) (\d+) (\d+) (\d+) (\d+) ', texts[TABLE])
    wanted = [(it.name, it.number, it.block_len // 16, it.output_len, it.chaining_len)
              for it in ALGORITHMS]
    yield different(TABLE, found, [tuple(map(str, it)) for it in wanted])
    without = re.findall(r"(\w+)_row\.number then None", block(texts[HMAC], "\nhmac_over a ="))
    yield different(HMAC, without, [it.name.lower() for it in ALGORITHMS if it not in KEYED])
    for head, values in (
        ("\njws_named number =", [(it.token.capitalize(), it.number) for it in TOKENS]),
        ("\nscheme_named number =",
         [(lists.variant(name), at) for at, (name, _) in enumerate(SCHEMES, 1)]),
    ):
        tests = re.findall(r"nat_eq number (\d+) then Some (\w+)$", block(texts[NUMBERS], head), re.M)
        yield different(NUMBERS, [(name, int(number)) for number, name in tests], values)


def status_faults(texts):
    """The numbers of statuses, and that their causes are tested in the order of these."""
    text = texts[STATUS]
    found = re.findall(r"^abbrev pub YZ_(\w+) : ℤ\nYZ_\1 = pos (\d+)$", text, re.M)
    yield different(STATUS, found, [(name, str(at)) for at, (name, _) in enumerate(STATUSES)])
    # A number that names nothing and a text that is no hash's come first.
    causes = [name for name, _ in STATUSES
              if name not in ("OK", "UNKNOWN_ALGORITHM", "BAD_FORMAT")]
    fields = re.findall(r"^  pub (\w+) : Bool$", text, re.M)
    yield different(STATUS, [it.upper() for it in fields], causes)
    tests = re.findall(r"if c\.(\w+) then YZ_(\w+)$", text, re.M)
    yield different(STATUS, tests, list(zip(fields, causes)))


def told_faults(texts):
    """The numbers of statuses that docstrings and tests tell, and Rust's matches over statuses."""
    told = {name: at for at, (name, _) in enumerate(STATUSES)}
    words = "|".join(told)
    for folder in FOLDERS:
        found = [(place, name, int(number)) for place, text in texts.items()
                 if place.startswith(folder)
                 for number, name in [
                     *re.findall(r"\bstatus (\d+),\s+`YZ_(\w+)`", text),
                     *(it[::-1] for it in re.findall(rf"\b({words}) = (\d+)\b", text))]]
        wrong = [it for it in found if told.get(it[1]) != it[2]]
        yield f"{folder}: {wrong or 'no status'}" if wrong or not found else None
    arms = re.findall(r"match status \{(.*?)\n    \}", texts[RUST], re.S)
    bare = [it for arm in arms for it in re.findall(r"^\s*(\d+)\s*=>", arm, re.M)]
    yield f"{RUST}: statuses by their numbers, {bare}" if bare or not arms else None


def limit_faults(texts):
    """The limits beside what they are about."""
    for name, value in LIMITS.items():
        if name not in OF_TYPES:
            found = re.findall(rf"^#define YZ_{name} (\d+)$", texts[lists.HEADER], re.M)
            yield different(f"{lists.HEADER}: {name}", found, [str(value)])
    for place, pattern, name in LIMITS_ELSEWHERE:
        found = re.findall(pattern, texts[place], re.M)
        yield different(f"{place}: {name}", found, [str(LIMITS[name])])


def kept_of(row):
    """What the page says of that which a scheme keeps."""
    written = WRITTEN[row["kept"]]
    if row["keys"] == "true":
        return f"two keys of {int(row['len']) // 2} bytes, {written}"
    return f"{'10 to 64' if row['named'] == 'true' else row['len']} bytes, {written}"


def cells_of(row, line):
    """Pairs of cells of the page's table, as they are and as the row has them."""
    prefix = row["prefix"] + "i=" * (row["named"] == "true")
    text = re.match(rf"{re.escape(prefix)}(?=\d+[$:,])", line["text"])
    yield text and text[0], prefix
    yield line["digest"], TITLES[row["digest"]]
    yield line["salt"], WRITTEN[row["salt"]]
    yield line["kept"], kept_of(row)


def scheme_faults(texts):
    """The schemes of password hashes: the definitions, the help and the page."""
    names = [name for name, _ in SCHEMES]
    found = {it["variant"]: it for it in ROW.finditer(texts[SCHEME])}
    yield different(SCHEME, sorted((it["variant"], it["name"]) for it in found.values()),
                    sorted((lists.variant(name), name) for name in names))
    yield different(HELP, block(texts[HELP], "is one of these:\n", "status:").split(), names)
    lines = list(LINE.finditer(texts[PAGE]))
    yield different(PAGE, [(it["name"], it["constant"], int(it["number"])) for it in lines],
                    [(name, lists.constant(name), at) for at, name in enumerate(names, 1)])
    rows = {it["name"]: it for it in found.values()}
    for line in lines:
        pairs = list(cells_of(rows[line["name"]], line)) if line["name"] in rows else []
        yield different(f"{PAGE}: {line['name']}", [it for it, _ in pairs], [it for _, it in pairs])


def without_lists(path, text):
    """The text of a file past its lists."""
    for file, name, _ in lists.LISTS:
        if file == path:
            begin, end = lists.place_of(name, text)
            text = text[:begin] + text[end:]
    return "" if path in lists.FILES or path in MADE_OTHERWISE else text


@functools.cache
def files_with(pattern):
    """The files that git finds a pattern in."""
    command = ["git", "grep", "-il", pattern, "--", ":!generated"]
    run = subprocess.run(command, cwd=ROOT, capture_output=True, text=True, check=True)
    return run.stdout.split()


def count_faults(texts):
    """How many files the commands of docs/ADDING.md find, all, by hand, and by hand outside the crates."""
    said = [int(it) for it in re.findall(r"at most (\d+)", block(texts[RECIPE], "## An algorithm\n",
                                                                 "\n## "))]
    commands = re.findall(r"^git grep -il '(.*?)' --", texts[RECIPE], re.M)
    found = [files_with(it) for it in commands]
    word = re.compile(commands[-1].replace("\\", ""), re.I)
    by_hand = [it for it in found[-1] if word.search(without_lists(it, (ROOT / it).read_text()))]
    outside = [it for it in by_hand if not it.startswith("crates/")]
    counts = [*map(len, found), len(by_hand), len(outside)]
    for most, count in itertools.zip_longest(said, counts, fillvalue=-1):
        # A number that is far above is no longer true of what it counts.
        is_right = count <= most <= count + 15
        yield None if is_right else f"{RECIPE}: at most {most}, and there are {count}"


def outcomes(texts):
    """Each comparison: None where it holds, and else the fault."""
    for faults in (table_faults, status_faults, told_faults, limit_faults, scheme_faults,
                   count_faults):
        yield from faults(texts)
    for path in lists.paths():
        is_stale = lists.made(path, texts[path]) != texts[path]
        yield f"{path} is stale: run tools/lists.py" if is_stale else None


def missed_faults(texts):
    """The planted faults that are not found."""
    for place, old, new in PLANTED:
        if old not in texts[place]:
            yield f"{place} has no '{old}'"
        elif not any(outcomes({**texts, place: texts[place].replace(old, new, 1)})):
            yield f"{place}: '{new}' is not found"
    for path, name, _ in lists.LISTS:
        begin, end = lists.place_of(name, texts[path])
        text = texts[path][:begin] + texts[path][begin:end].replace("1", "7", 1) + texts[path][end:]
        other = text if text != texts[path] else texts[path][:begin] + texts[path][end:]
        if lists.made(path, other) == other:
            yield f"{path}: another list {name} is not found"


def main():
    texts = texts_of_repository()
    found = list(outcomes(texts))
    failed = [f"FAILED: {it}" for it in found if it]
    missed = [f"FAILED: planted: {it}" for it in missed_faults(texts)]
    print(*failed, *missed, sep="\n", end="\n" if failed or missed else "")
    passed = len(found) - len(failed) + len(PLANTED) + len(lists.LISTS) - len(missed)
    print(f"{passed} passed, {len(failed) + len(missed)} failed")
    return bool(failed or missed)


if __name__ == "__main__":
    sys.exit(main())
