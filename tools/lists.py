#!/usr/bin/env python3
# SPDX-License-Identifier: ISC
"""Writes the lists of all packages and pages that tools/rows.py has the rows of.

    tools/lists.py            writes them anew
    tools/lists.py --check    names those that are stale

A list stands between two comments, `NAME: made by tools/lists.py` and `/NAME`, in a line of their
own or in a line of a page. Some files are lists as a whole. The Rust crate's declarations of the
calls are made of the header's.
"""

import pathlib
import re
import sys
import textwrap

sys.dont_write_bytecode = True
sys.path.append(str(pathlib.Path(__file__).resolve().parent))
from rows import ALGORITHMS, BROKEN, KEYED, LIMITS, SCHEMES, STATUSES, TOKENS

ROOT = pathlib.Path(__file__).resolve().parent.parent
HEADER = "c/include/yezdopin.h"
MADE = "made by tools/lists.py"
TOP = "SPDX-License-Identifier: ISC"


def constant(name):
    """The constant in C of a scheme's name."""
    return "YZ_" + name.upper().replace("-", "_")


def variant(name):
    """The variant in Rust of a scheme's name."""
    return "".join(it.capitalize() for it in name.split("-"))


def in_python(row):
    """An algorithm's name as hashlib has it."""
    return row.name.lower()


def in_javascript(row):
    """An algorithm's name as OpenSSL has it in lower case, which is Node's."""
    return row.name.lower().replace("_", "-")


def static(row, front="", is_legacy=True):
    """The name of an algorithm's static in Rust, as `ring` has it."""
    return front + row.name + "_FOR_LEGACY_USE_ONLY" * (is_legacy and row.note == BROKEN)


def about(row, section=", section {}"):
    """What a comment says of an algorithm."""
    broken = f", which is {row.note}" * (row.note == BROKEN)
    return f"{row.title} (FIPS 180-4{section.format(row.section)}){broken}."


def lines(texts, indent=""):
    """Lines of code."""
    return "".join(f"{indent}{it}".rstrip() + "\n" for it in texts)


def filled(texts, indent="", first="", width=100, between=", "):
    """Words in lines that are full."""
    text = between.join(it.replace(" ", "\0") for it in texts)
    return textwrap.fill(text, width, initial_indent=first or indent, subsequent_indent=indent,
                         break_long_words=False, break_on_hyphens=False).replace("\0", " ") + "\n"


def named(rows, joined="and"):
    """Algorithms in a sentence."""
    *others, last = [it.title for it in rows]
    return f"{', '.join(others)} {joined} {last}"


def quoted(texts):
    return [f'"{it}"' for it in texts]


# --- C ---


def numbers(found):
    """The constants of a list of names, numbers and notes."""
    return lines((f"{name} = {number}," + f" /* {note} */" * bool(note)
                  for name, number, note in found), "    ")


def algorithms_of_header():
    return numbers((f"YZ_{it.name}", it.number, it.note) for it in ALGORITHMS)


def statuses_of_header():
    texts = [(f"YZ_{name} = {number},", text) for number, (name, text) in enumerate(STATUSES)]
    width = max(len(it) for it, _ in texts)
    return lines((f"{it:{width}} /* {text} */" for it, text in texts), "    ")


def lengths_of_header():
    for kind, field in (("OUTPUT", "output_len"), ("BLOCK", "block_len")):
        for row in ALGORITHMS:
            yield f"#define YZ_{row.name}_{kind}_LEN {getattr(row, field)}"
        yield f"#define YZ_MAX_{kind}_LEN {max(getattr(it, field) for it in ALGORITHMS)}"


def schemes_of_header():
    return numbers((constant(name), at, "") for at, (name, _) in enumerate(SCHEMES, 1))


def texts_of_statuses():
    return lines((f'[YZ_{name}] = "{text}",' for name, text in STATUSES), "    ")


def macro(name, rows):
    """A macro that passes rows to another."""
    found = [f"#define {name}(ROW)"]
    for it in rows:
        row = filled(it, " " * 8, "    ROW(", 97).rstrip("\n") + ")"
        found += row.split("\n")
    return " \\\n".join(found) + "\n"


def rows_for_c():
    head = f"""/* {TOP} */
/* {MADE[0].upper()}{MADE[1:]}, of tools/rows.py. The algorithms, for the tests in C and the OpenSSL
 * provider: ROW(the name behind YZ_, the standard's name, OpenSSL's name, all names there). */
#ifndef YEZDOPIN_ROWS_H
#define YEZDOPIN_ROWS_H

"""
    def rows(found):
        return [(it.name, *quoted([it.title, it.openssl.split(":")[0], it.openssl]))
                for it in found]
    tokens = [(it.name, f'"{it.token}"') for it in TOKENS]
    return (head + macro("EACH_ALGORITHM", rows(ALGORITHMS))
            + f"\n/* Their numbers are from 1 to this. */\n#define ALGORITHMS_COUNT {len(ALGORITHMS)}\n"
            + "\n/* Those of HMAC, HKDF and PBKDF2, and whether a number is of one. */\n"
            + macro("EACH_KEYED", rows(KEYED))
            + "#define IS_KEYED(n) \\\n    (" + " || \\\n     ".join(
                f"(n) == YZ_{it.name}" for it in KEYED) + ")\n"
            + "#define FOR_EACH_KEYED(n) \\\n"
            "    for (uint32_t n = 1; n <= ALGORITHMS_COUNT; n++) if (IS_KEYED(n))\n"
            + "\n/* Those of tokens, each with its name there. */\n" + macro("EACH_TOKEN", tokens)
            + "\n#endif\n")


# --- Python ---


def rows_for_python():
    def other_names(row):
        found = set(row.openssl.lower().split(":")) - {in_python(row)}
        return sorted(found, key=lambda it: (it[0].isdigit(), it))
    names = [(f"YZ_{it.name}", in_python(it), f'"{about(it, "")}"') for it in ALGORITHMS]
    others = [(f"YZ_{it.name}", f'"{name}"') for it in ALGORITHMS for name in other_names(it)]
    keyed = [(f"YZ_{it.name}",) for it in KEYED]
    tokens = [(f"YZ_{it.name}", f'"{it.token}"') for it in TOKENS]
    schemes = [(constant(name), f'"{name}"') for name, _ in SCHEMES]
    return f"""/* {TOP} */
/* {MADE[0].upper()}{MADE[1:]}, of tools/rows.py. What the extension has by names. */

/* ROW(number, the name as hashlib has it, what its constructor's docstring says) */
{macro("EACH_ALGORITHM", names)}
/* ROW(number, a further name, of those that OpenSSL has, in lower case) */
{macro("EACH_OTHER_NAME", others)}
/* ROW(number) of those of HMAC, HKDF and PBKDF2 */
{macro("EACH_KEYED", keyed)}
/* ROW(number, the name in tokens) */
{macro("EACH_TOKEN", tokens)}
/* ROW(number, the name of a scheme of password hashes) */
{macro("EACH_SCHEME", schemes)}"""


def constructors():
    return lines((f"{in_python(it)}," for it in ALGORITHMS), "    ")


def exported_constructors():
    return lines((f'"{in_python(it)}",' for it in ALGORITHMS), "    ")


def typed_constructors():
    return "".join(
        f"def {in_python(it)}(\n    data: ReadableBuffer = b\"\", *, usedforsecurity: bool = True, "
        "string: ReadableBuffer = ...\n) -> Digest: ...\n" for it in ALGORITHMS)


def names_of_hashes():
    return (f"NAMES = ({', '.join(quoted(map(in_python, ALGORITHMS)))})\n"
            f"KEYED = ({', '.join(quoted(map(in_python, KEYED)))})\n")


def statuses_in_python():
    found = (f"{name} = {number}" for number, (name, _) in enumerate(STATUSES) if number)
    return lines(found, "    ")


def reasons_in_python():
    return lines((f'Status.{name}: "{text}",' for name, text in STATUSES[1:]), "    ")


def schemes_quoted():
    return filled([f'"{name}",' for name, _ in SCHEMES], "    ", between=" ")


# --- Rust ---


def says(row, front):
    """What a comment says of an algorithm over another."""
    return f"{front}{row.title}" + BROKEN.removeprefix("broken") * (row.note == BROKEN) + "."


def rust_macro(name, rows):
    """A macro that passes rows to another."""
    return (f"#[allow(unused_macros)]\nmacro_rules! {name} {{\n    ($use:ident) => {{ $use! {{\n"
            + lines((it for row in rows for it in row), " " * 8) + "    }};\n}\n")


def rust_items(name, items):
    """A macro that stands for items."""
    return (f"#[allow(unused_macros)]\nmacro_rules! {name} {{\n    () => {{\n"
            + lines((it for item in items for it in item), " " * 8) + "    };\n}\n")


def statics_of_digests():
    for it in ALGORITHMS:
        yield (f"/// The bytes of a digest by {it.title} (FIPS 180-4, section {it.section}).",
               f"pub const {it.name}_OUTPUT_LEN: usize = {it.output_len};",
               f"/// {about(it)}",
               f"pub static {static(it)}: Algorithm = Algorithm {{",
               f"    number: {it.number},",
               f"    output_len: {it.name}_OUTPUT_LEN,",
               f"    chaining_len: {it.chaining_len},",
               f"    block_len: {it.block_len},",
               f'    name: "{it.name}",',
               "};")


def statics_over(comment, front, value, is_legacy=True):
    """The statics of a module, each an algorithm over another."""
    for it in KEYED:
        text = says(it, comment) if is_legacy else f"{comment}{it.title}."
        name = static(it, front, is_legacy)
        yield f"/// {text}", f"pub static {name}: Algorithm =", f"    Algorithm({value}{static(it)});"


def rows_for_rust():
    digests = ((f'"{it.name}" {static(it)} {it.name}_OUTPUT_LEN: {it.output_len}, '
                f"{it.chaining_len}, {it.block_len};",) for it in ALGORITHMS)
    keyed = ((f'"{it.name}" {static(it)}', f"{static(it, 'HMAC_')} {static(it, 'HKDF_')}",
              f"PBKDF2_HMAC_{it.name};") for it in KEYED)
    tokens = ((
        f"/// `{it.token}`: HMAC with {it.title}.",
        f'{it.token.capitalize()} "{it.token}" {static(it, "HMAC_")};',
    ) for it in TOKENS)
    hmac = statics_over("HMAC over ", "HMAC_", "&digest::")
    hkdf = statics_over("HKDF over HMAC-", "HKDF_", "hmac::HMAC_")
    pbkdf2 = statics_over("PBKDF2 over HMAC-", "PBKDF2_HMAC_", "&digest::", False)
    return f"""// {TOP}
// {MADE[0].upper()}{MADE[1:]}, of tools/rows.py. The algorithms: the statics of each module, and rows of
// these, which a macro passes to another. Tests include this file too.

{rust_items("digest_algorithms", statics_of_digests())}
{rust_items("hmac_algorithms", hmac)}
{rust_items("hkdf_algorithms", hkdf)}
{rust_items("pbkdf2_algorithms", pbkdf2)}
// The name, the static, the constant of a digest's length, and the bytes of a digest, of a chaining
// value and of a block.
{rust_macro("each_digest", digests)}
// The name, the static of the digest, and those of HMAC, HKDF and PBKDF2.
{rust_macro("each_keyed", keyed)}
// The variant with its comment, the name in tokens, and the static of HMAC.
{rust_macro("each_token", tokens)}"""


def rows_for_rustcrypto():
    def rows(found, front, comment):
        of = front.upper() + "_" * bool(front)
        return ((
            f"/// {comment(it)}",
            f'{front}{it.name.capitalize()} "{it.name}": {static(it, of)}, consts::U{it.output_len}, '
            f"consts::U{it.block_len};",
        ) for it in found)
    tags = rows(KEYED, "Hmac", lambda it: says(it, "HMAC over "))
    return f"""// {TOP}
// {MADE[0].upper()}{MADE[1:]}, of tools/rows.py. The types, which each macro passes to another: the type
// with its comment, the algorithm's name, its static in `yezdopin`, and the bytes of an output and
// of a block. Tests include this file too.

{rust_macro("each_digest", rows(ALGORITHMS, "", about))}
{rust_macro("each_tag", tags)}"""


def statuses_in_rust():
    told = ("OK", "WRONG_LENGTH", "BAD_FORMAT", "TOO_MANY_ITERATIONS", "BAD_SALT")
    return lines(f"pub const YZ_{name}: i32 = {number};"
                 for number, (name, _) in enumerate(STATUSES) if name in told)


# What the crate does by other calls.
NOT_IN_RUST = ("yz_features", "yz_status_text", "yz_output_len", "yz_block_len", "yz_hmac_sign",
               "yz_hmac_verify", "yz_hkdf")
PRIVATE_IN_RUST = ("yz_clear",)
DECLARED = re.compile(
    r"^(?P<result>\w+) (?P<name>yz_\w+)\((?P<parameters>[^;{]*?)\)(?: YZ_MUST_CHECK)?;", re.M)
RUST_TYPES = {
    "uint8_t": "u8", "uint32_t": "u32", "uint64_t": "u64", "size_t": "usize", "char": "u8",
    "void": "u8", "bool": "bool", "yz_status": "i32", "yz_message": "Message",
    "yz_digest_context": "DigestContext", "yz_hmac_key": "HmacKey",
    "yz_hmac_context": "HmacContext", "yz_merkle_hash": "[u8; 32]",
}


def parameter_in_rust(text):
    """A parameter of a call, which is declared in C."""
    it = re.fullmatch(r"(const )?(\w+) (\*?)(\w+)", " ".join(text.split()))
    kind = RUST_TYPES[it[2]]
    front = ("*const " if it[1] else "*mut ") if it[3] else ""
    return f"{it[4]}: {front}{kind}"


def calls_in_rust():
    """The calls of the header, as rustfmt lays their declarations out."""
    for it in DECLARED.finditer((ROOT / HEADER).read_text()):
        if it["name"] in NOT_IN_RUST:
            continue
        given = "" if it["parameters"] == "void" else it["parameters"]
        parameters = [parameter_in_rust(one) for one in given.split(",") if one]
        front = "fn " if it["name"] in PRIVATE_IN_RUST else "pub fn "
        result = "" if it["result"] == "void" else f"-> {RUST_TYPES[it['result']]}"
        head = f"    {front}{it['name']}("
        short = f"{head}{', '.join(parameters)})"
        if len(f"{short} {result}".rstrip()) < 99:
            yield f"{short} {result}".rstrip() + ";\n"
        elif len(short) < 98:
            yield f"{short}\n        {result};\n"
        else:
            yield f"{head}\n" + lines((f"{one}," for one in parameters), " " * 8) + f"    ) {result};\n"


def variants_of_schemes():
    return lines((it for at, (name, says) in enumerate(SCHEMES, 1)
                  for it in (f"/// {says}", f"{variant(name)} = {at},")), "    ")


def schemes_in_rust():
    return (f"pub const SCHEMES: [Scheme; {len(SCHEMES)}] = [\n"
            + lines((f"Scheme::{variant(name)}," for name, _ in SCHEMES), "    ") + "];\n")


def names_of_schemes():
    return lines((f'{variant(name)} => "{name}",' for name, _ in SCHEMES), " " * 12)


def texts_in_rust():
    shown = {"BAD_FORMAT": "BadFormat", "TOO_MANY_ITERATIONS": "TooManyIterations",
             "BAD_SALT": "BadSalt"}
    return lines((f'HashError::{shown[name]} => "{text}",' for name, text in STATUSES
                  if name in shown), " " * 12)


# --- JavaScript ---


def algorithms_in_javascript():
    tokens = ", ".join(f'["{it.token}", {it.number}]' for it in TOKENS)
    return (f"export const HASHES = [{', '.join(quoted(map(in_javascript, ALGORITHMS)))}];\n"
            f"const KEYED = new Set([{', '.join(str(it.number) for it in KEYED)}]);\n"
            "/** The numbers of the algorithms of tokens, by their names there (RFC 7518, 3.2). */\n"
            f"export const TOKENS = new Map([{tokens}]);\n")


def statuses_in_javascript():
    return (lines(f"const {name} = {number};" for number, (name, _) in enumerate(STATUSES))
            + "const TEXTS = [\n" + lines((f"{it}," for it in quoted(text for _, text in STATUSES)),
                                          "  ") + "];\n")


def limits_in_javascript():
    used = {"MERKLE_HASH_LEN": "HASH_LEN", "MERKLE_MAX_PATH": "MAX_PATH"}
    names = ("DIGEST_CONTEXT_LEN", "HMAC_KEY_LEN", "HMAC_CONTEXT_LEN", "MAX_PASSWORD_HASH_LEN",
             "MAX_SALT_LEN", "MERKLE_HASH_LEN", "MERKLE_MAX_PATH", "JWS_REST_LEN")
    notes = {"MERKLE_HASH_LEN": "/** Of a tree's hashes, and of a path the most hashes. */\nexport ",
             "JWS_REST_LEN": "// Of a token what is neither payload nor tag: the header and two full "
                             "stops.\n"}
    return "".join(f"{notes.get(it, '')}const {used.get(it, it)} = {LIMITS[it]};\n" for it in names)


def schemes_in_javascript():
    return filled([f'"{name}",' for name, _ in SCHEMES], "  ", between=" ")


def types_of_algorithms():
    keyed = [*map(in_javascript, KEYED), *(it.name for it in KEYED), *(it.title for it in KEYED),
             *(f"RSA-{it.name}" for it in KEYED)]
    rest = [it for it in ALGORITHMS if it not in KEYED]
    others = [name for it in rest for name in (in_javascript(it), it.title, f"RSA-{it.title.replace('-', '', 1)}")]
    return (filled([*quoted(keyed), "{ name: string };"], "  ", "export type HmacAlgorithm = ",
                   98, between=" | ").replace(" |\n  ", "\n  | ")
            + filled(["HmacAlgorithm", *quoted(others)], "  ", "export type Algorithm = ",
                     98, between=" | ").replace("\n", ";\n"))


def types_of_schemes():
    text = filled([*quoted(name for name, _ in SCHEMES)], "  ", "export type PasswordHashScheme = ",
                  98, between=" | ")
    return text.replace(" |\n  ", "\n  | ").replace('"\n', '"\n').rstrip("\n") + ";\n"


def types_of_tokens():
    return f"export type JwsAlgorithm = {' | '.join(quoted(it.token for it in TOKENS))};\n"


def options(rows, says_old):
    """The choices of the demonstration, what is broken last."""
    for it in sorted(rows, key=lambda it: it.note == BROKEN):
        old = " (broken: for old lists)" if says_old and it.note == BROKEN else ""
        yield f'<option value="{in_javascript(it)}">{it.title}{old}</option>\n'


def lists_of_checksums():
    """By a checksum's digits, or by its tag, the algorithm. Of two with as many digits a list
    without tags has the first."""
    digits = {}
    for it in ALGORITHMS:
        digits.setdefault(2 * it.output_len, in_javascript(it))
    tags = [f'["{it.title.replace("-", "", 1)}", "{in_javascript(it)}"]' for it in ALGORITHMS]
    return (filled([*(f'[{len_}, "{name}"]' for len_, name in digits.items())], "  ",
                   "const OF_DIGITS = new Map([").rstrip("\n") + "]);\n"
            + filled(tags, "  ", "const OF_TAGS = new Map([").rstrip("\n") + "]);\n")


# --- pages ---


def table_of_statuses():
    rows = (f"|{number}|`YZ_{name}`|{text}|" for number, (name, text) in enumerate(STATUSES)
            if number)
    return "\n\n|Number|Status|Cause|\n|-|-|-|\n" + lines(rows) + "\n"


def names_of_lines():
    *others, last = [f"`{it.name}`" for it in KEYED]
    rest = ", ".join(f"`{it.name}`" for it in ALGORITHMS if it not in KEYED)
    return f"{', '.join(others)}, {last} or, of a digest alone, {rest}"


def names_of_tokens():
    *others, last = [f"`{it.token}`" for it in TOKENS]
    return f"{', '.join(others)} and {last}"


def names_of_manual():
    *others, last = [in_javascript(it).replace("-", r"\-") for it in ALGORITHMS]
    between = ' ", " '
    return f'.BR {between.join(others)} " or " {last} .\n'


# Each list: its file, its name there, and what makes it.
LISTS = (
    (HEADER, "algorithms", algorithms_of_header),
    (HEADER, "statuses", statuses_of_header),
    (HEADER, "lengths", lambda: lines(lengths_of_header())),
    (HEADER, "schemes", schemes_of_header),
    ("c/status.c", "statuses", texts_of_statuses),
    ("c/CALLS.md", "statuses", table_of_statuses),
    ("c/CALLS.md", "tokens", names_of_tokens),
    ("python/src/yezdopin/__init__.py", "constructors", constructors),
    ("python/src/yezdopin/__init__.py", "exported", exported_constructors),
    ("python/src/yezdopin/_native.pyi", "constructors", typed_constructors),
    ("python/src/yezdopin/_hashes.py", "names", names_of_hashes),
    ("python/src/yezdopin/_errors.py", "statuses", statuses_in_python),
    ("python/src/yezdopin/_errors.py", "texts", reasons_in_python),
    ("python/src/yezdopin/password_hash.py", "schemes", schemes_quoted),
    ("rust/src/calls.rs", "statuses", statuses_in_rust),
    ("rust/src/calls.rs", "calls", lambda: "".join(calls_in_rust())),
    ("rust/src/password_hash.rs", "texts", texts_in_rust),
    ("rust/src/password_hash.rs", "variants", variants_of_schemes),
    ("rust/src/password_hash.rs", "schemes", schemes_in_rust),
    ("rust/src/password_hash.rs", "names", names_of_schemes),
    ("javascript/package/inputs.js", "algorithms", algorithms_in_javascript),
    ("javascript/package/calls.js", "statuses", statuses_in_javascript),
    ("javascript/package/calls.js", "limits", limits_in_javascript),
    ("javascript/package/passwords.js", "schemes", schemes_in_javascript),
    ("javascript/package/types.d.ts", "algorithms", types_of_algorithms),
    ("javascript/package/types.d.ts", "schemes", types_of_schemes),
    ("javascript/package/types.d.ts", "tokens", types_of_tokens),
    ("javascript/demo/index.html", "digests", lambda: "\n" + "".join(options(ALGORITHMS, True))),
    ("javascript/demo/index.html", "keyed", lambda: "\n" + "".join(options(KEYED, False))),
    ("javascript/demo/lists.js", "algorithms", lists_of_checksums),
    ("README.md", "digests", lambda: named(ALGORITHMS, "or")),
    ("openssl/README.md", "digests", lambda: named(ALGORITHMS)),
    ("openssl/README.md", "keyed", lambda: named(KEYED)),
    ("docs/LINES.md", "names", names_of_lines),
    ("c/man/sums.1", "algorithms", names_of_manual),
)
# The files that are lists as a whole.
FILES = {
    "c/rows.h": rows_for_c,
    "python/native/rows.h": rows_for_python,
    "rust/src/rows.rs": rows_for_rust,
    "rust/rustcrypto/src/rows.rs": rows_for_rustcrypto,
}


def place_of(name, text):
    """Where a list of a file stands, behind its first comment and before its last."""
    begin = re.compile(rf"[^\n]*?\b{name}: {re.escape(MADE)}(?:(?: \*/)?\n| -->)")
    end = re.compile(rf"[ \t]*(?:/\*|//|#|\.\\\"|<!--) /{name}(?: \*/|\n| -->|$)")
    first = begin.search(text)
    last = end.search(text, first.end()) if first else None
    if not last:
        raise LookupError(f"there is no list {name}")
    return first.end(), last.start()


def made(path, text):
    """The text of a file with its lists as the rows have them."""
    if path in FILES:
        return FILES[path]()
    for file, name, make in LISTS:
        if file == path:
            begin, end = place_of(name, text)
            text = text[:begin] + make() + text[end:]
    return text


def paths():
    """The files that have lists."""
    return list(dict.fromkeys([*(it for it, _, _ in LISTS), *FILES]))


def text_of(path):
    file = ROOT / path
    return file.read_text() if file.exists() else ""


def stale():
    """The files whose lists are not those of the rows."""
    return [it for it in paths() if made(it, text_of(it)) != text_of(it)]


def main():
    found = stale()
    if sys.argv[1:] == ["--check"]:
        print("".join(f"stale: {it}\n" for it in found), end="")
        return bool(found)
    for it in found:
        (ROOT / it).write_text(made(it, text_of(it)))
        print(f"written: {it}")
    return 0


if __name__ == "__main__":
    sys.exit(main())
