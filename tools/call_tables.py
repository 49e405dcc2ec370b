"""Writes the tables of docs/API.md, from the line "## Calls" on, of the items of the sources: each
call with its parameters, a mark where it can be refused, and what NOTES say of it.

`python3 tools/call_tables.py` writes them anew; tests/comments.py compares them.
"""

import pathlib
import re
import sys

sys.dont_write_bytecode = True
sys.path.append(str(pathlib.Path(__file__).resolve().parent.parent / "tests/lib"))
import rattle_items

PAGE = rattle_items.ROOT / "docs/API.md"
HEAD = "## Calls\n"
LIBRARIES = (
    "ring", "ring_store", "ring_store_text", "ring_password_hash", "ring_merkle", "ring_tokens",
)
# Facts for proofs, and what the page names above its tables.
LEFT_OUT = (
    "ring::laws", "ring::raw", "ring::digest::dynstate", "ring_core::bits", "ring_core::digest",
    "ring_core::error", "ring_core::polyfill", "ring_store::laws", "ring_store_text::laws",
    "ring_password_hash::laws", "ring_merkle::laws", "ring_tokens::laws",
)
# What name and parameters of a call don't say, in some eight words. The whole is in its comment.
NOTES = {
    "ring::bb::xor_assign_at_start": "up to the end of the shorter",
    "ring::digest::digest_each_bytes_in": "the digests, one after another",
    "ring::digest::is_len_of_digests": "what `digest_each_bytes_in` asks of `out`",
    "ring::digest::update_each_counted": "each piece to the context at its index",
    "ring::hkdf::is_output_within": "whether HKDF expands to `len` bytes",
    "ring::hkdf::max_okm_len": "255 digests",
    "ring::hkdf::Okm::fill": "the whole of `out`",
    "ring::hkdf::Prk::new_less_safe": "the PRK is `value`, without an extract",
    "ring::hmac::is_tag_within": "whether HMAC signs `len` bytes",
    "ring::hmac::Key::generate": "of the next bytes of `rng`",
    "ring::pbkdf2::verify": "an empty value is refused",
    "ring::pbkdf2::max_dk_len": "`2^32 - 1` digests",
    "ring::pbkdf2::derive_each_counted": "keys of `N` bytes",
    "ring::pbkdf2::verify_each_counted": "values of `N` bytes",
    "ring::rand::generate": "of the next bytes of `rng`",
    "ring::rand::SecureRandom::is_ready": "whether `fill` would write `len` bytes",
    "ring_store::PasswordStore::run": "the calls of `commands`, in order",
    "ring_store::PasswordStore::record": "iteration count and credential",
    "ring_store::PasswordStore::remove": "says whether there was a record",
    "ring_store::PasswordStore::name_at": "in the order of names",
    "ring_store::PasswordStore::new_in": "in memory of any allocator",
    "ring_store::PasswordStore::set_password": "of a new or known name",
    "ring_store::PasswordStore::verify_password": "derives a record of fewer iterations again",
    "ring_store::PasswordStore::check_password": "changes no record",
    "ring_store::PasswordStore::set_iterations": "of new credentials",
    "ring_store::TokenMaker::new": "its key by HKDF with SHA-256",
    "ring_store::TokenMaker::check": "also that `expiry` is not before `now`",
    "ring_password_hash::needs_preparation": "by SASLprep, for `Scheme::Postgresql`",
    "ring_password_hash::verify": "`text` is of any scheme",
    "ring_password_hash::Stored::parse": "of any scheme",
    "ring_password_hash::Stored::write_to": "returns the length, at most `MAX_TEXT_LEN`",
    "ring_password_hash::salt::Salt::of": "the salt that `bytes` make",
    "ring_merkle::verify_consistency": "whether the first tree begins the second",
    "ring_merkle::verify_inclusion": "whether the leaf hash is at `index`",
    "ring_merkle::tree_root": "of leaf hashes",
    "ring_merkle::Tree::push": "a leaf's hash",
    "ring_tokens::jws::verify": "the payload",
    "ring_tokens::jws::verify_in_place": "the payload, at the start of `out`",
    "ring_tokens::jws::sign_in_place": "at the start of `out`",
    "ring_tokens::jws::sign": 'under the header `{"alg":..,"typ":"JWT"}`',
    "ring_tokens::otp::eight_digits": "of a number below 10^8",
    "ring_tokens::otp::find_hotp": "the first counter whose password is `text`",
    "ring_tokens::otp::totp": "`time` in seconds since 1970",
    "ring_tokens::otp::find_totp": "the first step whose password is `text`",
    "ring_tokens::webhook::verify_github": "`header` is `X-Hub-Signature-256`",
    "ring_tokens::webhook::verify_hex": "`prefix`, the tag",
    "ring_tokens::webhook::verify_stripe": "`header` is `Stripe-Signature`",
}


def marks(item, found):
    """The marks of a call that can be refused, and of the further forms that it has among some
    items."""
    stem = item.name.removesuffix("_counted")
    forms = {it.name: it.signature for it in found if it.name.startswith(f"{stem}_")}
    is_wide = "VECTOR_BITS" in forms.get(f"{stem}_in", "")
    can_fail = item.result.startswith("Result<")
    shown = "!" * can_fail + "+" * (f"{item.name}_counted" in forms) + "*" * is_wide
    return " " * bool(shown) + shown


def is_row(item, names):
    """Whether an item is a call with a row of its own: one that takes or refuses something, and is
    no further form of another."""
    plain = re.sub("_(?:counted|in)$", "", item.name)
    shorter = {plain, f"{plain}_counted"} if item.name.endswith("_in") else {plain}
    is_other = bool(shorter & (names - {item.name})) and item.name != "new_in"
    takes = item.kind == "fn" and (item.parameters or item.result.startswith("Result<"))
    return bool(takes) and not is_other


def link(item, name):
    """A name that links to the file in which its item stands."""
    return f"[`{name}`](../{item.module.file.relative_to(rattle_items.ROOT)})"


def rows_of(page, owner, found):
    """The rows of the calls among some items of a module, of a type where there is one: each with
    its note, if it has one."""
    names = {item.name for item in found}
    for item in (it for it in found if is_row(it, names)):
        name = f"{owner}::{item.name}" if owner else item.name
        call = f"{link(item, name)}`({', '.join(item.parameters)})`{marks(item, found)}"
        yield call, NOTES.get(f"{page}::{name}")


def table(rows):
    """A table of calls, with a column of notes where one has any."""
    if not any(note for _, note in rows):
        return "\n".join(["|Call|", "|-|", *(f"|{call}|" for call, _ in rows)])
    return "\n".join(["|Call|Note|", "|-|-|", *(f"|{call}|{note or ''}|" for call, note in rows)])


def shown_name(page):
    """The name under which a caller finds a module: `ring` exports those of `ring_core`."""
    return re.sub("^ring_core::", "ring::", page.name)


def named(sources, item):
    """A type or trait with its variants and the calls that have no row of their own."""
    members = [it for it in sources.members(item) if it.kind in ("fn", "part") and it.name]
    names = {it.name for it in members}
    parts = members if item.kind == "enum" else [it for it in members if it.kind == "fn"]
    plain = (it for it in parts if not it.name.endswith(("_counted", "_in")))
    inner = dict.fromkeys(it.name for it in plain if not is_row(it, names))
    return link(item, item.name) + (f"`::{{{', '.join(inner)}}}`" if inner else "")


def lines_of_page(sources, page):
    """A module's types and constants, and the table of its calls."""
    found = list(sources.shown_at(page))
    types = [it for it in found if it.kind in ("struct", "enum", "trait")]
    constants = [f"`{it.name}`" for it in found if it.kind == "const"]
    shown = ", ".join([*(named(sources, it) for it in types), *constants])
    rows = list(rows_of(shown_name(page), "", [it for it in found if it.kind == "fn"]))
    for item in types:
        rows += rows_of(shown_name(page), item.name, sources.members(item))
    return list(filter(None, [shown, table(rows) if rows else ""]))


def tables():
    """The section, with its heading."""
    sources = rattle_items.Sources(("ring_core", *LIBRARIES))
    parts = [HEAD]
    for page in sources.pages:
        shown = [] if page.name.startswith(LEFT_OUT) else lines_of_page(sources, page)
        if shown:
            parts += [f"### `{shown_name(page)}`", *shown]
    return "\n\n".join(part.strip("\n") for part in parts) + "\n"


def has_all_notes(text):
    """Whether a text has a row for each note: none is of a call that isn't there."""
    return len(re.findall(r"^\|\[[^|]*\|[^|]+\|$", text, re.M)) == len(NOTES)


def is_as_written(page=None):
    """Whether the page, or another text of it, has the tables that the sources and NOTES give."""
    return (PAGE.read_text() if page is None else page).endswith(f"\n{tables()}")


def write():
    """Writes the tables anew."""
    front = PAGE.read_text().partition(f"\n{HEAD}")[0]
    PAGE.write_text(f"{front.rstrip()}\n\n{tables()}")


if __name__ == "__main__":
    write()
