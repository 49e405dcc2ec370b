#!/usr/bin/env python3
# SPDX-License-Identifier: ISC
"""Reads the comments of the libraries' public items, and fails where one leaves something out.

An item is public where a caller can name it: through public modules and what `pub use` gives again.
These are the rules:

- Each public item has a `///` comment: functions, types with their public fields and their
  variants, traits with their members, constants, and each `impl` of a trait that has a function,
  but for `Clone`.
- A call says what each parameter is: its name stands in backquotes, or in words, as in 'the
  message' or 'each pseudorandom key', but not only where a refusal is described.
- A call that returns a `Result` says when it is refused, or when it is Ok.
- A call that computes something of a standard names the standard and its section, as in
  '(FIPS 180-4, section 6)' or '(6.2.2)' where the module's page names the standard. These are the
  calls of the modules of STANDARDS that take parameters or return a `Result`, but for those of
  HOLD_VALUES, which store values or hand them back.

A comment may leave to another call what that call's comment says: 'As [`update_each_counted`], but
over vectors of another width' needs no more, where it takes no other parameters. The first line of
a module's page may name the one section of all its calls. A call without parameters, such as
`output_len`, needs a comment and nothing more.

Then it reads comments with a planted fault each, and fails where one isn't found. The tables of
docs/API.md must be as tools/call_tables.py makes them, with all its notes. The last line is
'N passed, M failed'.
"""

import pathlib
import re
import sys
import tempfile

sys.dont_write_bytecode = True
HERE = pathlib.Path(__file__).resolve().parent
sys.path += [str(HERE / "lib"), str(HERE.parent / "tools")]
import call_tables
import rattle_items

# The standard that defines the calls of a module and of those below it, the longest name first.
STANDARDS = {
    "ring_core::digest": "FIPS 180-4",
    "ring::digest": "FIPS 180-4",
    "ring::hmac": "RFC 2104",
    "ring::hkdf": "RFC 5869",
    "ring::pbkdf2": "RFC 2898",
    "ring_merkle::hash": "RFC 9162",
    "ring_merkle::inclusion": "RFC 9162",
    "ring_merkle::consistency": "RFC 9162",
    "ring_merkle::paths": "RFC 9162",
    "ring_tokens::jws": "RFC 7515",
    "ring_tokens::claims": "RFC 7519",
    "ring_schedules::extract": "RFC 5869",
    "ring_schedules::label": "RFC 8446",
    "ring_schedules::tls13": "RFC 8446",
    "ring_schedules::quic": "RFC 9001",
}
# Calls of these modules that compute nothing of a standard.
HOLD_VALUES = {
    "ring_core::digest::states": ("new", "splat", "state", "xor_assign"),
    "ring_core::digest::word::lanes": ("splat", "word", "with"),
    "ring::digest::dynstate": ("new32", "new64"),
}
SECTION = r"\(?(?:sections? )?\d+(?:\.\d+)*\b"
LINK = re.compile(r"\[`([\w:]+)`\](?:\(([\w:]+)\))?")
# What stands before a parameter that is named in words.
BEFORE = r"\b(?:the|an?|each|both|its?|their|this|these|those|several)(?: (?!of )\w+)? "
OUTCOME = re.compile(r"\brefus(?:e[ds]?|al)\b|\bOk exactly\b", re.I)

# A module without a fault, its page with a section for all calls, and texts with others in their
# place: something that each call then lacks.
SOUND = """//! Tags (RFC 2104).
/// The tag of each message under `key` (RFC 2104, section 2).
///
/// Refused where one is too long.
pub fn sign(key: &Key, messages: &[u8]) -> Result<Tag, Unspecified> {}
/// As [`sign`], and counts the blocks on `meter`.
pub fn sign_counted(key: &Key, messages: &[u8], meter: &mut Meter) -> Result<Tag, Unspecified> {}
/// As [`sign_counted`](crate::hmac::sign_counted), but with `out` for the tag.
pub fn sign_to(key: &Key, messages: &[u8], meter: &mut Meter, out: &mut [u8])
    -> Result<(), Unspecified> {}
"""
WITH_SECTION = SOUND.replace(", section 2)", ")").replace(
    "s (RFC 2104)", "s (RFC 2104, section 9.9)"
)
CALLS = ("sign", "sign_counted", "sign_to")
PLANTED = (
    ("under `key` ", "", dict.fromkeys(CALLS, "does not say what `key` is")),
    ("each message", "some bytes", dict.fromkeys(CALLS, "does not say what `messages` is")),
    ("each message", "messages", dict.fromkeys(CALLS, "does not say what `messages` is")),
    ("each message under `key` (RFC 2104, section 2).\n///\n/// Refused where one",
     "bytes under `key` (RFC 2104, section 2).\n///\n/// Refused where the message",
     dict.fromkeys(CALLS, "does not say what `messages` is")),
    ("under `key`", "under a monkey", dict.fromkeys(CALLS, "does not say what `key` is")),
    ("/// Refused where one is too long.\n", "",
     dict.fromkeys(CALLS, "does not say when it is refused")),
    (", section 2)", ")", dict.fromkeys(CALLS, "names no section of RFC 2104")),
    (" on `meter`", "", {it: "does not say what `meter` is" for it in CALLS[1:]}),
    (" with `out` for the tag", " not so", {"sign_to": "does not say what `out` is"}),
    ("As [`sign`]", "As `sign`", {it: "names no section of RFC 2104" for it in CALLS[1:]}),
    ("As [`sign`]", "As [`Tag`]", {it: "does not say what `key` is" for it in CALLS[1:]}),
    ("As [`sign`]", "As [`sign_to`]", {it: "does not say what `key` is" for it in CALLS[1:]}),
    ("crate::hmac::sign_counted", "crate::hmac::signs",
     {"sign_to": "does not say what `meter` is"}),
    ("/// As [`sign`], and counts the blocks on `meter`.\n", "",
     {"sign_counted": "has no comment", "sign_to": "does not say what `key` is"}),
)


def linked_calls(sources, call):
    """The calls that a comment links to."""
    for it in LINK.finditer(call.comment):
        found = sources.resolve(call.module, tuple((it[2] or it[1]).split("::")))
        if isinstance(found, rattle_items.Item) and found.kind == "fn":
            yield found


def is_said(sources, call, test, asked=()):
    """Whether the comment of a call passes a test, or that of a call which it links to does."""
    if any(call is it for it in asked):
        return False
    linked = linked_calls(sources, call)
    return test(call) or any(is_said(sources, it, test, (*asked, call)) for it in linked)


def says_what_is(name, call):
    """Whether the comment of a call names one of its parameters: in words, before the refusal."""
    words = name.removesuffix("s").replace("_", "[_ -]")
    told = re.sub(r"^Refused.*?(?:\n\n|\Z)", "", call.comment, flags=re.M | re.S)
    return name in call.parameters and (
        re.search(rf"`{name}\b", call.comment)
        or re.search(rf"{BEFORE}{words}(?:e?s)?\b", " ".join(told.split()), re.I)
    )


def is_fallible(call):
    """Whether a call returns a `Result`."""
    return call.result.startswith("Result<")


def says_when_refused(call):
    """Whether the comment of a call that returns a `Result` says when it is refused."""
    return is_fallible(call) and OUTCOME.search(call.comment)


def names_section(standard, page, text):
    """Whether a comment names a section, of a standard that it or the module's page names."""
    short = r"\(\d+\.\d+(?:\.\d+)*[^()]*\)" if f"{standard}," in page else "(?!)"
    return re.search(rf"{standard}, {SECTION}|{short}", " ".join(text.split()))


def lacks_section(sources, page, call):
    """The standard of which neither the comment nor the module's page names a section, or None."""
    standard = next((it for module, it in STANDARDS.items() if page.name.startswith(module)), None)
    if not standard or call.name in HOLD_VALUES.get(page.name, ()):
        return None
    if re.search(rf"{standard}, section \d+\.\d", page.page.partition("\n")[0]):
        return None
    is_named = is_said(sources, call, lambda it: names_section(standard, page.page, it.comment))
    return None if is_named else standard


def faults_of_call(sources, page, call):
    """What the comment of a function leaves out."""
    for name in call.parameters:
        if not is_said(sources, call, lambda it: says_what_is(name, it)):
            yield f"does not say what `{name}` is"
    if is_fallible(call) and not is_said(sources, call, says_when_refused):
        yield "does not say when it is refused"
    standard = lacks_section(sources, page, call)
    if (call.parameters or is_fallible(call)) and standard:
        yield f"names no section of {standard}"


def needs_comment(impl):
    """Whether an `impl` of a trait is one that a reader needs to be told of."""
    return any(it.kind == "fn" for it in impl.members) and " Clone for " not in impl.signature


def public_items(sources, page):
    """The name and the item of all that a page has: its items, their members and `impl` blocks."""
    for item in sources.shown_at(page):
        yield item.name, item
        if item.kind not in ("struct", "enum", "trait"):
            continue
        for it in sources.members(item):
            if it.kind != "ghost":
                yield f"{item.name}::{it.name}", it
        for it in filter(needs_comment, sources.trait_impls(item)):
            yield " ".join(it.signature.split()), it


def faults(sources, page, item):
    """What a public item lacks."""
    if not item.comment.strip():
        return ["has no comment"]
    return list(faults_of_call(sources, page, item)) if item.kind == "fn" else []


def faults_by_item(sources):
    """Each public item, with its name and what it lacks."""
    for page in sources.pages:
        for name, item in public_items(sources, page):
            yield name, item, faults(sources, page, item)


def faults_of_text(text):
    """What each call of a module lacks that stands in the place of `ring::hmac`."""
    root = rattle_items.ROOT
    with tempfile.TemporaryDirectory() as folder:
        source = pathlib.Path(folder, "crates/ring/src")
        source.mkdir(parents=True)
        (source / "lib.rt").write_text("//! Tags.\n/// Tags.\npub mod hmac;\n")
        (source / "hmac.rt").write_text(text)
        rattle_items.ROOT = pathlib.Path(folder)
        try:
            sources = rattle_items.Sources(("ring",))
            return {name: found for name, _, found in faults_by_item(sources) if found}
        finally:
            rattle_items.ROOT = root


def missed_faults():
    """The planted faults that are not found, and what is found without one."""
    for text in (SOUND, WITH_SECTION):
        if found := faults_of_text(text):
            yield f"a module without a fault: {found}"
    for old, new, wanted in PLANTED:
        found = faults_of_text(SOUND.replace(old, new))
        if SOUND.count(old) != 1 or list(found) != list(wanted) or any(
            it not in found[name] for name, it in wanted.items()
        ):
            yield f"{new!r} for {old!r}: {found}"


def tables_of_page(page):
    """Whether docs/API.md has the tables of the sources and notes, and whether a changed one and
    a note without a call show."""
    yield call_tables.is_as_written(page), "other tables: run `python3 tools/call_tables.py`"
    changed = page.replace("|255 digests|", "|256 digests|", 1)
    yield not call_tables.is_as_written(changed), "a planted fault is not found"
    yield call_tables.has_all_notes(page), "a note of tools/call_tables.py is of no call"
    without = page.replace("|255 digests|", "||", 1)
    yield not call_tables.has_all_notes(without), "a planted note of no call is not found"


def main():
    passed, failed = 0, 0
    for name, item, found in faults_by_item(rattle_items.Sources()):
        passed, failed = passed + (not found), failed + bool(found)
        if found:
            place = f"{item.module.file.relative_to(rattle_items.ROOT)}:{item.line}"
            print(f"FAILED: {place}: {name}: {', '.join(found)}")
    missed = list(missed_faults())
    for it in missed:
        print(f"FAILED: planted, and taken wrongly: {it}")
    passed, failed = passed + len(PLANTED) + 2 - len(missed), failed + len(missed)
    for is_right, fault in tables_of_page(call_tables.PAGE.read_text()):
        passed, failed = passed + is_right, failed + (not is_right)
        print("" if is_right else f"FAILED: docs/API.md: {fault}\n", end="")
    print(f"{passed} passed, {failed} failed")
    return failed != 0 or not passed


if __name__ == "__main__":
    sys.exit(main())
