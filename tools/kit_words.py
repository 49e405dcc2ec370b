#!/usr/bin/env python3
# SPDX-License-Identifier: ISC
"""Writes docs/GLOSSARY.md: what the kit's words say that definitions and contracts are written in.

    tools/kit_words.py            # writes the page
    tools/kit_words.py --check    # ends with 1 where a word lacks a line, or the page isn't new

The words are those that the files of crates/*/specs import from crates that are not this
repository's, and those that clauses in crates/*/src import by `ghost use`. LINES say what they
mean; lemmas, which are imported from a folder `proofs`, need no line. What the language itself has
is in LANGUAGE.
"""

import pathlib
import re
import sys

ROOT = pathlib.Path(__file__).resolve().parent.parent
PAGE = ROOT / "docs/GLOSSARY.md"
IMPORT = re.compile(
    r"^\s*(?:pub |ghost |unfoldable )*use Rattle\.(\w+)\.([\w.]+)\.\{([^}]*)\}", re.M)

LANGUAGE = {
    "`f : A → B`, `f x`": "f takes an A and gives a B; f at x",
    "`Type 0`": "a statement or a set; `A → Type 0` is a property of A",
    "`(x : A) → P x`": "P x for each x of A; in `{}` it may be left out",
    "`(x : A) × P x`": "an x of A has P x",
    "`A × B`, `A ⊎ B`, `¬ A`, `⊥`": "both; one of them; not A; never",
    "`(a, b)`, `p.0`, `p.1`": "a pair and its parts; of three `p.1.0` is the second",
    "`λ x. e`": "the function from x to e",
    "`let x = e in f`": "f, where x is e",
    "`record .. where`, `r.field`": "a record; as a statement, all fields hold",
    "`data .. where`": "a type by its variants, as Rust's enum",
    "`abbrev`": "a short name of its right side",
    "`unfoldable`": "proofs open it only on demand",
    "`pub`, `use`, `as`": "may be imported; imports; under another name",
    "`f ≡ ..` on several lines": "the first line that fits, as in `match`",
    "`x ← a` in `do`": "with the value of a, else none",
    "`x.now`": "what the reference x points to",
    "`x.old`, `x.new`": "before and after the call, for a `&mut`",
    "`result`": "what the call returns",
    "`requires`, `ensures`": "what callers prove; what is proved of each return",
    "`declared`": "of the code, as in `specs.declared.digest`",
    "`TheConstants`, `TheVariants`": "a module's constants; an enum's variants",
}
# The words of a line stand beside each other, and say one thing each, in that order.
LINES = {
    "As in Rust": {
        "Vec Array Wrapping NonZeroU32 NonZeroU64 u8 min max": "the same",
        "Global": "the allocator of programs",
        "non_zero_u32_get non_zero_u64_get": "`get`",
        "Result Ok Err Option Some None is_ok is_some is_none": "the same",
        "result_ok result_err option_map option_and_then": "`ok`, `err`, `map`, `and_then`",
        "option_or option_copied unwrap_or": "`or`, `copied`, `unwrap_or`",
        "map filter filter_map flat_map zip find": "an iterator's, of a list",
        "sum count_by list_all list_any position": "likewise, `count_by` of those that pass",
        "count_ones is_power_of_two div_ceil from_be_bytes to_be_bytes": "a number's",
        "is_control is_ascii_digit is_ascii_hexdigit is_ascii_uppercase encode_utf8":
            "a character's",
    },
    "Numbers and truth values": {
        "ℕ ℤ": "0, 1, 2, ..: no sum wraps; also negative",
        "zero suc pos": "0; one more; of ℕ as one of ℤ",
        "◌+◌ ◌*◌ ◌^◌": "sum; product; power",
        "◌-◌": "difference, or 0 if negative",
        "◌/◌ ◌%◌": "quotient, rounded down; remainder",
        "◌<◌ ◌≤◌ ◌≡◌ ◌≢◌": "statements: less; at most; equal; not equal",
        "◌↔◌ ◌⊎◌ ⊤": "equivalent; one holds; always",
        "Bool true false": "`true` or `false`, as a value",
        "◌==◌ nat_eq": "equality, as a Bool",
        "nat_lt nat_le": "less; at most, as Bools",
        "nat_cmp slice_cmp": "less, equal or greater; of lists, by element",
        "not ◌&&◌ ◌||◌": "the other Bool; both; one of them",
        "if◌then◌else◌ cond": "the first if true, else the second",
        "IsTrue IsFalse": "a Bool is true; is false",
        "bit_and bit_or bit_xor": "bits of both; of either; of exactly one",
        "IsPowerOfTwo": "exactly one bit is 1",
        "w32 w64 w128": "widths of as many bits",
        "bytes_high_first": "`bytes_high_first k n`: the lowest k bytes of n, highest first",
        "number_from_digits": "of digits to a base, highest first",
        "decimal": "decimal digits as bytes",
        "digit_value hex_digit_value": "a digit's value to a base; a hex digit's",
        "AllDigits digits_value": "all bytes are digits to a base; the number that they write",
        "iterate": "`iterate h n x`: h applied n times to x",
    },
    "Lists": {
        "List []": "a list (bytes: `List ℕ`); the empty one",
        "◌∷◌ ◌++◌": "element, then list; list, then list",
        "length vec_len": "number of elements; of a Vec",
        "take drop": "`take n xs`: the first n, or all; `drop n xs`: the rest",
        "replicate": "`replicate n x`: n times x",
        "slice_index": "`slice_index xs i`: the number at i, from 0; past the end 0",
        "slice_index_or get_or": "`slice_index_or xs i d`: likewise; past the end d",
        "slice_get": "the element at i, if there is one",
        "slice_split": "parts between the elements that pass",
        "sum_by": "the sum of what f gives",
        "All HoldsAt": "it holds of each element; of that at k",
        "AllZip": "it holds of elements at the same place",
        "Contains": "x is an element",
        "position_or_len": "the first that passes, or the length",
        "range_with_len": "`range_with_len a n`: n numbers from a on",
        "first_chunks": "`first_chunks n k xs`: the first k pieces of n elements",
        "is_sorted below_all": "the keys rise; a key is below all others",
        "IsPermutation IsSorted": "the same elements in any order; none is less than one before",
        "ends_with": "one list ends another",
        "into_iter_items YieldsFirstRef": "what an iterator has left; it gives the first",
        "at_most UpTo IsWithinCount": "an iterator's bounded count; at most n; at least n",
        "Bor Lends": "a reference, to `.now`; a change of the part is one of the whole",
        "sem type_size": "a type's values; its size in bytes",
        "coded_list coded_ℕ": "that a ghost value may be a list; a number",
    },
    "Results": {
        "IfOk IfErr": "`IfOk r P`: if r is a value, P holds of it; of the error",
        "OnOk OnErr": "if there is a value, this holds; an error",
        "IsOk IsErr IsErrOf IsErrAnd": "r is a value; an error; this error; one with P",
        "IsOkUnless": "a value, or this error",
        "IsSome IsNone": "there is a value; none",
        "IfSome IsSomeAnd": "a value, if any, has P; there is one, with P",
        "MatchOption": "one statement without a value, another of it",
    },
    "Text": {
        "codes string_bytes": "bytes of a text in quotes; of a String",
        "bytes_eq": "equality of bytes",
        "IsBytes IsAscii": "each is below 256; below 128",
        "chars IsUtf8": "characters of bytes in UTF-8; the bytes are UTF-8",
        "encode_lower": "hex of bytes, in lower case",
        "decode_of decode_sized": "bytes of hex, or why none; in room for n",
        "FromHexError": "why some text is no hex",
        "encode encode_of": "base64 of bytes (RFC 4648); by some engine",
        "standard standard_no_pad url_safe_no_pad":
            "base64; without `=`; base64url (RFC 4648, 5) without",
        "unpadded_len IsStrict": "base64's letters of n bytes; one text a value",
        "Json document value_view": "a JSON value; of a text, if any; of a parsed value",
        "null boolean number string array object": "JSON's values",
        "get HasUniqueKeys": "`get name v`: the member, if any; no object has a name twice",
        "path_parent path_file_name dir_entry_name":
            "a path's folder; its last name; that of a folder's entry",
    },
    "Reading, writing, errors of the system": {
        "Error error_kind": "of reading or writing; its kind",
        "os_error_kind Interrupted": "the kind of a system's number; the one tried again",
        "append_known Appends": "known bytes and further ones; known bytes grow by these",
        "AppendsText": "a text grows by these",
        "StartsWith": "the second list is a front of the first",
        "Consumes Keeps IsAtEnd": "known bytes lose these in front; stay; are none",
        "ReadConsumes ReadsAtMost": "a read took what it gave; gave at most its room",
        "prepend_known": "known bytes with these before them",
        "first_piece": "the bytes up to the first of this value",
        "drop_through DropsThrough":
            "what follows the first such byte; known bytes lose all up to it",
        "strip_last": "without a last such byte",
    },
    "Beside which ours are proved equal, and for tactics": {
        "sha1 sha256 sha512": "the kit's definitions",
        "refl": "a thing equals itself",
        "arith rules lit<": "laws for tactics: of numbers; others; of literals",
    },
}
KIT = [word for lines in LINES.values() for words in lines for word in words.split()]

HEAD = """# Words of definitions and contracts

What the kit's words say in `crates/*/specs` and the clauses of `crates/*/src`. {made} `◌` is an \
argument's place: `a ◌++◌ b` is written `a ++ b`. Other words are [defined](DEFINITIONS.md) in \
`specs/`.

## The language

|Form|What it says|
|-|-|
{forms}

## The kit's words
{topics}
"""
MADE = "`tools/kit_words.py` makes this page; `tests/glossary.py` fails where a word lacks a line."


def imported(files):
    """The words that files import from the kit, but for lemmas: each with a file that has it."""
    ours = {it.name for it in (ROOT / "crates").iterdir()}
    found = {}
    for path in files:
        text = re.sub(r"(--|//).*", "", path.read_text())
        for crate, module, words in IMPORT.findall(text):
            is_lemma = module.startswith("proofs.") and module != "proofs.Common"
            if crate in ours or is_lemma:
                continue
            for word in words.split(","):
                word = word.split(" as ")[0].strip()
                if word and not (module == "proofs.Common" and word not in KIT):
                    found.setdefault(word, path)
    return found


def used():
    """The words of all definitions and clauses."""
    specs = sorted((ROOT / "crates").glob("*/specs/**/*.antt"))
    return imported(specs + sorted((ROOT / "crates").glob("*/src/**/*.rt")))


def faults(words):
    """What is wrong between the words that are used and those that have a line."""
    for word, path in sorted(words.items()):
        if word not in KIT:
            yield f"{path.relative_to(ROOT)}: `{word}` has no line in tools/kit_words.py"
    for word in KIT:
        if word not in words:
            yield f"tools/kit_words.py: nothing imports `{word}`"


def line(words, said):
    """A line of the page: words, and what each says."""
    named = ", ".join(f"`{word}`" for word in words.split()).replace("||", "\\|\\|")
    return f"|{named}|{said}|"


def topic(heading, lines):
    """The words of one topic as a table."""
    rows = [line(words, said) for words, said in lines.items()]
    return "\n".join(["", f"### {heading}", "", "|Word|What it says|", "|-|-|", *rows])


def page():
    """The text of the page."""
    forms = [f"|{form}|{said}|" for form, said in LANGUAGE.items()]
    topics = [topic(*it) for it in LINES.items()]
    return HEAD.format(made=MADE, forms="\n".join(forms), topics="\n".join(topics))


def main():
    """Writes the page, or says what is wrong."""
    found = list(faults(used()))
    if sys.argv[1:] == ["--check"]:
        if PAGE.read_text() != page():
            found.append("docs/GLOSSARY.md is not as tools/kit_words.py writes it")
    else:
        PAGE.write_text(page())
    for fault in found:
        print(fault, file=sys.stderr)
    return bool(found)


if __name__ == "__main__":
    sys.exit(main())
