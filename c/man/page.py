#!/usr/bin/env python3
# SPDX-License-Identifier: ISC
"""Writes the manual page yezdopin.3 beside this file, made of the comments and declarations of
include/yezdopin.h and of the example of README.md.

c/test/manual compares the page with what this makes.
"""

import pathlib
import re
import textwrap

HERE = pathlib.Path(__file__).resolve().parent
HEADER = HERE.parent / "include/yezdopin.h"
README = HERE.parent / "README.md"
PAGE = HERE / "yezdopin.3"

HEAD = r"""'\" t
.\" SPDX-License-Identifier: ISC
.\" Copyright 2026 the Yezdopin authors.
.\" Made by man/page.py of the comments in include/yezdopin.h: change these.
.TH YEZDOPIN 3 "" "yezdopin @version@" "Library Functions Manual"
.SH NAME
yezdopin \- digests, HMAC, HKDF and PBKDF2, proved to give the standards' bytes
.SH LIBRARY
libyezdopin
.RI ( -lyezdopin ,
.IR "pkg-config yezdopin" )
"""
END = """.SH SEE ALSO
.BR sha256sum (1),
.BR getrandom (2)
"""
# What the head comment says below its description: the list of the caller's duties, and the rest.
DUTIES, ANSWERS = "The caller must ensure", "A call that can be refused"
CALL = re.compile(
    r"^(?:bool|void|size_t|uint32_t|yz_status|const char) \*?(yz_\w+)\((?:[^;]*?\)) ?"
    r"(?:YZ_MUST_CHECK)?;", re.M,
)
INLINE = re.compile(r"^static inline (bool (yz_\w+)\(void\)) \{", re.M)


def blocks(header):
    """Each comment of the header that begins a line, with the declarations below it."""
    header = re.sub(r"^ *\/\* (?:\w+: made by tools/lists.py|/\w+) \*/\n", "", header, flags=re.M)
    body = header.partition('extern "C" {')
    found = re.split(r"^(/\* .*?\*/)$", body[0] + body[2], flags=re.M | re.S)
    comments = [re.sub(r"^ ?/?\*/? ?|(?<= )\*/$|\*/$", "", it, flags=re.M) for it in found[1::2]]
    return list(zip(comments, found[2::2]))


def without_comments(code):
    """Code without its comments and the bodies of its functions."""
    return re.sub(r"/\*.*?\*/", "", INLINE.sub(r"\1;", code), flags=re.S)


def marked(text):
    """Text with its names of calls, constants and parameters in their fonts, and its signs."""
    text = text.replace("\\", r"\e")
    text = re.sub(r"(?<= )- (?=\d)", r"\\- ", text)
    text = re.sub(r"`([^`]+)`", r"\\fI\1\\fP", text)
    text = re.sub(r"\b(yz_\w+|YZ_\w+)\b(?![\w`])", r"\\fB\1\\fP", text)
    return re.sub(r"^(?=[.'])", r"\\&", text, flags=re.M)


def filled(text):
    """A paragraph, filled anew and marked."""
    return marked("\n".join(textwrap.wrap(" ".join(text.split()), 88, break_on_hyphens=False)))


def paragraphs(text):
    """The paragraphs of a comment, and the entries of its lists."""
    for part in re.split(r"\n\s*\n", text.strip()):
        first, *entries = re.split(r"^- ", part, flags=re.M)
        yield filled(first)
        if entries:
            yield "\n".join(f".IP \\(bu 2\n{filled(it)}" for it in entries)


def prose(text, between=".P"):
    """A comment's paragraphs, with a macro between."""
    return f"\n{between}\n".join(paragraphs(text)).replace(f"{between}\n.IP", ".IP")


def synopsis(found):
    """The declarations of the calls, those below one comment together."""
    groups = []
    for _, code in found:
        found = CALL.finditer(without_comments(code))
        groups.append("\n".join(it[0].replace(" YZ_MUST_CHECK", "") for it in found))
    lines = "\n\n".join(dict.fromkeys(filter(None, groups))).splitlines()
    shown = [f'.B "{it}"' if it.startswith(" ") else f".B {it}" if it else ".P" for it in lines]
    return "\n".join([".SH SYNOPSIS", ".nf", ".B #include <yezdopin.h>", ".P", *shown, ".fi"])


def calls(found):
    """What each comment says of the calls below it; of a call that stands twice, both together."""
    told = set()
    for comment, code in found:
        names = list(dict.fromkeys(CALL.findall(without_comments(code))))
        if names and told.issuperset(names):
            yield f".IP\n{prose(comment, '.IP')}"
        elif names:
            heads = "\n.TQ\n".join(f".BR {name} ()" for name in names)
            yield f".TP\n{heads}\n{prose(comment, '.IP')}"
        told.update(names)


def types(found):
    """What the comments say of the structs that a caller holds."""
    for comment, code in found:
        names = re.findall(r"^} (yz_\w+);(?: /\* (.*?) \*/)?$", code, re.M)
        if names:
            named = [f"\\fB{name}\\fP" + f" ({size})" * bool(size) for name, size in names]
            noun = "The types:" if named[1:] else "The type:"
            yield f".P\n{prose(comment)}\n.P\n{noun} " + ",\n".join(named) + "."


def plain_number(value):
    """A value as a reader who is no compiler writes it."""
    value = re.sub(r"^\((.*)\)$", r"\1", value.replace("UINT64_C(0xffffffff)", r"(2^32 \- 1)"))
    return re.sub(r"(?<=\d)u\b|\bYZ_AS_SIZE(?=\(n\))", "", value)


def constants(found):
    """What comments say of constants, and a table of these, but for statuses and the version."""
    for comment, code in found:
        rows = re.findall(r"^    (YZ_\w+) = (\d+),(?: /\* (.*?) \*/)?$", code, re.M)
        rows += re.findall(r"^#define (YZ_\w+(?:\([\w, ]+\))?) (\d+|\(.*\))()$", code, re.M)
        if rows and not re.search("YZ_OK|YZ_VERSION", code):
            cells = (f"{name}|{plain_number(value)}|{note}" for name, value, note in rows)
            yield "" if CALL.search(code) else f".P\n{prose(comment)}"
            yield "\n".join([".TS", "tab(|);", "lB l l.", *cells, ".TE"])


def statuses(found):
    """The statuses, each with its number and its cause."""
    code = next(code for _, code in found if "YZ_OK" in code)
    for name, number, cause in re.findall(r"^    (YZ_\w+) = (\d+), +/\* (.*) \*/$", code, re.M):
        yield f'.TP\n.BR {name} " ({number})"\n{filled(cause[0].upper() + cause[1:] + ".")}'


def example(readme):
    """The first C text of the page for the library."""
    text = re.search(r"^```c\n(.*?)^```$", readme, re.M | re.S)[1]
    return text.replace("\\", r"\e").replace("-", r"\-").rstrip()


def made(header, readme):
    """The page."""
    (head, _), *found = blocks(header)
    head = head.partition("authors.\n")[2]
    about, _, rest = head.partition(DUTIES)
    duties, _, answers = rest.partition(ANSWERS)
    return "\n".join([
        HEAD + synopsis(found),
        ".SH DESCRIPTION", prose(about),
        ".SS Calls", *calls(found),
        ".SS Types", *types(found),
        ".SS Constants", *filter(None, constants(found)),
        ".SH RETURN VALUE", prose(ANSWERS + answers), *statuses(found),
        ".SH NOTES", prose(DUTIES + duties),
        ".SH EXAMPLES", "The tag of a message under a key, and its verification:",
        ".P", ".in +4n", ".EX", example(readme), ".EE", ".in", END,
    ])


if __name__ == "__main__":
    PAGE.write_text(made(HEADER.read_text(), README.read_text()))
