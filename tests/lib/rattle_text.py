# SPDX-License-Identifier: ISC
"""What a search knows of the text of a source file: where its brackets close, and its functions."""

import dataclasses
import functools
import re

# What is passed over where brackets are counted.
SKIPPED = re.compile(r'//[^\n]*|"(?:\\.|[^"\\])*"|b?\'(?:\\[^\']+|[^\\\'\n])\'', re.S)
CLAUSE = re.compile(r"\b(?:requires|ensures|ghost)\b[^{};]*$")
HEAD = re.compile(r'^ *(?:(?:pub(?:\([a-z]+\))?|const|extern "C") )*fn (\w+)', re.M)
PAIRS = {"{": "}", "(": ")", "[": "]"}


@dataclasses.dataclass(frozen=True)
class Function:
    """A function: its type (empty for a free one), its name, its signature, its body, and where it
    stands."""

    owner: str
    name: str
    signature: str
    body: str
    start: int
    end: int


def end_of(text, opening):
    """Just behind the bracket that closes the one at `opening`."""
    open_mark = text[opening]
    close_mark, depth, at = PAIRS[open_mark], 0, opening
    while at < len(text):
        skipped = SKIPPED.match(text, at)
        if skipped:
            at = skipped.end()
            continue
        depth += (text[at] == open_mark) - (text[at] == close_mark)
        at += 1
        if depth == 0:
            return at
    raise ValueError("a bracket is not closed")


def body_of(text, at):
    """Where the body opens of a function whose parameters end at `at`; None where it has none."""
    start = at
    while at < len(text) and text[at] != ";":
        if text[at] == "{" and not CLAUSE.search(text, start, at):
            return at
        at = end_of(text, at) if text[at] in PAIRS else at + 1
    return None


def blocks(text):
    """The type, the start and the end of each `impl` and `trait` block."""
    for it in re.finditer(r"^(?:pub )?(?:impl|trait)\b([^{]*)\{", text, re.M):
        subject = re.sub(r"^<[^{]*?>(?=\s)", "", it.group(1)).split(" for ")[-1]
        name = re.search(r"(?<!')\b[A-Za-z]\w*(?!\w*::)", subject)
        yield name.group() if name else "", it.start(), end_of(text, it.end() - 1)


def functions(text):
    """Each function of a file that has a body."""
    owners = list(blocks(text))
    for it in HEAD.finditer(text):
        opening = text.index("(", it.end())
        body = body_of(text, end_of(text, opening))
        if body is None:
            continue
        owner = next((name for name, start, end in owners if start < it.start() < end), "")
        end = end_of(text, body)
        yield Function(owner, it.group(1), text[opening:body], text[body:end], it.start(), end)


def files_of_tests(texts):
    """The names of the files of the modules of tests that these texts of a crate declare."""
    declared = r"#\[cfg\(test\)\]\n(?:pub )?mod (\w+);"
    return {f"{name}.rt" for text in texts for name in re.findall(declared, text)}


@functools.cache
def without_clauses(text):
    """The text without comments, and without contracts and ghost items."""
    text = re.sub(r"//[^\n]*", "", text)
    kept, at = [], 0
    for clause in re.finditer(r"^[ \t]*(?:pub )?(?:requires|ensures|ghost)\b[^{};]*", text, re.M):
        if clause.start() < at:
            continue
        kept.append(text[at : clause.start()])
        at = clause.end()
        if at < len(text) and text[at] == "{":
            at = end_of(text, at)
    return "".join(kept) + text[at:]
