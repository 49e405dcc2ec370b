#!/usr/bin/env python3
# SPDX-License-Identifier: ISC
"""Tests that what the Markdown pages point to is there: links, headings, pages, programs, items of
the crates and constants.

- each relative link: its file, and behind `#` a heading of that page;
- each heading that is cited in double quotes, as in '[`capi`](../README.md), "Speed"', '("Speed")'
  or 'as "Tests" says': in the page whose link or path stands before it in the same line, or else in
  its own page, or in one that the line names;
- each page, and each program of tests/ and tools/, that is named in backquotes, as `docs/API.md` or
  `tests/links.py`;
- each path in backquotes whose first step is a crate, a module or a type of crates/, as
  `laws::sign_pieces` or `digest::{Context::new, update}`: each step is declared in the one before
  it. A path that begins otherwise, as `std::simd`, is another project's; and so is each in
  rust and in the first column of docs/DIFFERENCES.md, which are about crates of Rust;
- each name in capitals in backquotes, as `MAX_TEXT_LEN`: a word of a file that is no page, or a
  page.

Text in double quotes that begins with a capital letter is taken for a heading, so other quotations
stand in backquotes. Then it reads pages with a planted fault each, and fails where one isn't found.
It prints how many words the pages have. The last line is 'N passed, M failed'.
"""

import functools
import pathlib
import re
import subprocess
import sys

ROOT = pathlib.Path(__file__).resolve().parent.parent
LINK = re.compile(r"(?<!!)\[(?P<text>(?:[^\[\]]|\[[^\]]*\])*)\]\((?P<target>[^)\s]+)\)")
HTML = re.compile(r'<(?:a href|img src|source media="[^"]*" srcset)="(?P<target>[^"]+)"')
CITED = re.compile(r'"(?P<heading>[A-Z][^"]*)"')
NAMED = re.compile(r"`(?P<path>(?:[\w./-]+/)?[\w-]+\.md|(?:tests|tools)/[\w.-]+)`")
ELSEWHERE = re.compile(r"[a-z]+:")
ITEM = re.compile(r"`(?P<front>(?:\w+::)+)(?P<last>\w+|\{[^{}`]*\})`")
# An item or a variant, and what a module passes on from others.
DECLARED = re.compile(
    r"^ *(?:pub(?:\(\w+\))? )?(?:const |extern \"C\" )*"
    r"(?:fn|struct|enum|trait|type|const|mod) (\w+)|^ +([A-Z]\w*)(?:[,(]| \{|$)", re.M,
)
CAPITALS = re.compile(r"`(?P<name>[A-Z][A-Z0-9_]+)`")
PASSED_ON = re.compile(r"^pub use ([^;]*);", re.M)
# Pages that a script makes, and names of pages that stand in another folder than the one named.
MADE = ("docs/reference/",)

# A page at the top that is without fault, and lines that each add one to it.
SOUND = """# Page

## Part one

See [`docs/API.md`](docs/API.md), "Calls", and "Part one", `ring::laws`, `std::none`,
`hmac::{sign, Key::new}`, `MAX_TEXT_LEN` and `PROVED`.
"""
PLANTED = (
    "[a page](docs/NONE.md)",
    '<source media="(max-width: 9px)" srcset="docs/none.svg">',
    "[a part](#part-two)",
    "[a part](docs/API.md#no-such-part)",
    'as "Part two" says',
    '[calls](docs/API.md), "Part one"',
    "as `docs/NONE.md` says",
    "`tests/none.py` tests it",
    "`NO_SUCH_CONSTANT`",
    "`digest::no_such_module`",
    "`ring::no_such_module`",
    "`hmac::{sign, Key::no_such_call}`",
)


def files(*patterns):
    """The files of the repository, of these patterns where there are any."""
    listed = subprocess.run(
        ["git", "ls-files", "--cached", "--others", "--exclude-standard", "--", *patterns],
        cwd=ROOT, capture_output=True, text=True, check=True,
    )
    return [name for name in listed.stdout.splitlines() if (ROOT / name).is_file()]


def pages():
    """The Markdown pages of the repository, each with its text."""
    return {name: (ROOT / name).read_text() for name in files("*.md")}


@functools.lru_cache(None)
def names_in_capitals():
    """The names in capitals in all files but pages, and the pages' own names."""
    others = files(":!*.md", ":!generated/*", ":!tests/links.py")
    texts = ((ROOT / name).read_text(errors="replace") for name in others)
    found = {name for text in texts for name in re.findall(r"\b[A-Z][A-Z0-9_]+\b", text)}
    return found.union(pathlib.PurePath(name).stem for name in files("*.md"))


def without_code(text):
    """The lines of a page, of which those of code are empty."""
    is_code = False
    for line in text.splitlines():
        is_fence = line.lstrip().startswith("```")
        yield "" if is_code or is_fence or line.startswith("    ") else line
        is_code ^= is_fence


def headings(text):
    """The headings of a page as they are cited, without backquotes and links."""
    lines = (line for line in without_code(text) if re.match(r"#{1,6} ", line))
    return [LINK.sub(r"\g<text>", line.lstrip("#").strip()).replace("`", "") for line in lines]


def anchor(heading):
    """What a link to a heading has behind `#`."""
    return re.sub(r"[^\w -]", "", heading.lower()).replace(" ", "-")


def resolved(page, path):
    """A path of a page, from the top of the repository, or None where it leads out of it."""
    parts = []
    for part in (pathlib.PurePosixPath(page).parent / path).parts:
        if part == ".." and not parts:
            return None
        parts = parts[:-1] if part == ".." else [*parts, part]
    return "/".join(parts) or "."


def there(path):
    """Whether a path from the top of the repository is there, or is made by a script."""
    return path is not None and ((ROOT / path).exists() or path.startswith(MADE))


def link_fault(texts, page, target):
    """What is wrong with a link, or None."""
    path, _, part = target.partition("#")
    place = resolved(page, path) if path else page
    if not (place in texts or there(place)):
        return f"links to {target}, which isn't there"
    if part and part not in map(anchor, headings(texts.get(place, ""))):
        return f"links to {target}, which has no such heading"
    return None


def named_pages(texts, page, line):
    """The pages that a line names, by link or in backquotes, each with the column behind it."""
    for match in LINK.finditer(line):
        place = resolved(page, match["target"].partition("#")[0])
        if place in texts:
            yield match.end(), place
    for match in NAMED.finditer(line):
        for place in (match["path"], resolved(page, match["path"])):
            if place in texts:
                yield match.end(), place


def cited_fault(texts, page, line, match):
    """What is wrong with a heading in double quotes, or None."""
    named = list(named_pages(texts, page, line))
    beside = [place for end, place in named if line[end : match.start()] in (", ", ' (')]
    wanted = beside or [page, *(place for _, place in named)]
    if any(match["heading"] in headings(texts[place]) for place in wanted):
        return None
    return f'cites "{match["heading"]}", which is no heading of {", ".join(dict.fromkeys(wanted))}'


def named_fault(texts, page, path):
    """What is wrong with a page or a script in backquotes, or None."""
    places = (path, resolved(page, path))
    is_there = any(place in texts or there(place) for place in places)
    is_name = "/" not in path and any(it.endswith(f"/{path}") for it in texts)
    return None if is_there or is_name else f"names {path}, which isn't there"


@functools.lru_cache(None)
def sources():
    """The modules of crates/ by their paths: what each declares or passes on, and its words."""
    found = {}
    for file in ROOT.glob("crates/*/src/**/*.rt"):
        crate, _, *path = file.relative_to(ROOT / "crates").with_suffix("").parts
        text = file.read_text()
        passed_on = re.findall(r"\w+", " ".join(PASSED_ON.findall(text)))
        names = {name for pair in DECLARED.findall(text) for name in pair}
        found[(crate, *path)] = names.union(passed_on), set(re.findall(r"\w+", text))
    return found


def places_of(step, among):
    """Of some modules, those of a crate or below a module, or those that name a type."""
    below = [place for place in among if step in place]
    named = [place for place in among if step[0].isupper() and step in sources()[place][1]]
    return below or named


def item_fault(steps):
    """What is wrong with a path of a module or an item, or None."""
    places = places_of(steps[0], sources())
    is_type = any(steps[0] in sources()[place][0] for place in places)
    if not places or (steps[0][0].isupper() and not is_type):
        return None
    for step, name in zip(steps, steps[1:]):
        places = places_of(step, places) or places_of(step, sources())
        if not any(name in sources()[place][0] for place in places):
            return f"names {'::'.join(steps)}, and {step} has no {name}"
    return None


def items_of(page, line):
    """The paths of modules and items in a line, each as its steps."""
    if page.startswith("rust/"):
        return
    if page == "docs/DIFFERENCES.md":
        line = re.sub(r"^\|[^|]*", "", line)
    for match in ITEM.finditer(line):
        for last in match["last"].strip("{}").split(","):
            yield (match["front"] + last.strip(" +")).split("::")


def faults_of_line(texts, page, line):
    """What each link, heading, file, item and name of a line lacks: None where it is there."""
    for match in [*LINK.finditer(line), *HTML.finditer(line)]:
        if not ELSEWHERE.match(match["target"]):
            yield link_fault(texts, page, match["target"])
    for match in NAMED.finditer(line):
        yield named_fault(texts, page, match["path"])
    yield from map(item_fault, items_of(page, line))
    for match in CAPITALS.finditer(line):
        is_there = match["name"] in names_in_capitals()
        yield None if is_there else f"names {match['name']}, which stands nowhere else"
    bare = re.sub(r"`[^`]*`", lambda it: it[0].replace('"', " "), line)
    for match in CITED.finditer(bare):
        yield cited_fault(texts, page, line, match)


def found_in(texts, page):
    """How many things of a page are there, and the faults with their lines."""
    passed, faults = 0, []
    for number, line in enumerate(without_code(texts[page]), 1):
        for fault in faults_of_line(texts, page, line):
            passed += fault is None
            faults += [] if fault is None else [f"{page}:{number}: {fault}"]
    return passed, faults


def planted_faults(texts):
    """The planted faults that are not found, and the sound page where a fault is found in it."""
    name = "PLANTED.md"
    if found_in({**texts, name: SOUND}, name)[1]:
        yield "the page without a fault"
    for line in PLANTED:
        if len(found_in({**texts, name: f"{SOUND}\n{line}\n"}, name)[1]) != 1:
            yield line


def main():
    texts, passed, failed = pages(), 0, 0
    for page in texts:
        right, faults = found_in(texts, page)
        passed, failed = passed + right, failed + len(faults)
        for fault in faults:
            print(f"FAILED: {fault}")
    missed = list(planted_faults(texts))
    for line in missed:
        print(f"FAILED: planted, and taken wrongly: {line}")
    passed, failed = passed + len(PLANTED) + 1 - len(missed), failed + len(missed)
    print(f"{len(texts)} pages of {sum(len(it.split()) for it in texts.values())} words")
    print(f"{passed} passed, {failed} failed")
    return failed != 0 or not passed


if __name__ == "__main__":
    sys.exit(main())
