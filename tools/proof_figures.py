#!/usr/bin/env python3
# SPDX-License-Identifier: ISC
"""Prints what makes code and proofs hard to read, crate by crate: lines over 100 columns, lemmas
with more than eight explicit arguments, runs of three and more placeholders, and pairs of places
that share six lines and more to the letter, where imports, comments, attributes and lone brackets
don't count. A pair of two crates is counted in both their rows, and once in the last.

    tools/proof_figures.py            a row for each crate
    tools/proof_figures.py NAME..     these crates alone, each place with its line
"""

import collections
import os
import re
import sys

CRATES = os.path.join(os.path.dirname(os.path.abspath(__file__)), "..", "crates")
MOST_COLUMNS = 100
MOST_ARGUMENTS = 8
SHARED_LINES = 6
RUN = re.compile(r"(?<!\S)_(?:\s+_){2,}(?!\S)")
SIGNATURE = re.compile(r"^( *)(?:abbrev |unfoldable )?(?:pub )?([^\s:]+) : (.*)$")
HEADS = ("use ", "pub use ", "record ", "pub record ", "module ", "let ", "pub mod ", "--")
OPENERS, CLOSERS = "({[⟨", ")}]⟩"
IMPORT = re.compile(r"(?:pub(?:\(crate\))? )?(?:ghost )?(?:use|mod) |unfolding ")


def files(crate):
    """The files of a crate's code, lemmas, answers and definitions."""
    for part in ("src", "proofs", "specs"):
        for folder, _, names in sorted(os.walk(os.path.join(CRATES, crate, part))):
            for name in sorted(names):
                if name.endswith((".rt", ".antt")):
                    yield os.path.join(folder, name)


def lines_of(path):
    with open(path, encoding="utf-8") as file:
        return file.read().splitlines()


def place_of(path):
    return os.path.relpath(path, os.path.join(CRATES, ".."))


def premises(text):
    """The parts of a type before its last arrow, parted at the arrows that no bracket holds."""
    parts, depth, start = [], 0, 0
    for place, sign in enumerate(text):
        if sign in OPENERS:
            depth += 1
        elif sign in CLOSERS:
            depth -= 1
        elif sign == "→" and depth == 0:
            parts.append(text[start:place])
            start = place + 1
    return parts


def groups(part):
    """The bracketed groups that a premise is made of, or nothing where it is none of these."""
    found, depth, start = [], 0, 0
    for place, sign in enumerate(part):
        if sign in OPENERS:
            if depth == 0:
                start = place
            depth += 1
        elif sign in CLOSERS:
            depth -= 1
            if depth == 0:
                found.append(part[start:place + 1])
        elif depth == 0 and not sign.isspace():
            return []
    return found


def names_bound(group):
    """How many explicit arguments a group `(a b : T)` binds."""
    head = re.match(r"^\(([^():{}]*) : ", group)
    return len(head.group(1).split()) if head else None


def explicit_arguments(text):
    """The explicit arguments that a type binds, by name or as a premise."""
    count = 0
    for part in premises(text):
        binders = groups(part.strip())
        bound = [0 if group[0] == "{" else names_bound(group) for group in binders]
        count += sum(bound) if binders and None not in bound else 1
    return count


def module_arguments(line):
    """The explicit binders of a line `module _ .. where`."""
    binders = groups(line[len("module _"):].rsplit(" where", 1)[0])
    return sum(names_bound(group) or 0 for group in binders)


def signatures(lines):
    """Each lemma's line, name and type, the explicit binders of the module around it counted."""
    around, at = 0, 0
    while at < len(lines):
        line = lines[at]
        if line and not line[0].isspace():
            around = module_arguments(line) if line.startswith("module _") else 0
        match = SIGNATURE.match(line)
        if not match or line.strip().startswith(HEADS):
            at += 1
            continue
        text, after = match.group(3), at + 1
        while after < len(lines):
            more = lines[after]
            deeper = len(more) - len(more.lstrip()) > len(match.group(1))
            if not (deeper and (more.strip().startswith(("→", "≡", "×", "↔")) or unfinished(text))):
                break
            text += " " + more.strip()
            after += 1
        yield at + 1, match.group(2), text, around if match.group(1) else 0
        at = after


def unfinished(text):
    """Whether the type goes on in the next line, by a bracket or an operator that is open."""
    opened = sum(text.count(sign) for sign in OPENERS)
    closed = sum(text.count(sign) for sign in CLOSERS)
    return opened > closed or text.rstrip().endswith(("→", "++", "≡", "∷"))


def weighed_lines(path):
    """The number and the text of each line that can be shared."""
    is_open = False
    for number, line in enumerate(lines_of(path), 1):
        text = " ".join(line.split())
        if is_open or IMPORT.match(text):
            is_open = text.count("{") > text.count("}") if not is_open else "}" not in text
        elif re.search(r"\w", text) and not text.startswith(("//", "--", "#[")):
            yield number, text


def shared_places(crates):
    """Each pair of places that share lines, as longest runs: two paths with a line, and a count."""
    texts = {path: list(weighed_lines(path)) for crate in crates for path in files(crate)}
    starts = collections.defaultdict(list)
    for path, lines in texts.items():
        for at in range(len(lines) - SHARED_LINES + 1):
            starts[tuple(text for _, text in lines[at:at + SHARED_LINES])].append((path, at))
    pairs = {(one, other) for same in starts.values()
             for index, one in enumerate(same) for other in same[index + 1:]}
    for (one, at), (other, there) in sorted(pairs):
        if ((one, at - 1), (other, there - 1)) in pairs:
            continue
        starts_after = 0
        while ((one, at + starts_after + 1), (other, there + starts_after + 1)) in pairs:
            starts_after += 1
        count = SHARED_LINES + starts_after
        yield one, texts[one][at][0], other, texts[other][there][0], count


def figures(crate):
    """The crate's lines, and the places of each kind."""
    total, long_lines, many, runs = 0, [], [], []
    for path in files(crate):
        place, lines = place_of(path), lines_of(path)
        for number, line in enumerate(lines, 1):
            if len(line) > MOST_COLUMNS:
                long_lines.append("%s:%d: %d columns" % (place, number, len(line)))
        if path.endswith(".rt"):
            continue
        total += len(lines)
        for number, line in enumerate(lines, 1):
            for run in RUN.findall(line):
                runs.append("%s:%d: %d placeholders" % (place, number, run.count("_")))
        for number, name, text, around in signatures(lines):
            count = explicit_arguments(text) + around
            if count > MOST_ARGUMENTS:
                many.append("%s:%d: %s, %d arguments" % (place, number, name, count))
    return total, long_lines, many, runs


def main(names):
    known = sorted(name for name in os.listdir(CRATES) if os.path.isdir(os.path.join(CRATES, name)))
    unknown = [name for name in names if name not in known]
    if unknown:
        sys.exit("no such crate: " + " ".join(unknown))
    shared = list(shared_places(known))
    row = "%-20s %7s %9s %16s %6s %13s"
    print(row % ("crate", "proofs", "over 100", "over 8 explicit", "runs", "pairs share 6"))
    sums = [0, 0, 0, 0]
    for crate in names or known:
        total, long_lines, many, runs = figures(crate)
        own = os.path.join(CRATES, crate, "")
        pairs = ["%s:%d and %s:%d: %d lines" % (place_of(one), at, place_of(other), there, count)
                 for one, at, other, there, count in shared
                 if own in (one[:len(own)], other[:len(own)])]
        counts = [total, len(long_lines), len(many), len(runs)]
        sums = [one + other for one, other in zip(sums, counts)]
        print(row % (crate, *counts, len(pairs)))
        for place in (long_lines + many + runs + pairs) if names else []:
            print("  " + place)
    if not names:
        print(row % ("all", *sums, len(shared)))


if __name__ == "__main__":
    main(sys.argv[1:])
