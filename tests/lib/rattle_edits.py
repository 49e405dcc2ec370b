# SPDX-License-Identifier: ISC
"""Which functions an edit of code changes, and texts with an edit in each of several functions."""

import dataclasses

import rattle_names
import rattle_text
from rattle_tables import ROOT, Edit


@dataclasses.dataclass(frozen=True)
class Change:
    """An edit of functions alone: the file, and of each function, by its name in a check, where it
    starts and ends and its new text."""

    edit: Edit
    file: str
    functions: dict


def replaced(text, pairs):
    """A text with each `old` text replaced by its `new` one, in turn."""
    for it in pairs:
        text = text.replace(it.old, it.new)
    return text


def change_of(edit, names):
    """What an edit changes of a crate whose functions have these names in a check; None where that
    is more than functions with a body, one whose name can't be told, or several files."""
    (file, pairs), *others = edit.files.items()
    if others:
        return None
    text = (ROOT / "crates" / edit.crate / file).read_text()
    module = rattle_names.module_of(edit.crate, file)
    functions, whole, at = {}, "", 0
    for it in rattle_text.functions(text) if file.startswith("src/") else ():
        old = text[it.start : it.end]
        if (new := replaced(old, pairs)) != old:
            name = rattle_names.name_of(module, text, it, names)
            functions[name] = (it.start, it.end, new)
            whole, at = whole + text[at : it.start] + new, it.end
    is_all = whole + text[at:] == replaced(text, pairs)
    return Change(edit, file, functions) if is_all and functions and None not in functions else None


def rounds_of(changes):
    """The changes in rounds, each with at most one of a function."""
    rounds = []
    for change in changes:
        taken = change.functions.keys()
        free = (it for it in rounds if not any(taken & other.functions for other in it))
        if (found := next(free, None)) is None:
            rounds.append(found := [])
        found.append(change)
    return rounds


def texts_with(changes):
    """The texts of the files with some changes of a crate, each of other functions, and for each of
    these its file, its first and its last line there, and its name."""
    in_files = {}
    for it in changes:
        of_file = in_files.setdefault(it.file, [])
        of_file += ((*function, name) for name, function in it.functions.items())
    texts, places = {}, []
    for file, of_file in in_files.items():
        text, made, at = (ROOT / "crates" / changes[0].edit.crate / file).read_text(), "", 0
        for start, end, new, name in sorted(of_file):
            made += text[at:start]
            first, made, at = made.count("\n") + 1, made + new, end
            places.append((file, first, made.count("\n") + 1, name))
        texts[file] = made + text[at:]
    return texts, places
