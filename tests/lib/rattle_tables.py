# SPDX-License-Identifier: ISC
"""The edits of code that the crates keep, each of which a clause must refuse.

An edit of must-fail/ has a file of its own there, NAME.edit, since the kit wants this form: a line
`file:`, then pairs of lines `old:` and `new:`, and again so for each further file. Those of wrong/
stand in tables, one for each module of src/ with what lies below it, as wrong/hmac.edits:

    # A comment. It and empty lines may stand anywhere.
    == name_of_an_edit
    file: src/hmac/key.rt
    old: text that stands once in the file
    new: text in its place

A word may stand behind the name: `further` if the gate does not try the edit, `right` if the body
means the same as the code, so that no check may refuse it. No two edits of a crate share a name.
"""

import dataclasses
import pathlib
import re
import typing

ROOT = pathlib.Path(__file__).resolve().parents[2]
# The kinds of edits. `rt ci` tries the first, a gate the second and the last, a release all.
KINDS = NAMED, GATE, FURTHER, RIGHT = "must-fail", "wrong", "further", "right"
FOLDERS = {NAMED: ".edit", GATE: ".edits"}
HEAD = re.compile(rf"== ([a-z][a-z0-9_]*)(?: ({FURTHER}|{RIGHT}))?")
# What may stand behind each line of an edit.
BEHIND = {"== NAME": ["file"], "file": ["old"], "old": ["new"], "new": ["old", "file"]}


class Malformed(Exception):
    """A file of edits that can't be read: its path, the line, and what is wrong there."""

    def __init__(self, path, line, why):
        super().__init__(f"{path.relative_to(ROOT)}:{line}: {why}")


class Pair(typing.NamedTuple):
    """A text and the one in its place, with the line of the first in the file of edits."""

    old: str
    new: str
    line: int


@dataclasses.dataclass(frozen=True, eq=False)
class Edit:
    """An edit: its crate, kind and name, the file and the line where it stands, and the pairs of
    each file that it changes, which is given from the crate's folder."""

    crate: str
    kind: str
    name: str
    path: pathlib.Path
    line: int
    files: dict

    @property
    def label(self):
        """How a command line names the edit."""
        return f"{self.crate}/{self.path.parent.name}/{self.name}"

    @property
    def text(self):
        """The edit as a file of must-fail/."""
        return "".join(
            f"file: {file}\n" + "".join(f"old: {it.old}\nnew: {it.new}\n" for it in pairs)
            for file, pairs in self.files.items()
        )


def files_in(path, head, lines):
    """The files of an edit with their pairs, from its lines with their numbers, which stand behind
    the line `head`."""
    files, before, old, number = {}, "== NAME", "", head
    for number, line in lines:
        key, colon, text = line.partition(": ")
        if not colon or key not in BEHIND or not text.strip():
            raise Malformed(path, number, "it is not 'file: ', 'old: ' or 'new: ' with a text")
        if key not in BEHIND[before]:
            wanted = "' or '".join(BEHIND[before])
            raise Malformed(path, number, f"'{wanted}' must stand here, behind '{before}'")
        if key == "file":
            if text in files:
                raise Malformed(path, number, "the edit names this file twice")
            pairs = files.setdefault(text, [])
        elif key == "old":
            old = text, number
        elif text == old[0]:
            raise Malformed(path, number, "'new' is the same as 'old'")
        else:
            pairs.append(Pair(old[0], text, old[1]))
        before = key
    if before != "new":
        raise Malformed(path, number, f"'{BEHIND[before][0]}' is missing behind this line")
    return files


def block(path, lines):
    """The edit of a block of a table, from its lines with their numbers."""
    number, line = lines[0]
    if not (head := HEAD.fullmatch(line)):
        raise Malformed(path, number, f"it is not '== NAME', '== NAME {FURTHER}' or '.. {RIGHT}'")
    files = files_in(path, number, lines[1:])
    for file in files:
        if (module := pathlib.Path(*pathlib.Path(file).parts[1:2]).stem) != path.stem:
            raise Malformed(path, number, f"an edit of {file} stands in {module}.edits")
    return Edit(path.parents[1].name, head[2] or GATE, head[1], path, number, files)


def read(path):
    """The edits of a file, which is one of must-fail/ or a table."""
    lines = list(enumerate(path.read_text().splitlines(), 1))
    if path.suffix == FOLDERS[NAMED]:
        files = files_in(path, 1, lines)
        return [Edit(path.parents[1].name, NAMED, path.stem, path, 1, files)]
    lines = [it for it in lines if it[1].strip() and not it[1].startswith("#")]
    starts = [at for at, (_, line) in enumerate(lines) if line.startswith("==")]
    if starts[:1] != [0]:
        number = lines[0][0] if lines else 1
        raise Malformed(path, number, "the table does not begin with '== NAME'")
    return [block(path, lines[at:end]) for at, end in zip(starts, [*starts[1:], None])]


def edits_of(crate):
    """The edits of a crate, by kind and name."""
    edits = {}
    for folder, suffix in FOLDERS.items():
        for path in sorted((ROOT / "crates" / crate).glob(f"{folder}/*")):
            if path.suffix != suffix or not path.is_file():
                raise Malformed(path, 1, f"{folder}/ has files *{suffix} and nothing else")
            for it in read(path):
                if (other := edits.setdefault(it.name, it)) is not it:
                    where = f"{other.path.relative_to(ROOT)}:{other.line}"
                    raise Malformed(path, it.line, f"{it.name} stands at {where} too")
    return sorted(edits.values(), key=lambda it: (KINDS.index(it.kind), it.name))


def apply(edit):
    """The texts of the files that an edit changes, once they are changed."""
    texts = {}
    for file, pairs in edit.files.items():
        path = ROOT / "crates" / edit.crate / file
        if not path.is_file():
            raise Malformed(edit.path, edit.line, f"there is no {file}")
        text = path.read_text()
        for it in pairs:
            if (count := text.count(it.old)) != 1:
                raise Malformed(edit.path, it.line, f"it stands {count} times in {file}, not once")
            text = text.replace(it.old, it.new)
        texts[file] = text
    return texts
