#!/usr/bin/env python3
# SPDX-License-Identifier: ISC
"""Wrong bodies: edits of code, each of which a clause must refuse (docs/WRONG_BODIES.md).

    tests/wrong_bodies.py
    tests/wrong_bodies.py --together [--all] [--anew] [--tree=FOLDER] [CRATE | EDIT ..]

Without arguments each edit is read: its `old` texts must stand once in their file.

With --together the edits of wrong/ are tried, and with --all those of must-fail/ and those marked
`further` too, of all crates, of some, or single ones by their labels, as ring/wrong/salt_cut. A
round is one check of a crate with one edit in each of its functions. A proof knows of other
functions what their contracts say, so an edit passes where the check refuses a goal of a function
that it changes, and none of a function without an edit. One that changes more than functions, as a
constant, or several files has a check of its own. An edit that is not refused so is tried alone, as
`rt must-fail` tries it. A body marked `right` means the same as the code: it stands in the rounds
too, and passes where it is told as not refused.

The crates are proved first, in place, over what stands in out/, or in a copy in a new folder, which
stays. What passed is kept for the user of this machine by the sum of all that it was made from, and
not tried again: --anew tries all.

The last line is 'N passed, M failed'.
"""

import concurrent.futures
import contextlib
import dataclasses
import hashlib
import itertools
import os
import pathlib
import re
import shutil
import subprocess
import sys
import tempfile

sys.dont_write_bytecode = True
sys.path.append(str(pathlib.Path(__file__).resolve().parent / "lib"))
import rattle_edits
import rattle_tables
from rattle_tables import GATE, KINDS, NAMED, RIGHT, ROOT, Malformed

KEPT = pathlib.Path(os.environ.get("XDG_CACHE_HOME") or "~/.cache").expanduser() / "yezdopin"
# What a check may take of the memory, in bytes, with as much for the gate's other checks beside it.
MEMORY = 2 * 3 * 10**9
TRIED = re.compile(r"^(?:rt: )?must-fail (\S+)\.edit: (.*)$", re.M)
REFUSED = re.compile(r"refused, as it must be(?! \(only because)")
NOT_REFUSED = re.compile(r"NOT REFUSED: ")
# What a check prints: of each function, of one with a goal that is open, of a goal by its place in
# the function, of an answer in a proof file that is refused, and at the end where all functions
# were judged.
OF_FUNCTION = re.compile(r"^fn (\S+): ", re.M)
OPEN = re.compile(r"^fn (\S+): no proof: expected answers in \S+; `search` did not prove ", re.M)
GOAL = re.compile(r"^note: (src/\S+):(\d+):\d+: it is not proved that ", re.M)
ANSWER = re.compile(r"^(?:\./)?proofs/(\S+)/\w+\.antt:\d+:\d+: error: (.*)$", re.M)
JUDGED = re.compile(r"^(?:only=\d+ )?holes=", re.M)
# The kinds of edits that the gate tries.
GATES = (GATE, RIGHT)
# An answer that is refused with these words cites a name that an edit took away.
NAME_ONLY = re.compile(r"has no field|is not in scope|has no `|was not admitted")


@dataclasses.dataclass(frozen=True)
class Crate:
    """A crate that is proved in a tree of crates: the tree, its name, the crates below it, and how
    a check names its functions."""

    tree: pathlib.Path
    name: str
    below: list
    functions: list


def workers():
    """How many checks run side by side: one a processor, as far as the memory goes."""
    free = re.search(r"^MemAvailable: +(\d+) kB", pathlib.Path("/proc/meminfo").read_text(), re.M)
    return max(1, min(len(os.sched_getaffinity(0)), 1024 * int(free[1]) // MEMORY))


def output_of(words, folder):
    """What a command prints that is run to its end in a folder, and its status."""
    run = subprocess.run(words, cwd=folder, capture_output=True, text=True, check=False)
    return run.stdout, run.returncode


def link(one, other):
    """Gives a file that a check kept, or one of a library, a second name, as `rt` does: a check
    replaces such a file, and never writes into it."""
    with contextlib.suppress(OSError):
        if one.endswith(".oantt") or "/out/rlib/" in one:
            return os.link(one, other)
    return shutil.copy2(one, other)


@contextlib.contextmanager
def room_of(crate):
    """A copy of a crate and of those below, over what their own checks kept."""
    with tempfile.TemporaryDirectory(prefix="wrong_bodies.") as folder:
        room = pathlib.Path(folder)
        names = [*crate.below, crate.name]
        for name in names:
            one, other = crate.tree / "crates" / name, room / "crates" / name
            shutil.copytree(one, other, ignore=shutil.ignore_patterns("out", "must-fail", "wrong"))
            kept = "incremental" if name == crate.name else "rlib"
            shutil.copytree(one / "out" / kept, other / "out" / kept, copy_function=link)
        shutil.copy(ROOT / "HANDLES", room)
        lines = [it for it in (ROOT / "crates.txt").read_text().splitlines(keepends=True)
                 if it.partition(":")[0].split()[:1] and it.partition(":")[0].split()[0] in names]
        (room / "crates.txt").write_text("".join(lines))
        yield room / "crates" / crate.name


def check_of(crate, texts, names=()):
    """What a check prints of a crate with these texts of some of its files, or of some functions
    alone. It goes on past what it refuses."""
    only = [word for it in names for word in ("--only", it)]
    with room_of(crate) as folder:
        for file, text in texts.items():
            (folder / file).write_text(text)
        return output_of(["rt", "check", "--allow-holes", "--jobs", "1", *only], folder)[0]


def refused_in(said, places=()):
    """The functions of which a check refuses a goal, and not only a name that their proof cites."""
    refused = (it for it, why in ANSWER.findall(said) if not NAME_ONLY.search(why))
    answers = {it.replace("/", "::") for it in refused}
    goals = {(file, int(line)) for file, line in GOAL.findall(said)}
    at_goals = {name for file, first, last, name in places
                if any(file == it and first <= line <= last for it, line in goals)}
    return answers | at_goals | {it.partition("::")[2] for it in OPEN.findall(said)}


def refused_of_round(crate, changes):
    """Those edits of a round that are refused. The round is halved where the check judges none,
    since one does not compile, and where it refuses what none of them changes."""
    texts, places = rattle_edits.texts_with(changes)
    names = sorted({name for it in changes for name in it.functions})
    said = check_of(crate, texts, names)
    refused = refused_in(said, places)
    if JUDGED.search(said) and refused <= set(names):
        return [it.edit for it in changes if refused & it.functions.keys()]
    half = len(changes) // 2
    parts = (changes[:half], changes[half:]) if half else ()
    return [it for part in parts for it in refused_of_round(crate, part)]


def refused_by_itself(crate, edit):
    """An edit in a list, if a check refuses a goal of a function where it is made."""
    said = check_of(crate, rattle_tables.apply(edit))
    is_refused = JUDGED.search(said) and (refused_in(said) or GOAL.search(said))
    return [edit] if is_refused else []


def said_alone(crate, edits):
    """What `rt must-fail` says of each of these edits."""
    with room_of(crate) as folder:
        (folder / NAMED).mkdir()
        for it in edits:
            (folder / NAMED / f"{it.name}.edit").write_text(it.text)
        said, _ = output_of(["rt", "must-fail", crate.name], folder.parent.parent)
    tried = dict(TRIED.findall(said))
    return {it: tried.get(f"{crate.name}/{it.name}", f"not tried: {said[-200:]}") for it in edits}


def rows_of(crate, edits, pool):
    """A row for each edit of a crate: its label, and what is wrong with it."""
    changes = {it: rattle_edits.change_of(it, crate.functions) for it in edits}
    rounds = rattle_edits.rounds_of([it for it in changes.values() if it])
    tries = [pool.submit(refused_of_round, crate, it) for it in rounds]
    tries += [pool.submit(refused_by_itself, crate, edit) for edit, it in changes.items() if not it]
    refused = {edit for it in tries for edit in it.result()}
    left = [it for it in edits if it not in refused]
    alone = pool.submit(said_alone, crate, left).result() if left else {}
    for it in edits:
        said = alone.get(it, "refused, as it must be")
        passes = NOT_REFUSED if it.kind == RIGHT else REFUSED
        yield it.label, [] if passes.match(said) else [said]


def below():
    """The crates, lowest first, each with those that it stands on, as crates.txt has them."""
    found = {}
    for line in (ROOT / "crates.txt").read_text().splitlines():
        head, _, used = line.partition("#")[0].partition(":")
        if head.strip():
            own = [it for it in used.split() if it in found]
            found[head.split()[0]] = list(dict.fromkeys(
                name for it in own for name in [*found[it], it]))
    return found


def files_under(path):
    """The files of a folder, or the file itself; none where there is neither."""
    found = sorted(path.rglob("*")) if path.is_dir() else [path]
    return [it for it in found if it.is_file()]


def place_of(name, crates_below, edits):
    """Where it is kept that a crate's edits passed: its name is the sum of all that their tries
    stand on, which are the kit, this script, the edits, and the crate with those below."""
    made = hashlib.sha256(output_of(["rt", "version"], ROOT)[0].encode())
    parts = [pathlib.Path(__file__), ROOT / "crates.txt", ROOT / "HANDLES"]
    parts += sorted((ROOT / "tests/lib").glob("rattle_*.py"))
    for it in [*crates_below, name]:
        parts += (ROOT / "crates" / it / part for part in ("src", "specs", "proofs"))
    texts = [(it.relative_to(ROOT), it.read_bytes()) for part in parts for it in files_under(part)]
    texts += [(f"{it.kind} {it.label}", it.text.encode()) for it in edits]
    for what, text in texts:
        made.update(f"{what} {len(text)}\n".encode() + text)
    return KEPT / f"wrong_bodies-{name}-{made.hexdigest()}"


def kept_rows(crate, edits, pool):
    """The rows of a crate, which are kept where all edits passed: those of the gate's edits by
    themselves too, where all are among them."""
    rows = list(rows_of(crate, edits, pool))
    if not any(faults for _, faults in rows):
        tried = {it.label for it in edits}
        of_gate = [it for it in rattle_tables.edits_of(crate.name) if it.kind in GATES]
        is_whole = all(it.label in tried for it in of_gate)
        for passed in [edits, of_gate] if is_whole else [edits]:
            with contextlib.suppress(OSError):
                KEPT.mkdir(mode=0o700, parents=True, exist_ok=True)
                kept = place_of(crate.name, crate.below, passed)
                kept.write_text("".join(f"{it.label}\n" for it in passed))
    return rows


def copied_to(folder):
    """A new folder with a copy of all crates."""
    shutil.copytree(ROOT / "crates", folder / "crates", ignore=shutil.ignore_patterns("out"))
    for file in ("crates.txt", "HANDLES"):
        shutil.copy(ROOT / file, folder)
    return folder


def try_crates(asked, flags, tree, pool):
    """The rows of some crates: each is proved in a tree of crates, in turn, and then tried beside
    the others, whose checks are the work of the pool."""
    most, tries = workers(), []
    with concurrent.futures.ThreadPoolExecutor(len(asked)) as crates:
        for name, edits in asked.items():
            kept = place_of(name, below()[name], edits)
            if kept.is_file() and "--anew" not in flags:
                labels = kept.read_text().splitlines()
                yield from ((f"{it} (tried by an earlier run)", []) for it in labels)
                continue
            jobs = max(1, most - sum(not it.done() for it in tries))
            words = ["rt", "check", "--jobs", str(jobs)]
            said, status = output_of(words, tree / "crates" / name)
            if status:
                yield f"{name}: the crate itself", [f"not proved: {said[-200:]}"]
                continue
            crate = Crate(tree, name, below()[name], OF_FUNCTION.findall(said))
            tries.append(crates.submit(kept_rows, crate, edits, pool))
        for it in concurrent.futures.as_completed(tries):
            yield from it.result()


def read_all():
    """A row for each kind of edits of a crate: how many there are. What is wrong with them stands
    in the row of the crate."""
    for folder in sorted((ROOT / "crates").iterdir()):
        try:
            edits = rattle_tables.edits_of(folder.name)
        except Malformed as error:
            yield folder.name, [str(error)]
            continue
        for kind, of_kind in itertools.groupby(edits, lambda it: it.kind):
            of_kind = list(of_kind)
            yield f"{folder.name}: {len(of_kind)} edits, {kind}", list(faults_of(of_kind))


def faults_of(edits):
    """Why some edits can't be applied."""
    for it in edits:
        try:
            rattle_tables.apply(it)
        except Malformed as error:
            yield str(error)


def asked_of(words, flags):
    """The edits that are asked for, by their crates, lowest first."""
    kinds = KINDS if "--all" in flags else GATES
    crates = {it.partition("/")[0] for it in words}
    asked = {}
    for name in below():
        edits = rattle_tables.edits_of(name) if name in crates or not words else []
        is_whole = name in words or not words
        chosen = [it for it in edits if it.label in words or is_whole and it.kind in kinds]
        if chosen:
            asked[name] = chosen
    return asked


def rows_asked_for(words, flags, pool):
    """The rows that a run prints."""
    if "--together" not in flags:
        yield from read_all()
        return
    try:
        asked = asked_of(words, flags)
    except Malformed as error:
        yield "the edits are not read", [str(error)]
        return
    known = {*below(), *(it.label for edits in asked.values() for it in edits)}
    if unknown := [it for it in words if it not in known]:
        yield "no crate and no edit has this name", unknown
        return
    copies = (it.partition("=")[2] for it in flags if it.startswith("--tree="))
    folder = next(copies, None)
    tree = copied_to(pathlib.Path(folder).resolve()) if folder else ROOT
    yield from try_crates(asked, flags, tree, pool) if asked else ()


def main():
    flags = {it for it in sys.argv[1:] if it.startswith("--")}
    words = [it for it in sys.argv[1:] if it not in flags]
    passed, failed = 0, 0
    with concurrent.futures.ThreadPoolExecutor(workers()) as pool:
        for label, faults in rows_asked_for(words, flags, pool):
            print(f"{'FAILED' if faults else 'ok'}: {label}", *faults, sep="\n  ", flush=True)
            passed, failed = passed + (not faults), failed + bool(faults)
    print(f"{passed} passed, {failed} failed")
    return failed != 0


if __name__ == "__main__":
    sys.exit(main())
