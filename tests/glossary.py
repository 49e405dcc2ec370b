#!/usr/bin/env python3
# SPDX-License-Identifier: ISC
"""Tests that docs/GLOSSARY.md has a line for each word of the kit that definitions and clauses use.

tools/kit_words.py makes the page; it reads what the files of crates/*/specs and the clauses of
crates/*/src import. A planted import of a word without a line, and a line of a word that nothing
imports, have to be found. The last line is 'N passed, M failed'.
"""

import pathlib
import sys
import tempfile

sys.dont_write_bytecode = True
HERE = pathlib.Path(__file__).resolve().parent
sys.path += [str(HERE / "lib"), str(HERE.parent / "tools")]
import counted
import kit_words


def every_word_has_a_line():
    """Each word that is imported from the kit has a line, and each line is of such a word."""
    return [(it, "a fault") for it in kit_words.faults(kit_words.used())]


def page_is_new():
    """The page is as tools/kit_words.py writes it."""
    is_new = kit_words.PAGE.read_text() == kit_words.page()
    return [] if is_new else [("docs/GLOSSARY.md", "another text")]


def planted_words_are_found():
    """An import without a line, over several lines, renamed or public, is found."""
    with tempfile.TemporaryDirectory() as room:
        path = pathlib.Path(room) / "Planted.antt"
        path.write_text(
            "use Rattle.std.specs.Prelude.{length,\n    planted_one}\n"
            "pub use Rattle.hex.specs.Hex.{planted_two as two}\n"
            "-- use Rattle.std.specs.Prelude.{in_a_comment}\n"
            "use Rattle.ring.specs.Prelude.{of_ours}\n"
            "use Rattle.std.proofs.Math.Nat.{a_lemma}\n"
        )
        words = set(kit_words.imported([path]))
    wanted = {"length", "planted_one", "planted_two"}
    return [] if words == wanted else [("the planted file", " ".join(sorted(words)))]


def unused_line_is_found():
    """A line of a word that nothing imports is found."""
    without = {word: it for word, it in kit_words.used().items() if word != "take"}
    found = list(kit_words.faults(without))
    return [] if len(found) == 1 and "`take`" in found[0] else [("without `take`", str(found))]


if __name__ == "__main__":
    cases = [every_word_has_a_line, page_is_new, planted_words_are_found, unused_line_is_found]
    sys.exit(counted.report(*counted.run_answered((it, "") for it in cases)))
