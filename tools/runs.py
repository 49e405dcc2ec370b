#!/usr/bin/env python3
# SPDX-License-Identifier: ISC
"""Keeps what a command wrote as docs/pictures/NAME.txt, which tools/pictures.py draws:

    make verify | tee LOG; tools/runs.py verify 'make verify' LOG

The file has the command behind `$`, and the first and last lines of LOG as they were written.
"""

import pathlib
import sys

sys.dont_write_bytecode = True
import offers
import svg

FOLDER = offers.ROOT / "docs/pictures"
FIRST, LAST = 3, 4
STEP = 17
TITLES = {"verify": "What make verify writes: each function of the library's machine code is shown "
                    "for all inputs"}


def record(name, command, log):
    """Keeps the lines of a run."""
    lines = pathlib.Path(log).read_text().splitlines()
    shown = lines if len(lines) <= FIRST + LAST else [*lines[:FIRST], "..", *lines[-LAST:]]
    (FOLDER / f"{name}.txt").write_text("\n".join([f"$ {command}", *shown, ""]))


def drawer(name):
    """What draws a run, by tools/pictures.py."""
    def draw(_figures, width):
        lines = (FOLDER / f"{name}.txt").read_text().splitlines()
        picture = svg.Picture(width, TITLES[name], " ".join(lines))
        y = picture.paragraph(0, 15, lines[0], width, "bold", STEP)
        for line in lines[1:-1]:
            y = picture.paragraph(0, y, line, width, "small", STEP)
        y = picture.paragraph(0, y + 2, lines[-1], width, "bold", STEP)
        return picture.written(y - STEP + 6)
    return draw


if __name__ == "__main__":
    if len(sys.argv) != 4:
        sys.exit(__doc__)
    record(*sys.argv[1:])
