#!/usr/bin/env python3
# SPDX-License-Identifier: ISC
"""Writes docs/pictures/*.svg, and the tables of README and docs/SPEED.md.

docs/figures.json has the figures, each measurement with its command, date and processor, and what
README's table of packages has; docs/pictures/*.txt have what a command wrote, kept by
tools/runs.py. A table stands between `<!-- NAME: .. -->` and `<!-- /NAME -->`.
Each picture has a wide form and a narrow one, since the words of the wide one are too small on a
telephone. Bars begin at 0, and the figure stands behind each. tests/pictures.py fails where a file
isn't as this program writes it.
"""

import json
import sys

sys.dont_write_bytecode = True
import offers
import runs
import svg

ROOT = offers.ROOT
FIGURES = "docs/figures.json"
WIDE, NARROW = 700, 380
# The heights of a bar with the room below it and of a line of small words; the longest bar's ratio.
BAR, LINE, LONGEST = 13, 16, 1.25


def row_named(rows, work):
    """The row of some work."""
    return next(it for it in rows if it["work"] == work)


def many_over_one(speed, hash_name, shown):
    """The time of several messages in one call over that of as many calls."""
    together = speed["together"]
    row = next(it for it in together["rows"]
               if it["hash"] == hash_name and it["bytes"] == shown["bytes"])
    return row["over_one_by_one"][together["messages"].index(shown["messages"])]


def ratios(speed, shown, library):
    """Our times over a library's under each hash function, or None where it hasn't the call."""
    measured = row_named(speed["beside"]["rows"], shown["work"]).get(library)
    if not measured or "messages" not in shown:
        return measured
    return [None if it is None else it * many_over_one(speed, name, shown)
            for name, it in zip(speed["hashes"], measured)]


def bars_of(speed, shown):
    """The libraries that a row is beside, each with its number and the ratios."""
    found = ((at, ratios(speed, shown, it)) for at, it in enumerate(speed["libraries"]))
    return [(number, values) for number, values in found if values]


def speed_in_words(speed):
    """What the bars show, for whoever hears the picture."""
    said = []
    for shown in speed["shown"]:
        for key, library in speed["libraries"].items():
            named = zip(speed["hashes"], ratios(speed, shown, key) or [])
            listed = ", ".join(f"{name} {it:.2f}" for name, it in named if it is not None)
            said += [f"{shown['words']}, over {library['name']}: {listed}."] if listed else []
    return " ".join(said)


class Columns:
    """The columns of bars, one for each hash function: where each begins, and how long 1 is. Behind
    a bar, and no nearer than 1, stands its figure, bold above 1, where we are the slower."""

    def __init__(self, count, width):
        gap = 16 if width == WIDE else 10
        column = (width - (count - 1) * gap) / count
        self.lefts = [place * (column + gap) for place in range(count)]
        self.one = (column - 34) / LONGEST  # beside the room for the figure

    def upright(self, picture, value, y1, y2, classes):
        """A line at some value in each column."""
        for left in self.lefts:
            picture.line(left + value * self.one, y1, left + value * self.one, y2, classes)

    def bars(self, picture, values, y, classes):
        """A bar in each column, and its figure."""
        for left, value in zip(self.lefts, values):
            if value is not None:
                picture.rectangle(left, y, value * self.one, BAR - 3, classes)
                picture.text(left + max(value, 1) * self.one + 4, y + BAR - 3.5, f"{value:.2f}",
                             "small bold" if value > 1 else "small")

    def scale(self, picture, y):
        """The figures below the bars."""
        for left in self.lefts:
            picture.text(left, y, "0", "small soft")
            picture.text(left + 0.5 * self.one, y, "0.5", "small soft", "middle")
            picture.text(left + self.one, y, "1", "small soft", "middle")


def legend(picture, libraries, y):
    """Which bar is which library's. Gives the line of the last words."""
    x = 0
    for number, library in enumerate(libraries.values()):
        words = f"beside {library['name']} ({library['version']})"
        needed = 30 + svg.width_of(words, "small")
        if x + needed > picture.width:
            x, y = 0, y + 18
        picture.rectangle(x, y - 10, 12, 12, f"bar{number}")
        picture.text(x + 18, y, words, "small")
        x += needed
    return y


def row_of_bars(picture, columns, words, bars, y):
    """A row: its words, and the bars below them. Gives its end."""
    picture.text(0, y + LINE, words, "small")
    top, bottom = y + LINE + 5, y + LINE + 5 + BAR * len(bars)
    columns.upright(picture, 0, top - 1, bottom, "grid")
    columns.upright(picture, 0.5, top - 1, bottom, "grid")
    for at, (number, values) in enumerate(bars):
        columns.bars(picture, values, top + at * BAR, f"bar{number}")
    columns.upright(picture, 1, top - 2, bottom, "line")
    return bottom + 4


def speed_picture(figures, width):
    """Bars of our time over that of others."""
    speed = figures["speed"]
    picture = svg.Picture(width, "Yezdopin's time over that of others; below 1 it is faster",
                          speed_in_words(speed))
    y = picture.paragraph(0, 15, "Yezdopin's time, where the other library takes 1. Shorter is "
                          "faster.", width, "bold", 17)
    y = legend(picture, speed["libraries"], y + 4) + 24
    columns = Columns(len(speed["hashes"]), width)
    for left, name in zip(columns.lefts, speed["hashes"]):
        picture.text(left, y, name, "bold")
    y += 6
    for shown in speed["shown"]:
        y = row_of_bars(picture, columns, shown["words"], bars_of(speed, shown), y)
    columns.scale(picture, y + 10)
    measured = speed["beside"]
    y = picture.paragraph(
        0, y + 34, f"{measured['processor']}. With these, OpenSSL's SHA-1 and SHA-256 are much "
        "faster: Yezdopin never uses them.", width, "small")
    y = picture.paragraph(
        0, y, f"Measured by {measured['command']} on {measured['date']}. No bar: the library has "
        "no such call. Bold: Yezdopin is slower. Eight digests: one call beside eight of the "
        "other, by the product of two ratios.", width, "small soft")
    return picture.written(y - 6)


def box(picture, y, kind, title, words, left=0, right=None, mark=None):
    """A box: its title, its kind at the right, and what is in it. Gives its end."""
    right = picture.width if right is None else right
    mark = {"read": "you read this"}.get(kind, kind) if mark is None else mark
    inner, front = right - left - 24, len(picture.parts)
    if mark:
        picture.text(right - 12, y + 21, mark, "bold", "end")
    picture.text(left + 12, y + 21, title, "bold")
    beside = 12 + svg.width_of(title, "bold")
    if svg.width_of(words, "small") + beside + svg.width_of(mark, "bold") <= inner:
        picture.text(left + 12 + beside, y + 21, words, "small")
        end = y + 31
    else:
        end = picture.paragraph(left + 12, y + 39, words, inner, "small") - 5
    picture.rectangle(left + 1.5, y, right - left - 3, end - y, f"box {kind}", 6, front)
    return end


def caller(picture, x, y, width, words):
    """A box of a caller's language."""
    picture.rectangle(x, y, width, 28, "caller", 6)
    picture.text(x + width / 2, y + 19, words, "", "middle")


def callers(picture, y, body, per_row):
    """The callers by whom the packages are used. Gives the end of the last row."""
    names = ["C, C++", "Python", "Rust", "JavaScript", "OpenSSL 3"]
    each = body / per_row
    for number, name in enumerate(names):
        caller(picture, number % per_row * each + 1, y + number // per_row * 34, each - 6, name)
    return y + (len(names) - 1) // per_row * 34 + 28


def proved_layers(picture, y, body, rattle, rattle_ends):
    """The layers that are proved, from the calls for C down to the definitions."""
    middle = body / 2
    y = box(picture, y, "proved", "The calls for C", "crates/ring_c", 0, body)
    picture.arrow(middle, y, y + 20)
    picture.arrow(rattle, rattle_ends, y + 20)
    y = box(picture, y + 20, "proved", "digest, hmac, hkdf, pbkdf2",
            "crates/ring: the bytes and the refusals, for every input")
    picture.arrow(middle, y, y + 20)
    y = box(picture, y + 20, "proved", "Block functions, comparison", "crates/ring_core")
    y = picture.paragraph(12, y + 20, "proved to be what these say:", body, "small soft")
    return box(picture, y - 6, "read", "Definitions",
               "crates/*/specs: FIPS 180-4, RFC 2104, 5869 and 2898 as short definitions, tested on"
               " the values that the standards and other libraries give")


def layers_picture(_figures, width):
    """What is proved, tested and trusted, from the callers down to the definitions."""
    picture = svg.Picture(
        width, "Layers of Yezdopin: what is proved, tested and trusted",
        "From the top down, as a call goes. Programs in C, Python, Rust, JavaScript and over "
        "OpenSSL 3 call the packages, plain code that is tested. The packages call machine code "
        "that is kept as text in generated/; a test compares it with what the Rattle kit makes"
        " of the calls for C, crates/ring_c. These call crates/ring, the digests, HMAC, HKDF and "
        "PBKDF2, and that calls crates/ring_core, the block functions. The three crates are proved"
        " to do what the definitions say, which are short and made to be read. Programs in Rattle "
        "call crates/ring and are proved too. Rattle's prover and compiler, the C library and, "
        "but for what make verify shows by the machine code, LLVM and the linker are trusted.")
    lane = 76 if width == WIDE else 58  # at the right, that of callers in Rattle
    body, rattle = width - lane - 8, width - lane / 2
    picture.text(0, 14, "Your program, in", "small soft")
    y = callers(picture, 22, body, 5 if width == WIDE else 3)
    caller(picture, width - lane, 22, lane - 1, "Rattle")
    picture.text(rattle, 65, "proved", "small", "middle")
    picture.text(rattle, 80, "too", "small", "middle")
    picture.arrow(body / 2, y, y + 20)
    y = box(picture, y + 20, "tested", "Packages and provider",
            "plain code that hands your bytes to the calls below", 0, body)
    picture.arrow(body / 2, y, y + 20)
    y = box(picture, y + 20, "tested", "Machine code, kept as text",
            "generated/, assembly and WebAssembly: without the Rattle kit you build from here. "
            "A test compares it, byte for byte, with what the kit makes. make verify shows by "
            "itself that its block functions are the standard's.", 0, body)
    picture.line(0, y + 17, body, y + 17, "grid")
    y = picture.paragraph(0, y + 36, "The Rattle kit proves what follows, and "
                          "compiles it to the code above.", body, "small soft")
    y = proved_layers(picture, y - 4, body, rattle, 86)
    y = box(picture, y + 14, "trusted", "Below all of it",
            "Rattle's prover and compiler, the C library; but for what make verify shows, LLVM, "
            "your compiler and linker; for JavaScript also the engine, and the program that turns "
            "the module to 32-bit addresses")
    return picture.written(y + 3)


def proof_picture(_figures, width):
    """How a call is proved."""
    picture = svg.Picture(
        width, "How a call is proved",
        "A definition says what the standard's bytes are. The contract of a call says that its "
        "result is the definition's, and when it is refused. The prover shows that the code "
        "keeps the contract. The repository also keeps wrong versions of the code, which the "
        "prover has to refuse.")
    half = width / 2
    y = box(picture, 2, "read", "1. Definition",
            "in specs/: the standard's bytes, as a short function on lists of numbers")
    picture.arrow(half, y, y + 18)
    y = box(picture, y + 18, "read", "2. Contract",
            "beside the code. ok: the result is what the definition says. refused: an error "
            "exactly where a length is past the limit")
    picture.arrow(half / 2, y, y + 18)
    picture.arrow(half * 1.5, y, y + 18)
    first = box(picture, y + 18, "proved", "3. Code", "keeps the contract for every input: the "
                "prover says logic=proved", 0, half - 4)
    second = box(picture, y + 18, "tested", "4. Wrong versions", "in wrong/ and must-fail/: the "
                 "prover has to refuse each, or the contract says too little", half + 4, width, "")
    return picture.written(max(first, second) + 3)


PICTURES = {"speed": speed_picture, "layers": layers_picture, "proof": proof_picture,
            "verify": runs.drawer("verify")}


def ratio_cell(value):
    """A ratio, or nothing where there was no call."""
    return "" if value is None else f"{value:.2f}"


def table(heads, rows):
    """A table of a page, without spaces, since README has a limit."""
    return "\n".join("|".join(["", *row, ""]) for row in (heads, ["-"] * len(heads), *rows))


def library_columns(speed, rows):
    """The columns of a measurement: a place of a hash function and a key of its rows."""
    keys = ["ns", "without", *speed["libraries"], *speed["crates"]]
    columns = [(place, key) for place in range(len(speed["hashes"])) for key in keys]
    return [(place, key) for place, key in columns
            if any(key in row and row[key][place] is not None for row in rows)]


def beside_row(row, columns):
    """A piece of work with the unit of its times, our times, and their ratios to others'."""
    unit, size = ("ns", 1) if max(filter(None, row["ns"])) < 10000 else ("us", 1000)
    return [f"{row['work']} ({unit})"] + [
        f"{row[key][place] / size:.0f}" if key == "ns"
        else ratio_cell(row.get(key, [None] * 3)[place]) for place, key in columns
    ]


def beside_table(speed, rows):
    """Our times, and their ratios to those of other libraries."""
    columns = library_columns(speed, rows)
    others = {"without": {"column": "without"}, **speed["libraries"], **speed["crates"]}
    heads = ["Work"] + [
        speed["hashes"][place] if key == "ns" else f"/ {others[key]['column']}"
        for place, key in columns
    ]
    return table(heads, [beside_row(row, columns) for row in rows])


def table_with_versions(speed, measured, libraries):
    """A table beside some libraries, below what was measured and when."""
    versions = ", ".join(f"{it['name'].split()[0]} {it['version']} of {it['system']}"
                         for it in libraries.values())
    told = f"{measured['processor']}, on {measured['date']}; {versions}."
    return f"{told}\n\n{beside_table(speed, measured['rows'])}"


def measured_table(figures):
    """The first table of docs/SPEED.md."""
    speed = figures["speed"]
    return table_with_versions(speed, speed["beside"], speed["libraries"])


def crates_table(figures):
    """That beside Rust's crates."""
    speed = figures["speed"]
    return table_with_versions(speed, speed["beside_crates"], speed["crates"])


def integer_table(figures):
    """The second: OpenSSL without vectors, as ratios alone."""
    speed, rows = figures["speed"], figures["speed"]["beside_integer_code"]["rows"]
    keys = [key for key in speed["libraries"] if any(key in row for row in rows)]
    heads = [f"{name} / {speed['libraries'][key]['column']}"
             for name in speed["hashes"] for key in keys]
    cells = ([row["work"], *(ratio_cell(row[key][place])
                             for place in range(len(speed["hashes"])) for key in keys)]
             for row in rows)
    return table(["Our time over", *heads], cells)


def instructions_table(figures):
    """That of SHA instructions, below what was measured and when."""
    speed = figures["speed"]
    measured = speed["instructions"]
    version = speed["libraries"]["openssl_3_0"]["version"]
    told = f"{measured['processor']}, on {measured['date']}; OpenSSL {version}."
    return f"{told}\n\n{beside_table(speed, measured['rows'])}"


def together_table(figures):
    """The third: several messages in one call."""
    together = figures["speed"]["together"]
    rows = ([f"{it['hash']}, {it['bytes']} bytes each", *map(ratio_cell, it["over_one_by_one"])]
            for it in together["rows"])
    return table(["Messages in one call", *map(str, together["messages"])], rows)


def speed_table(figures):
    """README's: the bars that are beside OpenSSL."""
    speed = figures["speed"]
    keys = [it for it in speed["libraries"] if it.startswith("openssl")]
    columns = [(place, key) for place in range(len(speed["hashes"])) for key in keys]
    heads = [f"{speed['hashes'][place]}, {speed['libraries'][key]['column']}"
             for place, key in columns]
    rows = ([it["words"], *(ratio_cell(ratios(speed, it, key)[place]) for place, key in columns)]
            for it in speed["shown"])
    return table(["Over OpenSSL", *heads], rows)


def packages_table(figures):
    """README's: which package has what."""
    rows = ([row["what"], *("–" if isinstance(row[it], str) else "yes" for it in offers.PACKAGES)]
            for row in figures["packages"])
    return table(["", *offers.PACKAGES], rows)


TABLES = {
    "README.md": {"speed": speed_table, "packages": packages_table},
    "docs/SPEED.md": {"instructions": instructions_table, "beside": measured_table,
                       "integer": integer_table, "together": together_table,
                       "crates": crates_table},
}


def with_table(page, name, made):
    """A page with a table between its marks."""
    before, begin, rest = page.partition(f"<!-- {name}:")
    head, opened, rest = rest.partition("-->\n")
    _, end, after = rest.partition(f"<!-- /{name} -->")
    if not (begin and opened and end):
        raise SystemExit(f"there is no place for the table {name}")
    return f"{before}{begin}{head}{opened}{made}\n{end}{after}"


def with_tables(path, figures):
    """A page with its tables."""
    page = (ROOT / path).read_text()
    for name, made in TABLES[path].items():
        page = with_table(page, name, made(figures))
    return page


def wanted(figures):
    """Each file that is made, and its text."""
    made = {path: with_tables(path, figures) for path in TABLES}
    for name, draw in PICTURES.items():
        made[f"docs/pictures/{name}.svg"] = draw(figures, WIDE)
        made[f"docs/pictures/{name}_narrow.svg"] = draw(figures, NARROW)
    return made


def is_current(path, text):
    """Whether a file has the text that is made for it."""
    return (ROOT / path).is_file() and (ROOT / path).read_text() == text


def main():
    for path, text in wanted(json.loads((ROOT / FIGURES).read_text())).items():
        if not is_current(path, text):
            (ROOT / path).write_text(text)
            print(f"wrote {path}")


if __name__ == "__main__":
    main()
