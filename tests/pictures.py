#!/usr/bin/env python3
# SPDX-License-Identifier: ISC
"""Tests the pictures and tables that tools/pictures.py makes of docs/figures.json.

- each stands in the repository as it is made, and README has no figure of speed beside them;
- each measurement has its command, date and processor, and a figure or null for each place;
- each picture is well-formed and has a title and a description, its words are within its edges, and
  bars and words stand out from what is behind them in light and in dark (WCAG 2.1, 1.4.3, 1.4.11);
- README's table of packages says yes exactly where the package's sources offer the calls.

Then faults are planted in figures, pictures and sources, and each must be found. The last line is
'N passed, M failed'.
"""

import copy
import json
import pathlib
import re
import sys
import xml.etree.ElementTree

sys.dont_write_bytecode = True
sys.path.insert(0, str(pathlib.Path(__file__).resolve().parent.parent / "tools"))
import offers
import pictures
import svg

SVG = "{http://www.w3.org/2000/svg}"
HEADER = "c/include/yezdopin.h"
EXPORTS = "javascript/package/browser.d.ts"
TYPES = "javascript/package/types.d.ts"
# What is behind a picture in light and in dark, on GitHub's pages and on others' in the extreme.
GROUNDS = {"light": ("#ffffff", "#f6f8fa"), "dark": ("#0d1117", "#000000")}
LEAST_OF_BARS, LEAST_OF_WORDS = 3, 4.5

# A package, one of its files, a text of it and what stands there instead: a cell is then wrong.
PLANTED = (
    ("C", HEADER, "yz_status yz_digest_each(", "// yz_status yz_digest_each("),
    ("C", HEADER, "bool yz_equal(", "yz_status yz_password_store_new(void);\nbool yz_equal("),
    ("Python", "python/src/yezdopin/__init__.py", '    "digest_each",\n', ""),
    ("Python", "python/src/yezdopin/hmac.py", '    "Key",\n', ""),
    ("Rust", "rust/src/hkdf.rs", "    pub fn expand_label(", "    fn expand_label("),
    ("Rust", "rust/src/lib.rs", "pub mod password_hash;", "mod password_hash;"),
    ("Rust", "rust/src/tokens.rs", "pub mod otp;", "mod otp;"),
    ("JavaScript", EXPORTS, "export const hkdfExpand:", "declare const hkdfExpand:"),
    ("JavaScript", TYPES, "  verify(text: Input,", "  verifyHash(text: Input,"),
    ("JavaScript", EXPORTS, "export const digest:", "export const restoreContext: () => void;\n"
                                                    "export const digest:"),
    ("OpenSSL", "openssl/provider.c", '{"HKDF", ', '{"TLS13-KDF", '),
)


def part_of_light(color):
    """The relative luminance of a colour (WCAG 2.1)."""
    parts = [int(color[at : at + 2], 16) / 255 for at in (1, 3, 5)]
    red, green, blue = (it / 12.92 if it <= 0.03928 else ((it + 0.055) / 1.055) ** 2.4
                        for it in parts)
    return 0.2126 * red + 0.7152 * green + 0.0722 * blue


def contrast(one, other):
    """The contrast of two colours (WCAG 2.1)."""
    less, more = sorted((part_of_light(one), part_of_light(other)))
    return (more + 0.05) / (less + 0.05)


def fills(style):
    """What each class, and words without one, are filled with, in light and in dark."""
    pattern = re.compile(r"^(?:.* )?(text|\.\w+) \{[^}]*?fill: (#\w{6})", re.M)
    light, dark = style.replace(" .", "\n.").split("@media")
    found = dict(pattern.findall(light.replace(";\nfont", "; font")))
    return {"light": found, "dark": {**found, **dict(pattern.findall(dark))}}


def faults_of_style(style):
    """The bars and words that stand out too little."""
    for mode, colors in fills(style).items():
        boxes = [colors[it] for it in (".proved", ".tested", ".trusted", ".read")]
        bars = [color for name, color in colors.items() if name.startswith(".bar")]
        pairs = [(it, ground, LEAST_OF_BARS) for it in bars for ground in GROUNDS[mode]]
        pairs += [(colors[".soft"], ground, LEAST_OF_WORDS) for ground in GROUNDS[mode]]
        pairs += [(colors["text"], it, LEAST_OF_WORDS) for it in (*GROUNDS[mode], *boxes)]
        for one, other, least in pairs:
            if contrast(one, other) < least:
                yield f"{mode}: {one} on {other} has a contrast of {contrast(one, other):.1f}"


def faults_of_picture(text):
    """What is wrong with a picture: a part that is missing, or words beyond its edges."""
    root = xml.etree.ElementTree.fromstring(text)
    yield from (f"no {name}" for name in ("title", "desc") if not root.findtext(SVG + name))
    width, height = float(root.get("width")), float(root.get("height"))
    for it in root.iter(SVG + "text"):
        length = svg.width_of(it.text, it.get("class", ""))
        before = {None: 0, "middle": 0.5, "end": 1}[it.get("text-anchor")]
        left = float(it.get("x")) - before * length
        if left < -4 or left + length > width + 4 or not 8 < float(it.get("y")) < height:
            yield f"beyond the edges: {it.text}"


def faults_of_speed(speed):
    """The measurements that lack something."""
    for name in ("beside", "beside_integer_code", "beside_crates", "instructions", "together"):
        lacking = [it for it in ("command", "date", "processor") if not speed[name].get(it)]
        yield from (f"{name}: no {it}" for it in lacking)
        places = len(speed["together"]["messages"] if name == "together" else speed["hashes"])
        for row in speed[name]["rows"]:
            if any(len(it) != places for it in row.values() if isinstance(it, list)):
                yield f"{name}: {row} has not {places} figures of each"


def stray_figures(page):
    """The ratios of a page that stand outside of its tables."""
    rest = re.sub(r"<!-- (\w+):.*?<!-- /\1 -->", "", page, flags=re.S)
    return re.findall(r"\b[01]\.\d\d\b(?!\.\d)", rest)


def last_line(run):
    """What a command wrote last, as tools/runs.py has kept it."""
    return (pictures.runs.FOLDER / f"{run}.txt").read_text().splitlines()[-1]


def results(figures):
    """What is tested, each with the faults that were found."""
    for path, text in pictures.wanted(figures).items():
        yield path, [] if pictures.is_current(path, text) else ["run tools/pictures.py"]
        if path.endswith(".svg"):
            yield f"{path}: its parts", list(faults_of_picture(text))
    yield "the colours of the pictures", list(faults_of_style(svg.STYLE))
    yield "the measurements", list(faults_of_speed(figures["speed"]))
    said, page = last_line("verify"), (pictures.ROOT / "README.md").read_text()
    yield "README's last line of make verify", [] if f"\n# {said}\n" in page else [said]
    yield "README's other figures", stray_figures((pictures.ROOT / "README.md").read_text())
    names = {package: offers.names_of(package) for package in offers.PACKAGES}
    yield "the table of packages", offers.faults(figures["packages"], names)
    yield from planted_in_packages(figures["packages"], names)
    yield from planted_in_pictures(figures)


def planted_in_packages(rows, names):
    """Sources with a fault, each of which makes a cell wrong."""
    for package, path, old, new in PLANTED:
        texts = offers.texts_of(package)
        assert old in texts[path], f"{path} has no {old}"
        changed = offers.names_of(package, {**texts, path: texts[path].replace(old, new, 1)})
        found = offers.faults(rows, {**names, package: changed})
        yield f"planted in {path}: {old.strip()}", [] if found else ["it is not found"]
    fewer = {**names, "Rattle": names["Rattle"] - {"ring::digest::digest_each_counted"}}
    yield "planted in Rattle", [] if offers.faults(rows, fewer) else ["it is not found"]


def planted_in_pictures(figures):
    """Figures and pictures with a fault."""
    other = copy.deepcopy(figures)
    row = pictures.row_named(other["speed"]["beside"]["rows"], other["speed"]["shown"][0]["work"])
    row["openssl_3_0"][0] += 0.01
    made, before = pictures.wanted(other), pictures.wanted(figures)
    for path in (*pictures.TABLES, "docs/pictures/speed.svg", "docs/pictures/speed_narrow.svg"):
        yield f"planted figure in {path}", [] if made[path] != before[path] else ["it is not there"]
    del row["openssl_3_0"][0], other["speed"]["together"]["date"]
    found = list(faults_of_speed(other["speed"]))
    yield "planted: no date, and a figure too few", [] if len(found) == 2 else found or ["none"]
    moved = before["docs/pictures/speed.svg"].replace('<text x="0"', '<text x="600"', 1)
    yield "planted words beyond the edge", [] if list(faults_of_picture(moved)) else ["not found"]
    pale = svg.STYLE.replace(".bar0 { fill: #00507d }", ".bar0 { fill: #c0d0e0 }")
    yield "a planted pale bar", [] if list(faults_of_style(pale)) else ["it is not found"]
    yield "a planted stray figure", [] if stray_figures("It takes 0.45.") else ["it is not found"]


def main():
    found = list(results(json.loads((pictures.ROOT / pictures.FIGURES).read_text())))
    for what, faults in found:
        print(f"FAILED: {what}: {'; '.join(faults)}" if faults else f"ok: {what}")
    failed = sum(bool(faults) for _, faults in found)
    print(f"{len(found) - failed} passed, {failed} failed")
    return failed != 0


if __name__ == "__main__":
    sys.exit(main())
