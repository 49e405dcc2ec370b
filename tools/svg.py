# SPDX-License-Identifier: ISC
"""SVG pictures of words, boxes, bars and lines, in the colours of the reader's own light or dark.

Colours follow `prefers-color-scheme` inside of the picture, since a page of Markdown has no style. A
page may follow another setting than the system's, so a picture has a ground of its own.
The kinds of boxes and bars are blues, an orange and a green near those of Okabe and Ito, which the
colour-blind tell apart. tests/pictures.py has how far bars and words stand out.
"""

import html
import textwrap

STYLE = """
text { font-family: system-ui, -apple-system, 'Segoe UI', 'DejaVu Sans', Helvetica, sans-serif;
font-size: 14px; fill: #1f2328 }
.ground { fill: #ffffff }
.small { font-size: 12px } .bold { font-weight: 600 } .soft { fill: #59636e }
.line { stroke: #1f2328; stroke-width: 1.5 } .grid { stroke: #d1d9e0; stroke-width: 1 }
.bar0 { fill: #00507d } .bar1 { fill: #3a90ca } .bar2 { fill: #bb7d00 }
.box { stroke-width: 2 } .caller { fill: none; stroke: #8c959f; stroke-width: 1 }
.proved { fill: #ddf0fb; stroke: #0072b2 }
.tested { fill: #fdf1d8; stroke: #b87f00; stroke-dasharray: 6 3 }
.trusted { fill: #eff1f3; stroke: #59636e; stroke-dasharray: 2 3 }
.read { fill: #dff5ea; stroke: #00805c; stroke-width: 3 }
.head { fill: #1f2328 }
@media (prefers-color-scheme: dark) {
.ground { fill: #0d1117 } text { fill: #f0f6fc } .soft { fill: #9198a1 }
.line { stroke: #f0f6fc } .grid { stroke: #3d444d }
.bar0 { fill: #2f8fd0 } .bar1 { fill: #9bd3f5 } .bar2 { fill: #e69f00 }
.caller { stroke: #656c76 }
.proved { fill: #0d2f45; stroke: #56b4e9 } .tested { fill: #3a2c0a; stroke: #e6b13c }
.trusted { fill: #212830; stroke: #9198a1 } .read { fill: #0b3327; stroke: #2db88f }
.head { fill: #f0f6fc }
}
"""
# The ground around the shapes, in pixels.
MARGIN = 12
# How wide a letter is, in pixels. No font of STYLE has wider ones than DejaVu Sans.
LETTER = {"small": 6.8, "bold": 8.6, "": 8}


def width_of(words, classes=""):
    """About how wide words are."""
    return len(words) * next(it for name, it in LETTER.items() if name in classes)


class Picture:
    """Shapes and words by their places, in pixels from the upper left corner."""

    def __init__(self, width, title, description):
        self.width, self.title, self.description, self.parts = width, title, description, []

    def text(self, x, y, words, classes="", anchor="start"):
        """Words on a line: from `x` on, up to it, or around it."""
        named = f' class="{classes}"' if classes else ""
        placed = f' text-anchor="{anchor}"' if anchor != "start" else ""
        self.parts.append(f'<text x="{x:g}" y="{y:g}"{named}{placed}>{html.escape(words)}</text>')

    def paragraph(self, x, y, words, width, classes="", step=16):
        """Words in lines of some width. Gives the line behind the last one."""
        most = int(width / width_of(" ", classes))
        lines = textwrap.wrap(words, most, break_on_hyphens=False)
        for number, line in enumerate(lines):
            self.text(x, y + number * step, line, classes)
        return y + len(lines) * step

    def rectangle(self, x, y, width, height, classes, round_by=0, at=None):
        """A rectangle, before the part `at` where one is given, and so behind it."""
        corner = f' rx="{round_by}"' if round_by else ""
        shape = (f'<rect class="{classes}" x="{x:g}" y="{y:g}" width="{width:g}" '
                 f'height="{height:g}"{corner}/>')
        self.parts.insert(len(self.parts) if at is None else at, shape)

    def line(self, x1, y1, x2, y2, classes):
        """A line between two points."""
        self.parts.append(
            f'<line class="{classes}" x1="{x1:g}" y1="{y1:g}" x2="{x2:g}" y2="{y2:g}"/>'
        )

    def arrow(self, x, y1, y2):
        """An arrow down."""
        self.line(x, y1, x, y2 - 6, "line")
        self.parts.append(f'<path class="head" d="M{x - 4:g} {y2 - 7:g}h8l-4 7z"/>')

    def written(self, height):
        """The picture as a file."""
        title, description = html.escape(self.title), html.escape(self.description)
        size = self.width + 2 * MARGIN, height + 2 * MARGIN
        self.rectangle(-MARGIN, -MARGIN, *size, "ground", 6, 0)
        return "\n".join([
            f'<svg xmlns="http://www.w3.org/2000/svg"'
            f' viewBox="{-MARGIN} {-MARGIN} {size[0]:g} {size[1]:g}" width="{size[0]:g}"'
            f' height="{size[1]:g}" role="img" aria-labelledby="title desc">',
            f'<title id="title">{title}</title>',
            f'<desc id="desc">{description}</desc>',
            f"<style>{STYLE}</style>",
            *self.parts,
            "</svg>", "",
        ])
