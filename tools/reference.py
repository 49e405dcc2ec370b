#!/usr/bin/env python3
# SPDX-License-Identifier: ISC
"""Writes the public items of the libraries as HTML pages that link to each other:

    reference.py [FOLDER]

The pages stand in the folder; without one they stand in docs/reference/, and the tables of
docs/API.md are made too. A page for each public module has its `//!` page and its items, each with
its comment, its signature and its contract; index.html lists the modules, and items.html all items.
The pages need no network and no script. Debian has what this script needs as `python3-markdown` and
`python3-pygments`.
"""

import html
import pathlib
import re
import sys

sys.dont_write_bytecode = True
sys.path.append(str(pathlib.Path(__file__).resolve().parent.parent / "tests/lib"))
import call_tables
import rattle_items

try:
    import markdown
    from pygments import highlight, token
    from pygments.formatters import HtmlFormatter
    from pygments.lexer import inherit
    from pygments.lexers import RustLexer
except ImportError as error:
    NEEDED = "apt-get install python3-markdown python3-pygments, then /usr/bin/python3"
    sys.exit(f"there is no `{error.name}`: {NEEDED} {sys.argv[0]}")

OUT = pathlib.Path(*sys.argv[1:2] or [rattle_items.ROOT / "docs" / "reference"])
STYLE = pathlib.Path(__file__).with_name("reference.css")
# The pictures of the first page, with what they show.
PICTURES = {
    "layers": "the layers of the library: what is proved, tested and trusted",
    "proof": "how a call is proved: a definition, a contract, and the code that keeps it",
}
# The headings of a page, and the kinds of items below each.
SECTIONS = {
    "Functions": ("fn",),
    "Types": ("struct", "enum", "type"),
    "Traits": ("trait",),
    "Constants": ("const",),
}
LONG_NAMES = {"fn": "function", "const": "constant"}
# A contract of more lines is folded at first.
OPEN_LINES = 12
FENCE = re.compile(r"^```([^\n]*)\n(.*?)^```$", re.M | re.S)
LINK = re.compile(r"\[`([\w:]+)`\](?:\(([\w:]+)\))?")
# A path in code that is coloured: a type, a constant or a call, and no field or parameter.
STEP = r'<span class="(?:n|nc)">\w+</span>'
PATH_IN_CODE = re.compile(
    rf'(?<!\.</span>)(?:{STEP}<span class="p">::</span>)*'
    rf'(?:<span class="(?:n|nc)">[A-Z]\w*</span>|{STEP}(?=<span class="p">(?:\(|::)))'
)


class RattleLexer(RustLexer):
    """Rust with the words and marks of contracts."""

    tokens = {
        "base": [
            (r"\b(?:requires|ensures|ghost)\b\*?", token.Keyword),
            (r"\brecord\b", token.Keyword),
            (r"λ", token.Keyword),
            (r"\b[A-Z]\w*\b(?!!)", token.Name.Class),
            (r"[≡≢↔→×¬⊎≤⊕∷∧∨◌]|\+\+", token.Operator),
            (r"[ℕΣσ⊤⊥𝓛]\w*", token.Name),
            (r"'\w+\b(?!')", token.Name.Label),
            inherit,
        ]
    }


def colored(code):
    """Code as HTML."""
    return highlight(code, RattleLexer(), HtmlFormatter(cssclass="code"))


def outdented(text):
    """A text from within a file without the indentation that its lines share past the first."""
    first, *rest = text.split("\n")
    shared = min((len(it) - len(it.lstrip()) for it in rest if it.strip()), default=0)
    extra = "" if not rest or rest[-1].lstrip()[:1] in (")", "}") else "    "
    return "\n".join([first, *(extra + it[shared:] for it in rest)])


def plain_first(found):
    """Items in their order, but each counted form right behind its plain form."""
    names = [it.name for it in found]
    plain = [it.name.removesuffix("_counted") for it in found]
    places = [names.index(p) if p in names else at for at, p in enumerate(plain)]
    order = sorted(range(len(found)), key=lambda at: (places[at], names[at] != plain[at]))
    return [found[at] for at in order]


def file_of(module):
    """The file of a public module."""
    return ".".join((module.library, *module.path)) + ".html"


class Reference:
    """All pages, and where each item stands on them."""

    def __init__(self):
        self.sources = rattle_items.Sources()
        self.places = {}
        for page in self.sources.pages:
            for item in self.sources.shown_at(page):
                self.place(page, item, item.name)
                for member in self.members(item):
                    self.place(page, member, f"{item.name}.{member.name}")

    def place(self, page, item, anchor):
        """Gives an item its place; a second one of the same name gets a number."""
        url = f"{file_of(page)}#{anchor}"
        taken = sum(it.partition("~")[0] == url for it in self.places.values())
        self.places[id(item)] = url + (f"~{taken + 1}" if taken else "")

    def members(self, item):
        """The members of a type or trait that have an entry of their own."""
        has_members = item.kind in ("struct", "enum", "trait")
        return plain_first(self.sources.members(item)) if has_members else []

    def url_of(self, module, path):
        """Where what a path names stands, or None."""
        found = self.sources.resolve(module, tuple(path.split("::")))
        if isinstance(found, rattle_items.Module):
            return file_of(found) if found in self.sources.pages else None
        return self.places.get(id(found))

    def prose(self, module, text):
        """A comment as HTML, its paths as links."""
        def link(it):
            url = self.url_of(module, it.group(2) or it.group(1))
            return f"[`{it.group(1)}`]({url})" if url else f"`{it.group(1)}`"

        def code(it):
            if it.group(1):
                return f'\n<div class="code"><pre>{html.escape(it.group(2))}</pre></div>\n'
            return f"\n{self.code(module, it.group(2))}\n"

        text = FENCE.sub(code, LINK.sub(link, text))
        return markdown.markdown(text, extensions=["tables", "sane_lists"])

    def summary(self, item):
        """The first sentence of a comment, or of a module's page, as HTML."""
        text = item.page if isinstance(item, rattle_items.Module) else item.comment
        module = item if isinstance(item, rattle_items.Module) else item.module
        first = re.split(r"(?<=[\w)`\]])\.\s", text.strip().partition("\n\n")[0])[0].rstrip(".:")
        return re.sub(r"^<p>|</p>$", "", self.prose(module, first + "." if first else ""))

    def code(self, module, text):
        """Code as HTML, its paths as links."""
        def link(it):
            path = re.sub(r"<[^>]*>", "", it.group())
            url = self.url_of(module, path)
            return f'<a href="{url}">{it.group()}</a>' if url else it.group()

        return PATH_IN_CODE.sub(link, colored(text))

    def signature(self, item):
        """An item's signature, without private fields; of a constant a value that is a number."""
        is_impl = item.kind == "impl"
        text = " ".join(item.signature.split()) if is_impl else outdented(item.signature)
        if item.kind == "const" and not re.search(r"= \d+$", text):
            text = text.partition(" =")[0]
        if item.kind == "struct":
            text = re.sub(r"\((?!pub )[^()]*\)$", "(..)", text)
        derived = [it for it in item.attributes if it.startswith("#[derive")]
        return self.code(item.module, "\n".join([*derived, text]))

    def folded(self, module, name, parts):
        """Labelled texts in a block that folds, its summary their labels."""
        if not parts:
            return ""
        text = "\n".join(it for _, it in parts)
        labels = html.escape(", ".join(dict.fromkeys(label for label, _ in parts if label)))
        opened = " open" if text.count("\n") < OPEN_LINES else ""
        summary = f"<summary>{name} <span>{labels}</span></summary>"
        return f"<details{opened}>{summary}{self.code(module, text)}</details>"

    def contract(self, item):
        """The clauses of a call; of a trait or an `impl` its ghost items, which clauses name."""
        if item.kind not in ("trait", "impl"):
            clauses = [(it.label, it.comment + outdented(it.text)) for it in item.clauses]
            return self.folded(item.module, "Contract", clauses)
        ghosts = [it for it in item.members if it.kind == "ghost" and it.name != "use"]
        parts = []
        for it in ghosts:
            note = "".join(f"// {line}\n" for line in it.comment.splitlines())
            parts.append((it.name, note + outdented(it.signature)))
        return self.folded(item.module, "Ghost items", parts)

    def entry(self, item, level, title):
        """An item with its members, or a member."""
        anchor = self.places[id(item)].partition("#")[2]
        below = [
            self.entry(it, level + 1, f"{item.name}::{it.name}")
            for it in self.members(item) if it.kind != "ghost"
        ]
        if item.kind in ("struct", "enum", "trait"):
            below += [self.body(it) for it in self.sources.trait_impls(item)]
        heading = f'<h{level}><a href="#{anchor}">{title}</a></h{level}>'
        return self.body(item, f' id="{anchor}"', heading, below)

    def body(self, item, attribute="", heading="", below=()):
        """A heading, an item's signature, comment and contract, and the entries below it."""
        prose, contract = self.prose(item.module, item.comment), self.contract(item)
        inner = "".join((heading, self.signature(item), prose, contract, *below))
        return f'<section class="item"{attribute}>{inner}</section>'

    def given_again(self, page):
        """What a module gives that stands on another page, or here under another name."""
        for name, it in self.sources.given(page):
            if isinstance(it, rattle_items.Module):
                url, is_here = file_of(it) if it in self.sources.pages else None, False
            else:
                url = self.places.get(id(it))
                is_here = any(it is shown for shown in self.sources.shown_at(page))
            if url and not (is_here and name == it.name):
                yield f'<a href="{url}"><code>{name}</code></a>', self.summary(it)

    def below(self, page):
        """The public modules right below a module."""
        for it in self.sources.pages:
            if it.library == page.library and it.path[:-1] == page.path and it.path:
                yield f'<a href="{file_of(it)}"><code>{it.path[-1]}</code></a>', self.summary(it)

    def navigation(self, page):
        """The list of all modules beside a page, with the items of the page."""
        rows = []
        for it in self.sources.pages:
            here = ' aria-current="page"' if it is page else ""
            name = (it.path or (it.library,))[-1]
            rows.append(f'<li class="deep{len(it.path)}"><a href="{file_of(it)}"{here}>{name}</a>')
            names = [i.name for i in plain_first(self.sources.shown_at(it))] if it is page else []
            items = "".join(f'<li><a href="#{i}">{i}</a></li>' for i in names)
            rows.append(f'<ul class="here">{items}</ul></li>' if items else "</li>")
        top = '<p><a href="index.html">Yezdopin</a> · <a href="items.html">All items</a></p>'
        return f'<nav>{top}<ul>{"".join(rows)}</ul></nav>'

    def write(self, name, title, page, body):
        """A page: its navigation and its body."""
        (OUT / name).write_text(
            f'<!DOCTYPE html>\n<html lang="en"><head><meta charset="utf-8"><title>{title}</title>'
            '<meta name="viewport" content="width=device-width, initial-scale=1">'
            '<meta name="color-scheme" content="light dark">'
            '<link rel="stylesheet" href="reference.css"></head>\n'
            f"<body>{self.navigation(page)}<main><h1>{title}</h1>{body}</main></body></html>\n"
        )

    def write_module(self, page):
        """The page of a public module."""
        body = [self.prose(page, page.page)]
        shown = plain_first(self.sources.shown_at(page))
        links = list(self.below(page)) + list(self.given_again(page))
        body.append(table("Modules and re-exports", links))
        for heading, kinds in SECTIONS.items():
            entries = [self.entry(it, 3, it.name) for it in shown if it.kind in kinds]
            body += [f"<h2>{heading}</h2>", *entries] if entries else []
        self.write(file_of(page), page.name, page, "".join(body))

    def write_lists(self):
        """The list of modules, and the list of all items."""
        body = "<p>The libraries' public items, each with its comment, signature and contract.</p>"
        body += "".join(picture(name, words) for name, words in PICTURES.items())
        for library in self.sources.libraries:
            pages = [it for it in self.sources.pages if it.library == library]
            links = (f'<a href="{file_of(it)}"><code>{it.name}</code></a>' for it in pages)
            body += table(library, list(zip(links, map(self.summary, pages))))
        self.write("index.html", "Yezdopin", None, body)
        rows = []
        shown = self.sources.shown.values()
        for page, item in sorted(shown, key=lambda it: (it[1].name.lower(), it[0].name)):
            place = f"{page.name}::<wbr>" + f'<a href="{self.places[id(item)]}">{item.name}</a>'
            kind = f"<small>{LONG_NAMES.get(item.kind, item.kind)}</small>"
            rows.append((f"<code>{place}</code>", f"{kind} {self.summary(item)}"))
        self.write("items.html", "All items", None, table("", rows))


def table(heading, rows):
    """Rows of two cells under a heading; nothing where there are none."""
    cells = "".join(f"<tr><td>{name}</td><td>{text}</td></tr>" for name, text in rows)
    title = f"<h2>{heading}</h2>" if heading else ""
    return f'{title}<table class="list">{cells}</table>' if rows else ""


def picture(name, words):
    """A picture of docs/pictures, which it copies, as wide as the page has room for."""
    for file in (f"{name}.svg", f"{name}_narrow.svg"):
        (OUT / file).write_text((rattle_items.ROOT / "docs" / "pictures" / file).read_text())
    return (
        f'<p><picture><source media="(max-width: 600px)" srcset="{name}_narrow.svg">'
        f'<img src="{name}.svg" alt="{words}"></picture></p>'
    )


def main():
    OUT.mkdir(parents=True, exist_ok=True)
    for old in OUT.glob("*.html"):
        old.unlink()
    reference = Reference()
    for page in reference.sources.pages:
        reference.write_module(page)
    reference.write_lists()
    (OUT / STYLE.name).write_text(STYLE.read_text())
    if not sys.argv[1:]:
        call_tables.write()
    pages, shown = len(reference.sources.pages), len(reference.sources.shown)
    print(f"{OUT / 'index.html'}: {pages} modules, {shown} items")


if __name__ == "__main__":
    main()
