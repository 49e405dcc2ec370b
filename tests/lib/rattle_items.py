# SPDX-License-Identifier: ISC
"""What tests and tools know of a library: its modules, what is public in them, and each item's
comment, signature and clauses."""

import dataclasses
import pathlib
import re

import rattle_text

ROOT = pathlib.Path(__file__).resolve().parents[2]
# Lowest first.
LIBRARIES = (
    "ring_core", "ring", "ring_text", "ring_store", "ring_store_text", "ring_password_hash",
    "ring_merkle", "ring_schedules", "ring_tokens", "ring_sums", "ring_bench",
)

HEAD = re.compile(
    r'(?P<public>pub (?!\()|pub\([a-z]+\) )?(?:(?:const|extern "C") (?=fn\b))*'
    r"(?P<kind>fn|struct|enum|trait|impl|mod|use|const|type|ghost|macro_rules)\b!? ?(?P<name>\w+)?"
)
# A field of a struct, or a variant of an enum.
PART = re.compile(r"(?P<public>pub (?!\()|pub\([a-z]+\) )?(?P<name>\w+)")
CLAUSE = re.compile(r"(?P<keyword>requires|ensures\*?)\s*(?P<label>\w+)?\s*\{")
SPACE = re.compile(r"\s+")
COMMENT = re.compile(r"//[^\n]*\n?")


@dataclasses.dataclass(frozen=True)
class Clause:
    """A clause of a contract: its label, which may be empty, the comment above it, and its text."""

    label: str
    comment: str
    text: str


@dataclasses.dataclass
class Item:
    """An item of a module, of an `impl` or `trait` block, of a struct or of an enum."""

    module: "Module"
    kind: str
    name: str
    is_public: bool
    comment: str
    line: int
    attributes: list
    signature: str
    clauses: list
    members: list

    @property
    def parameters(self):
        """The names of a function's parameters, without its receiver."""
        opening = self.signature.index("(", self.signature.index(self.name))
        inside = self.signature[opening + 1 : rattle_text.end_of(self.signature, opening) - 1]
        named = (re.match(r"(?:mut )?(\w+):", it.strip()) for it in split_commas(inside))
        return [it.group(1) for it in named if it]

    @property
    def result(self):
        """The type that a function returns, empty where it returns nothing."""
        opening = self.signature.index("(", self.signature.index(self.name))
        after = self.signature[rattle_text.end_of(self.signature, opening) :]
        return after.partition("->")[2].strip()


@dataclasses.dataclass
class Module:
    """A module: its library, its path below it, its `//!` page, its items and what it imports."""

    library: str
    path: tuple
    file: pathlib.Path
    page: str
    items: list
    uses: dict
    public_uses: list

    @property
    def name(self):
        """Its path, from its library on."""
        return "::".join((self.library, *self.path))


def split_commas(text):
    """What stands between the commas of a list, outside all brackets."""
    parts, depth, before = [""], 0, ""
    for mark in text:
        depth += (mark in "([{<") - (mark in ")]}" or (mark == ">" and before not in "-="))
        before = mark
        if mark == "," and depth == 0:
            parts.append("")
        else:
            parts[-1] += mark
    return [it for it in parts if it.strip()]


def end_at(text, at, end, marks):
    """Just behind the first of some marks that stands outside all brackets."""
    while at < end and text[at] not in marks:
        skipped = rattle_text.SKIPPED.match(text, at)
        if skipped:
            at = skipped.end()
        else:
            at = rattle_text.end_of(text, at) if text[at] in rattle_text.PAIRS else at + 1
    return min(at + 1, end)


def end_of_item(text, head, end):
    """Where the head of an item ends, and where the item does."""
    kind = head["kind"]
    if kind == "fn":
        after = rattle_text.end_of(text, text.index("(", head.end()))
        body = rattle_text.body_of(text, after)
        stop = end_at(text, after, end, ";") if body is None else rattle_text.end_of(text, body)
        return (stop - 1 if body is None else body), stop
    if kind == "ghost":
        stop = end_at(text, head.end(), end, ";,")
        return stop - 1, stop
    if kind in ("use", "const", "type"):
        stop = end_at(text, head.end(), end, ";")
        return stop - 1, stop
    opening = end_at(text, head.end(), end, "{;") - 1
    return opening, opening + 1 if text[opening] == ";" else rattle_text.end_of(text, opening)


def comment_lines(text, mark):
    """The lines of a comment as they are read, without its marks."""
    return "\n".join(re.sub(rf"^\s*{mark} ?", "", line) for line in text.splitlines())


def clauses_of(text):
    """The clauses in the head of a function, and where the first begins."""
    found, at, first = [], 0, len(text)
    while it := CLAUSE.search(text, at):
        notes = re.findall(r"^ *(//[^\n]*\n)", text[at : it.start()], re.M)
        first = min(first, it.start())
        at = rattle_text.end_of(text, it.end() - 1)
        found.append(Clause(it["label"] or "", "".join(notes), text[it.start() : at]))
    return found, first


def item_of(module, text, it, bounds, before):
    """The item whose head matched, between its bounds, with what stands before it."""
    start, end_of_head, end = bounds
    kind = it.groupdict().get("kind") or "part"
    head, comment, plain, attributes = text[start:end_of_head], *before
    clauses, first = clauses_of(head) if kind == "fn" else ([], len(head))
    found = Item(
        module, kind, it["name"] or "", (it["public"] or "") == "pub ",
        comment_lines(comment, "///") or (comment_lines(plain, "//") if kind == "ghost" else ""),
        text.count("\n", 0, start) + 1, attributes,
        COMMENT.sub("", head[:first]).rstrip(" \n,;"), clauses, [],
    )
    if kind in ("trait", "impl", "struct", "enum") and text[end_of_head] == "{":
        inside = kind in ("struct", "enum")
        found.members = list(items(module, text, end_of_head + 1, end - 1, inside))
    for member in found.members:
        member.is_public |= kind in ("trait", "enum") or " for " in found.signature
    return found


def items(module, text, at, end, inside=False):
    """The items between two places of a file; `inside` a struct or an enum, its parts."""
    comment, plain, attributes = "", "", []
    while at < end:
        if it := SPACE.match(text, at) or COMMENT.match(text, at):
            comment += it.group() if it.group().startswith("///") else ""
            plain += it.group() if re.match(r"// ", it.group()) else ""
            at = min(it.end(), end)
        elif text[at] == "#":
            stop = rattle_text.end_of(text, text.index("[", at))
            attributes.append(text[at:stop])
            at = stop
        else:
            head = HEAD.match(text, at)
            if inside and not (head and head["kind"] == "ghost"):
                head = PART.match(text, at)
                stop = at + len((split_commas(text[at:end]) or [""])[0]) + 1
                bounds = at, min(stop - 1, end), stop
            elif head:
                bounds = at, *end_of_item(text, head, end)
            else:
                raise ValueError(f"{module.file}: no item: {text[at:at + 40]!r}")
            yield item_of(module, text, head, bounds, (comment, plain, attributes))
            comment, plain, attributes, at = "", "", [], bounds[2]


def used_names(path):
    """The names that a `use` brings, each with its path as a tuple."""
    front, _, rest = path.partition("{")
    front = tuple(filter(None, front.split("::")))
    names = split_commas(rest.rstrip("}")) if rest else ["::".join(front)]
    for it in names:
        whole, _, alias = it.strip().partition(" as ")
        steps = tuple(whole.split("::"))
        steps = (front if rest else ()) + (() if steps == ("self",) else steps)
        yield alias or steps[-1], steps


def modules(library, path=()):
    """The modules of a library, by their paths."""
    source = ROOT / "crates" / library / "src"
    file = source.joinpath(*path).with_suffix(".rt") if path else source / "lib.rt"
    text = file.read_text()
    page = comment_lines(re.match(r"(?:// SPDX.*\n)?((?://!.*\n)*)", text).group(1), "//!")
    module = Module(library, path, file, page, [], {}, [])
    module.items = list(items(module, text, 0, len(text)))
    for it in module.items:
        if it.kind == "use":
            names = list(used_names(" ".join(it.signature.split()).partition("use ")[2]))
            module.uses.update(names)
            module.public_uses += names if it.is_public else []
    found = {path: module}
    for it in module.items:
        if it.kind == "mod":
            found.update(modules(library, (*path, it.name)))
    return found


class Sources:
    """All libraries: what their paths name, and what of them is public, at which page."""

    def __init__(self, libraries=LIBRARIES):
        self.libraries = libraries
        self.modules = {
            (name, *path): it for name in libraries for path, it in modules(name).items()
        }
        self.pages = [it for name in libraries for it in self.public_modules((name,))]
        self.impls = [it for m in self.modules.values() for it in m.items if it.kind == "impl"]
        self.shown = {}
        for page in self.pages:
            for _, it in self.given(page):
                if isinstance(it, Item) and (it.module is page or it.module not in self.pages):
                    self.shown.setdefault(id(it), (page, it))

    def public_modules(self, path):
        """A public module, and those below it that are public."""
        yield self.modules[path]
        for it in self.modules[path].items:
            if it.kind == "mod" and it.is_public:
                yield from self.public_modules((*path, it.name))

    def given(self, page):
        """What a public module gives: each name with its item or module, in the file's order."""
        for it in page.items:
            if it.is_public and it.kind not in ("use", "mod", "impl", "ghost"):
                yield it.name, it
        for name, path in page.public_uses:
            yield name, self.resolve(page, path)

    def shown_at(self, page):
        """The public items whose page this is."""
        return [it for at, it in self.shown.values() if at is page]

    def step(self, module, name, is_last):
        """What a name is in a module: an item, a module below it, or what it imports."""
        item = next((it for it in module.items if it.name == name and it.kind not in ("use", "mod")
                     and it.kind != "impl"), None)
        below = self.modules.get((module.library, *module.path, name))
        local = (item or below) if is_last else (below or item)
        return local or (name in module.uses and self.resolve(module, module.uses[name])) or None

    def resolve(self, module, path):
        """What a path names, as a module sees it: a module, an item or a member; else None."""
        first, *rest = path
        start = {"crate": (module.library,), "self": (module.library, *module.path)}.get(first)
        found = self.modules[start] if start else self.step(module, first, not rest)
        if not found and first in self.libraries:
            found = self.modules[(first,)]
        for at, name in enumerate(rest, 1):
            if isinstance(found, Module):
                found = self.step(found, name, at == len(rest))
            elif found:
                found = next((it for it in self.members(found) if it.name == name), None)
        return found

    def named(self, module, text):
        """What the type or trait is that a text names first, behind lifetimes and references."""
        it = re.match(r"(?:&|'\w+ )*([A-Za-z]\w*(?:::\w+)*)", text.strip())
        return self.resolve(module, tuple(it.group(1).split("::"))) if it else None

    def parts_of_impl(self, impl):
        """The trait of an `impl` as it is written, empty where it has none, and its type."""
        text = re.sub(r"^impl\s*", "", " ".join(impl.signature.split()))
        if text.startswith("<"):
            text = text[len(text) - len(behind_generics(text)) :]
        trait, _, subject = text.rpartition(" for ")
        return trait.strip(), subject.strip()

    def impls_of(self, item):
        """The `impl` blocks of a type; of a trait, those for what is no type of these libraries."""
        for impl in self.impls:
            trait, subject = self.parts_of_impl(impl)
            own = self.named(impl.module, subject)
            if own is item or (own is None and trait and self.named(impl.module, trait) is item):
                yield impl

    def members(self, item):
        """The public members of an item: its own, and those of its `impl` without a trait."""
        own = [
            it for it in item.members
            if it.is_public or it.kind == "ghost" and item.kind == "trait"
        ]
        plain = (it for it in self.impls_of(item) if not self.parts_of_impl(it)[0])
        return own + [it for block in plain for it in block.members if it.is_public]

    def trait_impls(self, item):
        """The `impl` blocks of a type or trait by which a caller has a trait."""
        for impl in self.impls_of(item):
            trait = self.parts_of_impl(impl)[0]
            known = self.named(impl.module, trait) if trait else None
            if trait and (known is None or id(known) in self.shown):
                yield impl


def behind_generics(text):
    """The text behind the list of generic parameters that it begins with."""
    depth = 0
    for at, mark in enumerate(text):
        depth += (mark == "<") - (mark == ">")
        if depth == 0:
            return text[at + 1 :]
    return text
