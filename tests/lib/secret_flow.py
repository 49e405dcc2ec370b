# SPDX-License-Identifier: ISC
"""Follows secret values through the text of functions: by `let`, by assignment, through loops,
closures and arms, into the buffers that a call fills, and into the parameters of what is called."""

import dataclasses
import functools
import pathlib
import re

import rattle_text

GENERIC = r"(?:::<[^()]*?>)?"
# A name, or a path to one; what follows a value; and words that are no values.
WORD = re.compile(r"(?<!\w)(?<!(?<!\.)\.)(?:\w+(?:::<[^()]*?>)?::)*[A-Za-z_]\w*")
MEMBER = re.compile(r"\s*\.(?!\.)(\w+)")
NO_VALUES = frozenset(
    "as break const continue else for if in let loop match move mut ref return unsafe while".split()
)
# Names of what holds no secret, whatever it is called on or handed to beside.
NO_SECRETS = frozenset({"alloc", "meter", "rt"})
# What a secret value tells that is public: how long it is, and whether there is one.
PUBLIC_METHODS = frozenset(
    "len is_empty is_ok is_err is_some is_none encode_slice encode_to_slice decode_slice".split()
)
# Methods that compare, and those whose time or address depends on what they are handed.
COMPARES = re.compile(
    r"(?:\.|::|\b(?=mem))(?:memchr\w*|eq|ne|cmp|partial_cmp|lt|le|gt|ge|eq_ignore_ascii_case"
    r"|starts_with|ends_with|contains|is_ascii|strip_prefix|strip_suffix|position|rposition|find"
    r"|rfind|all|any|binary_search\w*|is_sorted|take_while|skip_while|map_while|filter"
    r"|filter_map|split|rsplit|splitn|trim\w*"
    rf"|dedup\w*|sort\w*|retain){GENERIC}\("
)
SELECTS = re.compile(
    r"\.(?:get|get_mut|nth|split_at|split_at_mut|skip|step_by|rotate_left|rotate_right|truncate"
    r"|swap|checked_shl|checked_shr)\("
)
ASSIGNED = re.compile(
    r"(?:(?<=[;{}])|^)\s*\*?(\w+)([\w.]*(?:\[[^;{}]*?\])?) (?:[-+*/%^&|]|<<|>>)?= "
)
CLOSURE = re.compile(r"(?<=[(,] )\|([^|]*)\||(?<=\()(?:move )?\|([^|]*)\|")
# What in a pattern compares, where it does not only take a value apart: a literal, the elements of
# a slice, a range, a constant.
LITERAL = re.compile(r"\"|\b\d|\[|\.\.=|\b[A-Z][A-Z0-9_]+\b(?!::)")


def end_of(text, at):
    """Just behind the bracket that closes the one at a place, or the end of a text cut before."""
    try:
        return rattle_text.end_of(text, at)
    except ValueError:
        return len(text) + 1


def end_of_part(text, at, stops):
    """The first place from `at` on of one of these marks, outside brackets that open there."""
    while at < len(text) and text[at] not in ")]}":
        if any(text.startswith(it, at) for it in stops):
            return at
        at = end_of(text, at) if text[at] in "([{" else at + 1
    return at


def start_of_part(text, at):
    """Where the operand before a place begins."""
    depth = 0
    while at > 0:
        mark = text[at - 1]
        if depth == 0 and (mark in "([;{},|" or text[at - 2 : at] in ("&&", "= ", "=>")):
            return at
        depth += (mark in ")]") - (mark in "([")
        at -= 1
    return at


def parts(text):
    """What stands between the commas of a list."""
    found, depth, last = [""], 0, ""
    for it in text:
        depth += (it in "([{<") - (it in ")]}" or it == ">" and last not in "-=")
        if it == "," and depth == 0:
            found.append("")
        else:
            found[-1] += it
        last = it
    return [" ".join(it.split()) for it in found if it.strip()]


def names_in(pattern):
    """The names that a pattern binds."""
    found = re.findall(r"(?<![\w:.])([a-z_]\w*)\b(?!\s*(?:::|\(|\{|:))", pattern)
    return {it for it in found if it not in NO_VALUES and it != "_"}


@dataclasses.dataclass(eq=False)
class Function:
    """A function, the file that it stands in, and which of its names are secret."""

    path: str
    text: rattle_text.Function
    imports: dict
    secret: set = dataclasses.field(default_factory=set)
    gives_secret: bool = False

    def __post_init__(self):
        self.name, self.owner = self.text.name, self.text.owner
        self.crate, self.module = self.path.split("/")[1], pathlib.PurePath(self.path).stem
        end = rattle_text.end_of(self.text.signature, 0)
        of_parameters = (it.partition(":") for it in parts(self.text.signature[1 : end - 1]))
        self.parameters = {
            name.split()[-1].lstrip("&"): kind.strip() for name, _, kind in of_parameters
        }
        result = self.text.signature[end:].partition("->")[2].partition(" where ")[0]
        self.result = " ".join(result.split())
        self.body = rattle_text.SKIPPED.sub('""', self.text.body)
        self.filled = {it for it, kind in self.parameters.items() if kind.startswith("&mut")}
        self.filled |= set(re.findall(r"\blet (?:mut )?(\w+) = &mut ", self.body))

    def __str__(self):
        return f"{self.path}: {'::'.join(filter(None, (self.owner, self.name)))}"


def functions(path, code):
    """The functions of a file's text without contracts."""
    uses = re.findall(r"\buse (\w+)::([^;]*);", code)
    crate = path.split("/")[1]
    imports = {it: crate if root == "crate" else root
               for root, names in uses for it in re.findall(r"\w+", names)}
    return [Function(path, it, imports) for it in rattle_text.functions(code)]


def matches(body):
    """What each `match` of a body is on, and the patterns of its arms."""
    for it in re.finditer(r"\bmatch ", body):
        opening = end_of_part(body, it.end(), ["{"])
        at, end, arms = opening + 1, end_of(body, opening) - 1, []
        while (arrow := end_of_part(body, at, ["=>"])) < end:
            arms.append(" ".join(body[at:arrow].split()))
            at = arrow + 2 + len(re.match(r"\s*", body[arrow + 2 :])[0])
            at = end_of(body, at) if body[at] == "{" else end_of_part(body, at, [","])
            at += len(re.match(r"[,\s]*", body[at:])[0])
        yield body[it.end() : opening], arms


def bindings(body):
    """The patterns of a body, each with what it is bound to."""
    for it in re.finditer(r"\b(if |while )?let ", body):
        equal = end_of_part(body, it.end(), [" = "])
        branches = body.startswith(("if ", "match "), equal + 3)
        stops = ["{", "&& let"] if it[1] else [";"] if branches else [";", " else {"]
        value = body[equal + 3 : end_of_part(body, equal + 3, stops)]
        yield body[it.end() : equal].partition(": ")[0], value
    for it in re.finditer(r"\bfor ", body):
        inner = body.find(" in ", it.end())
        yield body[it.end() : inner], body[inner + 4 : end_of_part(body, inner + 4, ["{"])]
    for it in ASSIGNED.finditer(body):
        yield it[1], body[it.end() : end_of_part(body, it.end(), [";"])]
    for it in CLOSURE.finditer(body):
        start = max(body.rfind(mark, 0, it.start()) for mark in ";{}") + 1
        yield it[1] or it[2] or "", body[start : it.start()]
    for value, arms in matches(body):
        yield from ((it.partition(" if ")[0], value) for it in arms)


def calls(body):
    """The calls of a body: the path, the name, the arguments, and of a method the receiver."""
    for it in re.finditer(rf"((?:\w+::)*)(\w+){GENERIC}\(", body):
        if it[2] not in NO_VALUES:
            before = re.search(r"(\w*)(?:\[[^\[\]]*\])?\.$", body[: it.start()])
            arguments = parts(body[it.end() : end_of(body, it.end() - 1) - 1])
            yield it[1].removesuffix("::"), it[2], arguments, before and before[1]


def filled_by(function, name, arguments, receiver, is_handed):
    """The names of what a call fills, where one of its arguments or its receiver is secret."""
    found = set()
    if (is_handed or receiver in function.secret) and name not in PUBLIC_METHODS:
        found |= {it[1] for it in (re.match(r"&mut (\w+)", them) for them in arguments) if it}
        found |= function.filled & set(arguments)
    is_own = receiver and (
        receiver in function.filled or re.search(rf"\blet mut {receiver}\b", function.body)
    )
    return found | {receiver} if is_handed and is_own else found


class Flow:
    """What is secret in functions: what is named or typed so, and what is made of it."""

    def __init__(self, found, results, public_fields, is_named, is_typed, is_public_type):
        self.results, self.public_fields, self.by_name = results, public_fields, {}
        self.is_named, self.is_typed, self.is_public_type = is_named, is_typed, is_public_type
        for it in found:
            self.by_name.setdefault(it.name, []).append(it)
            it.secret |= {name for name, kind in it.parameters.items()
                          if is_named(it, name) and kind not in ("usize", "bool") or is_typed(kind)}
            if is_typed(it.owner) and "self" in it.parameters:
                it.secret.add("self")
        while any([self.follows(it) for it in found]):
            pass

    def is_public(self, function, path, name, is_method):
        """Whether a call gives nothing that is secret. What is called on a secret value is, if it
        is not of a public type."""
        if is_method and name in PUBLIC_METHODS:
            return True
        known = list(self.candidates(function, path, name, is_method))
        if known and not is_method:
            return not any(it.gives_secret for it in known)
        results = {it.result for it in known} or self.results.get(name)
        return bool(results) and all(map(self.is_public_type, results))

    def chain(self, text, at, function):
        """Where a value and what is called on it end, and whether it is secret."""
        word = WORD.match(text, at)
        (path, _, name), at = word[0].rpartition("::"), word.end()
        found = word[0] in function.secret
        is_method = False
        while at < len(text):
            at += len(re.match(rf"{GENERIC}(?=\()|", text[at:])[0])
            if text[at] == "(":
                end = end_of(text, at)
                # What a call fills is no input of it.
                read = [it for it in parts(text[at + 1 : end - 1])
                        if it not in function.filled and not it.startswith("&mut ")]
                found = found or any(self.holds(it, function) for it in read)
                found &= not self.is_public(function, path, name, is_method)
                at = end
            elif text[at] in "[?":
                at = end_of(text, at) if text[at] == "[" else at + 1
            elif member := MEMBER.match(text, at):
                name, at, is_method = member[1], member.end(), True
                if not re.match(rf"{GENERIC}\(", text[at:]):
                    found = (found or self.is_named(None, name)) and name not in self.public_fields
            else:
                break
        return at, found

    def holds(self, text, function):
        """Whether a secret value stands in a text."""
        at = 0
        while at < len(text):
            word = WORD.match(text, at)
            if not word:
                at += 1
            elif word[0] in NO_VALUES or re.match(r"\s*:(?!:)", text[word.end() :]):
                at = word.end()
            else:
                at, found = self.chain(text, at, function)
                if found:
                    return True
        return False

    def gives_secret(self, function):
        """Whether what a function returns is secret."""
        if self.is_public_type(function.result) or self.is_typed(function.result):
            return self.is_typed(function.result)
        body, at, last = function.body[1:-1].rstrip(), 0, 0
        while at < len(body):
            is_block, is_end = body[at] == "{", body[at] == ";"
            at = end_of(body, at) if body[at] in "([{" else at + 1
            if is_end or is_block and re.match(r"\s*[\w(&*]", body[at:]):
                last = at
        returned = [body[it.end() : end_of_part(body, it.end(), [";"])]
                    for it in re.finditer(r"\breturn ", body)]
        return any(self.holds(it, function) for it in (body[last:], *returned))

    def follows(self, function):
        """Finds more that is secret in a function and in what it calls; whether there is any."""
        more = {function: set()}
        for pattern, value in bindings(function.body):
            if self.holds(value, function):
                more[function] |= names_in(pattern)
        for path, name, arguments, receiver in calls(function.body):
            known = [self.holds(it, function) for it in arguments]
            closure = re.search(rf"\blet {name} = (?:move )?\|([^|]*)\|", function.body)
            if closure and any(known):
                more[function] |= names_in(closure[1])
            more[function] |= filled_by(function, name, arguments, receiver, any(known))
            for other in self.candidates(function, path, name, receiver is not None):
                own = list(other.parameters)
                given = [False, *known] if "self" in own and receiver is not None else known
                more.setdefault(other, set()).update(
                    it for it, is_secret in zip(own, given)
                    if is_secret and it != "self" and other.parameters[it] != "bool"
                )
        for it, names in more.items():
            more[it] = names - it.secret - NO_SECRETS
            it.secret |= more[it]
        gave, function.gives_secret = function.gives_secret, self.gives_secret(function)
        return any(more.values()) or gave != function.gives_secret

    def candidates(self, function, path, name, is_method):
        """The functions that a call may be of: of its crate, imported, or named with it."""
        owner = function.owner if path == "Self" else path.rpartition("::")[2]
        root = path.partition("::")[0]
        for it in self.by_name.get(name, ()):
            is_near = it.crate == function.crate
            if is_method:
                is_one = bool(it.owner)
            elif owner[:1].isupper():
                is_one = it.owner == owner
            elif owner:
                is_near |= it.crate == function.imports.get(root, root)
                is_one = not it.owner and owner in (it.module, it.crate)
            else:
                is_near = it.path == function.path or it.crate == function.imports.get(name)
                is_one = not it.owner
            if is_one and is_near:
                yield it


def leaks(flow, function):
    """What in a body depends on a secret value by a comparison, a condition or an index."""
    body, holds = function.body, functools.partial(flow.holds, function=function)
    for it in re.finditer(r" (?:==|!=|<=|>=|<|>) ", body):
        left = body[start_of_part(body, it.start()) : it.start()]
        right = body[it.end() : end_of_part(body, it.end(), [";", ",", "{", "&&", "||"])]
        if holds(left) or holds(right):
            yield f"compares{left}{it[0]}{right}"
    for it in COMPARES.finditer(body):
        start, end = start_of_part(body, it.start()), end_of(body, it.end() - 1)
        if holds(body[start : it.start()]) or holds(body[it.end() : end - 1]):
            yield f"compares by {body[start:end]}"
    for it in re.finditer(r"\b(?:if|while) (?!let )", body):
        condition = body[it.end() : end_of_part(body, it.end(), ["{", "=>"])]
        if holds(condition):
            yield f"branches on {condition}"
    yield from (f"matches {value} with {pattern}" for pattern, value in patterns(body)
                if LITERAL.search(pattern) and holds(value))
    for it in [*re.finditer(r"(?<=[\w)\]?\"])\[", body), *SELECTS.finditer(body)]:
        if holds(body[it.end() : end_of(body, it.end() - 1) - 1]):
            yield f"indexes by {body[it.start() : end_of(body, it.end() - 1)]}"
    for it in re.finditer(r" as usize\b|\busize::from\(", body):
        end = end_of(body, it.end() - 1) if body[it.end() - 1] == "(" else it.start()
        if holds(body[start_of_part(body, it.start()) : end]):
            yield f"makes a number of {body[start_of_part(body, it.start()) : end]}"
    for pattern, value in bindings(body):
        if ".." in value and re.search(rf"\bfor {re.escape(pattern)} in ", body) and holds(value):
            yield f"loops over {value}"


def patterns(body):
    """The patterns of a body that may be refused, each with what it is held to."""
    yield from bindings(body)
    for it in re.finditer(r"\bmatches!\(", body):
        value, *pattern = parts(body[it.end() : end_of(body, it.end() - 1) - 1])
        yield " ".join(pattern), value
