#!/usr/bin/env python3
# SPDX-License-Identifier: ISC
"""What no contract sees: that no block is run outside the meter that a call was handed.

Searches the code of every crate but those of tests, outside tests, examples, comments and
contracts, and tries these rules: a plain form is the one call of its counted form; `ring_core` and
`ring` make a meter in 22 places, the crates above them in few, and no function that takes one makes
another; a function that takes a meter calls nothing that runs blocks under another; the calls for
C, which are handed no meter, and `ring_passwords` call what runs blocks once, and derive by no
plain form; the functions of key schedules run blocks by as many calls as are listed; the calls for
C derive in one place each, and only PBKDF2 and the test and the making of a password hash do; a
block is run once for each block counted, and four side by side for each four; and the rounds of
SHA-2 and of SHA-1 stand once: what a round alone calls and reads, and the rotations that it alone
has, stand in one function. Since it finds a call by the function's name, and a method's by the
type's too, it refuses what hides these: imports under another name, functions as values, aliases of
types, and macros that call. It then searches as many times again, each time with one body planted
that keeps its contract, and that a rule has to find. The last line is 'N passed, M failed'.
"""

import collections
import dataclasses
import functools
import pathlib
import re
import sys

sys.dont_write_bytecode = True
sys.path.append(str(pathlib.Path(__file__).resolve().parent / "lib"))
import rattle_text
from planted_bodies import (
    AHEAD_ONCE, AS_LISTED, COUNTED_ONCE, FEW_DERIVE, NONE_BELOW, NO_ALIAS, NO_MACRO, NO_OTHER_METER,
    NO_OTHER_NAME, NO_OTHER_PLACE, NO_PLAIN_DERIVATION, NO_SECOND, NO_SIGMA_1, NO_VALUE,
    NO_NAMED_COUNT, OF_BOTH_FORMS, OF_EACH_FAMILY, OF_ONE_FUNCTION, ONCE, ONE_CALL, ONE_DERIVATION,
    ONE_MAKER, ONE_ROTATION, PLANTED,
)

# As many files are read again as bodies are planted.
functions = functools.cache(lambda code: tuple(rattle_text.functions(code)))

ROOT = pathlib.Path(__file__).resolve().parent.parent
# The 22 places of `ring_core` and `ring` that make a meter: the plain forms, then `Key::generate`
# and the three conversions of an `Okm`. `Context` is that of `digest` and that of `hmac`.
PLACES = {
    "ring_core": [
        "sha1_block_data_order", "block_data_order_32", "block_data_order_64",
        "verify_slices_are_equal",
    ],
    "ring": [
        "Context::update", "Context::finish", "digest",
        "Key::new", "Context::update", "Context::sign", "sign", "verify",
        "Salt::new", "Salt::extract", "Prk::new_less_safe", "Okm::fill",
        "derive", "verify",
        "Key::generate", "Key::try_from", "Salt::try_from", "Prk::try_from",
    ],
}
# How many places of a crate above these make a meter at most, where there are any: one a plain
# form; of the bench one for each request that runs blocks; of the program `set`, `verify` and
# `check`; of `ring_sums` and the calls for C those that call what has no plain form, and two plain
# forms; and callers.
METERS = {
    "ring_bench": 6,
    "ring_store": 7,
    "ring_password_hash": 3,
    "ring_merkle": 10,
    "ring_passwords": 3,
    "ring_schedules": 2,
    "ring_tokens": 13,
    "ring_sums": 1,
    "ring_examples": 18,
    "ring_speed": 4,
    "ring_c": 9,
}
# How the names of the crates of tests end.
OF_TESTS = "_tests"
# The libraries whose functions take a meter or make one, where they run blocks.
METERED = ("ring_core", "ring", "ring_store", "ring_password_hash")
# What makes its key by a conversion, which is handed no meter: no call of its counted form.
CONVERTS = {("TokenMaker", "new")}
# The crates whose bodies call what runs blocks once; what the calls for C derive by; which of them,
# and which functions below them, may; and the one of `ring_passwords` that may by a plain form.
CALLED_ONCE = ("ring_passwords", "ring_c")
DERIVES = frozenset(
    (owner, name)
    for owner in ("", "Stored")
    for name in ("derive_in", "verify_in", "new_counted", "verify_counted")
)
MAY_DERIVE = re.compile(
    r"yz_pbkdf2_\w+|yz_password_hash_(?:verify|new)(?:_counted)?|derive|verify"
)
MAKES_TEXT = "new_value"
# By how many calls the functions of `ring_schedules` run blocks: they take no meter, but for those
# of a Finished. Others do by one. The calls of QUIC have one for each version.
SCHEDULES = "ring_schedules"
RUNS_IN = {
    "client_application_secret": 4,
    "hkdf_extract": 3, "hkdf_expand_label": 2, "derive": 2, "derive_of_nothing": 2,
    "initial_secrets": 3, "packet_key": 2, "packet_iv": 2, "header_key": 2, "next_secret": 2,
    "external_binder_key": 3, "resumption_binder_key": 3,
    "into_handshake": 2, "into_handshake_without_shared": 2, "into_master": 2, "export": 4,
}
# What loads the words of blocks and what counts these: that it counts as many is its contract. Each
# family has one place that loads by each, and that runs the rounds and counts there: by fours the
# kernel of one message, then that by instructions, and the others the kernel over a window.
COUNTS = {
    "read_four": "add_block()",
    "four_of": "add_block()",
    "read_block": "add_block()",
    "block_of_words": "add_block()",
    "SameBlock": "add_block()",
    "BlockInEach": "add_blocks(V::LANES)",
    "FrontAndPadding": "add_blocks(S::LANES)",
}
RUNS = "run_block"
FAMILIES = 2
# What a round alone calls or reads: those of both families, those of SHA-1, and those of both forms
# of SHA-2's.
OF_BOTH_ROUNDS = ("choose_word", "plus_choose")
OF_SHA_1 = ("plus_function", "plus_majority", "round_function")
OF_SHA_2 = ("BIG_SIGMA_0", "BIG_SIGMA_1")
FORMS = 2
# The rotations to the right that a round alone has: SHA-1's of a, to the left by 5; and of Σ1 of
# each word size the one that it also has with its rotations nested. SHA-2's round takes these from
# its constants.
ROTATION_OF_SHA_1 = 27
ROTATIONS_OF_SIGMA_1 = {6, 14}
# The functions that rotate or shift by a count that has a name, beside which no rule sees one.
NAMED_COUNTS = {
    "rotate_left", "two_rotations", "two_rotations_nested", "small_sigma", "big_sigma_apart",
    "big_sigma_nested", "small_sigma_of_halves", "rotate", "rotate_four", "rotr", "shift",
    "shift_right",
}
# The constants that a round has, each with what finds it in small letters.
CONSTANTS = {
    "0x5a827999": r"0x5a827999|\b1518500249\b",
    "0x6ed9eba1": r"0x6ed9eba1|\b1859775393\b",
    "0x8f1bbcdc": r"0x8f1bbcdc|\b2400959708\b",
    "0xca62c1d6": r"0xca62c1d6|\b3395469782\b",
    "Σ1 of SHA-256": r"\b6, 11, 25\b",
    "Σ1 of SHA-512": r"\b14, 18, 41\b",
}
# The imports that may have another name: of modules, since a call is found without its module.
RENAMED = re.compile(
    r"self as (?:digest|hmac)|key as hmac|algorithm as (?:hkdf|pbkdf2)|bb as constant_time"
)
# And of laws, by their numbers, under which no code here calls them.
NUMBERED = re.compile(r"\w+ as law_\d+")
# What makes a meter, by whatever path to its type, and as a value too. The file of its type has one
# function that does, and no derive that would.
MAKES = re.compile(r"\bMeter>?::new\b")
COST = "crates/ring_core/src/cost.rt"
MAKES_THERE = re.compile(r"\b(?:Self|Meter) ?(?:\{|::new\()")
DERIVES_OF_METER = re.compile(r"#\[derive\(([^)]*)\)\]\s*pub struct Meter\b")
# What may stand between a function's name and its arguments.
GENERIC = r"(?:::<[^()]*>)?"
# The standard library calls a conversion of a type under another name.
OTHER_NAME = {"from": "into", "try_from": "try_into"}
# What is named as a plain form and is none: a byte source's `fill`, and that of a slice of answers.
NO_PLAIN_FORM = re.compile(r"\b(?:rng|matches)\.fill\($")


@dataclasses.dataclass(frozen=True)
class Place:
    """A function, and the crate and the file that it stands in."""

    crate: str
    path: str
    function: rattle_text.Function

    @property
    def name(self):
        """Its type and its name."""
        return self.function.owner, self.function.name

    def __str__(self):
        return f"{self.path}: {'::'.join(filter(None, self.name))}"


@functools.cache
def crates():
    """The crates, lowest first, each with the crates that it stands on."""
    lines = (it.partition(":") for it in (ROOT / "crates.txt").read_text().splitlines())
    found = {front.split()[0]: rest.split() for front, mark, rest in lines if front[0] != "#"}
    return {it: found[it] for it in found if not it.endswith(OF_TESTS)}


def sources():
    """The crate and the text of each source file that is no test and no example, by its path."""
    found = {}
    for crate in crates():
        texts = {path: path.read_text()
                 for path in sorted((ROOT / "crates" / crate / "src").rglob("*.rt"))}
        of_tests = rattle_text.files_of_tests(texts.values())
        for path, text in texts.items():
            relative = path.relative_to(ROOT)
            if not {"tests", "examples.rt", *of_tests} & set(relative.parts):
                found[str(relative)] = crate, text
    return found


@functools.cache
def meters_of(function):
    """The names of the meters that a function takes, by their type, and of those that it makes."""
    taken = re.findall(r"(\w+): &mut (?:\w+::)*Meter\b", function.signature)
    made = re.findall(r"let mut (\w+)[^=;]*= (?:\w+::)*Meter::new\(", function.body)
    return set(taken), set(made)


def with_other_names(names):
    """These functions, the conversions under both of their names."""
    return names | {(owner, OTHER_NAME[name]) for owner, name in names if name in OTHER_NAME}


@functools.cache
def calls_to(function, owner, name):
    """The calls in a body of a function, each a match that ends with what opens its arguments."""
    path = rf"\b(?:{owner}|Self)(?:(?:::)?<[^()]*>)?>?::|\bas [^()]*>::"
    receiver = rf"(?:\b\w*\.|\.|{path})" if owner else r"(?<![.\w])"
    return tuple(re.finditer(rf"{receiver}{name}{GENERIC}\(", function.body))


def all_calls(function, names):
    """The calls in a body of functions of these names, each with the name."""
    named = sorted(it for it in with_other_names(names) if it[1] in function.body)
    return [(name, it) for owner, name in named for it in calls_to(function, owner, name)]


@functools.cache
def plain_calls(function, names):
    """The calls in a body of functions of these names that are handed no meter."""
    taken, made = meters_of(function)
    a_meter = re.compile("|".join([r"\bMeter::new\(\)", *(rf"\b{it}\b" for it in taken | made)]))
    found = []
    for _, it in all_calls(function, names):
        opening = it.end() - 1
        arguments = function.body[opening : rattle_text.end_of(function.body, opening)]
        before = function.body[: it.end()]
        if not a_meter.search(arguments) and not NO_PLAIN_FORM.search(before):
            found.append(it)
    return found


def calls(function, names):
    """The texts of these calls."""
    return [it.group() for it in plain_calls(function, names)]


def repeated(function, names):
    """Those of these names of functions that a body calls in two places."""
    called = {(name, it.end()) for name, it in all_calls(function, names)}
    count = collections.Counter(name for name, _ in called)
    return [name for name in count if count[name] > 1]


def split(text):
    """What stands between the commas of a list of parameters or of arguments."""
    parts, depth = [""], 0
    for mark in text:
        depth += (mark in "([{<") - (mark in ")]}>")
        if mark == "," and depth == 0:
            parts.append("")
        else:
            parts[-1] += mark
    return [" ".join(it.split()) for it in parts if it.strip()]


def is_one_call(function):
    """Whether a plain form is the one call of its counted form, with its own parameters and a new
    meter."""
    parameters = split(function.signature[1 : rattle_text.end_of(function.signature, 0) - 1])
    named = [it.removeprefix("mut ").split(":")[0] for it in parameters if ":" in it]
    of_type = rf"(?:(?:{function.owner or '-'}|Self)::)?"
    receiver = r"self\." if len(named) < len(parameters) else of_type
    body = " ".join(function.body[1:-1].split()).removesuffix(";")
    call = re.fullmatch(rf"{receiver}{function.name}_counted\((.*)\)", body)
    return bool(call) and split(call.group(1)) == [*named, "&mut Meter::new()"]


def unmetered(places, plain):
    """The names, by crate, of the functions there and below that run blocks under a meter of their
    own: plain forms, what makes a meter, and what takes none and calls one of these."""
    by_crate = {}
    for crate, libraries in crates().items():
        own = [it for it in places if it.crate == crate]
        found = set().union(*(by_crate[it] for it in libraries if it in by_crate))
        found |= {it.name for it in own if it in plain or MAKES.search(it.function.body)}
        without = [it for it in own if not meters_of(it.function)[0]]
        while more := {it.name for it in without if calls(it.function, frozenset(found))} - found:
            found |= more
        by_crate[crate] = frozenset(found)
    return by_crate


def imports(path):
    """The paths that a `use` brings, each without braces, and with its other name."""
    front, brace, rest = path.partition("{")
    if not brace:
        return [path]
    return [it for part in split(rest.rpartition("}")[0]) for it in imports(front + part)]


def all_imports(code):
    """The paths that a file's `use` items bring, those in functions too."""
    uses = ("".join(split(it + ",")) for it in re.findall(r"\buse ([^;]*);", code))
    return [it for use in uses for it in imports(use)]


def is_renamed(path, names):
    """Whether an import has another name that may hide one of these functions."""
    last = path.rpartition("::")[2]
    what, renamed, _ = last.partition(" as ")
    if NUMBERED.fullmatch(last):
        return False
    return bool(renamed) and (not RENAMED.fullmatch(last) or what in {name for _, name in names})


def is_module(crate, path):
    """Whether an import is of a module at the root of its crate."""
    root, _, name = path.partition("::")
    return (ROOT / "crates" / root.replace("crate", crate) / "src" / f"{name}.rt").is_file()


def in_scope(crate, code, names):
    """Those of some free functions that a file names without a path: its own and imported ones."""
    brought = {it.rpartition("::")[2] for it in all_imports(code) if not is_module(crate, it)}
    own = {it.name for it in functions(code) if not it.owner}
    return names if "*" in brought else names & (brought | own)


def one_of(names):
    """A pattern of one of these names; where there are none, of nothing."""
    return "|".join(sorted(names)) or "$^"


def is_local(text, name, at):
    """Whether a name at a place of a file is that of a parameter, or of a local that was bound
    before in the same braces or in braces around these."""
    inside = next((it for it in functions(text) if it.start < at < it.end), None)
    if not inside:
        return False
    body, place = inside.body, at - (inside.end - len(inside.body))
    bound = re.finditer(rf"\blet (?:mut )?{name}\b[^;]*;", body[: max(place, 0)])
    return bool(re.search(rf"\b{name}: ", inside.signature)) or any(
        place < end_of_braces(body, it.start()) for it in bound
    )


@functools.cache
def values(crate, code, names):
    """The functions of these that a file names and does not call."""
    text = re.sub(r"\buse [^;]*;|\bmod \w+;|#!?\[[^\]]*\]", "", code)
    text = rattle_text.SKIPPED.sub('""', text)
    behind_a_path = one_of({name for _, name in with_other_names(names)})
    alone = one_of(in_scope(crate, code, {name for owner, name in names if not owner}))
    named = rf"::(?:{behind_a_path})\b|(?<!fn )(?<!let )(?<!let mut )(?<![.\w:])(?:{alone})\b"
    found = re.finditer(rf"(?:{named})(?!{GENERIC}\(|::\w|: )", text)
    return [it.group() for it in found if not is_local(text, it.group(), it.start())]


def macros_of(code):
    """The texts of a file's macros."""
    heads = re.finditer(r"\bmacro_rules! \w+ [({]", code)
    return [code[it.start() : rattle_text.end_of(code, it.end() - 1)] for it in heads]


def braces_around(body, at):
    """Where the innermost braces around a place in a body open."""
    braces = (it.start() for it in re.finditer(r"\{", body[:at]))
    return max(it for it in braces if rattle_text.end_of(body, it) > at)


def end_of_braces(body, at):
    """Where the innermost braces around a place in a body end."""
    return rattle_text.end_of(body, braces_around(body, at))


def loop_around(body, at):
    """The text of the innermost braces around a place in a body."""
    return body[braces_around(body, at) : end_of_braces(body, at)]


def is_in_loop(body, at):
    """Whether a place in a body is in a loop."""
    heads = re.finditer(r"\b(?:for|while|loop)\b[^{};]*\{", body[:at])
    return any(rattle_text.end_of(body, it.end() - 1) > at for it in heads)


def uncounted_runs(places):
    """The places that load blocks, run their rounds, or count them, and not all three once in one
    loop."""
    for place in places:
        body = place.function.body
        loads = [it for name in COUNTS for it in re.finditer(rf"\b({name}){GENERIC} ?[({{]", body)]
        runs = list(re.finditer(rf"\b{RUNS}{GENERIC}\(", body))
        counts = list(re.finditer(r"\.add_blocks?\(", body))
        if not loads and not runs and not counts:
            continue
        loop = loop_around(body, runs[0].start()) if runs else ""
        beside = all(f".{COUNTS[it.group(1)]}" in loop and it.group() in loop for it in loads)
        loaders = {it.group(1) for it in loads}
        if not len(loaders) == len(runs) == len(counts) == 1 or not beside:
            yield f"{place} loads by {len(loaders)}, runs {len(runs)} and counts {len(counts)}"


def naming(places, pattern):
    """The functions whose bodies have a text."""
    return [str(it) for it in places if re.search(pattern, it.function.body)]


def plain_forms(places):
    """The functions that have a counted form beside them."""
    counted = {(it.crate, it.function.owner, it.function.name.removesuffix("_counted"))
               for it in places if it.function.name.endswith("_counted")}
    return [it for it in places if (it.crate, *it.name) in counted]


def rules_of_names(codes, own):
    """The rules of what would hide a call: each with whether it holds, and what breaks it."""
    renamed, valued, aliased, in_macros = [], [], [], []
    for path, (crate, code) in codes.items():
        types = one_of({"Meter"} | {owner for owner, _ in own[crate]} - {""})
        functions_or_meter = one_of({"Meter"} | {name for _, name in own[crate]})
        aliases = re.findall(rf"\btype \w+[^=;]*=[^;]*\b(?:{types})\b[^;]*;", code)
        macros = [it for it in macros_of(code) if re.search(rf"\b(?:{functions_or_meter})\b", it)]
        renamed += [f"{path}: {it}" for it in all_imports(code) if is_renamed(it, own[crate])]
        renamed += [f"{path}: {it}" for it in re.findall(r"\blaw_\d+\s*\(", code)]
        valued += [f"{path}: {it}" for it in values(crate, code, own[crate])]
        aliased += [f"{path}: {it}" for it in aliases]
        in_macros += [f"{path}: {it}" for it in macros]
    yield NO_OTHER_NAME, not renamed, renamed
    yield NO_VALUE, not valued, valued
    yield NO_ALIAS, not aliased, aliased
    yield NO_MACRO, not in_macros, in_macros


def rules_of_meters(places, plain, own):
    """The rules of who makes and who is handed a meter: each with whether it holds, and what breaks
    it."""
    takes = [it for it in places if meters_of(it.function)[0]]
    calls_counted = [it for it in plain if it.name not in CONVERTS]
    longer = [str(it) for it in calls_counted if not is_one_call(it.function)]
    yield ONE_CALL, not longer, longer
    makes = [it for it in places for _ in MAKES.findall(it.function.body)]
    for crate, wanted in PLACES.items():
        made = collections.Counter("::".join(filter(None, it.name)) for it in makes
                                   if it.crate == crate)
        listed = collections.Counter(wanted)
        amiss = [f"beside these: {it}" for it in (made - listed).elements()]
        amiss += [f"not: {it}" for it in (listed - made).elements()]
        yield NO_OTHER_PLACE.format(len(wanted), crate), not amiss, amiss
    for crate, most in METERS.items():
        own_places = [str(it) for it in makes if it.crate == crate]
        yield f"at most {most} places of {crate} make a meter", len(own_places) <= most, own_places
    elsewhere = [str(it) for it in makes if it.crate not in {*PLACES, *METERS}]
    yield "no other crate makes a meter", not elsewhere, elsewhere
    second = naming(takes, MAKES)
    yield NO_SECOND, not second, second
    hidden = [f"{it} calls {call}" for it in takes for call in calls(it.function, own[it.crate])]
    yield NO_OTHER_METER, not hidden, hidden


def rules_of_the_meter(places, codes):
    """The rules of the meter's type: each with whether it holds, and what breaks it."""
    makers = [str(it) for it in places
              if it.path == COST and MAKES_THERE.search(it.function.body)]
    derived = DERIVES_OF_METER.findall(codes[COST][1])
    yield ONE_MAKER, len(makers) == 1 and derived == ["Drop"], makers + derived


def is_of_hmac(function, call):
    """Whether it is HMAC's verification, which derives nothing."""
    return function.body[: call.start()].endswith("hmac::")


def plain_derivations(places, plain):
    """The calls of plain forms that derive, where no meter is handed in. Without a path a call is
    one of the file's own function, if it has one of the name."""
    names = frozenset(
        it.name for it in plain
        if it.crate == "ring_password_hash" or it.function.owner == "PasswordStore"
        or it.path.startswith("crates/ring/src/pbkdf2")
    )
    others = [it for it in places if it.crate in CALLED_ONCE and it not in plain]
    for place in (it for it in others if it.function.name != MAKES_TEXT):
        own = {it.function.name for it in places if it.path == place.path}
        for call in plain_calls(place.function, names):
            has_path = re.search(r"[.:]$", place.function.body[: call.start()]) or "." in call[0]
            is_own = re.match(r"\w*", call[0])[0] in own and not has_path
            if not is_own and not is_of_hmac(place.function, call):
                yield f"{place} calls {call[0]}"


@functools.cache
def reached_by(crate):
    """The crate, and those that it stands on: no call of another one can be in it."""
    return {crate}.union(*(reached_by(it) for it in crates().get(crate, [])))


def rules_of_plain_forms(places, plain):
    """The rules of who calls a plain form: each with whether it holds, and what breaks it."""
    lower = [it for it in places if it not in plain and it.crate in METERED]
    names = {crate: frozenset(it.name for it in plain if it.crate in reached_by(crate))
             for crate in METERED}
    below = [f"{it} calls {call}" for it in lower for call in calls(it.function, names[it.crate])]
    yield NONE_BELOW, not below, below
    derived = list(plain_derivations(places, plain))
    yield NO_PLAIN_DERIVATION, not derived, derived


def deriving(places):
    """Those of some functions that derive, each with the calls by which it does: of what derives,
    or of another one of these."""
    found, names = {}, DERIVES
    while True:
        called = {
            place: [(name, it) for name, it in all_calls(place.function, names)
                    if not is_of_hmac(place.function, it)]
            for place in places
        }
        more = {place: those for place, those in called.items() if those}
        if len(more) == len(found):
            return more
        found = more
        names |= {it.name for it in more}


def further_runs(place, names):
    """What a function of a schedule runs beside what is listed, or again in a loop."""
    function = place.function
    ends = {call.end() for _, call in all_calls(function, names)}
    if len(ends) > RUNS_IN.get(function.name, 1) and not meters_of(function)[0]:
        yield f"{place} runs blocks by {len(ends)} calls"
    yield from (f"{place} runs blocks in a loop" for it in ends if is_in_loop(function.body, it))


def rules_without_meters(places, own):
    """The rules of bodies that are handed no meter: each with whether it holds, and what breaks
    it."""
    metered = {it.name for it in places if meters_of(it.function)[0]}
    once = [it for it in places if it.crate in CALLED_ONCE]
    twice = [f"{it} calls {name} twice" for it in once
             for name in repeated(it.function, own[it.crate] | metered)]
    yield ONCE, not twice, twice
    more = [it for place in places if place.crate == SCHEDULES
            for it in further_runs(place, own[SCHEDULES])]
    yield AS_LISTED, not more, more
    derived = deriving([it for it in once if it.crate == "ring_c"])
    found = {(name, it, call.end()) for it, called in derived.items() for name, call in called}
    of_others = {name for _, name in DERIVES}
    count = collections.Counter(name for name, _, _ in found if name in of_others)
    beside = collections.Counter(it for it, _ in {(it, end) for _, it, end in found})
    bad = [f"{it} calls {name}" for name, it, end in found
           if count[name] > 1 or beside[it] > 1 or is_in_loop(it.function.body, end)]
    yield ONE_DERIVATION, not bad, bad
    others = [str(it) for it in derived if not MAY_DERIVE.fullmatch(it.function.name)]
    yield FEW_DERIVE, not others, others


def rules_of_blocks(places):
    """The rules of where blocks are run: each with whether it holds, and what breaks it."""
    for load in COUNTS:
        found = naming(places, rf"\b{load}{GENERIC} ?[({{]")
        yield f"each family calls `{load}` in one place", len(found) == FAMILIES, found
    uncounted = list(uncounted_runs(places))
    yield COUNTED_ONCE, not uncounted, uncounted
    ahead = [(it, call) for it in places for call in calls_to(it.function, "", "run_ahead")]
    is_once = len(ahead) == FAMILIES and not any(
        is_in_loop(it.function.body, call.end()) for it, call in ahead
    )
    yield AHEAD_ONCE, is_once, [str(it) for it, _ in ahead]


def count_in(text):
    """The number that an argument is, as `27` or `32 - 5`, or None."""
    found = re.fullmatch(r"(\d+)(?:u32)?(?: - (\d+))?", text)
    return int(found[1]) - int(found[2] or 0) if found else None


def shifts(body, operator):
    """The numbers by which a body shifts words or vectors."""
    return {int(it) for it in re.findall(rf"{operator}=? ?(?:[\w:]+::splat\()?(\d+)\b", body)}


@functools.cache
def rotations(function):
    """The numbers by which a body rotates words of 32 or 64 bits to the right: by a call, or by two
    shifts that make up a word."""
    body, found = function.body, set()
    for call in re.finditer(rf"\brot\w*{GENERIC}\(", body):
        arguments = split(body[call.end() : rattle_text.end_of(body, call.end() - 1) - 1])
        count = count_in(arguments[-1]) if arguments else None
        if count is not None:
            is_left = re.match(r"rotl|rot\w*left", call[0])
            found |= {32 - count, 64 - count} if is_left else {count}
    lefts = shifts(body, "<<")
    return found | {it for it in shifts(body, ">>") if {32 - it, 64 - it} & lefts}


def is_by_a_name(function):
    """Whether a body rotates or shifts by a count that is no number."""
    body = function.body
    for call in re.finditer(rf"\b(?:rot\w*|shift_\w+){GENERIC}\(", body):
        arguments = split(body[call.end() : rattle_text.end_of(body, call.end() - 1) - 1])
        if arguments and count_in(arguments[-1]) is None:
            return True
    counts = re.findall(r" (?:<<|>>)=? (\S+)", body)
    return not all(re.match(r"(?:[\w:]+::splat\()?\d", it) for it in counts)


def rules_of_rounds(places, codes):
    """The rules that the round of each family stands once: each with whether it holds, and what
    breaks it."""
    for name in OF_BOTH_ROUNDS:
        found = naming(places, rf"\b{name}{GENERIC}\(")
        yield OF_EACH_FAMILY.format(name), len(found) == FAMILIES, found
    for name in OF_SHA_1:
        found = naming(places, rf"\b{name}{GENERIC}\(")
        yield OF_ONE_FUNCTION.format(name), len(found) == 1, found
    for name in OF_SHA_2:
        found = naming(places, rf"::{name}\b")
        yield OF_BOTH_FORMS.format(name), len(found) == FORMS, found
    found = [str(it) for it in places if ROTATION_OF_SHA_1 in rotations(it.function)]
    yield ONE_ROTATION, len(found) == 1, found
    found = [str(it) for it in places if ROTATIONS_OF_SIGMA_1 & rotations(it.function)]
    yield NO_SIGMA_1, not found, found
    found = [str(it) for it in places
             if is_by_a_name(it.function) and it.function.name not in NAMED_COUNTS]
    yield NO_NAMED_COUNT, not found, found
    for constant, pattern in CONSTANTS.items():
        found = [path for path, (_, code) in codes.items()
                 for _ in re.findall(pattern, code.lower().replace("_", ""))]
        yield f"{constant} stands in one place", len(found) == 1, found


def rules(files):
    """All rules over these files: each with whether it holds, and what breaks it."""
    codes = {
        path: (crate, rattle_text.without_clauses(text)) for path, (crate, text) in files.items()
    }
    places = [
        Place(crate, path, it)
        for path, (crate, code) in codes.items()
        for it in functions(code)
    ]
    plain = plain_forms(places)
    own = unmetered(places, plain)
    yield from rules_of_meters(places, plain, own)
    yield from rules_of_the_meter(places, codes)
    yield from rules_of_plain_forms(places, plain)
    yield from rules_without_meters(places, own)
    yield from rules_of_names(codes, own)
    yield from rules_of_blocks([it for it in places if it.crate != "ring_passwords"])
    yield from rules_of_rounds(places, codes)


def is_found(files, rule, path, *texts):
    """Whether a rule breaks once a body is planted."""
    crate, text = files[path]
    for old, new in zip(texts[::2], texts[1::2]):
        if text.count(old) != 1:
            return False
        text = text.replace(old, new)
    planted = {**files, path: (crate, text)}
    return rule in (name for name, holds, _ in rules(planted) if not holds)


def main():
    files = sources()
    found = list(rules(files))
    for name, body in PLANTED.items():
        found.append((f"planted and found: {name}", is_found(files, *body), []))
    for rule, holds, places in found:
        print(f"{'ok' if holds else 'FAILED'}: {rule}")
        if not holds:
            print("\n".join(f"  {it}" for it in places))
    passed = sum(holds for _, holds, _ in found)
    print(f"{passed} passed, {len(found) - passed} failed")
    return passed != len(found)


if __name__ == "__main__":
    sys.exit(main())
