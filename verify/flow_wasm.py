# SPDX-License-Identifier: ISC
"""How a function of WebAssembly goes on after each of its instructions, and what is on its operand
stack there: the validation of its core specification (3.3 and its appendix), which makes of a
stack machine one of places. A place of an operand is its depth in the stack."""

from collections import namedtuple

import decode_wasm
from decode_wasm import Unreadable

# An instruction: its address, its bytes, its text, its name and what is behind it; the types of the
# operands before it; where it goes on, and for each of its labels where and by how many results
# above which depth. `types` is None where no path comes to it.
Step = namedtuple("Step", "at raw text name immediates types following labels")
Label = namedtuple("Label", "target count depth")
Opened = namedtuple("Opened", "name at results depth")
ENDS = {"unreachable", "return", "br", "br_table"}  # after which no path goes on
NARROW = {"i8x16": "i32", "i16x8": "i32", "i32x4": "i32", "i64x2": "i64"}
COMPARED = set(decode_wasm.COMPARED.split())


def signature(name):
    """The types that an instruction takes and gives, of those that have the same everywhere."""
    kind, _, what = name.partition(".")
    if name == "memory.copy" or name == "memory.fill":
        return ["i32"] * 3, []
    if what in ("const", "splat") or what.startswith("load") and not what.endswith("lane"):
        of = {"const": [], "splat": [NARROW.get(kind)]}.get(what, ["i32"])
        return of, ["v128" if kind in NARROW else kind]
    if what.startswith("store") and not what.endswith("lane"):
        return ["i32", kind], []
    if kind in ("i32", "i64"):
        return of_numbers(kind, what)
    return of_vectors(kind, what)


def of_numbers(kind, what):
    if what == "wrap_i64":
        return ["i64"], [kind]
    if what.startswith("extend"):
        return ["i32" if what.endswith("i32_s") or what.endswith("i32_u") else kind], [kind]
    if what in ("clz", "ctz", "popcnt"):
        return [kind], [kind]
    if what == "eqz":
        return [kind], ["i32"]
    return [kind, kind], ["i32" if what in COMPARED else kind]


def of_vectors(kind, what):
    if what.endswith("_lane") and kind == "v128":
        return ["i32", "v128"], ["v128"] if what.startswith("load") else []
    if what.startswith("extract_lane"):
        return ["v128"], [NARROW[kind]]
    if what == "replace_lane":
        return ["v128", NARROW[kind]], ["v128"]
    if what in ("any_true", "all_true", "bitmask"):
        return ["v128"], ["i32"]
    if what in ("shl", "shr_s", "shr_u"):
        return ["v128", "i32"], ["v128"]
    if what in ("not", "neg", "abs") or what.startswith("extend"):
        return ["v128"], ["v128"]
    return ["v128"] * (3 if what == "bitselect" else 2), ["v128"]


class Flow:
    """The validation of a function's body."""

    def __init__(self, module, function):
        self.module, self.function = module, function
        self.read = dict(module.read_all(function))
        self.stack, self.opened, self.steps = [], [], {}
        self.is_reached = True
        self._match()
        self._open("function", function.first, function.type.results, 0)
        for at in self.read:
            self._step(at)
        if self.opened:
            self.refuse(function.end, "a body without an end")

    def refuse(self, at, why):
        raise Unreadable(f"{at:x}: {why}")

    def _match(self):
        """Where the block that begins at an address has its end, and its else."""
        self.ends, self.elses, opened = {}, {}, [self.function.first]
        for place, (at, it) in enumerate(self.read.items()):
            if it.name in decode_wasm.BLOCKS.values():
                opened.append(at)
            elif it.name == "else" and opened:
                self.elses[opened[-1]] = at
            elif it.name == "end":
                if not opened:
                    self.refuse(at, "an end of no block")
                start = opened.pop()
                self.ends[(start, not opened)] = at
                if not opened and place + 1 < len(self.read):
                    self.refuse(at, "instructions past the end")
        if opened:
            self.refuse(self.function.end, "a block without an end")

    def _open(self, name, at, results, depth):
        self.opened.append(Opened(name, at, list(results), depth))

    def _label(self, at, number):
        """Where a branch goes."""
        if number >= len(self.opened):
            self.refuse(at, "a branch out of a block that isn't there")
        it = self.opened[-1 - number]
        if it.name == "loop":
            return Label(it.at + self.read[it.at].size, 0, it.depth), []
        if it.name == "function":
            return Label("return", len(it.results), it.depth), it.results
        end = self.ends[it.at, False]
        return Label(end + self.read[end].size, len(it.results), it.depth), it.results

    def _pop(self, at, kinds):
        """Takes operands of these types."""
        for kind in reversed(kinds):
            if not self.is_reached:
                continue
            if len(self.stack) <= self.opened[-1].depth or self.stack.pop() != kind:
                self.refuse(at, f"an operand that is no {kind}")

    def _push(self, kinds):
        if self.is_reached:
            self.stack += kinds

    def _branch(self, at, numbers):
        """Checks the operands of a branch by each of these labels, and gives them."""
        found = []
        for number in numbers:
            label, kinds = self._label(at, number)
            if self.is_reached and kinds and self.stack[-len(kinds):] != kinds:
                self.refuse(at, "other results than those of the block")
            if self.is_reached and len(self.stack) < self.opened[-1].depth + len(kinds):
                self.refuse(at, "too few results of the block")
            found.append(label)
        return found

    def _step(self, at):
        it = self.read[at]
        types = tuple(self.stack) if self.is_reached else None
        labels = self._apply(at, it.name, it.immediates)
        raw = self.module.data[at:at + it.size]
        self.steps[at] = Step(at, raw, decode_wasm.text(it.name, it.immediates), it.name,
                              it.immediates, types, at + it.size, labels)
        if it.name in ENDS:
            self.is_reached = False
            del self.stack[self.opened[-1].depth:]

    def _apply(self, at, name, immediates):
        """Does to the types on the stack what an instruction does; gives its labels."""
        if name in ("block", "loop", "if"):
            if name == "if":
                self._pop(at, ["i32"])
            self._open(name, at, immediates, len(self.stack))
            # Within code that no path comes to, no block is reached.
            self.opened[-1] = self.opened[-1]._replace(
                name=name if self.is_reached else f"{name} not reached")
            return self._of_if(at) if name == "if" else []
        if name in ("else", "end"):
            return self._close(at, name)
        if name in ("br", "br_if", "br_table"):
            if name != "br":
                self._pop(at, ["i32"])
            return self._branch(at, immediates)
        if name == "return":
            return self._branch(at, [len(self.opened) - 1])
        taken, given = self._types(at, name, immediates)
        self._pop(at, taken)
        self._push(given)
        return []

    def _of_if(self, at):
        """Where an if goes on whose condition doesn't hold."""
        other = self.elses.get(at) or self.ends[at, False]
        depth = len(self.stack)
        return [Label(other + self.read[other].size, 0, depth)]

    def _close(self, at, name):
        """The end of a block, or of the first part of an if."""
        it = self.opened.pop()
        if name == "else" and not it.name.startswith("if"):
            self.refuse(at, "an else of no if")
        was_reached = not it.name.endswith("not reached")
        if self.is_reached and self.stack[it.depth:] != it.results:
            self.refuse(at, "other results than those of the block")
        del self.stack[it.depth:]
        self.is_reached = was_reached
        if name == "else":
            self._open("if with else" if was_reached else "if with else not reached", it.at,
                       it.results, it.depth)
            end = self.ends[it.at, False]
            return [Label(end + self.read[end].size, len(it.results), it.depth)]
        if it.name.startswith("if") and "else" not in it.name and it.results:
            self.refuse(at, "an if without else that has results")
        self._push(it.results)
        return [Label("return", len(it.results), 0)] if it.name == "function" else []

    def _types(self, at, name, immediates):
        """The types that an instruction takes and gives which is no branch."""
        kind, _, what = name.partition(".")
        if kind in ("local", "global"):
            of = self._variable(at, kind, what, immediates[0])
            return {"get": ([], [of]), "set": ([of], []), "tee": ([of], [of])}[what]
        if name == "call":
            if immediates[0] >= len(self.module.functions_):
                self.refuse(at, "a call of a function that isn't there")
            of = self.module.functions_[immediates[0]].type
            return of.parameters, of.results
        if name in ("unreachable", "nop"):
            return [], []
        if name in ("drop", "select"):
            of = self.stack[-1 if name == "drop" else -2:][:1] if self.is_reached else ["i32"]
            return (of, []) if name == "drop" else ([*of, *of, "i32"], of)
        return signature(name)

    def _variable(self, at, kind, what, number):
        found = self.function.locals if kind == "local" else \
            [it.type for it in self.module.globals]
        if number >= len(found):
            self.refuse(at, f"a {kind} that isn't there")
        if kind == "global" and what == "set" and not self.module.globals[number].is_mutable:
            self.refuse(at, "a change of a global that is constant")
        return found[number]
