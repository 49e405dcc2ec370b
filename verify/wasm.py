# SPDX-License-Identifier: ISC
"""How a module of WebAssembly runs: its instructions over numbers, memory and control, as far as
the kernels have them. test_wasm.py compares each with node. The stack is what global 0 points to,
where LLVM has its stack pointer."""

import terms
import vectors_wasm
from flow_wasm import signature
from machine import (Part, Pointer, Refused, Region, Unknown, at, bits_of, branch, offset_of,
                     whole)
from operands_wasm import WIDTHS, address, depth, get, local, number, operand, place, put, take
from program import AnyProgram
from terms import (add, and_words, borrow, constant, joined, number_of, or_words, rotated_left,
                   rotated_right, shifted_left, shifted_right, subtract, xor_words)

ARGUMENTS, RESULTS = [f"1.{i}" for i in range(9)], ["result"]
STACK_POINTER, METER_IS_PUBLIC = "global 0", True
# The functions trap where the stack pointer is below this: so the stack lies above it.
LOWEST = 16
LONGEST = 1 << 16  # of copies and fills


# Numbers.

def is_zero(word):
    """Whether a word is zero; of a single bit the other bit."""
    found = [bit for bit in word if bit]
    return terms.xor(1, found[0]) if len(found) == 1 else terms.is_zero(word)


def are_equal(a, b):
    """Whether words are equal: public ones by their difference, in the form that begins with a
    word added."""
    if any(map(terms.is_secret, a + b)):
        return is_zero(xor_words(a, b))
    found = subtract(a, b)
    parts = terms.sum_of(found) if number_of(found) is None else None
    if parts and parts[1][0][1] >> len(a) - 1:
        found = subtract(b, a)
    return is_zero(found)


def with_other_sign(word):
    return word[:-1] + (terms.xor(word[-1], 1),)


def is_below(a, b, is_signed):
    return borrow(with_other_sign(a), with_other_sign(b)) if is_signed else borrow(a, b)


def truth(bit):
    return (bit,) + (0,) * 31


def compared(what):
    """A comparison of words: what it gives as a bit."""
    name, _, sign = what.partition("_")
    is_signed = sign == "s"

    def run(a, b):
        if name in ("eq", "ne"):
            return terms.xor(are_equal(a, b), int(name == "ne"))
        if name in ("gt", "le"):
            a, b = b, a
        return terms.xor(is_below(a, b, is_signed), int(name in ("le", "ge")))
    return run


def shift(function, width):
    def run(a, b):
        count = number_of(b[:width.bit_length() - 1])
        if count is None:
            raise Unknown("a shift by a number that is not known")
        return function(a, count)
    return run


def shifted_right_signed(word, count):
    return word[count:] + word[-1:] * count


def multiplied(a, b):
    x, y = number_of(a), number_of(b)
    if x is None and y is None:
        raise Unknown("a product of two words")
    return terms.combination([(a, y)] if x is None else [(b, x)], 0, len(a))


def extended(width, from_, is_signed):
    def run(a):
        above = a[from_ - 1] if is_signed else 0
        return a[:from_] + (above,) * (width - from_)
    return run


def of_width(width):
    """The meanings of the instructions over numbers of a width."""
    found = {what: lambda a, b, run=compared(what): truth(run(a, b))
             for what in ("eq", "ne", "lt_s", "lt_u", "gt_s", "gt_u", "le_s", "le_u", "ge_s",
                          "ge_u")}
    found |= {"eqz": lambda a: truth(is_zero(a)), "add": add, "sub": subtract, "mul": multiplied,
              "and": and_words, "or": or_words, "xor": xor_words,
              "extend8_s": extended(width, 8, True), "extend16_s": extended(width, 16, True)}
    for name, function in (("shl", shifted_left), ("shr_u", shifted_right),
                           ("shr_s", shifted_right_signed), ("rotl", rotated_left),
                           ("rotr", rotated_right)):
        found[name] = shift(function, width)
    return {f"i{width}.{name}": function for name, function in found.items()}


NUMBERS = {**of_width(32), **of_width(64), "i32.wrap_i64": lambda a: a[:32],
           "i64.extend_i32_s": extended(64, 32, True), "i64.extend_i32_u": extended(64, 32, False),
           "i64.extend32_s": extended(64, 32, True)}


# Addresses.

def pointers_compared(state, what, a, b):
    """A comparison of which one is an address."""
    if isinstance(a, Pointer) and isinstance(b, Pointer):
        if what in ("eq", "ne"):
            return terms.xor(is_zero(state.subtract(a, b)), int(what == "ne"))
        if what[-2:] == "_u" and (below := state.is_below(a, b)) is not None:
            return {"lt_u": below, "ge_u": 1 - below}.get(what)
        return None
    number = None if isinstance(b, Pointer) else number_of(b)
    region = state.regions.get(a.region) if isinstance(a, Pointer) else None
    if region is None or number is None or region.offset(a.offset, 0) is None:
        return None
    if what in ("eq", "ne") and number == 0:  # no region is at the address 0
        return int(what == "ne")
    if what in ("lt_s", "lt_u") and a.region == "stack" and number <= LOWEST:
        return 0
    return None


def of_pointers(state, name, values):
    """What an instruction gives of operands of which one is an address."""
    kind, _, what = name.partition(".")
    found = None
    if name == "i32.wrap_i64":
        return values[0]
    if kind == "i64" and what in ("add", "sub"):
        return (state.add if what == "add" else state.subtract)(*values)
    if kind == "i64" and what in ("and", "or") and isinstance(values[0], Pointer):
        return (state.masked if what == "and" else state.with_bits)(*values)
    if name == "i64.eqz":
        found = pointers_compared(state, "eq", values[0], constant(0, 64))
    elif kind == "i64" and len(values) == 2:
        found = pointers_compared(state, what, *values)
    if found is None:
        state.refuse("an address where a number is wanted")
    return truth(found)


def load(state, it):
    kind, _, what = it.name.partition(".")
    base, = take(state, it, 1)
    size = int("".join(filter(str.isdigit, what)) or kind[1:]) // 8
    value = state.load(address(state, base, it.immediates[1]), size)
    if isinstance(value, Pointer) and kind != "i64":
        state.refuse("a read of a part of a pointer")
    if what not in ("load",):
        value = extended(WIDTHS[kind], 8 * size, what[-1] == "s")(value)
    put(state, kind, operand(state, len(it.types) - 1), value)


def store(state, it):
    kind, _, what = it.name.partition(".")
    base, value = take(state, it, 2)
    size = int("".join(filter(str.isdigit, what)) or kind[1:]) // 8
    if isinstance(value, Pointer):
        if size != 8:
            state.refuse("a write of a part of an address")
    else:
        value = value[:8 * size]
    state.store(address(state, base, it.immediates[1]), size, value)


def length(state, value):
    """The length of a copy or a fill, as a number."""
    count = number_of(number(state, value))
    if count is None or count > LONGEST:
        state.refuse("a length that is not known, or too long")
    return count


def copy(state, it):
    to, source, size = take(state, it, 3)
    count = length(state, size)
    if count:
        state.store_cells(address(state, to, 0),
                          state.load_cells(address(state, source, 0), count))


def fill(state, it):
    to, byte, size = take(state, it, 3)
    count = length(state, size)
    if count:
        state.store_cells(address(state, to, 0), [byte[:8]] * count)


# Variables.

def get_variable(state, it):
    number = it.immediates[0]
    if it.name == "global.get":
        kind = state.program.library.globals[number].type
        value = get(state, kind, f"global {number}")
    else:
        kind = state.program.function_at(it.at).locals[number]
        value = get(state, kind, local(state, number))
    put(state, kind, operand(state, len(it.types)), value)


def set_variable(state, it):
    value, = take(state, it, 1)
    if it.name == "global.set":
        put(state, it.types[-1], f"global {it.immediates[0]}", value)
        return
    put(state, it.types[-1], local(state, it.immediates[0]), value)
    if it.name == "local.tee":
        put(state, it.types[-1], operand(state, len(it.types) - 1), value)


def select(state, it):
    a, b, word = take(state, it, 3)
    bit = terms.xor(1, is_zero(number(state, word)))
    kind, to = it.types[-2], operand(state, len(it.types) - 3)
    if terms.is_secret(bit):
        state.refuse("a choice by a secret")
    if bit in (0, 1):
        put(state, kind, to, a if bit else b)
    elif isinstance(a, Pointer) or isinstance(b, Pointer):
        state.refuse("a choice of an address that is not settled")
    else:
        put(state, kind, to, tuple(terms.choice(bit, x, y) for x, y in zip(a, b)))


def drop(state, it):
    take(state, it, 1)


def put_constant(state, it):
    kind = it.name.partition(".")[0]
    put(state, kind, operand(state, len(it.types)), constant(it.immediates[0], WIDTHS[kind]))


# Control.

def fall(state, it, label, taken=0):
    """Leaves on the stack what a branch keeps; `taken` operands are gone already."""
    height = len(it.types) - taken
    first = height - label.count
    if first == label.depth:
        return
    kept = [get(state, it.types[i], operand(state, i)) for i in range(first, height)]
    for i in range(label.depth, height):
        of, name = place(state, it.types[i], operand(state, i))
        del of[name]
    for i, value in enumerate(kept):
        put(state, it.types[first + i], operand(state, label.depth + i), value)


def go(state, it, label, taken=0):
    """Goes on at a label."""
    if label.target == "return":
        return_from(state, it, label, taken)
        return
    fall(state, it, label, taken)
    state.pc = label.target


def enter(state, it):
    """A call: its arguments become the locals of the function that is called."""
    function = state.program.library.functions_[it.immediates[0]]
    values = take(state, it, len(function.type.parameters))
    state.registers[f"{depth(state) + 1}.return"] = at("code", it.following)
    state.registers["depth"] = constant(depth(state) + 1, 64)
    for i, kind in enumerate(function.locals):
        value = values[i] if i < len(values) else constant(0, WIDTHS[kind])
        put(state, kind, local(state, i), value)
    state.pc = function.first


def return_from(state, it, label, taken):
    """A return: its results are operands of the caller, or registers by the name of results."""
    height, here = len(it.types) - taken, f"{depth(state)}."
    first = height - label.count
    results = [(it.types[i], get(state, it.types[i], operand(state, i)))
               for i in range(first, height)]
    to = state.registers[f"{here}return"]
    for of in (state.registers, state.vectors):
        for name in [it for it in of if it.startswith(here)]:
            del of[name]
    if not isinstance(to, Pointer) or to.region not in ("code", "return") or offset_of(to) is None:
        state.refuse("a return to a place that is not known")
    if to.region == "return":
        state.registers.update(("result", value) for _, value in results)
        state.pc = "return"
        return
    state.registers["depth"] = constant(depth(state) - 1, 64)
    state.pc = offset_of(to)
    before = len(state.program.instruction(state.pc).types or ()) - len(results)
    for i, (kind, value) in enumerate(results):
        put(state, kind, operand(state, before + i), value)


def branch_if(state, it):
    word, = take(state, it, 1)
    condition = terms.xor(1, is_zero(number(state, word)))
    label = it.labels[0]
    other = branch(state, condition, "taken", it.following)
    for each in (state, other):
        if each is not None and each.pc == "taken":
            each.pc = it.at
            go(each, it, label, 1)
    return other


def branch_unless(state, it):
    """if"""
    word, = take(state, it, 1)
    condition = terms.xor(1, is_zero(number(state, word)))
    return branch(state, condition, it.following, it.labels[0].target)


def branch_by_number(state, it):
    word, = take(state, it, 1)
    found = number_of(number(state, word))
    if found is None:
        state.refuse("a branch by a number that is not known")
    go(state, it, it.labels[min(found, len(it.labels) - 1)], 1)


OTHERS = {"local.get": get_variable, "global.get": get_variable, "local.set": set_variable,
          "local.tee": set_variable, "global.set": set_variable, "select": select, "drop": drop,
          "i32.const": put_constant, "i64.const": put_constant, "v128.const": put_constant,
          "memory.copy": copy, "memory.fill": fill, "nop": lambda state, it: None,
          **{f"{kind}.load{it}": load for kind in ("i32", "i64")
             for it in ("", "8_s", "8_u", "16_s", "16_u", "32_s", "32_u")},
          **{f"{kind}.store{it}": store for kind in ("i32", "i64")
             for it in ("", "8", "16", "32")},
          "v128.load": load, "v128.store": store}
CONTROL = {"br_if": branch_if, "if": branch_unless, "br_table": branch_by_number, "call": enter}


def compute(state, it):
    """An instruction that gives a value of its operands alone."""
    taken, (kind,) = signature(it.name)
    values = take(state, it, len(taken))
    to = operand(state, len(it.types) - len(taken))
    if any(isinstance(value, Pointer) for value in values):
        if it.name in NUMBERS:
            put(state, kind, to, of_pointers(state, it.name, values))
            return
        values = [pointer_bits(state, of, value) for of, value in zip(taken, values)]
    if it.name in NUMBERS:
        put(state, kind, to, NUMBERS[it.name](*values))
    elif it.name in vectors_wasm.TABLE:
        found = vectors_wasm.TABLE[it.name](it.immediates, *values)
        put(state, kind, to, whole(found) if kind == "i64" else found)
    else:
        raise Unknown(it.name)


def pointer_bits(state, kind, value):
    """An address as bits of its own, to be moved by vectors."""
    if not isinstance(value, Pointer):
        return value
    if kind != "i64":
        state.refuse("a part of an address where a number is wanted")
    return joined(bits_of(Part(value, i)) for i in range(8))


def execute(state, it):
    if it.types is None:
        state.refuse("no path comes here")
    try:
        if it.name in CONTROL:
            return CONTROL[it.name](state, it)
        if it.name in ("br", "return", "else") or it.name == "end" and it.labels:
            go(state, it, it.labels[0])
            return None
        if it.name == "unreachable":
            state.refuse("a trap")
        if it.name in OTHERS:
            OTHERS[it.name](state, it)
        elif it.name in vectors_wasm.MEMORY:
            vectors_wasm.MEMORY[it.name](state, it)
        elif it.name not in ("block", "loop", "end"):
            compute(state, it)
        state.pc = it.following
    except Unknown as why:
        state.refuse(f"no meaning for {why}")
    return None


class Program(AnyProgram):
    """A module's code."""

    result, stack_pointer, red_zone = "result", STACK_POINTER, 128
    names, vectors = (), (0, 128)
    looped = r"block_data_order|block_context\.run_blocks"
    decode, execute = map(staticmethod, (lambda line: line, execute))

    def function_at(self, address):
        """The function that has an address."""
        library = self.library
        return library.functions_[library.symbols.index(library.function_at(address))]


def start_state(library, symbol, variables={}, depth_=8192):
    """A state at a function's first instruction, with a stack and unknown arguments."""
    program = Program(library)
    state = program.start(symbol, variables, Region("stack", -depth_, 0, True, 16))
    state.registers["depth"], state.registers["1.return"] = constant(1, 64), at("return")
    function = program.function_at(symbol.start)
    for i, kind in enumerate(function.locals):
        width = WIDTHS[kind]
        put(state, kind, f"1.{i}", terms.fresh(f"argument {i}", width)
            if i < len(function.type.parameters) else constant(0, width))
    for i, it in enumerate(library.globals):
        known = constant(it.value, WIDTHS[it.type])
        put(state, it.type, f"global {i}", at("stack") if i == 0 else
            terms.fresh(f"global {i}", WIDTHS[it.type], secret=False) if it.is_mutable else known)
    return state


def put_arguments(state, values):
    kinds = state.program.function_at(state.pc).type.parameters
    if len(kinds) != len(values) or "v128" in kinds:
        raise Refused(f"it has the parameters {kinds}, of which {len(values)} numbers are given")
    for name, value in zip(ARGUMENTS, values):
        state.registers[name] = value


def check_return(state, start):
    """What a caller relies on: every global is as it was."""
    for name, value in start.registers.items():
        if name.startswith("global ") and state.registers[name] != value:
            raise Refused(f"return: {name} is not restored")
    if depth(state) != 1:
        raise Refused("return: from another function")
