# SPDX-License-Identifier: ISC
"""What runs in the place of functions that kernels.py shows, and of those that the C library has:
their contracts, with what they ask for checked at each call."""

import fips180_4
import identify
import kernels
import lengths
import terms
from machine import Pointer, Refused, offset_of
from loops import put_word, word_at


def number(state, word, what):
    found = None if isinstance(word, Pointer) else terms.number_of(word)
    if found is None:
        state.refuse(f"{what} is no number")
    return found


def place(state, pointer, size, what, writable=False, modulus=1):
    """The region and the offset of so many bytes that are there."""
    if not isinstance(pointer, Pointer):
        state.refuse(f"{what} is at no known place")
    region = state.regions.get(pointer.region)
    offset = region and region.offset(pointer.offset, size)
    if offset is None:
        state.refuse(f"{what}, {size} bytes at {offset_of(pointer)} of {pointer.region}, is not "
                     "inside")
    if writable and not region.writable:
        state.refuse(f"{what} is in {region.name}, which is not written to")
    if not region.is_aligned(offset, modulus):
        state.refuse(f"{what} at {offset} of {region.name} is not aligned")
    if region.name == "stack" and offset < offset_of(state.registers[state.stack_pointer]):
        state.refuse(f"{what} is below the stack pointer")
    return region, offset


def apart(state, *places):
    """Arguments don't overlap: of each a region, an offset, a size."""
    for i, (region, offset, size) in enumerate(places):
        for other, at, length in places[:i]:
            if region is other and offset < at + length and at < offset + size:
                state.refuse(f"arguments overlap in {region.name}")


def forget(region, start, end):
    """Bytes of which nothing is known after a call."""
    for i in range(start, end):
        if region.name == "stack":  # unknown, once it is read
            region.cells.pop(i, None)
            region.initial.pop(i, None)
        else:
            region.cells[i] = terms.fresh("after a call", 8)
    region.written.update(dict.fromkeys(range(start, end)))


def put_words(region, offset, words):
    for i, it in enumerate(words):
        put_word(region, offset + i * len(it) // 8, it)
    size = sum(map(len, words)) // 8
    region.written.update(dict.fromkeys(range(offset, offset + size)))


def words_at(state, region, offset, size, count):
    found = [word_at(region, offset + i * size, size) for i in range(count)]
    if None in found:
        state.refuse(f"pointers in {region.name}, where words are wanted")
    return found


def no_results(cpu):
    return [terms.fresh("after a call", 64) for _ in cpu.RESULTS]


class Summaries:
    """The summaries of a library. `block` is what stands for the block function, as standards.py
    has it; `calls` counts what was taken."""

    def __init__(self, cpu, library, block, features):
        self.cpu, self.library, self.block, self.features = cpu, library, block, features
        self.calls = {}

    def arguments(self, state, count):
        return [state.registers[it] for it in self.cpu.ARGUMENTS[:count]]

    def noted(self, name, run):
        of_v3, of_sha = name.endswith(" v3"), name.startswith("run_words")

        def summary(state):
            if of_v3 and not self.features & 1 or of_sha and not self.features & 2:
                state.refuse("the processor hasn't the instructions of this function")
            results = run(state)
            self.calls[name] = self.calls.get(name, 0) + (results is not None)
            return results
        return summary

    def by_address(self, real=False, rows=None):
        """What stands for which function; with `real`, only for those of the C library. `rows` are
        the kernels, where they are known."""
        found = {}
        for address, name in self.library.imports.items():
            run = {"memcpy": self.copy(True), "memmove": self.copy(False),
                   "memset": self.fill}.get(name)
            if run:
                found[address] = self.noted(name, run)
        if real:
            return found

        runs = {kernels.run_ahead: self.run_ahead, kernels.run_blocks: self.run_blocks,
                kernels.output_after: self.output_after,
                kernels.block_of_words: self.block_of_words,
                kernels.xor_iterates: self.xor_iterates}
        for row in rows or kernels.rows(self.library):
            if row.symbol and row.check in runs:
                found[row.symbol.start] = self.noted(
                    f"{identify.short_name(row.symbol.name)} {row.build}".strip(),
                    lambda state, row=row: runs[row.check](state, row.symbol, *row.arguments))
        return found

    # The C library's.

    def copy(self, apart_only):
        def run(state):
            target, source, count = self.arguments(state, 3)
            count = number(state, count, "how much is copied")
            if count:
                to, i = place(state, target, count, "a copy's target", True)
                of, j = place(state, source, count, "a copy's source")
                if apart_only:
                    apart(state, (to, i, count), (of, j, count))
                cells = [of.cell(j + k) for k in range(count)]
                to.written.update(dict.fromkeys(range(i, i + count)))
                to.cells.update(zip(range(i, i + count), cells))
            return [target]
        return run

    def fill(self, state):
        target, value, count = self.arguments(state, 3)
        count = number(state, count, "how much is filled")
        if count:
            to, i = place(state, target, count, "what is filled", True)
            to.written.update(dict.fromkeys(range(i, i + count)))
            to.cells.update((k, value[:8]) for k in range(i, i + count))
        return [target]

    # The kernels, as kernels.py has their contracts.

    def meter(self, state, pointer):
        region, offset = place(state, pointer, 16, "the meter", True, 8)
        return region, offset, 16

    def run_ahead(self, state, symbol, function):
        size = function.width // 8
        sums, words = self.arguments(state, 2)
        sums, at = place(state, sums, 16 * size, "sums", True, 16)
        region, offset = place(state, words, 8 * size, "the state", True, size)
        apart(state, (sums, at, 16 * size), (region, offset, 8 * size))
        message = self.cpu.vector_arguments(state, symbol, size)
        symbols = fips180_4.Symbols(function.width)
        expected = [terms.add(it, symbols.constant(k))
                    for it, k in zip(message, fips180_4.first_constants(function))]
        if words_at(state, sums, at, size, 16) != expected:
            state.refuse("sums are not those of the words and the constants")
        chaining = words_at(state, region, offset, size, function.words)
        put_words(region, offset, self.block(function, chaining, message))
        forget(sums, at, at + 16 * size)
        return no_results(self.cpu)

    def run_blocks(self, state, _):
        is_sha256, words, message, length, meter = self.arguments(state, 5)
        region, offset = place(state, words, 72, "the state", True, 4)
        tag = number(state, region.cell(offset), "the state's tag")
        names = {0: "SHA-512"}
        if tag:
            which = min(2, number(state, is_sha256[:8], "a number"))
            names = {1: ("SHA-1", "SHA-256", None)[which]}
        if names.get(tag) is None:
            state.refuse("a tag that was not shown")
        function = fips180_4.FUNCTIONS[names[tag]]
        size = function.width // 8
        place(state, words, 9 * size, "the state", True, size)
        meter = self.meter(state, meter)
        if terms.number_of(length) is None:
            return self.run_open_blocks(state, function, (region, offset), message, length, meter)
        length = number(state, length, "the length")
        whole = length & -16 * size
        used = [(region, offset, 9 * size), meter]
        if length:
            of, at = place(state, message, length, "the message")
            used.append((of, at, length))
        apart(state, *used)
        chaining = words_at(state, region, offset + size, size, function.words)
        for i in range(0, whole, 16 * size):
            block = [terms.joined([of.cell(at + i + j + k) for k in reversed(range(size))])
                     for j in range(0, 16 * size, size)]
            chaining = self.block(function, chaining, block)
        put_words(region, offset + size, chaining)
        forget(meter[0], meter[1], meter[1] + 16)
        return [state.add(message, terms.constant(whole, 64)),
                terms.constant(length - whole, 64)]

    def run_open_blocks(self, state, function, words, message, length, meter):
        """All whole blocks of an open length, at once."""
        size = function.width // 8
        region, offset = words
        of = state.regions.get(message.region) if isinstance(message, Pointer) else None
        if not isinstance(of, lengths.OpenRegion):
            state.refuse("blocks of an open length, of what has none")
        whole = terms.and_words(length, terms.constant(-16 * size, 64))
        start, count = of.offset(message.offset, 0), lengths.value_of(whole)
        if start is None or count is None or not of.has_at(message.offset, length):
            state.refuse("blocks of an open length that are not inside")
        apart(state, (region, offset, 9 * size), meter)
        chaining = words_at(state, region, offset + size, size, function.words)
        chaining = self.block.over(function, chaining, (of.name, message.offset, whole))
        put_words(region, offset + size, chaining)
        forget(meter[0], meter[1], meter[1] + 16)
        return [state.add(message, whole), terms.subtract(length, whole)]

    def output_after(self, state, _):
        """For words of 32 bits; of 64 bits the function itself runs."""
        output, context, tail, length, meter = self.arguments(state, 5)
        length = number(state, length, "the length")
        of, at = place(state, context, kernels.CONTEXT_SIZE, "the context", False, 16)
        if number(state, of.cell(at + kernels.TAG), "the state's tag") != 1:
            return None
        algorithm = number(state, of.cell(at + kernels.ALGORITHM), "the algorithm")
        if algorithm > 1:
            state.refuse("an algorithm that was not shown")
        function = fips180_4.FUNCTIONS["SHA-256" if algorithm else "SHA-1"]
        to, start = place(state, output, 64, "the output", True)
        meter = self.meter(state, meter)
        message, offset = place(state, tail, length, "the tail")
        apart(state, (of, at, kernels.CONTEXT_SIZE), (to, start, 64), meter,
              (message, offset, length))
        chaining = words_at(state, of, at + kernels.STATE + 4, 4, function.words)
        for i in range(offset, offset + (length & -64), 64):
            block = [terms.joined([message.cell(i + j + k) for k in reversed(range(4))])
                     for j in range(0, 64, 4)]
            chaining = self.block(function, chaining, block)
        forget(to, start, start + 64)
        put_words(to, start, [terms.joined(terms.cut(it, 8)[::-1]) for it in chaining])
        forget(meter[0], meter[1], meter[1] + 16)
        return no_results(self.cpu)

    def in_lanes(self, state, region, offset, size, lanes, lane, count):
        return [words_at(state, region, offset + size * (lanes * j + lane), size, 1)[0]
                for j in range(count)]

    def block_of_words(self, state, _, function, lanes, front):
        size = function.width // 8
        states, fronts, meter = self.arguments(state, 3)
        whole = 8 * size * lanes
        region, offset = place(state, states, whole, "states", True, size)
        of, at = place(state, fronts, whole, "fronts", False, size)
        meter = self.meter(state, meter)
        apart(state, (region, offset, whole), (of, at, whole), meter)
        padding = kernels.padding_of(function, front)
        for i in range(lanes):
            chaining = self.in_lanes(state, region, offset, size, lanes, i, function.words)
            message = self.in_lanes(state, of, at, size, lanes, i, front) + padding
            for j, word in enumerate(self.block(function, chaining, message)):
                put_words(region, offset + size * (lanes * j + i), [word])
        forget(meter[0], meter[1], meter[1] + 16)
        return no_results(self.cpu)

    def starts(self, state, pointer, function, lanes):
        """The words of each lane's states: after the key's blocks, and the inner digest of what
        is to be signed. And where they are."""
        size, states = function.width // 8, []
        whole = len(kernels.STARTS) * kernels.MAX_LANES * kernels.STATE_SIZE
        region, start = place(state, pointer, whole, "starts", False, 8)
        for lane in range(lanes):
            offsets = [start + kernels.STATE_SIZE * (kernels.MAX_LANES * i + lane)
                       for i in range(len(kernels.STARTS))]
            if any(number(state, region.cell(it), "a tag") != (function.width == 32)
                   for it in offsets):
                state.refuse("a tag that was not shown")
            states.append([words_at(state, region, it + size, size, function.words)
                           for it in offsets])
        return states, (region, start, whole)

    def iterates(self, function, front, states, iterations):
        """T of a lane, from its states."""
        inner, outer, digest = states
        padding = kernels.padding_of(function, front)
        last = total = self.block(function, outer, digest[:front] + padding)[:front]
        count = terms.number_of(iterations)
        if count is None:
            return self.block.iterated(function, front, inner, outer, last, iterations)
        for _ in range(count - 1):
            inside = self.block(function, inner, last + padding)
            last = self.block(function, outer, inside[:front] + padding)[:front]
            total = [terms.xor_words(x, y) for x, y in zip(total, last)]
        return total

    def xor_iterates(self, state, _, function, lanes, front):
        derivation, starts, outputs, *count, meter = self.arguments(state, 4 + (lanes == 1))
        if count and number(state, count[0], "how many outputs there are") != 1:
            state.refuse("more outputs than one, in one lane")
        of, at = place(state, derivation, kernels.DERIVATION_SIZE, "the derivation", False, 8)
        iterations, = words_at(state, of, at + kernels.ITERATIONS, 4, 1)
        if terms.is_zero(iterations):
            state.refuse("a number of iterations that may be zero")
        states, room = self.starts(state, starts, function, lanes)
        whole = lanes * kernels.OUTPUT_ROOM
        to, start = place(state, outputs, whole, "the outputs", True)
        meter = self.meter(state, meter)
        for it in ((of, at, kernels.DERIVATION_SIZE), room, meter):
            apart(state, (to, start, whole), it)
        apart(state, meter, (of, at, kernels.DERIVATION_SIZE), room)
        forget(to, start, start + whole)
        for lane in range(lanes):
            total = self.iterates(function, front, states[lane], iterations)
            put_words(to, start + kernels.OUTPUT_ROOM * lane,
                      [terms.joined(terms.cut(it, 8)[::-1]) for it in total])
        forget(meter[0], meter[1], meter[1] + 16)
        return no_results(self.cpu)
