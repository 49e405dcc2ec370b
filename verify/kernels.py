# SPDX-License-Identifier: ISC
"""What each kernel of the library and of the programs has to do, and the check that it does."""

import multiprocessing
import os
import re
from collections import namedtuple
from functools import cache, partial

import apart
import arm
import fips180_4
import identify
import terms
import x86
import x86_windows
from identify import Kind
from loops import Loop, big_endian_words, find_heads, literals, put_word, word_at
from machine import Part, Pointer, Refused, Region, at, offset_of, run

ARCHITECTURES = {62: x86, 183: arm}


def architecture(library):
    """How the library's code runs."""
    return x86_windows if library.system == "Windows" else ARCHITECTURES[library.machine]


METER_SIZE = 16


def meter(cpu):
    """The meter. Its count is public where code may choose by it."""
    is_secret = not getattr(cpu, "METER_IS_PUBLIC", False)
    return Region("meter", 0, METER_SIZE, True, 8,
                  fill=lambda i: terms.fresh(f"meter[{i}]", 8, is_secret))


def fresh_words(name, function, count):
    return [terms.fresh(f"{name}{i}", function.width) for i in range(count)]


def same_but(region, before, allowed):
    """Nothing of a region has changed but the offsets that are allowed."""
    for offset in range(region.low, region.high):
        if offset not in allowed and region.cell(offset) != before.cell(offset):
            raise Refused(f"byte {offset} of {region.name} is changed")


def refuse_word(state, region, offset, what):
    """Refuses what is at an offset, by the instruction that wrote it last."""
    writer = state.regions[region].written.get(offset)
    by = "nothing has written it" if writer is None else \
        f"last written at {writer:x}: {state.program.text(writer)}"
    raise Refused(f"{what} is not the standard's, at {offset} of {region}; {by}")


def check_words(state, region, offset, size, expected, what="chaining word"):
    for j, word in enumerate(expected):
        if word_at(state.regions[region], offset + j * size, size) != word:
            refuse_word(state, region, offset + j * size, f"{what} {j}")


def check_output(state, region, offset, function, words):
    """Words as bytes, the highest first."""
    size, cell = function.width // 8, state.regions[region].cell
    for j, word in enumerate(words):
        cells = [cell(offset + size * j + i) for i in reversed(range(size))]
        if any(isinstance(it, Part) for it in cells) or terms.joined(cells) != word:
            refuse_word(state, region, offset + size * j, f"word {j} of the output")


def run_ahead(cpu, library, symbol, function):
    """run_ahead(sums, state, words in vectors): where sums are those of the first sixteen words and
    constants, the block function, over the block of these words."""
    size = function.width // 8
    start = cpu.start_state(library, symbol)
    chaining, message = fresh_words("h", function, function.words), fresh_words("m", function, 16)
    sums, state = Region("sums", 0, 16 * size, True, 16), Region("state", 0, 8 * size, True, size)
    symbols = fips180_4.Symbols(function.width)
    constants = fips180_4.first_constants(function)
    for i, word in enumerate(message):
        put_word(sums, size * i, terms.add(word, symbols.constant(constants[i])))
    for i, word in enumerate(chaining):
        put_word(state, size * i, word)
    start.add_region(sums)
    start.add_region(state)
    first, second = cpu.ARGUMENTS[:2]
    start.registers[first], start.registers[second] = at("sums"), at("state")
    cpu.put_vector_arguments(start, symbol, message)
    before = start.copy()
    ends, steps = run(start)
    if len(ends) != 1:
        raise Refused(f"{symbol.name}: returns in {len(ends)} ways")
    end, = ends
    cpu.check_return(end, before)
    after = fips180_4.next_state(function, symbols, chaining, message)
    check_words(end, "state", 0, size, after)
    same_but(end.regions["state"], before.regions["state"], range(function.words * size))
    return steps, end.program.used


def loops_of(symbol, others, start, prove):
    """Runs a function that has one loop, or returns without it. `prove(entry)` gives the state in
    which it returns after the loop that is entered so. Returns both states."""
    heads = find_heads(readable(start), [symbol, *others])
    ends, steps = run(start.copy(), heads)
    without = [end for end in ends if end.pc == "return"]
    entries = [end for end in ends if end.pc != "return"]
    if len(entries) != 1 or len(without) != 1:
        raise Refused(f"{symbol.name}: {len(entries)} loops, {len(without)} returns without")
    after, more = prove(entries[0])
    return without[0], after, steps + more


def readable(start):
    """A state whose message has its first block, to see where the loop is."""
    start = start.copy()
    if "message" in start.regions:
        start.regions["message"].high = 128
    return start


def over_message(symbol, function, start, chaining, length):
    """Runs a function from a state that has a message of a length as a region: the block function
    over each whole block. Returns the states at its return, each with the chaining words that it
    has to have then, and the number of steps."""
    start.add_region(Region("message", 0, 0))
    size = function.width // 8
    symbols = fips180_4.Symbols(function.width)
    blocks = terms.shifted_right(length, (16 * size).bit_length() - 1)
    some = terms.xor(1, terms.is_zero(blocks))

    def step(at_head, words):
        block = at_head.regions.get("block") or at_head.regions["message"]
        return fips180_4.next_state(function, symbols, words, big_endian_words(block, size))

    def prove(entry):
        loop = Loop(entry, function.width, chaining, step, blocks, 16 * size)
        return loop.prove(range(function.words), some), loop.steps

    others = [it for it in start.program.library.symbols
              if re.search(start.program.looped, it.name)]
    without, after, steps = loops_of(symbol, others, start, prove)
    if literals(without.path) != {terms.xor(1, some)}:
        raise Refused("a return without the loop, where there are blocks")
    without.words = chaining
    return [without, after], steps


def run_blocks(cpu, library, symbol, function, instructions):
    """ring::digest::block_context::run_blocks(is_sha256, state, message, length, meter): the block
    function over each whole block; returns what is left of the message. `state` has a tag: 0 where
    words have 64 bits."""
    size = function.width // 8
    start = cpu.start_state(library, symbol, library.instructions(instructions))
    length = terms.fresh("length", 64, secret=False)
    is_sha256 = (terms.fresh("is_sha256", 8, secret=False) if function.width == 64 else
                 terms.constant(int(function.name == "SHA-256"), 8)) + terms.fresh("upper", 56)
    state = Region("state", 0, 9 * size, True, size)
    state.cells[0] = terms.constant(int(function.width == 32), 8)
    chaining = fresh_words("H", function, function.words)
    for i, word in enumerate(chaining):
        put_word(state, size * (i + 1), word)
    start.add_region(state)
    start.add_region(meter(cpu))
    arguments = [is_sha256, at("state"), at("message"), length, at("meter")]
    cpu.put_arguments(start, arguments)
    ends, steps = over_message(symbol, function, start, chaining, length)
    whole = terms.constant(-16 * size, 64)
    for end in ends:
        cpu.check_return(end, start)
        check_words(end, "state", size, size, end.words)
        same_but(end.regions["state"], start.regions["state"],
                 range(size, size * (function.words + 1)))
        rest, left = (end.registers[it] for it in cpu.RESULTS)
        if left != terms.and_words(length, terms.inverted(whole)):
            raise Refused("the length that is returned is not that of the rest")
        if rest != Pointer("message", terms.and_words(length, whole)):
            raise Refused("the pointer that is returned is not that of the rest")
    return steps, start.program.used


# Where a context of a digest has the tag of its state, the state's words, and its algorithm.
TAG, STATE, ALGORITHM, CONTEXT_SIZE = 0x10, 0x10, 0x58, 0x60


def output_after(cpu, library, symbol, function, instructions):
    """BlockContext::output_after(output, context, tail, length, meter): the bytes of the chaining
    words, after the block function over each whole block of the tail."""
    size = function.width // 8
    start = cpu.start_state(library, symbol, library.instructions(instructions))
    length = terms.fresh("length", 64, secret=False)
    context = Region("context", 0, CONTEXT_SIZE, modulus=16)
    context.cells[TAG] = terms.constant(int(function.width == 32), 8)
    context.cells[ALGORITHM] = terms.constant(int(function.name != "SHA-1"), 8)
    chaining = fresh_words("H", function, function.words)
    for i, word in enumerate(chaining):
        put_word(context, STATE + size * (i + 1), word)
    for region in (context, Region("output", 0, 64, True), meter(cpu)):
        start.add_region(region)
    arguments = [at("output"), at("context"), at("message"), length, at("meter")]
    cpu.put_arguments(start, arguments)
    ends, steps = over_message(symbol, function, start, chaining, length)
    for end in ends:
        cpu.check_return(end, start)
        check_output(end, "output", 0, function, end.words)
    return steps, start.program.used


def put_lane(region, size, lanes, lane, words):
    for j, word in enumerate(words):
        put_word(region, size * (lanes * j + lane), word)


def in_each_lane(cpu, library, symbol, function, lanes, argument, message_of):
    """What block_of_words and blocks_in_lanes show of a function of states in lanes, an argument,
    which is a region, and a meter: the block function in each lane, over the sixteen words that
    `message_of(lane)` gives."""
    size = function.width // 8
    start = cpu.start_state(library, symbol)
    states = Region("states", 0, 8 * size * lanes, True, size)
    chaining = [fresh_words(f"h{i}.", function, function.words) for i in range(lanes)]
    for i, words in enumerate(chaining):
        put_lane(states, size, lanes, i, words)
    for register, region in zip(cpu.ARGUMENTS, (states, argument, meter(cpu))):
        start.add_region(region)
        start.registers[register] = at(region.name)
    before = start.copy()
    ends, steps = run(start)
    if len(ends) != 1:
        raise Refused(f"{symbol.name}: returns in {len(ends)} ways")
    end, = ends
    cpu.check_return(end, before)
    symbols = fips180_4.Symbols(function.width)
    for i, words in enumerate(chaining):
        for j, word in enumerate(fips180_4.next_state(function, symbols, words, message_of(i))):
            offset = size * (lanes * j + i)
            if word_at(end.regions["states"], offset, size) != word:
                refuse_word(end, "states", offset, f"chaining word {j} of lane {i}")
    same_but(end.regions["states"], before.regions["states"],
             range(function.words * size * lanes))
    return steps, end.program.used


def block_of_words(cpu, library, symbol, function, lanes, front):
    """block_of_words(states, fronts, meter): the block function in each lane, over the first
    `front` words of the lane in `fronts` and then the padding of a message of a block and these
    words. (The source takes the padding as an argument; this is the only one, and the compiler has
    put it into the function.)"""
    size = function.width // 8
    fronts = Region("fronts", 0, 8 * size * lanes, modulus=size)
    words = [fresh_words(f"m{i}.", function, front) for i in range(lanes)]
    for i in range(lanes):
        put_lane(fronts, size, lanes, i, words[i])
    padding = padding_of(function, front)
    return in_each_lane(cpu, library, symbol, function, lanes, fronts,
                        lambda lane: words[lane] + padding)


def blocks_in_lanes(cpu, library, symbol, function, lanes):
    """RunBlocks::run_blocks(states, blocks, meter): the block function in each lane, over the block
    of bytes at the lane's place. (The source takes how many blocks there are, which are as many as
    lanes; the compiler has dropped it.)"""
    size = function.width // 8
    blocks = Region("blocks", 0, 16 * size * lanes)
    return in_each_lane(cpu, library, symbol, function, lanes, blocks,
                        lambda lane: big_endian_words(blocks, size, 16 * size * lane))


def padding_of(function, front):
    """The rest of a block after the first `front` words, if a block was before it (5.1)."""
    size = function.width // 8
    words = [1 << (function.width - 1)] + [0] * (14 - front) + [8 * size * (16 + front)]
    return [terms.constant(it, function.width) for it in words]


# Where a derivation has its iterations; the inner states of all lanes stand before the outer ones,
# and those before the inner digests of the first messages. A state has a tag and eight words.
ITERATIONS, DERIVATION_SIZE, MAX_LANES, OUTPUT_ROOM = 0x28, 0x38, 8, 64
STATE_SIZE = 9 * 8
STARTS = ("inner", "outer", "digest")


def put_starts(region, function, states):
    """The states that the lanes start from, by their names in STARTS: lists of words."""
    size = function.width // 8
    for i, name in enumerate(STARTS):
        for lane, words in enumerate(states[name]):
            offset = STATE_SIZE * (MAX_LANES * i + lane)
            region.cells[offset] = terms.constant(int(function.width == 32), 8)
            for j, word in enumerate(words):
                put_word(region, offset + size * (j + 1), word)


def tag_words(function, padding, states, lane, digest):
    """HMAC's, of the message with an inner digest."""
    symbols, front = fips180_4.Symbols(function.width), len(digest)
    outer = states["outer"][lane][:function.words]
    return fips180_4.next_state(function, symbols, outer, digest + padding)[:front]


def next_iterates(function, lanes, front, padding, states, old):
    """U and T of all lanes after an iteration, from those before it."""
    symbols, U, T = fips180_4.Symbols(function.width), [], []
    for lane in range(lanes):
        message = old[front * lane:front * (lane + 1)]
        inner = states["inner"][lane][:function.words]
        inside = fips180_4.next_state(function, symbols, inner, message + padding)[:front]
        U += tag_words(function, padding, states, lane, inside)
    for x, y in zip(old[front * lanes:], U):
        T.append(terms.xor_words(x, y))
    return U + T


def xor_iterates(cpu, library, symbol, function, lanes, front, instructions=False):
    """xor_iterates(derivation, starts, outputs, meter), PBKDF2's loop, in each lane: U is first the
    tag of the message whose inner digest is there, and is then replaced by the HMAC of U, where the
    starts have the chaining words after the key's blocks. T is the exclusive or of all U. Its bytes
    are the output. Iterations aren't 0. One lane has how many outputs there are as an argument
    before the meter, which the compiler has dropped of more."""
    start = cpu.start_state(library, symbol, library.instructions(instructions))
    states = {name: [fresh_words(f"{name}{lane}.", function, 8) for lane in range(lanes)]
              for name in STARTS}
    iterations = terms.fresh("iterations", 32, secret=False)
    derivation = Region("derivation", 0, DERIVATION_SIZE, modulus=8)
    put_word(derivation, ITERATIONS, iterations)
    starts = Region("starts", 0, len(STARTS) * MAX_LANES * STATE_SIZE, modulus=8)
    put_starts(starts, function, states)
    outputs = Region("outputs", 0, lanes * OUTPUT_ROOM, True)
    for region in (derivation, starts, outputs, meter(cpu)):
        start.add_region(region)
    counted = [terms.constant(1, 64)] if lanes == 1 else []
    arguments = [at("derivation"), at("starts"), at("outputs"), *counted, at("meter")]
    cpu.put_arguments(start, arguments)
    padding = padding_of(function, front)
    first = [word for lane in range(lanes)
             for word in tag_words(function, padding, states, lane, states["digest"][lane][:front])]
    turns = terms.subtract(iterations, terms.constant(1, 32)) + (0,) * 32
    some = terms.xor(1, terms.borrow(iterations, terms.constant(2, 32)))

    def step(_, old):
        return next_iterates(function, lanes, front, padding, states, old)

    def prove(entry):
        loop = Loop(entry, function.width, first + first, step, turns)
        return loop.prove(range(2 * len(first)), some), loop.steps

    without, after, steps = loops_of(symbol, [], start, prove)
    if literals(without.path) != {terms.xor(1, some)}:
        raise Refused("a return without the loop, where there are further iterations")
    without.words = first + first
    for end in (without, after):
        cpu.check_return(end, start)
        for lane in range(lanes):
            expected = end.words[front * (lanes + lane):front * (lanes + lane + 1)]
            check_output(end, "outputs", OUTPUT_ROOM * lane, function, expected)
    return steps, start.program.used


# Which kernels a library has.

# What is shown of a function: a text with the function's place, the function's symbol or None, its
# check, whether that is among the quick ones, the text alone, the build.
Kernel = namedtuple("Kernel", "name symbol check is_quick what build")
Ahead = namedtuple("Ahead", "function")
InLanes = namedtuple("InLanes", "function lanes front")  # `front` words of a block are no padding
Blocks = namedtuple("Blocks", "function lanes")  # a block of bytes in each lane
SHA1, SHA256, SHA512 = fips180_4.FUNCTIONS.values()
# The kit's, of the types; then a program's, of its build for x86-64-v3.
NUMBER = r"(\.[0-9a-f]{16})?" + rf"({re.escape(identify.V3)})?"
SHA1_MODULES, SHA2_MODULES = (rf"ring_core\.digest\.{it}\.(\w+\.)*" for it in ("sha1", "sha2"))
ITERATED = [InLanes(SHA1, 1, 5), InLanes(SHA256, 1, 8), InLanes(SHA512, 1, 8),
            InLanes(SHA512, 1, 6), InLanes(SHA512, 1, 4)]
WIDE = [InLanes(SHA1, 4, 5), InLanes(SHA1, 8, 5), InLanes(SHA256, 4, 8), InLanes(SHA256, 8, 8),
        InLanes(SHA512, 4, 8), InLanes(SHA512, 4, 6), InLanes(SHA512, 4, 4)]
# By the names of the types that have the functions.
OVER_BLOCKS = {"Sha1RunBlocks64": [Blocks(SHA1, 4), Blocks(SHA1, 8)],
               "Sha256RunBlocks64": [Blocks(SHA256, 4), Blocks(SHA256, 8)],
               "RunBlocks128": [Blocks(SHA512, 4)]}
# What a compiler may put into its callers, and is shown where it has a function of its own.
IF_NOT_INLINED = [Blocks(SHA512, 4)]
KINDS = [  # each with the check of its contract
    (Kind(SHA1_MODULES + "run_ahead" + NUMBER, [Ahead(SHA1)], identify.ahead), run_ahead),
    (Kind(SHA2_MODULES + "run_ahead" + NUMBER, [Ahead(SHA256), Ahead(SHA512)], identify.ahead),
     run_ahead),
    (Kind(r"ring\.digest\.(\w+\.)*block_context\.run_blocks" + NUMBER, [()], None), run_blocks),
    (Kind(r"ring\.digest\.(\w+\.)*BlockContext\.output_after" + NUMBER, [()], None),
     output_after),
    (Kind(SHA1_MODULES + "run_words" + NUMBER, [InLanes(SHA1, 1, 5)], None), block_of_words),
    (Kind(SHA2_MODULES + "run_words" + NUMBER, [InLanes(SHA256, 1, 8)], None), block_of_words),
    *((Kind(modules + r"\w*block_of_words_lanes_counted" + NUMBER,
            [it for it in WIDE if (it.function is SHA1) == (modules is SHA1_MODULES)],
            identify.block_of_words), block_of_words)
      for modules in (SHA1_MODULES, SHA2_MODULES)),
    *((Kind(rf"ring\.digest\.lanes\.(\w+\.)*InVector{name}\.run_blocks" + NUMBER, of,
            identify.blocks_in_lanes), blocks_in_lanes) for name, of in OVER_BLOCKS.items()),
    (Kind(r"ring\.pbkdf2\.(\w+\.)*xor_iterates" + NUMBER, ITERATED + WIDE,
          identify.xor_iterates), xor_iterates)]
# Of the programs, by the crates that begin them: what each of their builds has, since their sources
# call it and the compiler doesn't put it into its callers. None runs SHA instructions.
DERIVING = [run_ahead, run_blocks, output_after, block_of_words, xor_iterates]
PROGRAMS = {"ring_sums_main": {"v2": [run_ahead, output_after, blocks_in_lanes],
                               "v3": [run_ahead, blocks_in_lanes]},
            "ring_passwords": {"v2": DERIVING},
            "ring_bench_main": {"v2": DERIVING}}


def builds_of(library, symbols):
    """Functions of one name, each with its build's name."""
    if library.machine != 62:
        return [("", it) for it in symbols]
    if len(symbols) == 2:  # v2's stands before v3's, and has the shorter name in a program
        return list(zip(("v2", "v3"), sorted(symbols, key=lambda it: it.name)))
    return [("v3" if x86.Program(library).has_avx(it) else "v2", it) for it in symbols]


def program_of(library):
    """What the builds of a program have; None of a library."""
    return next((builds for crate, builds in PROGRAMS.items()
                 if library.functions(rf"{crate}\.main\.start")), None)


def builds_with(library, check, kernel):
    """The builds that have to have a kernel of a kind."""
    builds, program = builds_of_library(library, check, kernel), program_of(library)
    if kernel in IF_NOT_INLINED:
        return []
    if program is None:
        return builds
    by_instructions = check is block_of_words and kernel.lanes == 1
    return [it for it in builds if check in program.get(it, []) and not by_instructions]


def builds_of_library(library, check, kernel):
    """The builds of a library that have a kernel of a kind."""
    is_x86 = library.machine == 62
    if check is block_of_words and kernel.lanes == 1:  # by instructions
        return ["v2"] if is_x86 else [""]
    if not kernel or len(kernel) == 1 or kernel.lanes * kernel.function.width <= 128:
        return ["v2", "v3"] if is_x86 else [""]
    if kernel.lanes == 1:
        return ["v2", "v3"] if is_x86 else [""]
    return ["v3"] if is_x86 else []


# A function that is a kernel: its build, its symbol or None where it lacks, the check of its
# contract, and the further arguments of that.
Row = namedtuple("Row", "build symbol check arguments")


@cache
def rows(library):
    """All functions that are kernels, each once."""
    return tuple(found_rows(library))


def assigned(library, number):
    """Of a kind, which kernels its functions are."""
    return identify.assigned(architecture(library), library, KINDS[number][0])


def all_assigned(library):
    """The same of all kinds; by other processes, since each example leaves terms behind."""
    work = partial(assigned, library)
    if multiprocessing.current_process().daemon:  # which may have none
        return [work(i) for i in range(len(KINDS))]
    with multiprocessing.get_context("fork").Pool(min(4, len(os.sched_getaffinity(0)))) as pool:
        return pool.map(work, range(len(KINDS)), 1)


def found_rows(library):
    for (kind, check), pairs in zip(KINDS, all_assigned(library)):
        found = set()
        for index, symbols in pairs:
            kernel = kind.kernels[index]
            for build, symbol in builds_of(library, symbols):
                found.add((kernel, build))
                yield Row(build, symbol, check, kernel)
        for kernel in kind.kernels:
            for build in builds_with(library, check, kernel):
                if (kernel, build) not in found:
                    yield Row(build, None, check, kernel)


def cases(row, has_instructions):
    """What is shown of a function: pairs of a text and the arguments of its check."""
    can_choose = has_instructions and row.build != "v3"
    if row.check in (run_blocks, output_after):
        what = {run_blocks: "over a message", output_after: "over the padded tail"}[row.check]
        for function in fips180_4.FUNCTIONS.values():
            yield f"{function.name} {what}", (function, False)
            if can_choose and function.width == 32:
                yield f"{function.name} by instructions {what}", (function, True)
        return
    if row.check is run_ahead:
        yield row.arguments.function.name, row.arguments
        return
    if row.check is blocks_in_lanes:
        function, lanes = row.arguments
        yield f"{function.name} in {lanes} lanes over blocks", row.arguments
        return
    function, lanes, front = row.arguments
    how = f" in {lanes} lanes" if lanes > 1 else ""
    if row.check is block_of_words:
        yield f"{function.name}{how or ' by instructions'} of {front} words", row.arguments
        return
    yield f"PBKDF2 by {function.name}{how} of {front} words", row.arguments
    if can_choose and lanes == 1 and function.width == 32:
        yield f"PBKDF2 by {function.name} by instructions of {front} words", (*row.arguments, True)


def of(library):
    """All kernels of a library. One that has no function is refused."""
    cpu = architecture(library)
    has_instructions = any("by_instruction" in it.name for it in library.symbols)

    def check_at(residue, row, arguments):
        cpu.residue = residue
        return row.check(cpu, library, row.symbol, *arguments)

    def check_of(row, what, arguments):
        if row.symbol is None:
            raise Refused(f"there is no function for {what}")
        *others, last = getattr(cpu, "RESIDUES", [None])
        before = [apart.run(partial(check_at, it, row, arguments)) for it in others]
        steps, used = check_at(last, row, arguments)
        return steps + sum(it for it, _ in before), used

    for row in rows(library):
        for what, arguments in cases(row, has_instructions):
            where = row.symbol and (f"({identify.short_name(row.symbol.name)} at "
                                    f"{row.symbol.start:x})")
            name = " ".join(it for it in (what, row.build, where) if it)
            yield Kernel(name, row.symbol, partial(check_of, row, what, arguments),
                         row.check is not xor_iterates, what, row.build)
