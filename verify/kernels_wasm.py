# SPDX-License-Identifier: ISC
"""What each kernel of a module of WebAssembly has to do. Most of it is what kernels.py has of a
library; what is here has other arguments there."""

from collections import namedtuple
from functools import partial

import identify
import kernels
import terms
import wasm
from identify import Kind
from kernels import (ITERATED, NUMBER, SHA1, SHA1_MODULES, SHA256, SHA2_MODULES, SHA512, Blocks,
                     InLanes, Kernel, check_words, fresh_words, over_message, same_but)
from loops import put_word
from machine import Part, Pointer, Refused, Region, at

# The rest of a message, as a function writes it: a pointer and a length.
POINTER, LENGTH, REST_SIZE = 0, 8, 16


def with_message(library, symbol, function, tag, arguments):
    """A state that has a state of a digest, with a tag or without, a message of any length and a
    meter, as arguments in this order; its words and the length."""
    size = function.width // 8
    start = wasm.start_state(library, symbol)
    length = terms.fresh("length", 64, secret=False)
    state = Region("state", 0, (9 if tag else 8) * size, True, size)
    if tag:
        state.cells[0] = terms.constant(int(function.width == 32), 8)
    chaining = fresh_words("H", function, function.words)
    for i, word in enumerate(chaining):
        put_word(state, size * (i + tag), word)
    for region in (state, kernels.meter(wasm), Region("rest", 0, REST_SIZE, True, 8)):
        start.add_region(region)
    named = {"length": length, "is_sha256": is_sha256(function)}
    wasm.put_arguments(start, [named[it] if it in named else at(it) for it in arguments])
    return start, chaining, length


def is_sha256(function):
    """Of states of 32-bit words which they are; of others it says nothing."""
    number = terms.fresh("is_sha256", 1, secret=False) if function.width == 64 else \
        (int(function is SHA256),)
    return number + (0,) * 63


def over_blocks(library, symbol, function, tag, arguments):
    """The block function over each whole block of a message; and what is left of it, where that is
    asked for."""
    start, chaining, length = with_message(library, symbol, function, tag, arguments)
    size = function.width // 8
    ends, steps = over_message(symbol, function, start, chaining, length)
    for end in ends:
        wasm.check_return(end, start)
        check_words(end, "state", size * tag, size, end.words)
        same_but(end.regions["state"], start.regions["state"],
                 range(size * tag, size * (function.words + tag)))
        if "rest" in arguments:
            check_rest(end, length, terms.constant(-16 * size, 64))
    return steps, start.program.used


def check_rest(end, length, whole):
    """Whether the pointer and the length are those of the rest."""
    rest = end.regions["rest"]
    pointer = Pointer("message", terms.and_words(length, whole))
    if [rest.cell(POINTER + i) for i in range(8)] != [Part(pointer, i) for i in range(8)]:
        raise Refused("the pointer that is written is not that of the rest")
    left = terms.and_words(length, terms.inverted(whole))
    if [rest.cell(LENGTH + i) for i in range(8)] != terms.cut(left, 8):
        raise Refused("the length that is written is not that of the rest")


def of_library(check, *more):
    """What kernels.py shows of a function of a library."""
    return lambda library, symbol, *row: check(wasm, library, symbol, *row, *more)


def iterated(cpu, library, symbol, found):
    """Which of PBKDF2's loops a function is: those in lanes have an argument less."""
    count = len(cpu.Program(library).function_at(symbol.start).type.parameters)
    return identify.xor_iterates(cpu, library, symbol,
                                 [it for it in found if (it.lanes == 1) == (count == 5)])


# Of functions with a name: what they may be, an example that tells these apart, the check, a text,
# and which modules have all of them: with vectors, or without.
Row = namedtuple("Row", "names found example check what is_in")
BLOCKS = ("state", "message", "length", "meter")
PLAIN, VECTORS = "WebAssembly", "WebAssembly SIMD"
BOTH = PLAIN, VECTORS
LANES = [InLanes(SHA1, 4, 5), InLanes(SHA256, 4, 8)]
KINDS = [
    Row(SHA1_MODULES + r"\w*block_data_order\w*", [(SHA1, False, BLOCKS)], None, over_blocks,
        "{0} over a message", BOTH),
    Row(SHA2_MODULES + r"block_data_order_32\w*", [(SHA256, False, BLOCKS)], None, over_blocks,
        "{0} over a message", BOTH),
    Row(r"ring\.digest\.block_context\.run_blocks_64", [(SHA512, False, ("rest", *BLOCKS))], None,
        over_blocks, "{0} over a message", [PLAIN]),
    Row(r"ring\.digest\.block_context\.run_blocks",
        [[(it, True, ("rest", "is_sha256", *BLOCKS)) for it in (SHA1, SHA256, SHA512)]], None,
        over_blocks, "{0} over a message", [VECTORS]),
    Row(r"ring\.digest\.(\w+\.)*BlockContext\.output_after",
        [[(it,) for it in (SHA1, SHA256, SHA512)]], None,
        of_library(kernels.output_after, False), "{0} over the padded tail", BOTH),
    Row(SHA1_MODULES + r"sha1_block_of_words_fastest\w*", [InLanes(SHA1, 1, 5)], None,
        of_library(kernels.block_of_words), "{0} of {2} words", [PLAIN]),
    Row(SHA2_MODULES + r"block_of_words_32_fastest\w*", [InLanes(SHA256, 1, 8)], None,
        of_library(kernels.block_of_words), "{0} of {2} words", [PLAIN]),
    *(Row(SHA2_MODULES + rf"block_of_words_64_fastest\w*_{it}", [InLanes(SHA512, 1, it)], None,
          of_library(kernels.block_of_words), "{0} of {2} words", [PLAIN]) for it in (4, 6, 8)),
    *(Row(modules + r"\w*block_of_words_lanes_counted" + NUMBER, [it], None,
          of_library(kernels.block_of_words), "{0} in {1} lanes of {2} words", BOTH)
      for modules, it in zip((SHA1_MODULES, SHA2_MODULES), LANES)),
    *(Row(rf"ring\.digest\.lanes\.(\w+\.)*InVector{name}RunBlocks64\.run_blocks" + NUMBER,
          [Blocks(it, 4)], None, of_library(kernels.blocks_in_lanes),
          "{0} in {1} lanes over blocks", [VECTORS])
      for name, it in (("Sha1", SHA1), ("Sha256", SHA256))),
    Row(r"ring\.pbkdf2\.(\w+\.)*xor_iterates" + NUMBER, ITERATED + LANES, iterated,
        of_library(kernels.xor_iterates), "PBKDF2 by {0}{3} of {2} words", BOTH)]


def text_of(what, row):
    function, *others = row
    lanes = f" in {others[0]} lanes" if isinstance(row, InLanes) and others[0] > 1 else ""
    return what.format(function.name, *[*others, None][:2], lanes)


def found_functions(library, kind):
    """Pairs of what a function is and its symbol, or None where it lacks in such a module."""
    pairs = [(index, symbol) for index, symbols in identify.assigned(
        wasm, library, Kind(kind.names, kind.found, kind.example)) for symbol in symbols]
    yield from pairs
    if library.system in kind.is_in:
        for index in range(len(kind.found)):
            if index not in dict(pairs):
                yield index, None


def check_of(check, library, symbol, text, row):
    if symbol is None:
        raise Refused(f"there is no function for {text}")
    return check(library, symbol, *row)


def of(library):
    """All kernels of a module."""
    for kind in KINDS:
        for index, symbol in found_functions(library, kind):
            found = kind.found[index]
            for row in found if isinstance(found, list) else [found]:
                text = text_of(kind.what, row)
                where = symbol and f"({identify.short_name(symbol.name)} at {symbol.start:x})"
                yield Kernel(" ".join(it for it in (text, where) if it), symbol,
                             partial(check_of, kind.check, library, symbol, text, row),
                             not kind.example, text, "")
