# SPDX-License-Identifier: ISC
"""Which kernel each function of the library is.

The kit's names end in a number for the types that a function has been made for, and that number
changes with the sources. So the functions of a name are told apart by what they compute from one
example, in numbers. This decides only which contract a function has to meet: kernels.py then shows
it for all inputs. A function that computes none of its kind, as a faulty one, is taken for one of
those that are left.
"""

import hashlib
import re
from collections import namedtuple

import fips180_4
import terms
from machine import Refused, Region, at, run

# A kind of function: the names, what its kernels are, and an example that tells them apart, which
# gives those kernels that a function may be.
Kind = namedtuple("Kind", "names kernels example")
ROOM = 2048  # bytes, of each region of an example
V3 = ".v3"  # ends the names of a program's build for x86-64-v3


def bytes_of(name, count=ROOM):
    return hashlib.shake_128(name.encode()).digest(count)


def words_in(data, size, count, lanes=1, lane=0):
    """Words of a lane, the lowest byte of each first."""
    places = range(size * lane, size * lane + size * lanes * count, size * lanes)
    return [int.from_bytes(data[i:i + size], "little") for i in places]


def add_regions(state, cpu, names):
    """A region of numbers for each name, all as arguments."""
    for name in names:
        region = Region(name, 0, ROOM, name in ("state", "states", "outputs", "sums", "meter"), 16)
        region.cells = {i: terms.constant(it, 8) for i, it in enumerate(bytes_of(name))}
        state.add_region(region)
    cpu.put_arguments(state, [at(it) for it in names])


def content_after(start, name):
    """The bytes of a region when a function has run, or None where it doesn't come to its end."""
    try:
        ends, _ = run(start, limit=100_000)
    except Refused:
        return None
    if len(ends) != 1:
        return None
    numbers = [terms.number_of(ends[0].regions[name].cell(i)) for i in range(ROOM)]
    return None if None in numbers else bytes(numbers)


def padding_numbers(function, front):
    """The rest of a block after the first `front` words, if a block was before it (5.1)."""
    size = function.width // 8
    return [1 << (function.width - 1)] + [0] * (14 - front) + [8 * size * (16 + front)]


def ahead(cpu, library, symbol, kernels):
    for kernel in kernels:
        function = kernel.function
        size, numbers = function.width // 8, fips180_4.Numbers(function.width)
        message = words_in(bytes_of("message"), size, 16)
        start = cpu.start_state(library, symbol)
        add_regions(start, cpu, ["sums", "state"])
        sums = [numbers.add(*it) for it in zip(message, fips180_4.first_constants(function))]
        for i, it in enumerate(b"".join(it.to_bytes(size, "little") for it in sums)):
            start.regions["sums"].cells[i] = terms.constant(it, 8)
        cpu.put_vector_arguments(start, symbol,
                                 [terms.constant(it, function.width) for it in message])
        chaining = words_in(bytes_of("state"), size, function.words)
        expected = fips180_4.next_state(function, numbers, chaining, message)
        after = content_after(start, "state")
        if after and words_in(after, size, function.words) == expected:
            yield kernel


def in_lanes(cpu, library, symbol, kernels, argument, message_of):
    """Of functions of states in lanes and an argument: `message_of(kernel, lane)` gives the words
    of the block that a lane runs over."""
    start = cpu.start_state(library, symbol)
    add_regions(start, cpu, ["states", argument, "meter"])
    after = content_after(start, "states")
    for kernel in kernels:
        function, lanes = kernel[:2]
        size, numbers = function.width // 8, fips180_4.Numbers(function.width)
        found = [fips180_4.next_state(
            function, numbers, words_in(bytes_of("states"), size, function.words, lanes, i),
            message_of(kernel, i)) for i in range(lanes)]
        if after and found == [words_in(after, size, function.words, lanes, i)
                               for i in range(lanes)]:
            yield kernel


def block_of_words(cpu, library, symbol, kernels):
    def message_of(kernel, lane):
        function, lanes, front = kernel
        words = words_in(bytes_of("fronts"), function.width // 8, front, lanes, lane)
        return words + padding_numbers(function, front)
    return in_lanes(cpu, library, symbol, kernels, "fronts", message_of)


def blocks_in_lanes(cpu, library, symbol, kernels):
    def message_of(kernel, lane):
        size = kernel.function.width // 8
        block = bytes_of("blocks")[16 * size * lane:16 * size * (lane + 1)]
        return [int.from_bytes(block[i:i + size], "big") for i in range(0, 16 * size, size)]
    return in_lanes(cpu, library, symbol, kernels, "blocks", message_of)


def xor_iterates(cpu, library, symbol, kernels):
    forms = {(it.function.width, it.lanes == 1) for it in kernels}
    after = {it: after_iterates(cpu, library, symbol, *it) for it in sorted(forms)}
    # Eight lanes have what four have, and more.
    for kernel in sorted(kernels, key=lambda it: -it.lanes):
        function, lanes, front = kernel
        size, data = function.width // 8, after[function.width, lanes == 1]
        if data and all(
                [int.from_bytes(data[64 * lane + size * i:64 * lane + size * (i + 1)], "big")
                 for i in range(front)] == two_iterates(function, front, lane)
                for lane in range(lanes)):
            yield kernel


def after_iterates(cpu, library, symbol, width, is_counted):
    """The outputs of eight lanes after two iterations, from states of such words. One lane has the
    number of outputs as an argument."""
    start = cpu.start_state(library, symbol, library.instructions(False))
    add_regions(start, cpu, ["derivation", "starts", "outputs",
                             *(["count"] if is_counted else []), "meter"])
    if is_counted:
        start.registers[cpu.ARGUMENTS[3]] = terms.constant(8, 64)
    for i, it in enumerate((2).to_bytes(4, "little")):
        start.regions["derivation"].cells[0x28 + i] = terms.constant(it, 8)
    for i in range(24):
        start.regions["starts"].cells[72 * i] = terms.constant(int(width == 32), 8)
    return content_after(start, "outputs")


def two_iterates(function, front, lane):
    size, numbers = function.width // 8, fips180_4.Numbers(function.width)
    starts, padding = bytes_of("starts"), padding_numbers(function, front)
    inner, outer, digest = (
        words_in(starts[72 * (8 * i + lane) + size:], size, function.words) for i in range(3))

    def tag(message):
        return fips180_4.next_state(function, numbers, outer, message[:front] + padding)[:front]

    first = tag(digest)
    following = tag(fips180_4.next_state(function, numbers, inner, first + padding))
    return [x ^ y for x, y in zip(first, following)]


def assigned(cpu, library, kind):
    """Pairs of a kernel of a kind, by its number there, and the functions of one name that are
    it."""
    symbols = {}
    for it in library.functions(kind.names):
        symbols.setdefault(it.name.removesuffix(V3), []).append(it)
    found = {}
    if len(kind.kernels) > 1:
        for name, builds in symbols.items():
            for symbol in builds:
                if name not in found and (
                        kernel := next(kind.example(cpu, library, symbol, kind.kernels), None)):
                    found[name] = kernel
    left = [it for it in kind.kernels if it not in found.values()]
    for name in symbols:
        if name not in found:
            if not left:
                raise Refused(f"{name}: it computes nothing that a function of this name has to")
            found[name] = left.pop(0)
    return [(kind.kernels.index(found[name]), builds) for name, builds in symbols.items()]


def short_name(name):
    """A name without the kit's number, the build and the modules."""
    return re.sub(r"\.[0-9a-f]{16}$", "", name.removesuffix(V3)).rpartition(".")[2]
