# SPDX-License-Identifier: ISC
"""How a library's code runs, for any processor."""

from contextlib import suppress

import terms
from machine import Part, Refused, Region, State, Unknown, Unknowns, at


class AnyProgram:
    """A library's code. That of a processor has how it runs: `decode`, `execute`, `return_from`;
    the `names` of its registers, `stack_pointer` and `result` among them; and of `vectors` how many
    there are, of how many bits."""

    red_zone = 0  # how many bytes below the stack pointer a function may use
    answers = None  # what the processor answers
    looped = r"by_instruction\.run_blocks"  # in the names of functions with a loop over blocks

    def __init__(self, library):
        self.library, self.instructions, self.used = library, {}, {}
        self.summaries = {}  # by address: what runs in the place of a function
        self.lacking = None  # a pattern of the instructions that the processor hasn't
        self.first = None  # of many calls: what registers have at first, the same in all

    def instruction(self, address):
        if address not in self.instructions:
            line = self.library.line(address)
            if line is None:
                raise Refused(f"{address:x}: no instruction of a function")
            if self.lacking and self.lacking.fullmatch(line.text.partition(" ")[0]):
                raise Refused(f"{address:x}: {line.text}: the processor hasn't this instruction")
            decoded = self.library.decoded
            try:
                if address not in decoded:
                    decoded[address] = self.decode(line)
            except Unknown as why:
                raise Refused(f"{address:x}: {line.text}: no meaning for {why}") from None
            self.instructions[address] = decoded[address]
        return self.instructions[address]

    def read_all(self, symbols):
        """Reads the instructions of functions for all programs of the library."""
        for it in symbols:
            self.library.read_lines(it)
        for address, line in self.library.lines.items():
            with suppress(Unknown):
                self.library.decoded[address] = self.decode(line)

    def text(self, address):
        if address in self.summaries:
            return self.library.imports.get(address) or self.library.function_at(address).name
        return self.instruction(address).text if isinstance(address, int) else str(address)

    def step(self, state):
        if state.pc in self.summaries and self.return_from(state, self.summaries[state.pc]):
            return None
        if state.pc in self.library.own:
            state.pc = self.library.own[state.pc]
            return None
        it = self.instruction(state.pc)
        self.used[state.pc] = it
        return self.execute(state, it)

    def image(self, variables):
        """The library in memory: its constants, addresses that a loader puts there, and bytes that
        C code sets."""
        def byte_at(offset):
            try:
                return terms.constant(variables[offset] if offset in variables else
                                      self.library.constant(offset), 8)
            except KeyError:
                raise Refused(
                    f"a read of {offset:x} in the library, which is no constant") from None

        region = Region("image", 0, 1 << 40, modulus=4096, fill=byte_at)
        for place, address in self.library.relocated.items():
            region.cells.update((place + i, Part(at("image", address), i)) for i in range(8))
        return region

    def start(self, function, variables, stack):
        """A state at a function's first instruction, with a stack and unknown registers."""
        state = State(self, self.stack_pointer, self.red_zone)
        state.add_region(stack)
        state.add_region(self.image(variables))
        count, width = self.vectors
        if self.first is None:
            state.registers = {name: terms.fresh(name, 64) for name in self.names}
            state.vectors = {i: terms.fresh(f"vector {i}", width) for i in range(count)}
        else:
            if not self.first:
                self.first = {name: terms.fresh(name, 64) for name in self.names}
            state.registers, state.vectors = Unknowns(64, self.first), Unknowns(width)
        state.pc = function.start
        return state
