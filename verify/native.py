# SPDX-License-Identifier: ISC
"""Runs functions of a library by the processor: what it computes with other bytes in the place of
its code, beside what it computes as it is. A processor without the SHA instructions is emulated."""

import ctypes
import random
import subprocess
import sys
import tempfile
from functools import cache
from pathlib import Path

import fips180_4
import kernels

ROOT = Path(__file__).resolve().parent.parent
MESSAGES = 60  # of each function


def base_of(path):
    """Where a library is loaded."""
    with open("/proc/self/maps", encoding="ascii") as file:
        return min(int(line.split("-")[0], 16) for line in file if line.rstrip().endswith(path))


def answers_here(path, variables, functions):
    """What the functions of a library write, of random arguments, as bytes. A function is its
    letter, `m` over messages or `w` in lanes, its address and, after a colon, its build."""
    loaded = ctypes.CDLL(path)  # is kept, and so stays where it is
    base, source, found = base_of(path), random.Random(1), []
    variables = [base + int(it, 16) for it in variables.split(",")]
    for it in functions:
        address, build = it[1:].split(":")
        call = ctypes.CFUNCTYPE(ctypes.c_void_p, *[ctypes.c_void_p] * 5)(base + int(address, 16))
        found += over_messages(call, source, variables, build) if it[0] == "m" else over_words(
            call, source)
    assert loaded
    return b"".join(found)


def over_messages(call, source, variables, build):
    for function in fips180_4.FUNCTIONS.values():
        size = function.width // 8
        for i in range(MESSAGES):
            for it in variables:
                ctypes.c_uint8.from_address(it).value = build == "v2" and i % 2
            state = ctypes.create_string_buffer(
                bytes([size == 4]) + bytes(size - 1) + source.randbytes(8 * size), 9 * size)
            length = source.randrange(5 * 16 * size)
            meter = ctypes.create_string_buffer(16)
            message = ctypes.create_string_buffer(source.randbytes(length), length)
            call(int(function.name == "SHA-256"), ctypes.addressof(state),
                 ctypes.addressof(message), length, ctypes.addressof(meter))
            yield state.raw


def over_words(call, source):
    for _ in range(MESSAGES):
        states = ctypes.create_string_buffer(source.randbytes(512), 512)
        fronts = ctypes.create_string_buffer(source.randbytes(512), 512)
        meter = ctypes.create_string_buffer(16)
        call(*map(ctypes.addressof, (states, fronts, meter)), None, None)
        yield states.raw


@cache
def processor():
    """The words before a program that runs on a processor with the SHA instructions: none, or those
    of an emulator. Raises where there is none."""
    words = subprocess.run([ROOT / "c/test/instructions/processor", "", ROOT / "out/emulator"],
                           capture_output=True, text=True, check=True).stdout.split()
    return [it for it in words if it != "env"]


def run_alone(library):
    """The functions that are run: their letter, address and build."""
    for row in kernels.rows(library):
        if row.symbol and row.check is kernels.run_blocks:
            yield "m", row.symbol.start, row.build
        elif row.symbol and row.check in (kernels.block_of_words, kernels.blocks_in_lanes):
            yield "w", row.symbol.start, row.build


def answers(library, data):
    """The answers of a library with these bytes, by a process of its own; or None where it ends by
    a signal or takes longer than ten minutes."""
    variables = ",".join(f"{it:x}" for it in library.instructions(False))
    functions = [f"{letter}{start:x}:{build}" for letter, start, build in run_alone(library)]
    with tempfile.NamedTemporaryFile(suffix=".so") as file:
        file.write(data)
        file.flush()
        try:
            done = subprocess.run([*processor(), sys.executable, __file__, file.name, variables,
                                   *functions], capture_output=True, timeout=600, check=False)
        except subprocess.TimeoutExpired:
            return None
    return None if done.returncode else done.stdout


def computes_the_same(library, data):
    """Whether a library with other bytes gives the same answers."""
    expected = answers(library, library.data)
    assert expected, "the library itself doesn't run"
    return answers(library, data) == expected


if __name__ == "__main__":
    sys.stdout.buffer.write(answers_here(*sys.argv[1:3], sys.argv[3:]))
