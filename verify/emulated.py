# SPDX-License-Identifier: ISC
"""As native.py, of a library for 64-bit ARM: its functions run under qemu-aarch64."""

import subprocess
import tempfile
from functools import cache
from pathlib import Path

from native import MESSAGES, run_alone

RUN = ["qemu-aarch64", "-cpu", "max", "-L", "/usr/aarch64-linux-gnu"]
# Arguments: the library, the address of yz_instructions, and for each function a letter, `m` over a
# message or `w` in lanes, and its address. It writes what they make of random arguments.
MAIN = r"""
#define _GNU_SOURCE
#include <dlfcn.h>
#include <stdint.h>
#include <stdio.h>
#include <stdlib.h>
#include <string.h>
typedef void over_message(uint64_t, uint8_t *, uint8_t *, uint64_t, uint64_t *);
typedef void in_lanes(uint8_t *, uint8_t *, uint64_t *);
static uint64_t last = 1, meter[2];
static uint8_t state[512] __attribute__((aligned(64))), message[512];
static void random_bytes(uint8_t *to, int count) {
    while (count--) {
        last ^= last << 13, last ^= last >> 7, last ^= last << 17;
        *to++ = (uint8_t)(last >> 32);
    }
}
static void over_messages(over_message *run, uint8_t *has_instructions, int width, int is_sha256) {
    for (int i = 0; i < MESSAGES; i++) {
        *has_instructions = i % 2;
        random_bytes(state, 72);
        memset(state, 0, (size_t)width / 8);
        state[0] = width == 32;
        random_bytes(message, 320);
        run((uint64_t)is_sha256, state, message, last % (uint64_t)(5 * width / 2), meter);
        fwrite(state, 72, 1, stdout);
    }
}
int main(int count, char **words) {
    Dl_info info;
    void *library = dlopen(words[1], RTLD_NOW);
    if (!library || !dladdr(dlsym(library, "yz_digest"), &info)) return 1;
    uint8_t *base = info.dli_fbase;
    for (int i = 3; i < count; i++) {
        uint8_t *start = base + strtoul(words[i] + 1, NULL, 16);
        if (words[i][0] == 'm') {
            uint8_t *variable = base + strtoul(words[2], NULL, 16);
            over_messages((over_message *)start, variable, 32, 0);
            over_messages((over_message *)start, variable, 32, 1);
            over_messages((over_message *)start, variable, 64, 0);
            continue;
        }
        for (int j = 0; j < MESSAGES; j++) {
            random_bytes(state, 512);
            random_bytes(message, 512);
            ((in_lanes *)start)(state, message, meter);
            fwrite(state, 512, 1, stdout);
        }
    }
}
"""


@cache
def program():
    """The program that runs them, and the folder in which it stays."""
    folder = tempfile.TemporaryDirectory()
    path = Path(folder.name, "run")
    subprocess.run(["aarch64-linux-gnu-gcc", "-O1", f"-DMESSAGES={MESSAGES}", "-xc", "-", "-o",
                    path], input=MAIN, text=True, check=True)
    return path, folder


def answers(library, data):
    """The answers of a library with these bytes; or None where it ends by a signal or takes longer
    than ten minutes."""
    variable, = library.instructions(False)
    with tempfile.NamedTemporaryFile(suffix=".so") as file:
        file.write(data)
        file.flush()
        try:
            functions = [f"{letter}{start:x}" for letter, start, _ in run_alone(library)]
            done = subprocess.run([*RUN, program()[0], file.name, f"{variable:x}", *functions],
                                  capture_output=True, timeout=600, check=False)
        except subprocess.TimeoutExpired:
            return None
    return None if done.returncode else done.stdout


def computes_the_same(library, data):
    """Whether a library with other bytes gives the same answers."""
    expected = answers(library, library.data)
    assert expected, "the library itself doesn't run"
    return answers(library, data) == expected
