# SPDX-License-Identifier: ISC
"""The table of docs/SUMS.md: seconds of processor."""

import os
import pathlib
import random
import resource
import subprocess
import tempfile

from lists import ENVIRONMENT, NARROW, WIDE


def speed():
    """Prints seconds of processor, the least of three runs each."""
    with tempfile.TemporaryDirectory(dir=os.environ.get("SUMS_FILES")) as room:
        folder = pathlib.Path(room)
        rows = {name: make(folder) for name, make in SPEED_FILES.items()}
        programs = [
            ("coreutils", "{0}sum", None), ("openssl dgst", "openssl", None),
            ("ours, 128 bits", "sums", NARROW),
        ]
        programs += [("ours, 256 bits", "sums", WIDE)] if WIDE else []
        print("| | " + " | ".join(name for name, _, _ in programs) + " |")
        print("|---|" + "---|" * len(programs))
        for algorithm in ("sha256", "sha1", "sha512"):
            for row, names in rows.items():
                times = [least_time(folder, names, algorithm, *program[1:]) for program in programs]
                cells = " | ".join(f"{it:.2f}" for it in times)
                print(f"| {algorithm}, {row} | {cells} |", flush=True)


def least_time(folder, names, algorithm, name, program):
    """The least seconds of processor of three runs over files."""
    options = {"openssl": ["dgst", f"-{algorithm}"], "sums": ["-a", algorithm]}
    words = [name.format(algorithm), *options.get(name, [])]
    least = None
    for _ in range(3):
        start = resource.getrusage(resource.RUSAGE_CHILDREN)
        for first in range(0, len(names), 20_000):
            subprocess.run([*words, *names[first:first + 20_000]], executable=program, cwd=folder,
                           stdout=subprocess.DEVNULL, check=True, env=ENVIRONMENT)
        end = resource.getrusage(resource.RUSAGE_CHILDREN)
        used = end.ru_utime + end.ru_stime - start.ru_utime - start.ru_stime
        least = used if least is None else min(least, used)
    return least


def files_of(folder, prefix, lengths):
    """Files of these lengths, and their names."""
    block = random.Random(5).randbytes(1_000_000)
    names = []
    for place, length in enumerate(lengths):
        name = f"{prefix}{place}"
        with open(folder / name, "wb") as file:
            for start in range(0, length, len(block)):
                file.write(block[:min(len(block), length - start)])
        names.append(name)
    return names


def mixed_lengths(count, longest):
    """Lengths from 100 bytes to the longest, each order of size as often."""
    draw = random.Random(6)
    return [int(100 * (longest / 100) ** draw.random()) for _ in range(count)]


SPEED_FILES = {
    "one file of 512 MB": lambda folder: files_of(folder, "one", [512_000_000]),
    "20,000 files of 10 KB": lambda folder: files_of(folder, "small", [10_000] * 20_000),
    "16 files of 32 MB": lambda folder: files_of(folder, "large", [32_000_000] * 16),
    "2,000 files of 100 bytes to 4 MB":
        lambda folder: files_of(folder, "mixed", mixed_lengths(2000, 4_000_000)),
    "60,000 files of 100 bytes to 1 MB":
        lambda folder: files_of(folder, "many", mixed_lengths(60_000, 1_000_000)),
}
