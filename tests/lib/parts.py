# SPDX-License-Identifier: ISC
"""Tests in parts, each of which is a target of a makefile. A part whose tools are missing is left
out, and counted as skipped."""

import os
import pathlib
import re
import shutil
import subprocess
import tempfile

ROOT = pathlib.Path(__file__).resolve().parents[2]
# The variables that name a tool.
VARIABLES = {"cc": "CC", "c++": "CXX", "rt": "RT"}


def named(tool):
    """The program of a tool."""
    return os.environ.get(VARIABLES.get(tool, ""), tool)


def is_command(tool):
    """Whether a tool is a command of this machine."""
    return shutil.which(named(tool)) is not None


def compiles(source, *flags, compiler="cc"):
    """Whether there is the C compiler, and it makes a program of a text."""
    if not is_command(compiler):
        return False
    with tempfile.TemporaryDirectory() as folder:
        command = [named(compiler), "-x", "c", "-", *flags, "-o", f"{folder}/program"]
        run = subprocess.run(command, input=source, text=True, capture_output=True, check=False)
    return run.returncode == 0


def make(*arguments, arch="x86_64"):
    """What make says, where it failed, and the lines by which it leaves out a part of a target. The
    compilers that are named are for x86-64."""
    environment = {**os.environ}
    if arch != "x86_64":
        environment = {name: it for name, it in environment.items() if name not in ("CC", "CXX")}
    run = subprocess.run(
        ["make", "-s", "-C", ROOT, f"ARCH={arch}", "WERROR=-Werror", *arguments],
        capture_output=True, text=True, check=False, env=environment,
    )
    said = run.stdout + run.stderr
    return said if run.returncode else None, re.findall(r"^left out: .*, without .*", said, re.M)


def tried(parts, always, is_there, build, attempt, kind=""):
    """Builds what the parts are of, where the tools are there that each part needs, and tries the
    parts: how many passed, failed and were left out.

    A part is its target with settings behind it, the tools that it needs, and what it tries.
    `build` gives what is wrong, or None, and `attempt` of a target that and the lines by which it
    leaves something out.
    """
    tools = {tool: is_there(tool) for _, needed, _ in parts for tool in [*always, *needed]}
    unbuilt = build() if all(tools[tool] for tool in always) else None
    passed, failed, skipped = 0, 0, 0
    for name, needed, what in parts:
        missing = [tool for tool in [*always, *needed] if not tools[tool]]
        if missing:
            print(f"left out: {kind}{name} ({what}), without {', '.join(missing)}", flush=True)
            skipped += 1
            continue
        fault, left_out = (unbuilt, []) if unbuilt else attempt(name)
        for line in left_out:
            print(line)
        skipped += len(left_out)
        said = f"FAILED: {kind}{name}:\n{fault}" if fault else f"ok: {kind}{name}: {what}"
        print(said, flush=True)
        failed += fault is not None
        passed += fault is None
    return passed, failed, skipped


def told(*counts):
    """Prints how many passed, failed and were left out, of several kinds, and gives the status."""
    passed, failed, skipped = map(sum, zip(*counts))
    line = f"{passed} passed, {failed} failed"
    print(f"{line}, {skipped} skipped" if skipped else line)
    return failed != 0
