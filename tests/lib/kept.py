# SPDX-License-Identifier: ISC
"""What passed on this machine before: it isn't tried again while nothing has changed that it was
made from, neither files of the repository nor tools. It is kept for the user, by its sum.

    tests/lib/kept.py NAME COMMAND..

Runs a test, or prints the end of what it printed when it passed over all these files: the lines of
what it left out, and its last. With ANEW in the environment it runs. The status is the test's.
"""

import functools
import hashlib
import os
import pathlib
import re
import subprocess
import sys

ROOT = pathlib.Path(__file__).resolve().parents[2]
FOLDER = pathlib.Path(os.environ.get("XDG_CACHE_HOME") or "~/.cache").expanduser() / "yezdopin"
# Pages that no test kept here reads.
UNREAD = (":!CHANGELOG.md", ":!CONTRIBUTING.md")
PASSED = re.compile(r"\d+ passed, 0 failed(?:, \d+ skipped)?")
# What tells the versions of all tools that may take part, each where it is there.
VERSIONS = ["dpkg-query -W", "python3 --version", "rustc --version", "cargo --version",
            "node --version", "rt version", "uname -r"]


@functools.cache
def tools():
    """The sum of the versions of all tools, and of what the processor can do."""
    found = hashlib.sha256()
    for command in VERSIONS:
        run = subprocess.run(["sh", "-c", command], capture_output=True, check=False)
        found.update(run.stdout)
    processor, _, _ = pathlib.Path("/proc/cpuinfo").read_text().partition("\n\n")
    for line in processor.splitlines():
        if line.startswith(("model name", "flags", "Features")):
            found.update(line.encode())
    return found.hexdigest()


@functools.cache
def files(*folders):
    """The sum of all files of some folders that git has or would take."""
    command = ["git", "-C", ROOT, "ls-files", "-z", "--cached", "--others", "--exclude-standard",
               "--", *folders]
    listed = subprocess.run(command, check=True, capture_output=True).stdout.decode().split("\0")
    found = hashlib.sha256()
    for name in sorted(it for it in listed if it and (ROOT / it).is_file()):
        found.update(f"{name}\0".encode() + hashlib.sha256((ROOT / name).read_bytes()).digest())
    return found.hexdigest()


def place(name, folders):
    """The file by which it is kept that something passed over the files of these folders."""
    told = f"{name}\0{files(*folders)}\0{tools()}"
    return FOLDER / f"passed.{hashlib.sha256(told.encode()).hexdigest()}"


def has_passed(name, folders):
    """Whether it passed before."""
    return place(name, folders).exists()


def keep(name, folders):
    """Keeps that it passed."""
    FOLDER.mkdir(parents=True, exist_ok=True)
    place(name, folders).touch()


def end_of(said):
    """The lines that tell what a test left out, and its last one."""
    lines = said.splitlines()
    return [it for it in lines[:-1] if it.startswith("left out: ")] + lines[-1:]


def run(words):
    """Runs a test, and gives what it printed and its status."""
    with subprocess.Popen(words, stdout=subprocess.PIPE, stderr=subprocess.STDOUT) as test:
        said = b""
        for line in test.stdout:
            said += line
            sys.stdout.buffer.write(line)
            sys.stdout.buffer.flush()
    return said.decode(errors="replace"), test.returncode


def main():
    name, *words = sys.argv[1:]
    # Before the test, which may change a file.
    kept = place(f"test {name}", UNREAD) if (ROOT / ".git").exists() else None
    if kept and kept.exists() and "ANEW" not in os.environ:
        print(f"{name} passed before over these files and tools, on this machine.")
        print(kept.read_text(), end="")
        return 0
    said, status = run(words)
    end = end_of(said)
    if kept and status == 0 and end and PASSED.fullmatch(end[-1]):
        FOLDER.mkdir(parents=True, exist_ok=True)
        kept.write_text("".join(f"{it}\n" for it in end))
    return status


if __name__ == "__main__":
    sys.exit(main())
