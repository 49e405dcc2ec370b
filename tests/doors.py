#!/usr/bin/env python3
# SPDX-License-Identifier: ISC
"""Runs the shell lines of README.md and of the packages' pages as a reader does: all of a page from
the top, in one shell, in a fresh copy of the repository's files.

In Markdown they are the blocks marked `sh`, and every other block has a mark too, so that none is
missed. A comment right after a command is a line that the command writes. Each command ends with 0,
and the lines leave nothing in the copy that git sees. A block whose tools are missing is left out,
and counted as skipped; one of NOT_RUN is not run. Named pages are tried alone. The last line is
'N passed, M failed', or 'N passed, M failed, K skipped'.
"""

import os
import pathlib
import re
import shutil
import subprocess
import sys
import tempfile
import textwrap

sys.dont_write_bytecode = True
import c_library
import openssl_provider

ROOT = pathlib.Path(__file__).resolve().parent.parent
# Where the lines of a page are typed: in a folder of the copy, or in one of the reader's own, where
# YEZDOPIN is the copy.
YOURS = "yours"
PAGES = {
    "README.md": ".",
    "c/README.md": ".",
    "c/PLATFORMS.md": ".",
    "python/README.md": ".",
    "rust/README.md": YOURS,
    "javascript/README.md": YOURS,
    "openssl/README.md": ".",
    "packaging/INSTALL": YOURS,
    "docs/EMBEDDED.md": ".",
}
# Where other pages would be.
FOLDERS = ("c", "javascript", "openssl", "packaging", "python", "rust")
PACKED = "make -s -C YEZDOPIN dist PACKAGES={} && cp YEZDOPIN/out/dist/{} . &&"
# What a block takes for granted, by its first words: a package, a crate or a package of one's own.
GIVEN = {
    "tar -xzf yezdopin": PACKED.format("crate", "*.crate") + " cargo init --quiet --name yours .",
    "cargo add --path YEZDOPIN": "test -e Cargo.toml || cargo init --quiet --name yours .",
    "npm install ./YEZDOPIN": "echo '{}' >package.json",
    "export PKG_CONFIG_PATH": PACKED.format("tarball", "*.gz") + " tar -xzf *.gz && cd yezdopin-*/",
}
# What a block needs, by a word of it or of what it takes for granted.
NEEDED = {
    "make": ["make", "cc"],
    "cc ": ["cc"],
    "pkg-config": ["pkg-config"],
    "pip install": ["make", "cc", "Python.h", "ensurepip"],
    "cargo": ["make", "cc", "cargo"],
    "openssl": ["openssl", "OpenSSL 3's headers"],
    "npm": ["make", "node", "npm"],
    "make -C YEZDOPIN js": ["node"],
    "make check": ["c++", "objdump", "sanitizers", "pkg-config", "Python.h", "pip", "cargo"],
    "ARCH=aarch64": ["aarch64-linux-gnu-gcc", "aarch64-linux-gnu-g++", "qemu-aarch64"],
    "PACKAGES=crate": ["aarch64-linux-gnu-gcc"],
    "./bench": ["cc"],
}
# What is not run, and why. Packages are tried by `make dist-check`, in systems of its own,
# and what `make` installs by its targets `installed`, `moved` and `openssl-policy`.
NOT_RUN = {
    "sudo ": "which changes the system",
    "make check-all": "which runs this test",
    "make verify": "which tests/verify does, in minutes",
    "debootstrap ": "which fetches a system",
}
# Stands before the status of each block in what the shell writes.
MARK = "-- the end of a block --"


def blocks(page):
    """The shell lines of each block of a page."""
    text = (ROOT / page).read_text()
    if not page.endswith(".md"):
        indented = re.findall(r"(?:^    .*\n)+", text, re.M)
        return [it for it in map(textwrap.dedent, indented) if re.match(r"(sudo|export) ", it)]
    return [it for mark, it in re.findall(r"^```(\w*)\n(.*?)^```$", text, re.M | re.S)
            if mark == "sh"]


def unmarked(page):
    """The first line of each block of a page that has no mark."""
    text = re.sub(r"^```\w+\n.*?^```$", "", (ROOT / page).read_text(), flags=re.M | re.S)
    return re.findall(r"^```$|^\n    \S.*$", text, re.M)


def pages():
    """Each page of the pages' list, and each other one of the packages that has shell lines."""
    found = subprocess.run(["git", "ls-files", *(f"{it}/**.md" for it in FOLDERS)], cwd=ROOT,
                           capture_output=True, text=True, check=True).stdout.splitlines()
    return [*PAGES, *(it for it in found if it not in PAGES and blocks(it))]


def title(lines):
    """The first command of a block."""
    first = next(it for it in lines.splitlines() if not it.startswith("#"))
    return re.sub(r"  +#.*", "", first)


def wanted(lines):
    """The lines that a block's commands write."""
    return re.findall(r"(?<=\n)# (.*)", re.sub(r"^#.*|(?<=\n\n)#.*", "", lines))


def given(lines):
    """What a block takes for granted."""
    return next((it for words, it in GIVEN.items() if lines.startswith(words)), "")


def is_there(tool):
    """Whether a tool, or what a block needs beside tools, is on this machine."""
    if tool == "ensurepip":
        command = [sys.executable, "-c", "import ensurepip"]
        return subprocess.run(command, capture_output=True, check=False).returncode == 0
    other = openssl_provider if tool.startswith("OpenSSL") else c_library
    return other.is_there(tool)


def why_not(lines):
    """Why a block is not run, or None."""
    return next((why for words, why in NOT_RUN.items() if f"\n{words}" in f"\n{lines}"), None)


def missing_tools(lines):
    """The tools that a block needs and this machine lacks."""
    text = given(lines) + lines
    needed = {tool for word, tools in NEEDED.items() if word in text for tool in tools}
    return sorted(tool for tool in needed if not is_there(tool))


def fresh_copy(folder):
    """Copies the repository's files to a folder, where git knows them."""
    listed = subprocess.run(
        ["git", "ls-files", "-z", "--cached", "--others", "--exclude-standard"],
        cwd=ROOT, capture_output=True, text=True, check=True,
    ).stdout.split("\0")
    for name in (it for it in listed if (ROOT / it).is_file()):
        (folder / name).parent.mkdir(parents=True, exist_ok=True)
        shutil.copy2(ROOT / name, folder / name, follow_symlinks=False)
    subprocess.run("git init -q && git add -A", shell=True, cwd=folder, check=True)


def run(texts, folder):
    """What each block writes, and the status of its last command that failed, from one shell."""
    script = "".join(
        f"{given(it)}\nfailed=0; trap 'failed=$?' ERR\n{it}\ntrap - ERR\n"
        f"printf '\\n%s %s\\n' '{MARK}' $failed\n" for it in texts
    )
    environment = {name: it for name, it in os.environ.items() if name not in ("MAKEFLAGS", "PWD")}
    done = subprocess.run(["bash", "-c", script], cwd=folder, stdin=subprocess.DEVNULL,
                          stdout=subprocess.PIPE, stderr=subprocess.STDOUT, text=True, check=False,
                          env=environment)
    parts = re.split(rf"^{MARK} (\d+)\n", done.stdout, flags=re.M)
    ran = [(parts[at], int(parts[at + 1])) for at in range(0, len(parts) - 1, 2)]
    return ran + [(f"the shell has ended before\n{parts[-1]}", 1)] * (len(texts) - len(ran))


def try_page(page, texts):
    """Runs blocks of a page; each title with what went wrong, or with None."""
    with tempfile.TemporaryDirectory() as name:
        copy, yours = pathlib.Path(name, "copy"), pathlib.Path(name, YOURS)
        fresh_copy(copy)
        yours.mkdir()
        (yours / "YEZDOPIN").symlink_to("../copy")
        folder = yours if PAGES[page] == YOURS else copy / PAGES[page]
        for lines, (text, status) in zip(texts, run(texts, folder)):
            lost = [it for it in wanted(lines) if it not in text.splitlines()]
            fault = f"status {status}, without the lines {lost}:\n{text[-2000:]}"
            yield title(lines), fault if status or lost else None
        command = ["git", "ls-files", "--modified", "--others", "--exclude-standard"]
        seen = subprocess.run(command, cwd=copy, capture_output=True, text=True, check=True).stdout
        yield "what git sees of it", f"\n{seen}" if seen else None


def main():
    passed, failed, skipped = 0, 0, 0
    for page in sys.argv[1:] or pages():
        faults = [] if page in PAGES else [("its place in PAGES", "it has none")]
        faults += [("a block without a mark", it) for it in unmarked(page) if page.endswith(".md")]
        texts = []
        for lines in blocks(page):
            missing = missing_tools(lines)
            if why_not(lines):
                print(f"not run: {page}: {title(lines)}, {why_not(lines)}")
            elif missing:
                print(f"left out: {page}: {title(lines)}, without {', '.join(missing)}")
                skipped += 1
            else:
                texts.append(lines)
        faults += try_page(page, texts) if page in PAGES else []
        for what, fault in faults:
            said = f"{page}: {what}"
            print(f"FAILED: {said}: {fault}" if fault else f"ok: {said}", flush=True)
            passed, failed = passed + (fault is None), failed + (fault is not None)
    counts = f"{passed} passed, {failed} failed"
    print(f"{counts}, {skipped} skipped" if skipped else counts)
    return failed != 0 or not passed


if __name__ == "__main__":
    sys.exit(main())
