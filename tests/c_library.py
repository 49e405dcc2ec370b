#!/usr/bin/env python3
# SPDX-License-Identifier: ISC
"""The C library and its callers in C, Python and Rust: `make check exports constant-time`,
`traces` and `instructions-check`; for 64-bit ARM the library and its callers in C and Rust, under
qemu-user; and the library for Windows under wine, and the code of that for macOS.

The library is built first, from the assembly text in generated/. The first part proves and builds
`ring_c` by the kit, and compares both libraries byte by byte; each other part is then tried by
itself. A part whose tools are missing is left out, and counted as skipped. A part that passed isn't
tried again while neither the files that it is made from nor the tools have changed, for the user of
this machine: --anew tries all. The last line is 'N passed, M failed', or 'N passed, M failed, K
skipped'.
"""

import pathlib
import re
import shutil
import subprocess
import sys
import sysconfig
import tempfile

sys.dont_write_bytecode = True
sys.path.append(str(pathlib.Path(__file__).resolve().parent / "lib"))
import debian_crates
import kept
import parts
import password_hashes

ROOT = pathlib.Path(__file__).resolve().parent.parent
OUT = "crates/ring_c/out"
BUILT = {
    "x86_64": [f"{OUT}/libring_c.v2.a", f"{OUT}/libring_c.v3.a"],
    "aarch64": [f"{OUT}/libring_c.aarch64.a"],
}

# The texts, and what make doesn't make anew where it compares others in their place.
TEXTS = {
    "x86_64": ["yezdopin_x86_64_v2.S", "yezdopin_x86_64_v3.S",
               "yezdopin_windows_x86_64_v2.S", "yezdopin_windows_x86_64_v3.S"],
    "aarch64": ["yezdopin_aarch64.S"],
}
# What the library is made and tested from.
MADE_FROM = ["LICENSE", "Makefile", "c", "generated", "javascript", "openssl", "packaging",
             "python", "rust"]
# What each part may read beside it, and what of all this none does: the texts of the programs.
TRIED_BY = ["tests/c_library.py", "tests/lib", "tests/verifications", "tests/merkle.py",
            "tests/password_hashes.py", "tests/tokens.py", "tools", "vectors", "verify"]
NOT_READ = [":!generated/SOURCES", ":!generated/ring_*.S"]
KIT_OUT = {"x86_64": ROOT / "out/kit", "aarch64": ROOT / "out/aarch64/kit"}

# What make's targets are called by, and what each needs beside `rt`.
# The part that asks `rt`, even where make finds nothing newer, and the one behind it, by `altered`.
GENERATED, ALTERED = "generated-check", "generated-check, altered"
# Fewer inputs than the target's own.
INSTRUCTIONS = "instructions-check INPUTS=500000"
PARTS = [
    (GENERATED, ["rt", "cc"], "that the assembly text is what the kit makes of the proved crate"),
    (ALTERED, ["rt", "cc"], "that it refuses each text with another instruction"),
    ("test", ["cc"],
     "each status, each vector, pieces, copies, garbage, the stack, of both builds"),
    ("verifications", ["cc", "python3"], "the right value of each verification and each near it"),
    ("builds", ["cc", "objdump"], "the choice of a build, and that both give the same"),
    ("sanitized", ["cc", "sanitizers"], "the same under ASan and UBSan"),
    ("header", ["cc", "c++", "python3"], "the header as C99 and C++11, and its manual page"),
    ("installed", ["cc"], "what `make install` installs, by the example"),
    ("moved", ["cc", "pkg-config"], "paths with spaces, and another prefix than the installed"),
    ("bare-check", ["cc", "nm", "size"], "the build for programs without a system"),
    ("sizes", ["cc", "size"], "how much of the archive a program takes"),
    ("exports", ["cc", "nm", "objdump", "readelf"], "names, instructions, memory and versions"),
    ("python", ["cc", "python3", "Python.h"], "the Python package beside hashlib, hmac, vectors/"),
    ("python-types", ["cc", "python3", "Python.h", "mypy", "stubtest"],
     "the types of the Python package, beside the extension and over a caller"),
    ("python-versions", ["cc", "python3", "Python.h"], "the same under later versions of Python"),
    ("python-postgresql", ["cc", "python3", "Python.h", "PostgreSQL"],
     "the passwords that the Python package prepares, beside PostgreSQL"),
    ("wheel", ["cc", "python3", "Python.h", "pip"], "the Python package as pip installs it"),
    ("rust", ["cc", "cargo"], "the Rust crate over vectors/, and vendored beside a Makefile"),
    ("rustcrypto", ["cc", "cargo", "librust-digest-dev", "librust-password-hash-dev"],
     "RustCrypto's traits over the Rust crate"),
    ("constant-time", ["rt", "valgrind", "valgrind/memcheck.h"], "no jump or address by a secret"),
    ("traces", ["cc", "nm", "qemu-x86_64 with plugins"], "the same from traces under qemu-user"),
    (INSTRUCTIONS, ["cc", "python3"],
     "the processor's SHA instructions: how they are put in, beside definitions, vectors/"),
    ("windows-check", ["x86_64-w64-mingw32-gcc", "wine64"],
     "the library for Windows: each status, each vector, single steps, the stack, names"),
    ("windows-traces", ["cc", "nm", "qemu-x86_64 with plugins"],
     "no jump or address by a secret in the code for Windows"),
    ("macos-check", ["cc", "clang-19", "ld64.lld-19"],
     "the library for macOS: its code under the tests of Linux, and beside that of Linux"),
]
ARM_PARTS = [
    (GENERATED, ["rt"], "that the assembly text is what the kit makes of the proved crate"),
    (ALTERED, ["rt"], "that it refuses a text with another instruction"),
    ("test", ["qemu-aarch64"], "each status, each vector, pieces, copies, garbage, the stack"),
    ("header", ["aarch64-linux-gnu-g++", "python3"], "the header as C99 and C++11"),
    ("installed", ["qemu-aarch64"], "what `make install` installs, by the example"),
    ("bare-check", ["qemu-aarch64"], "the build for programs without a system"),
    ("bare-check SHA_INSTRUCTIONS=1", ["qemu-aarch64"], "the same with the SHA instructions"),
    ("sizes", ["qemu-aarch64"], "how much of the archive a program takes"),
    ("exports", [], "names, instructions, memory and versions"),
    ("rust", ["cargo", "qemu-aarch64", "Rust's std for aarch64"], "the Rust crate over vectors/"),
    ("traces", ["cc", "qemu-aarch64 with plugins"], "no jump or address by a secret"),
    (INSTRUCTIONS, ["qemu-aarch64", "python3"],
     "the processor's SHA instructions: how they are put in, beside definitions, vectors/"),
]


def is_there(tool):
    """Whether a tool, or what a compiler needs for a part, is on this machine."""
    if tool == "sanitizers":
        return parts.compiles("int main(void) { return 0; }", "-fsanitize=address,undefined")
    if tool == "pip":
        command = [sys.executable, "-m", "pip", "--version"]
        return subprocess.run(command, capture_output=True, check=False).returncode == 0
    if tool == "Python.h":
        # Of 3.11 or later, whose limited API the extension is compiled for.
        source = "#include <Python.h>\nint a[PY_VERSION_HEX < 0x030B0000 ? -1 : 1];\n"
        folder = sysconfig.get_paths()["include"]
        return parts.compiles(f"{source}int main(void) {{ return 0; }}", f"-I{folder}")
    if tool == "Rust's std for aarch64":
        command = ["rustc", "--print=target-libdir", "--target=aarch64-unknown-linux-gnu"]
        if not parts.is_command("rustc"):
            return False
        run = subprocess.run(command, capture_output=True, text=True, check=False)
        return any(pathlib.Path(run.stdout.strip()).glob("libstd-*"))
    if tool == "valgrind/memcheck.h":
        return parts.compiles("#include <valgrind/memcheck.h>\nint main(void) { return 0; }")
    if tool.endswith(" with plugins"):
        # Of the version that test/traces/traces.c is for.
        name = tool.split()[0]
        if shutil.which(name) is None:
            return False
        said = "".join(
            subprocess.run([name, it], capture_output=True, text=True, check=False).stdout
            for it in ("--version", "-h")
        )
        return re.search(r"version [1-8]\.", said) is not None and "-plugin" in said
    if tool == "wine64":  # Debian has it outside of the folders of commands
        return any(map(shutil.which, ("/usr/lib/wine/wine64", "wine")))
    if tool.startswith("librust-"):
        return not debian_crates.lacking(tool[len("librust-") : -len("-dev")])
    if tool == "PostgreSQL":
        return password_hashes.postgres_bin() is not None
    return parts.is_command(tool)


def new_copy(folder):
    """A copy of what the library is made from, in a folder."""
    copy = pathlib.Path(folder, "copy")
    without = shutil.ignore_patterns("out", "target", "node_modules")
    for name in MADE_FROM:
        if (ROOT / name).is_dir():
            shutil.copytree(ROOT / name, copy / name, ignore=without)
        else:
            copy.mkdir(exist_ok=True)
            shutil.copy2(ROOT / name, copy)
    return copy


def altered(arch):
    """What is wrong where a text with one other instruction is taken for the kit's, or None."""
    made = ["libyezdopin.a", *(it for it in TEXTS[arch] if "windows" in it)]
    current = [*BUILT[arch], *(KIT_OUT[arch] / it for it in made)]
    options = [word for it in current for word in ("-o", str(it))]
    for name in TEXTS[arch]:
        with tempfile.TemporaryDirectory() as room:
            copy = new_copy(room)
            text = copy / "generated" / name
            code = text.read_text()
            text.write_text(re.sub(r"\t(v?)(xor|eor)", r"\t\1and", code, count=1))
            fault, _ = parts.make("-C", copy, f"KIT_OUT={KIT_OUT[arch]}", *options, GENERATED,
                                  arch=arch)
        if fault is None or "is not what the kit makes" not in fault:
            return f"{name}: {fault or 'taken'}"
    return None


def try_part(arch, name):
    """What is wrong with a part, or None, and the lines by which it leaves something out."""
    is_compared = name in (GENERATED, ALTERED)
    proved = ["crates", "crates.txt"] if is_compared else []
    folders = (*MADE_FROM, *TRIED_BY, *NOT_READ, *proved)
    # The second of these two needs what the first builds.
    as_name = f"{arch} {ALTERED if is_compared else name}"
    if "--anew" not in sys.argv and kept.has_passed(as_name, folders):
        return None, []
    if name == ALTERED:
        fault, left_out = altered(arch), []
    else:
        current = [word for it in BUILT[arch] for word in ("-o", it)]
        how = ["-B"] if name == GENERATED else current
        fault, left_out = parts.make(*how, *name.split(), arch=arch)
    if fault is None and not left_out and name != GENERATED:
        kept.keep(as_name, folders)
    return fault, left_out


def tried(arch, compiler, of_arch):
    """Builds the library for a kind of processor, and tries its parts."""
    return parts.tried(
        of_arch, ["make", compiler], is_there, lambda: parts.make("-B", "all", arch=arch)[0],
        lambda name: try_part(arch, name), f"{arch}: ",
    )


def main():
    return parts.told(tried("x86_64", "cc", PARTS),
                      tried("aarch64", "aarch64-linux-gnu-gcc", ARM_PARTS))


if __name__ == "__main__":
    sys.exit(main())
