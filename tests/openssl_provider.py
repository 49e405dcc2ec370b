#!/usr/bin/env python3
# SPDX-License-Identifier: ISC
"""The OpenSSL provider: a shorter form of `make openssl-check`, and for 64-bit ARM under
qemu-user of `make ARCH=aarch64 openssl-check`.

Each part is a target of openssl/openssl.mk, some with fewer calls. A part whose tools are
missing is left out, and counted as skipped: all of them where OpenSSL's headers are. The last line
is 'N passed, M failed', or 'N passed, M failed, K skipped'.
"""

import pathlib
import sys

sys.dont_write_bytecode = True
sys.path.append(str(pathlib.Path(__file__).resolve().parent / "lib"))
import parts

NEEDED = {
    "x86_64": ["make", "cc", "OpenSSL 3's headers"],
    "aarch64": ["make", "aarch64-linux-gnu-gcc", "OpenSSL 3's headers for aarch64", "qemu-aarch64"],
}

# What make's targets are called by, what each needs beside the above, and with what it is called.
PARTS = [
    ("openssl", [], "the module"),
    ("openssl-agree AGREE_CASES=500", [], "random calls beside OpenSSL's default provider"),
    ("openssl-orders", [], "wrong orders, missing and wrong parameters, TLS records, loading"),
    ("openssl-refused", [], "a refused call changes nothing"),
    ("openssl-reuse", [], "one context for message after message"),
    ("openssl-words", [], "where words end"),
    ("openssl-verifications", ["python3"], "tags and derived keys, and what is near them"),
    ("openssl-properties", [], "the digest that properties name"),
    ("openssl-memory", [], "each allocation refused in turn"),
    ("openssl-wiped", [], "no key and no message left in memory"),
    ("openssl-sanitized SANITIZED_CASES=20", ["sanitizers"], "the same under ASan and UBSan"),
    ("openssl-valgrind VALGRIND_CASES=4 VALGRIND_LOADS=4", ["valgrind"],
     "no leak and no bad read under valgrind"),
    ("openssl-programs", ["openssl", "python3"],
     "OpenSSL's commands, Python, TLS, with counts"),
    ("openssl-later AGREE_CASES=500", ["Debian 13's packages", "python3"],
     "the same beside OpenSSL 3.5, and Python's hashlib, hmac and ssl over it"),
    ("openssl-policy", ["openssl", "pkg-config", "python3"],
     "the system's TLS policy and providers stay"),
    ("openssl-exports", ["nm", "objdump", "readelf"], "the module's names and what it needs"),
    ("openssl-installed", [], "what `make openssl-install` installs"),
]
ARM_PARTS = [
    ("openssl", [], "the module"),
    ("openssl-agree AGREE_CASES=100", [], "random calls beside OpenSSL's default provider"),
    ("openssl-orders LOADS=10", [], "wrong orders, missing and wrong parameters, TLS records"),
    ("openssl-refused", [], "a refused call changes nothing"),
    ("openssl-reuse", [], "one context for message after message"),
    ("openssl-words", [], "where words end"),
    ("openssl-properties", [], "the digest that properties name"),
    ("openssl-memory", [], "each allocation refused in turn"),
    ("openssl-wiped", [], "no key and no message left in memory"),
    ("openssl-exports", [], "the module's names and what it needs"),
]


def is_there(tool):
    """Whether a tool, or what a compiler needs for a part, is on this machine."""
    if tool.startswith("OpenSSL 3's headers"):
        source = "#include <openssl/evp.h>\n#include <openssl/core_dispatch.h>\n"
        compiler = "aarch64-linux-gnu-gcc" if tool.endswith("aarch64") else "cc"
        source += "int main(void) { return 0; }\n"
        return parts.compiles(source, "-lcrypto", compiler=compiler)
    if tool == "sanitizers":
        return parts.compiles("int main(void) { return 0; }", "-fsanitize=address,undefined")
    if tool == "Debian 13's packages":
        return parts.make("out/debian13")[0] is None
    return parts.is_command(tool)


def tried(arch, of_arch):
    """Builds the library for a kind of processor, and tries the parts over it."""
    return parts.tried(
        of_arch, NEEDED[arch], is_there, lambda: parts.make("all", arch=arch)[0],
        lambda name: parts.make(*name.split(), arch=arch), f"{arch}: ",
    )


def main():
    return parts.told(tried("x86_64", PARTS), tried("aarch64", ARM_PARTS))


if __name__ == "__main__":
    sys.exit(main())
