#!/usr/bin/env python3
# SPDX-License-Identifier: ISC
"""The package for JavaScript: a shorter form of `make js-check`, under Node.

The module is made of its text first. Each part is a target of javascript/javascript.mk, of which
two prove `ring_c`. A part whose tools are missing is left out, and counted as skipped.
`make js-browsers` runs the package in browsers, by hand. The last line is 'N passed, M failed', or
'N passed, M failed, K skipped'.
"""

import os
import pathlib
import re
import shutil
import subprocess
import sys

sys.dont_write_bytecode = True
sys.path.append(str(pathlib.Path(__file__).resolve().parent / "lib"))
import parts

BUILT = "crates/ring_c/out/libring_c.wasm64.a"
# The first whose own tests are `node --test`, and which has modules of 64-bit addresses.
NODE_MAJOR = 20
NODE = f"node {NODE_MAJOR}"
NEEDED = ["make", "python3", NODE]
# What tools/node_source puts into a folder.
NODE_TESTS = "Node's own tests"
NODE_SOURCE = pathlib.Path(os.environ.get("NODE_SOURCE", "/usr/local/src/node-v20.19.2"))

# What make's targets are called by, and what each needs beside the above.
PARTS = [
    ("js-generated", ["rt"], "the text of the module is what the kit makes"),
    ("js-lowered", ["rt"], "the lowered module beside its source, and wrong forms of the lowering"),
    ("js-test", [], "vectors/, node:crypto, proofs, tokens, refusals, hostile inputs, wiping"),
    ("js-everyday", [], "what programs write with node:crypto, beside it"),
    ("js-node", [NODE_TESTS], "Node's own tests, statement by statement"),
    ("js-traces", [], "no address and no condition by a secret, with planted leaks"),
    ("js-types", ["tsc"], "the types in browsers"),
    ("js-types-node", ["tsc", NODE_TESTS], "the types in Node"),
    ("js-packed", ["npm"], "the same bytes twice, installed by npm without a network"),
]


def is_there(tool):
    """Whether a tool is on this machine, and Node late enough."""
    if tool == NODE_TESTS:
        return NODE_SOURCE.exists()
    name = {NODE: "node", "rt": os.environ.get("RT", tool)}.get(tool, tool)
    if shutil.which(name) is None:
        return False
    if tool != NODE:
        return True
    run = subprocess.run([name, "--version"], capture_output=True, text=True, check=False)
    version = re.match(r"v(\d+)\.", run.stdout)
    return version is not None and int(version[1]) >= NODE_MAJOR


def attempt(name):
    """What is wrong with a part, or None, and what it leaves out. `rt` is asked once, even where
    make finds nothing newer."""
    return parts.make("-B", name) if name == PARTS[0][0] else parts.make("-o", BUILT, name)


def main():
    """Tries each part, and counts."""
    return parts.told(
        parts.tried(PARTS, NEEDED, is_there, lambda: parts.make("-B", "js")[0], attempt))


if __name__ == "__main__":
    os.environ.pop("MAKEFLAGS", None)
    sys.exit(main())
