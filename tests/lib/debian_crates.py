# SPDX-License-Identifier: ISC
"""Builds Rust programs over the crates of Debian's librust-*-dev packages, without a network.

REGISTRY in the environment is another folder of crates, such as one that packages of another
Debian are unpacked into.
"""

import os
import pathlib
import re
import shutil
import subprocess

REGISTRY = pathlib.Path(os.environ.get("REGISTRY", "/usr/share/cargo/registry")).resolve()
CARGO_CONFIG = f"""
[source.crates-io]
replace-with = "debian"
[source.debian]
directory = "{REGISTRY}"
"""


def lacking(*crates):
    """What is missing to build over some crates: the first of their packages, cargo, or nothing."""
    packages = (f"librust-{it}-dev" for it in crates if not any(REGISTRY.glob(f"{it}-[0-9]*")))
    return "cargo" if not shutil.which("cargo") else next(packages, "")


def build(folder, *sources):
    """Builds the package of some sources in a folder. Gives the folder of what was made."""
    for it in sources:
        shutil.copy(it, folder)
    (folder / "config.toml").write_text(CARGO_CONFIG)
    (folder / "Cargo.lock").unlink(missing_ok=True)  # of another registry
    folders = {"CARGO_HOME": str(folder), "CARGO_TARGET_DIR": str(folder / "target")}
    command = ["cargo", "build", "--offline", "--quiet", "--release"]
    subprocess.run(command, cwd=folder, env={**os.environ, **folders}, check=True)
    return folder / "target/release"


def version(folder, crate):
    """The version of a crate that a build in a folder took."""
    lock = (folder / "Cargo.lock").read_text()
    return re.search(rf'name = "{crate}"\nversion = "(.*)"', lock)[1]
