# SPDX-License-Identifier: ISC
"""What pip asks for to install this folder (PEP 517 and 660), with a C compiler and no package.

The extension is compiled from native/, over yezdopin.h and libyezdopin.a, which is linked in. In a
clone of the repository `make` builds the latter first, where that is needed.
`python3 build_backend.py FOLDER` puts the package and its extension into a folder.
"""

import sys

if sys.version_info < (3, 11):  # what follows needs it, as pyproject.toml says too
    VERSION = ".".join(map(str, sys.version_info[:2]))
    sys.exit(f"yezdopin needs CPython 3.11 or later with its headers, and this is {VERSION}")

import atexit
import base64
import hashlib
import io
import os
import pathlib
import platform
import re
import shlex
import shutil
import subprocess
import sysconfig
import tarfile
import tempfile
import tomllib
import zipfile
from typing import Any, Iterable, Iterator

FOLDER = pathlib.Path(__file__).resolve().parent
# The folders above an unpacked sdist aren't this repository's, and may be anyone's.
IS_SDIST = (FOLDER / "PKG-INFO").is_file()
PROJECT = tomllib.loads((FOLDER / "pyproject.toml").read_text())["project"]
PACKAGE = FOLDER / "src" / "yezdopin"  # not beside this file: Python takes a package there first
STEM = f"{PROJECT['name']}-{PROJECT['version']}"
# By the first word of a wheel's platform, the extension's name and how it is linked.
EXTENSIONS = {"linux": "_native.abi3.so", "macosx": "_native.abi3.so", "win": "_native.pyd"}
LINKED = {
    "linux": ["-shared", "-fPIC", "-Wl,--exclude-libs,ALL", "-Wl,-z,relro,-z,now,-z,noexecstack"],
    "macosx": ["-bundle", "-undefined", "dynamic_lookup", "-Wl,-exported_symbol,_PyInit__native"],
    "win": ["-shared", "-static-libgcc", "-Wl,--exclude-all-symbols", "-lpython3"],
}
HEADER, ARCHIVE = "yezdopin.h", "libyezdopin.a"
DEBIAN = f"/usr/lib/{platform.machine()}-linux-gnu"
USUAL = ["/usr/local/lib", DEBIAN, "/usr/lib64", "/usr/lib"]
HINT = "build it (`make`), install it, or name its folder in YEZDOPIN_LIB_DIR"


def _pkg_config(variable: str) -> list[pathlib.Path]:
    """A folder that pkg-config has for the installed library, if any."""
    command = ["pkg-config", f"--variable={variable}", "yezdopin"]
    try:
        run = subprocess.run(command, capture_output=True, text=True, check=True)
    except (OSError, subprocess.CalledProcessError):
        return []
    return [pathlib.Path(run.stdout.strip())]


def _found(name: str, folders: Iterable[pathlib.Path], hint: str) -> pathlib.Path:
    """A file in the first of some folders that has it."""
    tried = list(folders)
    for folder in tried:
        if (folder / name).is_file():
            return folder / name
    raise SystemExit(f"{name} isn't in any of {', '.join(map(str, tried))}: {hint}")


def _out() -> str:
    """The folder in which `make` builds the library: in this repository, or where that can't be
    written, one that is removed at the end."""
    root = FOLDER.parent
    if os.access(root, os.W_OK) or (root / "out" / ARCHIVE).is_file():
        return "out"
    room = tempfile.mkdtemp()
    atexit.register(shutil.rmtree, room, ignore_errors=True)
    return room


def _make() -> pathlib.Path:
    """Brings the library of this repository up to date, and gives its folder. Where that fails, an
    older or an installed one may serve."""
    environment = {name: it for name, it in os.environ.items() if name != "MAKEFLAGS"}
    out = _out()
    command = ["make", "-s", "-C", str(FOLDER.parent), f"OUT={out}", f"{out}/{ARCHIVE}"]
    try:
        subprocess.run(command, check=True, env=environment)
    except (OSError, subprocess.CalledProcessError) as error:
        print(f"the library was not built: {error}", file=sys.stderr)
    return FOLDER.parent / out


def _library() -> tuple[pathlib.Path, pathlib.Path]:
    """The header and the archive: of YEZDOPIN_LIB_DIR, of this repository, or installed."""
    given = os.environ.get("YEZDOPIN_LIB_DIR")
    beside = [] if given or IS_SDIST else [_make()]
    usual = [*beside, *_pkg_config("libdir"), *map(pathlib.Path, USUAL)]
    archive = _found(ARCHIVE, [pathlib.Path(given)] if given else usual, HINT)
    above = archive.resolve().parents[1:3]
    near = [folder / it for folder in above for it in ("include", "c/include")]
    beside = [] if IS_SDIST else [FOLDER.parent / "c/include"]
    return _found(HEADER, [*near, *beside, *_pkg_config("includedir")], HINT), archive


def _platform(settings: Any) -> str:
    """The wheel's platform: this machine's, or the one that the settings name."""
    return str((settings or {}).get("platform", sysconfig.get_platform()))


def _system(settings: Any) -> str:
    """The platform's system, as EXTENSIONS names it."""
    named = _platform(settings)
    found = re.match("(?:many|musl)?(linux)|macosx|win", named)
    if not found:
        raise SystemExit(f"there is no extension for {named}")
    return found[1] or found[0]


def _compile(folder: pathlib.Path, settings: Any = None) -> None:
    """Compiles the extension into a folder. YEZDOPIN_PYTHON_INCLUDE names Python's headers where
    they are for another system than this one."""
    header, archive = _library()
    system = _system(settings)
    own = sysconfig.get_paths()["include"]
    python = pathlib.Path(os.environ.get("YEZDOPIN_PYTHON_INCLUDE", own))
    _found("Python.h", [python], "install Python's headers (python3-dev on Debian)")
    command = [
        *shlex.split(os.environ.get("CC", "cc")),
        *shlex.split(os.environ.get("CFLAGS", "-O2")),
        *["-std=c11", "-fvisibility=hidden"],
        *["-I", str(header.parent), "-isystem", str(python)],
        *map(str, sorted((FOLDER / "native").glob("*.c"))),
        str(archive),
        *shlex.split(os.environ.get("LDFLAGS", "")),
        *LINKED[system],
        *["-o", str(folder / EXTENSIONS[system])],
    ]
    try:
        subprocess.run(command, check=True)
    except FileNotFoundError:
        raise SystemExit(f"there is no C compiler {command[0]}: name one in CC") from None
    except subprocess.CalledProcessError as error:
        raise SystemExit(f"the C compiler ended with {error.returncode}") from None


def _texts() -> Iterator[pathlib.Path]:
    """The files of the package but for the extension."""
    for path in sorted(PACKAGE.iterdir()):
        if path.suffix in {".py", ".pyi", ".typed"}:
            yield path


def _license() -> bytes:
    """The licence, which stands at the top of the repository or of an sdist."""
    folder = FOLDER if IS_SDIST else FOLDER.parent
    return (folder / "LICENSE").read_bytes()


def _metadata() -> bytes:
    """The package's metadata, for a wheel or an sdist."""
    authors = ", ".join(it["name"] for it in PROJECT["authors"])
    classifiers = "\n".join(f"Classifier: {it}" for it in PROJECT["classifiers"])
    return f"""Metadata-Version: 2.4
Name: {PROJECT["name"]}
Version: {PROJECT["version"]}
Summary: {PROJECT["description"]}
Author: {authors}
License-Expression: {PROJECT["license"]}
License-File: LICENSE
Keywords: {",".join(PROJECT["keywords"])}
{classifiers}
Requires-Python: {PROJECT["requires-python"]}
Description-Content-Type: text/markdown

{(FOLDER / "README.md").read_text()}""".encode()


def _tag(settings: Any) -> str:
    """The wheel's tag: for this machine's platform, or for the one that the settings name."""
    return f"cp311-abi3-{_platform(settings).replace('-', '_').replace('.', '_')}"


def _write_wheel(directory: str, files: list[tuple[str, bytes]], tag: str) -> str:
    """Writes a wheel of some files, and gives its name."""
    info, name = f"{STEM}.dist-info", f"{STEM}-{tag}.whl"
    about = f"Wheel-Version: 1.0\nGenerator: {STEM}\nRoot-Is-Purelib: false\nTag: {tag}\n"
    files += [(f"{info}/METADATA", _metadata()), (f"{info}/licenses/LICENSE", _license())]
    files += [(f"{info}/WHEEL", about.encode())]
    record = ""
    for path, data in files:
        digest = base64.urlsafe_b64encode(hashlib.sha256(data).digest()).rstrip(b"=").decode()
        record += f"{path},sha256={digest},{len(data)}\n"
    files.append((f"{info}/RECORD", f"{record}{info}/RECORD,,\n".encode()))
    with zipfile.ZipFile(pathlib.Path(directory) / name, "w", zipfile.ZIP_DEFLATED) as wheel:
        for path, data in files:
            member = zipfile.ZipInfo(path)
            member.external_attr = (0o755 if path.endswith((".so", ".pyd")) else 0o644) << 16
            wheel.writestr(member, data, zipfile.ZIP_DEFLATED)
    return name


def build_wheel(
    wheel_directory: str, config_settings: Any = None, metadata_directory: Any = None
) -> str:
    """Writes the wheel, and gives its name. The settings may name a `platform` for its tag."""
    with tempfile.TemporaryDirectory() as room:
        fill(pathlib.Path(room), config_settings)
        paths = sorted(pathlib.Path(room, "yezdopin").iterdir())
        files = [(f"yezdopin/{path.name}", path.read_bytes()) for path in paths]
        return _write_wheel(wheel_directory, files, _tag(config_settings))


def build_editable(
    wheel_directory: str, config_settings: Any = None, metadata_directory: Any = None
) -> str:
    """Writes a wheel that refers to this folder, and compiles the extension in place."""
    _compile(PACKAGE)
    files = [("yezdopin.pth", f"{PACKAGE.parent}\n".encode())]
    return _write_wheel(wheel_directory, files, _tag(config_settings))


def build_sdist(sdist_directory: str, config_settings: Any = None) -> str:
    """Writes the sources without the library, and gives the archive's name."""
    members = [("PKG-INFO", _metadata()), ("LICENSE", _license())]
    names = ["pyproject.toml", "build_backend.py", "README.md"]
    paths = [*(FOLDER / name for name in names), *sorted((FOLDER / "native").iterdir()), *_texts()]
    members += [(str(path.relative_to(FOLDER)), path.read_bytes()) for path in paths]
    name = f"{STEM}.tar.gz"
    with tarfile.open(pathlib.Path(sdist_directory) / name, "w:gz") as sdist:
        for inside, data in members:
            member = tarfile.TarInfo(f"{STEM}/{inside}")
            member.size, member.mode = len(data), 0o644
            sdist.addfile(member, io.BytesIO(data))
    return name


def fill(folder: pathlib.Path, settings: Any = None) -> None:
    """Puts the package and its extension into a folder."""
    package = folder / "yezdopin"
    shutil.rmtree(package, ignore_errors=True)
    package.mkdir(parents=True)
    for path in _texts():
        shutil.copy(path, package)
    _compile(package, settings)


if __name__ == "__main__":
    fill(pathlib.Path(sys.argv[1]))
