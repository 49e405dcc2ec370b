# SPDX-License-Identifier: ISC
"""What is shipped has the code that was checked."""

import pathlib
import re
import shutil
import subprocess
import sys
import sysconfig
import tempfile
import unittest
import zipfile

import for_arm
from machine_code import LIBRARY, ROOT

SAME_CODE = ROOT / "verify/same_code.py"
HEADER = pathlib.Path(sysconfig.get_paths()["include"], "Python.h")


def same(*paths, library=LIBRARY):
    """How a comparison with a library ends: its status and its output."""
    done = subprocess.run([sys.executable, SAME_CODE, library, *paths], capture_output=True,
                          text=True, check=False)
    return done.returncode, done.stdout + done.stderr


# What makes the dylib, for both processors.
HAS_APPLE_TOOLS = all(map(shutil.which, ("clang-19", "ld64.lld-19", "llvm-ar-19", "llvm-lipo-19")))
K = (0xe49b69c19ef14ad2).to_bytes(8, "little")  # SHA-512's of the seventeenth round


class Shipped(unittest.TestCase):
    @unittest.skipUnless(shutil.which("gcc"), "gcc")
    def test_archive(self):
        """The archive has it, once linked."""
        with tempfile.TemporaryDirectory() as room:
            path = f"{room}/archive.so"
            subprocess.run(["gcc", "-shared", "-Wl,--whole-archive", ROOT / "out/libyezdopin.a",
                            "-Wl,--no-whole-archive", "-o", path], check=True)
            self.assertEqual(*self.ended(path))

    @unittest.skipUnless(shutil.which("dpkg-deb"), "dpkg-deb")
    @unittest.skipUnless(HEADER.exists(), "Python.h")
    def test_packages(self):
        """The library of Debian's package, the wheel's and the archive of Rust's crate have it."""
        with tempfile.TemporaryDirectory() as room:
            # The crate has an archive for ARM too: here any file stands in its place.
            made = subprocess.run(
                ["make", "-C", ROOT, f"OUT={room}/out", "dist",
                 f"ARM_ARCHIVE={ROOT}/out/libyezdopin.a",
                 "PACKAGES=deb-libyezdopin0 wheel" + " crate" * bool(shutil.which("cargo"))],
                stdin=subprocess.DEVNULL, capture_output=True, text=True, check=False)
            self.assertEqual(made.returncode, 0, made.stderr[-2000:])
            folder = pathlib.Path(room, "out/dist")
            deb, = folder.glob("libyezdopin0_*.deb")
            wheel, = folder.glob("*.whl")
            subprocess.run(["dpkg-deb", "-x", deb, f"{room}/deb"], check=True)
            zipfile.ZipFile(wheel).extractall(f"{room}/wheel")
            found = [it for at in ("deb", "wheel") for it in pathlib.Path(room, at).rglob("*.so*")
                     if it.is_file() and not it.is_symlink()]
            self.assertEqual(len(found), 2)
            self.assertEqual(*self.ended(*found))
            if shutil.which("cargo"):
                self.compare_crate(folder, room)

    @unittest.skipUnless(for_arm.HAS_COMPILER, "aarch64-linux-gnu-gcc")
    def test_archive_for_arm(self):
        """The archive for 64-bit ARM has it, once linked, and not with another constant."""
        with tempfile.TemporaryDirectory() as room:
            path, other = f"{room}/archive.so", f"{room}/other.so"
            subprocess.run(["aarch64-linux-gnu-gcc", "-shared", "-Wl,--whole-archive",
                            ROOT / "out/aarch64/libyezdopin.a", "-Wl,--no-whole-archive", "-o",
                            path], check=True)
            self.assertEqual(*self.ended(path, library=for_arm.LIBRARY))
            self.compare_changed(pathlib.Path(path).read_bytes(), other, for_arm.LIBRARY)

    @unittest.skipUnless(HAS_APPLE_TOOLS, "clang-19, lld-19 and llvm-19")
    def test_dylib(self):
        """The dylib for macOS has it, for both processors, and not with another constant."""
        with tempfile.TemporaryDirectory() as room:
            subprocess.run(["make", "-C", ROOT, f"OUT={room}/out", "macos"], check=True,
                           stdin=subprocess.DEVNULL, capture_output=True)
            path, = pathlib.Path(room, "out/macos").glob("*.dylib")
            for library in [LIBRARY, for_arm.LIBRARY][:1 + bool(for_arm.HAS_COMPILER)]:
                self.assertEqual(*self.ended(path, library=library))
                self.compare_changed(path.read_bytes(), f"{room}/other.dylib", library)

    def compare_changed(self, data, path, library):
        """A file with another bit of the constants, in its part for each processor, is refused."""
        self.assertIn(K, data)
        pathlib.Path(path).write_bytes(data.replace(K, bytes([K[0] ^ 1]) + K[1:]))
        status, output = same(path, library=library)
        self.assertEqual(status, 1)
        self.assertIn("another constant", output)

    def compare_crate(self, folder, room):
        crate, = folder.glob("yezdopin-[0-9]*.crate")
        shutil.unpack_archive(crate, f"{room}/crate", "gztar")
        archives = [it for it in pathlib.Path(room, "crate").rglob("libyezdopin*.a")
                    if "x86_64" in str(it) and "linux" in str(it)]
        self.assertEqual([it.read_bytes() for it in archives],
                         [(ROOT / "out/libyezdopin.a").read_bytes()])

    def ended(self, *paths, library=LIBRARY):
        status, output = same(*paths, library=library)
        return (status, len(paths)), (0, output.count("has the code of"))

    def test_other(self):
        """Copies with another bit of code, of a constant, and of a table, are refused."""
        data = LIBRARY.read_bytes()
        shuffle = bytes([3, 2, 1, 0, 7, 6, 5, 4, 11, 10, 9, 8, 15, 14, 13, 12])
        rounds = re.search(rb"\x0f\x38\xcb[\xc0-\xff]", data).start() + 3  # sha256rnds2
        self.assertIn(shuffle, data)
        with tempfile.TemporaryDirectory() as room:
            code, constant = pathlib.Path(room, "code.so"), pathlib.Path(room, "constant.so")
            code.write_bytes(data[:rounds] + bytes([data[rounds] ^ 1]) + data[rounds + 1:])
            constant.write_bytes(data.replace(shuffle, shuffle[::-1]))
            status, output = same(code, constant)
            self.assertEqual(status, 1)
            self.assertIn("its code isn't there", output)
            self.assertIn("another constant", output)
            self.compare_changed(data, f"{room}/table.so", LIBRARY)

    @unittest.skipUnless(shutil.which("strip"), "strip")
    def test_nothing_to_compare(self):
        """Nothing is compared with a library that is stripped, has none of the functions or isn't
        there: status 2 and the reason."""
        with tempfile.TemporaryDirectory() as room:
            stripped, other = f"{room}/stripped.so", f"{room}/other.so"
            subprocess.run(["strip", "-o", stripped, LIBRARY], check=True)
            # Names of other functions, as those of a library that isn't this one.
            pathlib.Path(other).write_bytes(LIBRARY.read_bytes().replace(b"ring", b"wing"))
            for words, message in (((), "usage: "), ((LIBRARY,), "usage: "),
                                   ((stripped, LIBRARY), "it is stripped"),
                                   ((other, LIBRARY), "it has none of the functions"),
                                   ((f"{room}/none", LIBRARY), "No such file")):
                done = subprocess.run([sys.executable, SAME_CODE, *words], capture_output=True,
                                      text=True, check=False)
                self.assertEqual((done.returncode, done.stdout), (2, ""), words)
                self.assertRegex(done.stderr, rf"^.*{message}.*\n$")


CASES = (Shipped,)
