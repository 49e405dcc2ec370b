#!/usr/bin/env python3
# SPDX-License-Identifier: ISC
"""Tests that the gate tells the times of its steps and of the crates' proofs, and that
tools/gate_times makes tables of them.

.ci/run runs in a copy in which each test only says that it passed, and an `rt` keeps processors
busy for the seconds that it is told, below the name of the kit's prover. The last line is
'N passed, M failed'.

    tests/gate_times.py [WORD..]     all tests, or those with one of these words in their names
"""

import os
import pathlib
import re
import shutil
import subprocess
import sys
import tempfile
import unittest

sys.dont_write_bytecode = True
sys.path.append(str(pathlib.Path(__file__).resolve().parent / "lib"))
import counted

ROOT = pathlib.Path(__file__).resolve().parent.parent
COPIED = (".ci/run", ".ci/may_lack", "tests/lib/kept.py", "tools/crate_times", "tools/gate_times")
PASSES = "#!/bin/sh\necho '1 passed, 0 failed'\n"
# Proves what the file `proofs` says side by side: a line has a folder, seconds and the words of a
# command. A child spends half of the seconds, and after it another one the others.
RT = """#!/bin/bash
while read -r folder seconds words; do
    (cd "$folder" && exec -a /kit/bin/rattle python3 "$OLDPWD/busy.py" "$seconds" $words) &
done <proofs
wait
echo '1 passed, 0 failed'
exit $(cat status)
"""
BUSY = """import os, sys, time
half = float(sys.argv[1]) / 2
def spend():
    while time.process_time() < half:
        pass
def child():
    if not (pid := os.fork()):
        spend()
        time.sleep(1.5)
        os._exit(0)
    return pid
os.waitpid(child(), 0)
os.waitpid(child(), 0)
"""
PROOFS = """crates/one 4 build --crate-name one src/lib.rt
crates/one 2 build --crate-name one --test
elsewhere 1 check --crate-name one --incremental seed
elsewhere 1 check --crate-name one --incremental seed
crates/two 3 check --crate-name two
"""
PAGE = """# Page

<!-- times: made by a tool -->
old
<!-- /times -->
Behind.
"""


class Times(unittest.TestCase):
    """What the gate says of the times, and the tables."""

    def setUp(self):
        folder = tempfile.TemporaryDirectory(prefix="gate_times.")
        self.addCleanup(folder.cleanup)
        self.root = pathlib.Path(folder.name)
        for path in COPIED:
            self.write(path, (ROOT / path).read_text(), 0o755)
        for path in (ROOT / "tests").iterdir():
            name = f"{path.name}/__main__.py" if path.is_dir() else path.name
            self.write(f"tests/{name}", "print('1 passed, 0 failed')" if path.is_dir() else PASSES)
        self.write("bin/rt", RT)
        self.write("busy.py", BUSY)
        self.write("proofs", PROOFS)
        self.write("status", "0")
        self.write("crates.txt", "# A comment.\none: used\ntwo staticlib: one\nthree:\n")
        for it in ("crates/one", "crates/two", "elsewhere"):
            (self.root / it).mkdir(parents=True)

    def write(self, path, text, mode=0o755):
        """Writes a file of the copy."""
        path = self.root / path
        path.parent.mkdir(parents=True, exist_ok=True)
        path.write_text(text)
        path.chmod(mode)

    def run_in(self, *words):
        """What a command of the copy prints, and its status."""
        paths = f"{self.root}/bin:{os.environ['PATH']}"
        environment = {**os.environ, "PATH": paths, "CI": ""}
        run = subprocess.run(
            words, cwd=self.root, env=environment, stdout=subprocess.PIPE, stderr=subprocess.STDOUT,
            text=True, check=False,
        )
        return run.stdout, run.returncode

    def test_proofs_are_told_apart(self):
        """Each of PROOFS has the time of its children, and the command's output and status stay."""
        self.write("status", "3")
        said, status = self.run_in("tools/crate_times", "--to=times", "rt", "ci")
        self.assertEqual((said, status), ("1 passed, 0 failed\n", 3))
        line = re.compile(r"^time of (.*): (\d+) seconds, (\d+) of processor$", re.M)
        times = line.findall((self.root / "times").read_text())
        told = {"one, edits": 2, "one, proof": 4, "one, tests": 2, "two, proof": 3}
        self.assertEqual([it for it, *_ in times], list(told))
        for what, seconds, processor in times:
            with self.subTest(what):
                self.assertAlmostEqual(int(processor), told[what], delta=1)
                self.assertGreaterEqual(int(seconds), int(processor) // 2)

    def test_nothing_is_proved(self):
        """A command that proves nothing has no times."""
        self.write("proofs", "")
        said, status = self.run_in("tools/crate_times", "rt", "ci")
        self.assertEqual((said, status), ("1 passed, 0 failed\n", 0))

    def test_tables_of_a_gate(self):
        """The log of .ci/run gives the rows of its steps and of the crates."""
        self.write("CONTRIBUTING.md", PAGE)
        self.write("proofs", "crates/one 2 build --crate-name one src/lib.rt\n")
        self.write("log", self.run_in(".ci/run")[0])
        self.assertEqual(self.run_in("tools/gate_times", "log"), ("", 0))
        page = (self.root / "CONTRIBUTING.md").read_text()
        took = r"\n`\.ci/run` took \d+ s on \d+ processors \(.+\), and \d+ s of processor:\n"
        self.assertRegex(page, took)
        self.assertRegex(page, r"\n\| \d+ others, each below 10 \| \d+ \|\n")
        self.assertRegex(page, r"\n\| `one` \| [123] \|  \|  \|\n\| `two` \|  \|  \|  \|\n")
        self.assertNotIn("old", page)
        self.assertEqual((page[:37], page[-8:]), (PAGE[:37], PAGE[-8:]))

    def test_steps_and_logs(self):
        """A step that ran beside others has its own seconds, and a crate the last log's times."""
        self.write("CONTRIBUTING.md", PAGE)
        self.write("one", "time of one, proof: 9 seconds, 1200 of processor\n"
                          "time of two, tests: 9 seconds, 7 of processor\n")
        self.write("two", "On 4 processors: A model\n== first: 12 seconds\n== short: 9 seconds\n"
                          "It took 1500 seconds, beside other steps.\nok\n== second: 0 seconds\n"
                          "time of two, tests: 9 seconds, 8 of processor\n== third: 11 seconds\n"
                          "All steps: 3000 seconds; of processor, user and system: "
                          "100m1.25s 2m3.5s\n9 passed, 0 failed\n")
        self.assertEqual(self.run_in("tools/gate_times", "one", "two"), ("", 0))
        self.assertEqual((self.root / "CONTRIBUTING.md").read_text(), """# Page

<!-- times: made by a tool -->

`.ci/run` took 3,000 s on 4 processors (A model), and 6,125 s of processor:

| Step | Seconds |
|---|---|
| `second`, beside others | 1,500 |
| `first` | 12 |
| `third` | 11 |
| 1 others, each below 10 | 9 |

Of these `rt ci` took, in seconds of processor:

| Crate | Proof | Its tests' proof | `must-fail/` |
|---|---|---|---|
| `one` | 1,200 |  |  |
| `two` |  | 8 |  |
| `three` |  |  |  |

<!-- /times -->
Behind.
""")

    def test_crates_alone(self):
        """What crate_times tells gives the rows of the crates, without those of steps."""
        self.write("CONTRIBUTING.md", PAGE)
        self.write("one", "time of one, proof: 9 seconds, 1200 of processor\n")
        self.write("two", "time of two, edits: 9 seconds, 8 of processor\n")
        self.assertEqual(self.run_in("tools/gate_times", "one", "two"), ("", 0))
        self.assertEqual((self.root / "CONTRIBUTING.md").read_text(), """# Page

<!-- times: made by a tool -->

`rt ci` took, in seconds of processor:

| Crate | Proof | Its tests' proof | `must-fail/` |
|---|---|---|---|
| `one` | 1,200 |  |  |
| `two` |  |  | 8 |
| `three` |  |  |  |

<!-- /times -->
Behind.
""")

    def test_other_texts(self):
        """What is no whole gate's log, or no page with one place for the tables, is refused."""
        self.write("CONTRIBUTING.md", PAGE)
        self.write("log", "On 4 processors: A model\n== first: 12 seconds\n")
        said, status = self.run_in("tools/gate_times", "log")
        self.assertIn("not that of a whole gate", said)
        self.assertEqual(((self.root / "CONTRIBUTING.md").read_text(), status), (PAGE, 1))
        self.write("CONTRIBUTING.md", "# Page\n")
        with (self.root / "log").open("a") as log:
            log.write("All steps: 3 seconds; of processor, user and system: 0m1.2s 0m3.5s\n")
        said, status = self.run_in("tools/gate_times", "log")
        why = "CONTRIBUTING.md has 0 places for the tables, and not one.\n"
        self.assertEqual((said, status), (why, 1))


def main():
    result = counted.run(counted.suite([Times], sys.argv[1:]), sys.stdout)
    return counted.report(*result.counts())


if __name__ == "__main__":
    sys.exit(main())
