#!/usr/bin/env python3
# SPDX-License-Identifier: ISC
"""Proves and builds a crate and what it stands on, and shows on standard error how far that is.

    generated/make/progress.py [--once] LOG CRATE COMMAND..

runs `rt lib` in each library below the crate, lowest first, and then the command in the crate's
folder. All that these say goes to the file LOG. On a terminal one line is rewritten: which crate of
how many is proved, how many of its functions are done, and the minutes gone; it stays once the
crate is done. Elsewhere a crate has a line when its proof begins. What is proved already has none.
One run works in a clone at a time, and another one shows what it waits for; with `--once` it then
ends with status 75, since the work may be done. Otherwise the status is that of the first command
that fails, and else 0.
"""

import contextlib
import fcntl
import os
import pathlib
import re
import signal
import subprocess
import sys
import threading
import time

ROOT = pathlib.Path(__file__).resolve().parents[2]
# Where a run says what it does to those that wait for it.
STATE = ROOT / "out/building"
# Seconds between two looks, at the clock and at what another run does.
TICK = 5
LOOK = 0.2
# What `rt` says when it begins a proof, at work and at the end, and when it waits.
BEGUN = re.compile(r"^rt: chose --jobs ")
DONE = re.compile(r"so far: (\d+) of (\d+) functions|^logic=proved functions=(\d+)")
WAITS = {
    "another rt": re.compile(r"^rt: waiting for another rt to finish"),
    "another copy of the repository": re.compile(r"^rt: \w+: another copy .* waiting for it"),
}


class Display:
    """What standard error shows: on a terminal with the minutes gone, and else once."""

    def __init__(self):
        self.start = time.monotonic()
        self.doing = self.line = ""
        self.is_rewritten = sys.stderr.isatty()
        self.lock = threading.Lock()
        self.ended = threading.Event()
        self.clock = threading.Thread(target=self.keep_time)

    def __enter__(self):
        self.clock.start()
        return self

    def __exit__(self, *_):
        self.ended.set()
        self.clock.join()
        self.leave()

    def keep_time(self):
        """Shows the minutes gone while nothing else is new."""
        while not self.ended.wait(TICK):
            with self.lock:
                if self.is_rewritten and self.doing:
                    self.write()

    def write(self):
        """Writes the line, over the one before it on a terminal."""
        line = f"{self.line}, {(time.monotonic() - self.start) / 60:.0f} min"
        if self.is_rewritten:
            width = (os.get_terminal_size(sys.stderr.fileno()).columns or 80) - 1
            line = f"\r{line:<{width}.{width}}"
        print(line, end="" if self.is_rewritten else "\n", file=sys.stderr, flush=True)

    def show(self, doing, line):
        """Shows what is being done by a line."""
        with self.lock:
            is_new = doing != self.doing
            self.doing, self.line = doing, line
            if is_new or self.is_rewritten:
                self.write()

    def leave(self):
        """Leaves a terminal's line as it is, if there is one."""
        with self.lock:
            if self.is_rewritten and self.doing:
                print(file=sys.stderr, flush=True)
            self.doing = ""


class Run:
    """A run that has the clone for itself, and tells how far it is."""

    def __init__(self, crate, log, display):
        self.name = launcher(crate)
        self.log = log
        self.display = display

    def tell(self, doing, line):
        """Shows what is being done, and says it to those that wait."""
        self.display.show(doing, line)
        with contextlib.suppress(OSError):
            STATE.write_text(f"{self.name} is {doing}")

    def step(self, crate, place, command):
        """Runs a command in a crate's folder; its status."""
        with subprocess.Popen(
            command, cwd=ROOT / "crates" / crate, stdin=subprocess.DEVNULL,
            stdout=subprocess.PIPE, stderr=subprocess.STDOUT, text=True, errors="replace",
        ) as running:
            for line in running.stdout:
                self.log.write(line)
                self.note(line, f"{crate} ({place})")
        self.display.leave()
        return running.returncode

    def note(self, said, crate):
        """Tells what a line that `rt` says means for a crate."""
        for whom, wait in WAITS.items():
            if wait.search(said):
                waiting = f"waiting for {whom} at {crate}"
                self.tell(waiting, waiting)
        if BEGUN.search(said):
            self.tell(f"proving {crate}", f"{crate}: proving")
        if done := DONE.search(said):
            count = done[3] or f"{done[1]} of {done[2]}"
            self.tell(f"proving {crate}", f"{crate}: {count} functions proved")


def launcher(crate):
    """What runs the program of a crate, as ./sums that of ring_sums_main."""
    name = re.sub("^ring_|_main$", "", crate)
    return f"./{name}" if (ROOT / name).is_file() else f"build of {crate}"


def below(crate):
    """The repository's crates that a crate stands on, lowest first."""
    lines = [line.split("#")[0] for line in (ROOT / "crates.txt").read_text().splitlines()]
    uses = {
        line.split()[0].rstrip(":"): line.split(":")[1].split()
        for line in lines if ":" in line
    }
    found = []
    for name in (it for it in uses[crate] if it in uses):
        found += [it for it in [*below(name), name] if it not in found]
    return found


@contextlib.contextmanager
def turn(display):
    """Waits as long as another run works in the clone, and shows what it does; whether there was
    one."""
    has_waited = False
    with contextlib.ExitStack() as held:
        # Without this lock those of `rt` are left, which say less.
        with contextlib.suppress(OSError):
            STATE.parent.mkdir(exist_ok=True)
            state = held.enter_context(open(STATE, "a+", encoding="utf-8"))
            while not is_locked(state):
                has_waited = True
                state.seek(0)
                if said := state.read():
                    display.show(said, f"another {said}")
                time.sleep(LOOK)
            state.truncate(0)
        display.leave()
        yield has_waited


def is_locked(file):
    """Locks a file, unless another process has."""
    try:
        fcntl.flock(file, fcntl.LOCK_EX | fcntl.LOCK_NB)
    except BlockingIOError:
        return False
    return True


def prove(crate, steps, log, display):
    """Runs commands, each in a crate's folder, for a crate; the status of the first that fails."""
    run = Run(crate, log, display)
    places = (f"{it} of {len(steps)}" for it in range(1, len(steps) + 1))
    statuses = (run.step(name, place, it) for place, (name, it) in zip(places, steps))
    return next((status for status in statuses if status), 0)


def main():
    signal.signal(signal.SIGINT, signal.SIG_DFL)
    is_once = sys.argv[1] == "--once"
    log_path, crate, *command = sys.argv[1 + is_once:]
    steps = [*((it, ["rt", "lib"]) for it in below(crate)), (crate, command)]
    with Display() as display, turn(display) as has_waited:
        if is_once and has_waited:
            return os.EX_TEMPFAIL
        with open(log_path, "w", encoding="utf-8") as log:
            return prove(crate, steps, log, display)


if __name__ == "__main__":
    sys.exit(main())
