#!/usr/bin/env python3
"""Proves and builds what the program stands on, crates side by side, and tells of each crate as it is done.

usage: tools/build.py LOG     (`./vkg` calls it; all that `rt` says goes to LOG)

`rt all check --jobs N` in the program's folder works on the program and on the crates that it stands on, N at a time, those with the fewest
below them first. What was built once stays built. (`rt lib` keeps every crate below its own for itself, so two of them go one after the other.)
N is the number of processors, less where the free memory has no room for so many checks; RT_JOBS sets it in their place.
The status is 0 where every crate is proved.
"""
import datetime
import os
import subprocess
import sys
import time
from pathlib import Path

TOP = Path(__file__).resolve().parent.parent
PROGRAM = "vkg"
ROOM = 3 << 30  # the bytes that a check may take: up to 3.5 GB were seen, by few crates


def crates_of(program):
    """The crate and those of the repository that it stands on, by crates.txt."""
    lines = [line.partition("#")[0].partition(":") for line in (TOP / "crates.txt").read_text(encoding="utf-8").split("\n")]
    stands_on = {name.split()[0]: libraries.split() for name, _, libraries in lines if name.strip()}
    found, left = set(), [program]
    while left:
        name = left.pop()
        if name in stands_on and name not in found:
            found.add(name)
            left += stands_on[name]
    return found


def free_memory():
    """The bytes that are free, or None where the system does not tell."""
    try:
        lines = Path("/proc/meminfo").read_text(encoding="utf-8").split("\n")
    except OSError:
        return None
    return next((1024 * int(line.split()[1]) for line in lines if line.startswith("MemAvailable:")), None)


def side_by_side():
    """How many crates are proved at a time."""
    asked = os.environ.get("RT_JOBS", "")
    if asked.isdigit() and int(asked) > 0:
        return int(asked)
    processors, free = os.cpu_count() or 1, free_memory()
    return processors if free is None else max(1, min(processors, free // ROOM))


class Told:
    """Tells of each crate once, from the lines that rt writes."""

    def __init__(self, names):
        self.names, self.start, self.done = names, time.monotonic(), 0
        self.current, self.said = None, False

    def tell(self, what):
        """One line on the current crate, which is then told."""
        self.done += 1
        so_far = datetime.timedelta(seconds=int(time.monotonic() - self.start))
        print(f"vkg: {self.done:2} of {len(self.names)}, {so_far}: {self.current} {what}", file=sys.stderr, flush=True)
        self.current = None

    def end(self):
        """No more is said of the current crate: of one that was built before nothing is."""
        if self.current:
            self.tell("is not proved" if self.said else "stands already")

    def take(self, line):
        """One line of rt: `== NAME` and what its check said, whose last line has `logic=proved`."""
        if line.startswith("== "):
            self.end()
            name = line[3:].strip()
            self.current, self.said = (name, False) if name in self.names else (None, False)
        elif self.current and line.startswith("logic=proved"):
            self.tell("is proved")
        elif line.startswith("rt: waiting"):
            print(f"vkg: {line.strip()}", file=sys.stderr, flush=True)
        else:
            self.said = True


def prove(log):
    """Runs rt, with all that it says in the log, and returns its status."""
    told, jobs = Told(crates_of(PROGRAM)), side_by_side()
    print(f"vkg: {len(told.names)} crates, {jobs} side by side; rt looks over all sources first, for some minutes", file=sys.stderr, flush=True)
    words = ["rt", "all", "check", "--jobs", str(jobs)]
    with subprocess.Popen(
        words, cwd=TOP / "crates" / PROGRAM, stdin=subprocess.DEVNULL, stdout=subprocess.PIPE, stderr=subprocess.STDOUT, text=True, errors="replace"
    ) as rt:
        for line in rt.stdout:
            log.write(line)
            log.flush()
            told.take(line)
        told.end()
    return rt.returncode


def main():
    if len(sys.argv) != 2:
        sys.exit("usage: tools/build.py LOG")
    try:
        with open(sys.argv[1], "a", encoding="utf-8") as log:
            sys.exit(prove(log) != 0)
    except KeyboardInterrupt:
        sys.exit("vkg: stopped; what is proved so far stays so")


if __name__ == "__main__":
    main()
