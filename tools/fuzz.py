#!/usr/bin/env python3
"""Random inputs for the built program, valid and hostile, beside tools/second_implementation: a long run, with its seeds written down.

usage: tools/fuzz.py --vkg PROGRAM [options] [MODE..]

Each seed is a round: one random case in each MODE of tools/second_implementation/compare.py; without any, in change, cuts, dump, edits,
faults, query, texts and words. Beside status, line and output of each call it asks that nothing is written before a refusal. A case on which
the two differ is told, and its files are kept in FOUND; `compare.py MODE --seed S --count 1` makes it again.

Rounds are made by JOBS processes, each of which starts Python once, until COUNT rounds are made or MINUTES are over. In the end one line is
put behind RECORD: the program's SHA-256, the modes, the seeds, how many cases were compared, and how many differed. The status is 1 where
one did.
"""
import argparse
import collections
import hashlib
import multiprocessing
import os
import sys
import tempfile
import time
import traceback

sys.path.insert(0, os.path.join(os.path.dirname(os.path.abspath(__file__)), "second_implementation"))
import compare
from comparisons.program import Comparison

USUAL = ["change", "cuts", "dump", "edits", "faults", "query", "texts", "words"]


def read_options():
    """The options of the call."""
    parser = argparse.ArgumentParser(description=__doc__, usage=argparse.SUPPRESS, formatter_class=argparse.RawDescriptionHelpFormatter)
    parser.add_argument("modes", metavar="MODE", nargs="*", help="modes of compare.py that have seeds (all of the usual ones)")
    parser.add_argument("--vkg", metavar="PROGRAM", required=True, help="the built program")
    parser.add_argument("--seed", type=int, default=0, help="the first seed (0)")
    parser.add_argument("--count", type=int, default=100, help="how many rounds (100)")
    parser.add_argument("--jobs", type=int, default=1, help="how many processes (1)")
    parser.add_argument("--minutes", type=float, help="when to begin no more rounds (when all are made)")
    parser.add_argument("--queries", type=int, default=4, help="how many queries, edits or faults for a case (4)")
    parser.add_argument("--limit", type=int, default=1000, help="how many combinations of triples a query may ask for (1000)")
    parser.add_argument("--plan", type=int, default=30000, help="how many characters a plan may have to be run here (30000)")
    parser.add_argument("--timeout", type=int, default=20, help="how many seconds a call may take (20)")
    parser.add_argument("--found", default="found", help="the folder for cases on which the two differ (found)")
    parser.add_argument("--record", help="the file behind which the line of this run is put (none)")
    options = parser.parse_args()
    options.modes = options.modes or USUAL
    for mode in options.modes:
        if mode not in compare.MODES or mode in compare.ONCE:
            parser.error(f"{mode} is no mode with seeds")
    options.rdflib = options.start = False
    options.vkg = os.path.abspath(options.vkg)
    return options


def compare_mode(options, mode, seed):
    """Compares one case of a mode; an error of the second implementation is a difference."""
    comparison = Comparison(options)
    comparison.case = str(seed)
    try:
        for one in compare.MODES[mode]:
            with tempfile.TemporaryDirectory() as folder:
                one(comparison, seed, folder)
    except Exception:
        print(f"{mode} {comparison.case}: {traceback.format_exc()}", flush=True)
        comparison.count("an error of the second implementation: DIFFERENT")
    return comparison


def compare_round(options, seed):
    """Compares one case of each mode; what was counted."""
    counts = collections.Counter()
    for mode in options.modes:
        comparison = compare_mode(options, mode, seed)
        counts.update({f"{mode}: {name}": count for name, count in comparison.counts.items()})
    return counts


def rounds_of(options, number, end, counted):
    """One process: every JOBS-th seed."""
    for seed in range(options.seed + number, options.seed + options.count, options.jobs):
        if time.monotonic() > end:
            break
        counted.put((seed, compare_round(options, seed)))
    counted.put(None)


def compared(counts):
    """How many cases were compared, and how many differed."""
    same, different = (sum(count for name, count in counts.items() if name.endswith(end)) for end in (": the same", ": DIFFERENT"))
    return f"{same + different} cases, {different} different"


def all_rounds(options):
    """What was counted over all rounds, and how many were made."""
    counts, made, left = collections.Counter(), 0, options.jobs
    end = time.monotonic() + 60 * options.minutes if options.minutes else float("inf")
    counted = multiprocessing.Queue()
    workers = [multiprocessing.Process(target=rounds_of, args=(options, number, end, counted)) for number in range(options.jobs)]
    for worker in workers:
        worker.start()
    while left:
        one = counted.get()
        if one is None:
            left -= 1
        else:
            made += 1
            counts.update(one[1])
            if made % 100 == 0:
                print(f"{made} rounds, {compared(counts)}", flush=True)
    for worker in workers:
        worker.join()
    return counts, made


def main():
    """Runs the rounds, and tells and records the counts."""
    options = read_options()
    counts, made = all_rounds(options)
    for name, count in sorted(counts.items()):
        print(f"{count:7} {name}")
    with open(options.vkg, "rb") as file:
        program = hashlib.sha256(file.read()).hexdigest()
    line = f"{program} {','.join(options.modes)} seeds from {options.seed}, {made} rounds by {options.jobs}: {compared(counts)}"
    print(line)
    if options.record:
        with open(options.record, "a", encoding="utf-8") as file:
            file.write(line + "\n")
    sys.exit(any(name.endswith(": DIFFERENT") for name in counts))


if __name__ == "__main__":
    main()
