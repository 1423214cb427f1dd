#!/usr/bin/env python3
"""Prints the table of what `rt plant` tried on each crate, for docs/proof-log/plants.md.

usage: tools/let_through.py NAME=LOG ..

LOG is what `rt plant --all` wrote in the crate NAME; a crate may have several, one for each run with --only. A row is a crate, how many
wrong bodies were refused, were not judged and were not tried, and the functions that a wrong body was let through for, with its answer.
"""

import collections
import re
import sys

KINDS = "proves same refused elsewhere not-judged not-source not-run no-ensures untested".split()
ROW = re.compile(r"^(%s)\s+(\S+:\d+:?\s+)?(.*)$" % "|".join(KINDS))


def rows_of(log):
    """The rows of a log: of each its kind, function and body."""
    with open(log, encoding="utf-8", errors="replace") as it:
        for line in it:
            found = ROW.match(line.rstrip("\n"))
            if not found:
                continue
            shown, _, body = found[3].partition(": {")
            yield found[1], shown.strip(), body.rpartition("}")[0].strip() or body.strip()


def let_through(rows):
    """The bodies that were let through, each with its functions."""
    bodies = collections.defaultdict(list)
    for kind, shown, body in rows:
        if kind in ("proves", "no-ensures"):
            name = shown.split()[-1]
            bodies[body or "any"].append(name)
    return "; ".join(f"`{body}` for {', '.join(f'`{it}`' for it in dict.fromkeys(names))}" for body, names in sorted(bodies.items()))


def main():
    logs = collections.defaultdict(list)
    for word in sys.argv[1:]:
        name, _, log = word.partition("=")
        logs[name].append(log)
    print("| crate | refused | not judged | not tried | let through |\n|---|---|---|---|---|")
    for name, given in logs.items():
        rows = list(dict.fromkeys(it for log in given for it in rows_of(log)))
        count = collections.Counter(kind for kind, _, _ in rows)
        print(f"| `{name}` | {count['refused'] + count['elsewhere']} | {count['not-judged']} | {count['not-run']} | {let_through(rows)} |")


if __name__ == "__main__":
    main()
