#!/usr/bin/env python3
"""Prints the table of planted bugs of docs/proof-log/wrong-bodies.md from what a run of `rt ci` wrote.

usage: tools/planted_bugs.py LOG

A row is a crate, a wrong body, the function in or before which it stands (or the definition, of a crate of laws), and the first name in what the prover said. "An answer"
is said where that is an answer of a proof file, which no longer fits the changed body.
"""

import re
import sys

LINE = re.compile(r"rt: must-fail (\w+)/(\w+)\.edit: refused, as it must be(?:: (.*))?")
NAME = re.compile(r"`([^`]+)`")
DEFINITION = re.compile(r"^(?:abbrev )?pub (?:data |record )?(\w+)", re.MULTILINE)


def function_of(crate, bug):
    """The function, or in a proof file the definition, in or before which the first changed line stands."""
    with open(f"crates/{crate}/must-fail/{bug}.edit", encoding="utf-8") as it:
        edit = it.read()
    file, old = re.search(r"file: (.*)\nold: (.*)\n", edit).groups()
    with open(f"crates/{crate}/{file}", encoding="utf-8") as it:
        before = it.read().partition(old)[0] + old
    if file.endswith(".antt"):
        return f"`{DEFINITION.findall(before)[-1]}`, a definition"
    names = re.findall(r"\bfn (\w+)", before)
    return f"`{names[-1]}`" if names and "const " not in old else "a constant"


def goal_of(said):
    """The goal that the prover names."""
    if "control never comes here" in said:
        return "the arm is not unreachable"
    goal = re.search(r"\(`([^`]+)`\)", said) or NAME.search(said)
    answer = ", an answer" if re.match(r"(note: )?(\./)?proofs/", said) and "/Answers" in said else ""
    return f"`{goal[1]}`{answer}" if goal else "a lemma about it"


def main():
    with open(sys.argv[1], encoding="utf-8") as it:
        rows = sorted(LINE.findall(it.read()))
    print("| crate | planted bug | function | refused by |\n|---|---|---|---|")
    for crate, bug, said in rows:
        print(f"| `{crate}` | {bug.replace('_', ' ')} | {function_of(crate, bug)} | {goal_of(said)} |")


if __name__ == "__main__":
    main()
