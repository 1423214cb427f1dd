#!/usr/bin/env python3
"""Measures queries over a mapping of many rules, of which a pattern matches few.

usage: benchmarks/rules.py PROGRAM [--against OTHER] [ROWS]     (the built `vkg`, another one to compare with, and 10000)

A table of so many rows is mapped by 200 triples maps of 5 rules each, all with predicates of their own. `dump` writes their quads; `one`
and `three` are queries of one triple pattern and of three on one subject, each with a constant predicate; `sql` of 128 patterns is asked
over 800 such triples maps, and reads no table. A line tells the program, the case, its processor seconds, its peak memory and its lines.
"""
import argparse
import tempfile
from pathlib import Path

import measuring

BASE = "http://e/"
PREDICATES = 5


def mapping(maps):
    """The text of a mapping of so many triples maps."""
    yield "@prefix rr: <http://www.w3.org/ns/r2rml#> ."
    for number in range(maps):
        parts = "".join(f" ; rr:predicateObjectMap [ rr:predicate <http://e/p{number}-{part}> ; rr:objectMap [ rr:column \"v{part}\" ] ]"
                        for part in range(PREDICATES))
        yield f'<#m{number}> rr:logicalTable [ rr:tableName "item" ] ; rr:subjectMap [ rr:template "m{number}/{{id}}" ]{parts} .'


def query(patterns):
    """The text of a query of so many patterns on one subject."""
    groups = " . ".join(f"?s <http://e/p7-{number % PREDICATES}> ?o{number}" for number in range(patterns))
    return f"SELECT * {{ {groups} }}\n"


def write_files(folder, rows):
    """The files of all cases."""
    names = [f"v{part}" for part in range(PREDICATES)]
    columns = ", ".join(f"{name} VARCHAR(20)" for name in names)
    (folder / "schema.sql").write_text(f"CREATE TABLE item (id INTEGER PRIMARY KEY, {columns});\n")
    lines = [",".join(["id", *names]), *(",".join([str(row), *(f"{name}-{row}" for name in names)]) for row in range(rows))]
    (folder / "item.csv").write_text("\n".join(lines) + "\n")
    for maps in 200, 800:
        (folder / f"mapping-{maps}.ttl").write_text("\n".join(mapping(maps)) + "\n")
    for patterns in 1, 3, 128:
        (folder / f"query-{patterns}.rq").write_text(query(patterns))


def calls(folder):
    """The name and the words of each case."""
    schema, data = ["--schema", str(folder / "schema.sql"), "--base", BASE], ["--data", str(folder)]
    few, many = (["--mapping", str(folder / f"mapping-{maps}.ttl")] for maps in (200, 800))
    asked = {patterns: ["--query", str(folder / f"query-{patterns}.rq")] for patterns in (1, 3, 128)}
    yield "dump", ["dump", *schema, *data, *few]
    yield "one", ["query", *schema, *data, *few, *asked[1]]
    yield "three", ["query", *schema, *data, *few, *asked[3]]
    yield "sql of 128 patterns over 4,000 rules", ["sql", *schema, *many, *asked[128]]


def measured(program, words, folder):
    """The processor seconds of a call, its peak memory in MiB, and how many lines it wrote, or its status."""
    status, seconds, peak, lines = measuring.run(program, words, folder / "out")
    return seconds, peak, f"status {status}" if status else f"{lines} lines"


def main():
    """All cases, for each program."""
    parser = argparse.ArgumentParser(description=__doc__, formatter_class=argparse.RawDescriptionHelpFormatter)
    parser.add_argument("program", metavar="PROGRAM")
    parser.add_argument("rows", metavar="ROWS", type=int, nargs="?", default=10000)
    parser.add_argument("--against", metavar="OTHER")
    options = parser.parse_args()
    with tempfile.TemporaryDirectory() as name:
        folder = Path(name)
        write_files(folder, options.rows)
        for case, words in calls(folder):
            for program in filter(None, [options.program, options.against]):
                seconds, memory, ended = measured(program, words, folder)
                print(f"{program}: {case}: {seconds:.2f} s, {memory:.0f} MiB, {ended}", flush=True)


if __name__ == "__main__":
    main()
