#!/usr/bin/env python3
"""Measures how long the program takes to check schemas that are made to be slow.

usage: benchmarks/schema.py PROGRAM     (the built `vkg`)

Each schema is read by `vkg sql` with a query of an empty group. A line tells its bytes, the processor seconds of the call, and how it ended.
"""
import resource
import subprocess
import sys
import tempfile
from pathlib import Path


def names(count):
    """A list of so many column names."""
    return ", ".join(f"c{number}" for number in range(count))


def columns(count):
    """So many columns."""
    return ", ".join(f"c{number} INT" for number in range(count))


def cases():
    """The name and the text of each schema."""
    for count in 750, 1500, 3000:
        yield f"UNIQUE over {count} columns", f"CREATE TABLE t ({columns(count)}, UNIQUE ({names(count)}));"
    keys = f", UNIQUE ({names(128)})" * 1000 + f", FOREIGN KEY ({names(128)}) REFERENCES t ({names(128)})" * 1000
    yield "128 columns, 1,000 UNIQUE and 1,000 foreign keys over all", f"CREATE TABLE t ({columns(128)}{keys});"
    yield "256 tables of 128 columns", "".join(f"CREATE TABLE t{number} ({columns(128)});" for number in range(256))
    references = lambda number: ", ".join(f"c{at} INT REFERENCES t{(7 * number + at) % 256}" for at in range(1, 128))
    yield "256 tables of 127 references", "".join(f"CREATE TABLE t{number} (c0 INT PRIMARY KEY, {references(number)});" for number in range(256))
    yield "20,000 keys of one column", f"CREATE TABLE t (a INT{', UNIQUE (a)' * 20000});"
    yield "8,000 columns", f"CREATE TABLE t ({columns(8000)});"


def used():
    """The processor seconds of the calls so far."""
    of = resource.getrusage(resource.RUSAGE_CHILDREN)
    return of.ru_utime + of.ru_stime


def main():
    """Measures each schema once."""
    if len(sys.argv) != 2:
        sys.exit("usage: benchmarks/schema.py PROGRAM")
    with tempfile.TemporaryDirectory() as folder:
        schema, query = Path(folder, "schema.sql"), Path(folder, "query.rq")
        query.write_text("SELECT * {}")
        for name, text in cases():
            schema.write_text(text)
            before = used()
            ended = subprocess.run([sys.argv[1], "sql", "--schema", str(schema), "--base", "http://e/", "--query", str(query)],
                                   capture_output=True, text=True, timeout=600)
            print(f"{name}: {len(text)} bytes, {used() - before:.2f} s, status {ended.returncode} {ended.stderr.strip()}")


if __name__ == "__main__":
    main()
