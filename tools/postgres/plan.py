#!/usr/bin/env python3
"""Writes the plan that `vkg sql` prints as one query of PostgreSQL, over the functions of prelude.sql.

usage: tools/postgres/plan.py --schema FILE [PLAN]     (PLAN is a file; without it the plan is read from the standard input)

The tables and columns are those of the schema, by their names: a name that is written without quotes is folded to small letters. The
query's columns c1, c2 and so on are the query's variables in their order, terms as N-Quads has them, NULL where one is unbound; so
`psql -At -F TAB` prints the lines of `vkg query` behind its first one: in the asked order, and of them the asked slice, where one of the
two is asked, else in any order. Under DISTINCT with ORDER BY a line may come more than once, as the plan's rows have it.

A text that is no plan of the schema is refused: one line with the byte at which it goes wrong on standard error, status 1, and
nothing is written. This is outside the proof: what is proved of the plan says nothing of this translation (docs/SCALE.md).
"""
import argparse
import sys

from names import names_of
from plan_reader import PlanReader
from query_text import QueryWriter
from reference.refusal import Refused
from reference.schemas import read_schema

DEEPEST = 50000  # calls within calls; a plan is as deep as its query, and its text is read by one function within the other


def query_of(schema, plan):
    """The query of the bytes of a plan over those of a schema."""
    tables = read_schema(schema)
    return QueryWriter(tables, names_of(schema)).whole(*PlanReader(plan, tables).whole()) + ";\n"


def bytes_of(path):
    """The bytes of a file, or of the standard input."""
    if path is None:
        return sys.stdin.buffer.read()
    with open(path, "rb") as file:
        return file.read()


def main():
    """Reads both, and writes the query where they are sound."""
    parser = argparse.ArgumentParser(description=__doc__, usage=argparse.SUPPRESS, formatter_class=argparse.RawDescriptionHelpFormatter)
    parser.add_argument("--schema", metavar="FILE", required=True)
    parser.add_argument("plan", metavar="PLAN", nargs="?")
    options = parser.parse_args()
    sys.setrecursionlimit(DEEPEST)
    try:
        query = query_of(bytes_of(options.schema), bytes_of(options.plan))
    except OSError as error:
        sys.exit(f"plan.py: {error}")
    except Refused as refused:
        is_schema = refused.code[1:].isdigit()
        sys.exit(f"plan.py: {options.schema}: {refused.line.strip()}" if is_schema else f"plan.py: {refused.code} at {refused.place}")
    except RecursionError:
        sys.exit("plan.py: too deep")
    sys.stdout.buffer.write(query.encode())


if __name__ == "__main__":
    main()
