#!/usr/bin/env python3
"""Compares what PostgreSQL makes of the plans that `vkg sql` prints with what `vkg query` writes, byte for byte, once both are sorted where no order is asked.

usage: tools/postgres/compare.py --vkg PROGRAM [options]

It starts a PostgreSQL of its own in a new folder (server.py), loads the files of a case (load.py), and runs each plan as plan.py writes
it: every query of crates/vkg_cases that is answered, those of examples/company, a filter for each operator over all pairs of many terms, and
random queries of tools/second_implementation over random databases. `--plans N` runs N random plans, too, with nodes and expressions that no
query's plan has; their rows are those that the second implementation gives.

The counts are printed at the end. A difference is told, its files are kept in a folder of FOUND, and the status is 1. Where PostgreSQL is
not installed nothing is compared, which is said. The gate does not run this.
"""
import argparse
import io
import os
import re
import subprocess
import sys
import tempfile

from load import write_script
from names import NO_CHARACTER
from plan import DEEPEST, query_of
from second_implementation import TOP
from server import Server, folder_of_programs

from comparisons import operators
from comparisons.program import Comparison
from comparisons.queries import queries_of
from random_inputs.cases import random_case
from random_inputs.chance import Chance
from random_inputs.plans import PlanMaker, most_rows
from random_inputs.terms import IRIS, LITERALS
from reference.calls import Ending, lines_text
from reference.plan_nodes import Column, Project, call, expression_kind, kinds_of, plan_text, term_constant, text_constant
from reference.plans import ORDER, plan_rows
from reference.rdf import XSD, in_byte_order, term_text
from reference.refusal import Refused

CASES = TOP / "crates/vkg_cases/data"
COMPANY = TOP / "examples/company"
HERE = "SET client_min_messages = warning; DROP SCHEMA IF EXISTS here CASCADE; CREATE SCHEMA here; SET search_path = here, pg_catalog;\n"
# The plans of large queries are deep, and those of wide ones are not worth compiling.
SETTINGS = {"max_stack_depth": "6MB", "jit": "off", "statement_timeout": "60s"}
MOST_ROWS = 5000
ENDS = ";\n"
ESCAPES = {"b": "\b", "f": "\f", "n": "\n", "r": "\r", "t": "\t", "v": "\v"}


def copied_line(line):
    """A line of COPY's text format as `vkg query` has it; psql itself prints no character that Unicode has set apart, as U+10FFFF."""
    fields = ["" if one == r"\N" else re.sub(r"\\(.)", lambda found: ESCAPES.get(found[1], found[1]), one) for one in line.split("\t")]
    return "\t".join(fields)


def is_ordered(plan):
    """Whether keys stand behind a plan."""
    return ORDER.search(plan.rstrip())[1] is not None


class Tables:
    """A server in which the tables of one case stand at a time."""

    def __init__(self, server, comparison):
        self.server, self.comparison = server, comparison

    def psql(self, script):
        """Runs a script; what went wrong is told on standard error, as `psql` tells it."""
        words = ["psql", "-X", "-q", "-At", "-F", "\t", "-v", "ON_ERROR_STOP=1", "-f", "-"]
        return subprocess.run(words, input=script.encode(), env=self.server.environment, capture_output=True, check=False)

    def endings(self, schema, folder, queries):
        """How each of some queries ends over the files of a case: its lines, or PostgreSQL's words. Each comes with whether it is ordered; the lines
        of others are given in the order of their bytes."""
        script = io.StringIO()
        write_script(schema, folder, script)
        with tempfile.TemporaryDirectory() as room:
            parts = [HERE, script.getvalue(), "\\set ON_ERROR_STOP off\n"]
            for number, (query, _) in enumerate(queries):
                parts.append(f"\\o '{room}/{number}'\nCOPY ({query.rstrip(ENDS)}) TO STDOUT;\n"
                             f"\\o '{room}/{number}.end'\n\\qecho :SQLSTATE :LAST_ERROR_MESSAGE\n")
            ended = self.psql("".join(parts))
            if ended.returncode != 0:
                return [Ending(ended.returncode, "", ended.stderr.decode())] * len(queries)
            return [self.ending(os.path.join(room, str(number)), is_kept) for number, (_, is_kept) in enumerate(queries)]

    @staticmethod
    def ending(path, is_kept):
        """How one query ended."""
        with open(path + ".end", encoding="utf-8") as end, open(path, encoding="utf-8", newline="") as output:
            state = end.read()
            if not state.startswith("00000"):
                return Ending(1, "", state)
            lines = [copied_line(line) for line in output.read().split("\n")[:-1]]
            return Ending(0, lines_text(lines if is_kept else in_byte_order(lines)))

    def compare(self, name, schema, data, asked):
        """Compares PostgreSQL's rows over the files of a case with what is expected, and gives how many plans were compared.

        `asked` has for each plan the words of its call, the folder of its files, the plan and the lines that are expected.
        """
        queries, kept = [], []
        for one in asked:
            try:
                queries.append((query_of(schema, one[2].encode()), is_ordered(one[2])))
                kept.append(one)
            except Refused as refused:
                self.refused(name, one, refused)
        try:
            endings = self.endings(schema, data, queries)
        except Refused as refused:
            for one in kept:
                self.refused(name, one, refused)
            return 0
        for (words, folder, _, lines), ending in zip(kept, endings):
            self.comparison.check(f"{name}, rows of the plan", words, folder, Ending(0, lines), ending)
        return len(kept)

    def refused(self, name, one, refused):
        """A plan or a case that is not taken: what PostgreSQL cannot hold is counted, all else is a difference."""
        if refused.code == NO_CHARACTER:
            self.comparison.count(f"{name}: with U+0000, which PostgreSQL does not have")
        else:
            self.comparison.differ(name, one[0], one[1], Ending(0, one[3]), Ending(1, "", f"{refused.code} at {refused.place}"))


def has_word(query, words):
    """Whether the file of a query may have one of these words."""
    with open(query, "rb") as file:
        return re.search(rb"(?i)\b(" + words + rb")\b", file.read()) is not None


def asked_of(comparison, words, folder):
    """A query that `vkg` answers as `compare` asks for it, by the words of the call of `query`; None where it is refused, or the plan does not tell its lines."""
    answer = comparison.call(words, folder)
    if answer is None or answer.status != 0:
        comparison.count("queries that are not answered")
        return None
    place = words.index("--data")
    plan = comparison.call(["sql", *words[1:place], *words[place + 2 :]], folder)
    if plan is None:
        return None
    query = os.path.join(folder, words[words.index("--query") + 1])
    if has_word(query, rb"ASK|CONSTRUCT"):
        comparison.count("queries of ASK and CONSTRUCT, which write no rows")
        return None
    if is_ordered(plan.output) and has_word(query, b"DISTINCT"):
        comparison.count("queries with DISTINCT and ORDER BY, whose lines the plan alone does not tell")
        return None
    return words, folder, plan.output, answer.output.partition("\n")[2]


def compare_files(tables, name, calls, folder):
    """Compares the queries of some calls over files of the repository, those over the same files together."""
    groups = {}
    for number, words in enumerate(calls):
        tables.comparison.case = f"{name} {number}"
        one = asked_of(tables.comparison, words, folder) if words[:1] == ["query"] else None
        if one is not None:
            options = dict(zip(words[1::2], words[2::2]))
            groups.setdefault((options["--schema"], options["--data"]), []).append(one)
    for number, ((schema, data), asked) in enumerate(groups.items()):
        tables.comparison.case = f"{name} {number}"
        tables.compare(name, (folder / schema).read_bytes(), folder / data, asked)


def company_calls():
    """The calls for the queries of the example company."""
    words = ["query", "--schema", "schema.sql", "--data", "data", "--base", "http://example.org/", "--mapping", "mapping.ttl", "--query"]
    return [[*words, f"queries/{path.name}"] for path in sorted((COMPANY / "queries").glob("*.rq"))]


def compare_random(tables, seed, folder):
    """Compares random queries over one random database."""
    case, asked = random_case(seed), []
    for _ in queries_of(tables.comparison, case, seed, folder):
        asked.append(asked_of(tables.comparison, case.words("query"), folder))
    asked = [one for one in asked if one is not None]
    if not asked:
        return 0
    return tables.compare("random queries", case.files["schema.sql"].encode(), os.path.join(folder, "data"), asked)


def compare_operators(tables, folder):
    """Compares the filters of each operator over all terms and pairs of terms."""
    case, asked = operators.the_case(), []
    for text in operators.OF_TWO + operators.OF_ONE:
        tables.comparison.case = text
        case.files["query.rq"] = operators.query_of(text)
        case.write(folder)
        asked.append(asked_of(tables.comparison, case.words("query"), folder))
    tables.compare("operators", case.files["schema.sql"].encode(), os.path.join(folder, "data"), [one for one in asked if one])


def random_term(chance, kinds):
    """An expression for a term: a column, as a literal where it is none, mostly of its own datatype, or a constant."""
    if not kinds or chance.happens(0.4):
        return term_constant(chance.choice(LITERALS + IRIS))
    place = chance.randrange(len(kinds))
    if kinds[place] == "term":
        return Column(place)
    is_plain = kinds[place] == "string" or chance.happens(0.3)
    return call("LIT", call("LEX", Column(place)), *[] if is_plain else [text_constant("^^" + XSD + kinds[place])])


def random_operator(chance, kinds):
    """An operator of SPARQL on random terms."""
    if chance.happens(0.6):
        return call(chance.choice(["EQ", "NE", "LT", "GT", "LE", "GE"]), random_term(chance, kinds), random_term(chance, kinds))
    if chance.happens(0.3):
        return call(chance.choice(["STRSTARTS", "STRENDS", "CONTAINS"]), random_term(chance, kinds), random_term(chance, kinds))
    return call(chance.choice(["EBV", "STR", "LANG", "DATATYPE", "STRLEN", "IS_IRI", "IS_BLANK", "IS_LITERAL", "IS_NUMERIC"]), random_term(chance, kinds))


def plan_lines(rows):
    """The lines of rows of terms, in the order of their bytes."""
    return in_byte_order("\t".join("" if cell is None else term_text(cell) for cell in row) for row in rows)


def compare_plans(tables, seed, folder):
    """Compares random plans over one random database, with operators on their columns; what is no term is made a literal, so that rows are lines."""
    case, asked = random_case(seed), []
    case.write(folder)
    maker = PlanMaker(Chance(f"plans of postgres {seed}"), case.tables)
    for number in range(tables.comparison.options.queries):
        plan = maker.plan(maker.chance.choice([1, 2, 3]))
        kinds = kinds_of(plan, case.tables)
        if most_rows(plan, case.tables) <= MOST_ROWS:
            outputs = [Column(place) for place in range(len(kinds))] + [random_operator(maker.chance, kinds) for _ in range(4)]
            terms = [one if expression_kind(one, kinds) == "term" else call("LIT", call("LEX", one)) for one in outputs]
            text = plan_text(Project(tuple(terms), plan), case.tables)
            asked.append(([f"plan {number}", text], folder, text, lines_text(plan_lines(plan_rows(text, case.tables)))))
    return tables.compare("random plans", case.files["schema.sql"].encode(), os.path.join(folder, "data"), asked)


def compare_cases(tables, compare, wanted):
    """Compares random cases until so many plans were compared, each case by its seed."""
    seed = tables.comparison.options.seed
    while wanted > 0:
        tables.comparison.case = str(seed)
        wanted -= in_new_folder(compare, tables, seed)
        seed += 1


def read_options():
    """The options of the call."""
    parser = argparse.ArgumentParser(description=__doc__, usage=argparse.SUPPRESS, formatter_class=argparse.RawDescriptionHelpFormatter)
    parser.add_argument("--vkg", metavar="PROGRAM", required=True, help="the built program")
    parser.add_argument("--only", choices=["cases", "company", "operators", "random", "plans"], help="this part alone")
    parser.add_argument("--random", metavar="N", type=int, default=1000, help="how many random queries (1000)")
    parser.add_argument("--plans", metavar="N", type=int, default=0, help="how many random plans (0)")
    parser.add_argument("--seed", type=int, default=0, help="the first seed; each database has one (0)")
    parser.add_argument("--queries", type=int, default=4, help="how many queries or plans over a random database (4)")
    parser.add_argument("--limit", type=int, default=4000, help="how many combinations of triples a random query may ask for (4000)")
    parser.add_argument("--timeout", type=int, default=60, help="how many seconds a call of the program may take (60)")
    parser.add_argument("--found", default="found", help="the folder for cases on which the two differ (found)")
    parser.set_defaults(rdflib=False)
    return parser.parse_args()


def in_new_folder(compare, tables, *words):
    """Compares in a folder that is gone afterwards."""
    with tempfile.TemporaryDirectory() as folder:
        return compare(tables, *words, folder)


def run(tables, options):
    """Runs all parts, or the one that is asked for."""
    parts = {
        "cases": lambda: compare_files(tables, "cases", [line.split()[1:] for line in (CASES / "cases").read_text().splitlines()], CASES),
        "company": lambda: compare_files(tables, "company", company_calls(), COMPANY),
        "operators": lambda: in_new_folder(compare_operators, tables),
        "random": lambda: compare_cases(tables, compare_random, options.random),
        "plans": lambda: compare_cases(tables, compare_plans, options.plans),
    }
    for name, part in parts.items():
        if options.only in (None, name):
            part()


def main():
    """Compares, and reports even where it is broken off."""
    options = read_options()
    if folder_of_programs() is None:
        print("compare.py: skipped: PostgreSQL is not installed")
        return
    sys.setrecursionlimit(DEEPEST)
    comparison = Comparison(options)
    with Server(SETTINGS) as server:
        tables = Tables(server, comparison)
        if (ended := tables.psql((TOP / "tools/postgres/prelude.sql").read_text())).returncode != 0:
            sys.exit(ended.stderr.decode())
        try:
            run(tables, options)
        finally:
            comparison.report()
    sys.exit(not comparison.is_same)


if __name__ == "__main__":
    main()
