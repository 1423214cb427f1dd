#!/usr/bin/env python3
"""Compares the built program `vkg` with a second implementation of the standards, on random inputs.

usage: tools/second_implementation/compare.py WHAT --vkg PROGRAM [options]

  dump       `dump` by the direct mapping and by random R2RML mappings
  query      `query` on random queries; `sql`, whose plan is run here; with --rdflib the answers of rdflib, too
  plans      `sql` on random queries: the text of the plan; with --start that of the plan before any rewriting
  rules      the rewrite rules on random plans, and on those of random queries; no program is called
  change     valid cases with one token or byte changed: how the program refuses them, or what it then answers
  faults     R2RML mappings whose graphs have faults
  edits      valid cases after several edits of one or two files, by tokens and by bytes
  cuts       valid cases in which one or two files are cut off
  texts      schemas, mappings and queries of few names, made by the grammars of tools/
  words      calls whose words are changed
  gen        `gen` on the companies of SEED+1 to SEED+COUNT employees
  operators  every operator of filters on every pair of a list of terms; once, without chance
  documents  the examples of README.md, docs/DIAGNOSTICS.md and docs/GUIDE.md, asked of both; once, without chance

Every mode also asks that each call ends as docs/DIAGNOSTICS.md has it: status, output, and line on standard error. The counts are
printed at the end. Each case on which the two differ is told, and its files are kept in a folder of FOUND, with the words of the
call, how the program ended (vkg.txt) and how the other did (other.txt); the status is then 1. The same seed makes the same case.
"""
import argparse
import sys
import tempfile

from comparisons import changes, company, diagnostics, dumps, guide, hostile, operators, plans, queries, readme, rules
from comparisons.program import Comparison

MODES = {
    "dump": [dumps.compare],
    "query": [queries.compare],
    "plans": [plans.compare],
    "rules": [rules.compare, rules.compare_queries],
    "change": [changes.compare_tokens],
    "faults": [changes.compare_faults],
    "edits": [hostile.compare_edits],
    "cuts": [hostile.compare_cuts],
    "texts": [hostile.compare_texts],
    "words": [changes.compare_words],
    "gen": [company.compare],
    "operators": [operators.compare],
    "documents": [diagnostics.compare, guide.compare, readme.compare],
}
ONCE = ("operators", "documents")


def read_options():
    """The options of the call."""
    parser = argparse.ArgumentParser(description=__doc__, usage=argparse.SUPPRESS,
                                     formatter_class=argparse.RawDescriptionHelpFormatter)
    parser.add_argument("what", metavar="WHAT", choices=MODES, help="one of the modes above")
    parser.add_argument("--vkg", metavar="PROGRAM", help="the built program (all modes but rules)")
    parser.add_argument("--seed", type=int, default=0, help="the first seed; each case has one (0)")
    parser.add_argument("--count", type=int, default=100, help="how many cases (100)")
    parser.add_argument("--queries", type=int, default=4, help="how many queries, plans, changes or faults for a case (4)")
    parser.add_argument("--limit", type=int, default=4000, help="how many combinations of triples a query may ask for (4000)")
    parser.add_argument("--plan", type=int, default=300000, help="how many characters a plan may have to be run here (300000)")
    parser.add_argument("--timeout", type=int, default=20, help="how many seconds a call may take (20)")
    parser.add_argument("--start", action="store_true", help="no rewrite rules: the program prints start plans (plans)")
    parser.add_argument("--rdflib", action="store_true", help="compare with rdflib 6, too (query, operators)")
    parser.add_argument("--found", default="found", help="the folder for cases on which the two differ (found)")
    options = parser.parse_args()
    if options.vkg is None and options.what != "rules":
        parser.error("--vkg is needed")
    return options


def run(comparison, options):
    """Runs one mode."""
    for seed in [0] if options.what in ONCE else range(options.seed, options.seed + options.count):
        for compare in MODES[options.what]:
            comparison.case = str(seed)
            with tempfile.TemporaryDirectory() as folder:
                compare(comparison, seed, folder)


def main():
    """Runs one mode, and reports on it even where it is broken off."""
    options = read_options()
    comparison = Comparison(options)
    try:
        run(comparison, options)
    finally:
        comparison.report()
    sys.exit(not comparison.is_same)


if __name__ == "__main__":
    main()
