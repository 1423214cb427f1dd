"""The rewrite rules on random plans and queries: whether a plan and what it becomes have the same columns and the same bag of rows.

The program has no part in this: the rules of `reference/rules.py` are tried against the rows that `reference/plans.py` gives the
plans' texts, and what they make of a query's start plan against the query's answer. Rules that the program does not have yet are
tried, too.
"""
import os

from comparisons.queries import compare_rows, queries_of
from random_inputs.cases import random_case
from random_inputs.chance import Chance
from random_inputs.plans import PlanMaker, most_rows
from random_inputs.tables import random_tables
from reference.calls import Command, Ending, expected, lines_text
from reference.plan_nodes import kinds_of, plan_text, subplans
from reference.plans import PlanRunner
from reference.rules import FIRST, LATER, OWN, normal_form

# Those of our own that the program has, and those that it is to have.
MORE = OWN + LATER


def applications(plan, tables):
    """What rules make of a plan and of the plans in it: the rule's name, the plan and what it becomes."""
    for rule in FIRST + MORE:
        changed = rule(plan, tables)
        if changed is not None:
            yield rule.__name__, plan, changed
    for one in subplans(plan):
        yield from applications(one, tables)


def rows_of(plan, tables):
    """The kinds of the columns of a plan, and its rows in one order, as the output of a call."""
    _, rows = PlanRunner(plan_text(plan, tables), tables).plan()
    return Ending(0, lines_text([repr(kinds_of(plan, tables)), *sorted(map(repr, rows))]))


def compare(comparison, seed, folder):
    """Some plans over one database: each single change of them, and their ends."""
    chance = Chance(f"plans {seed}")
    tables = random_tables(chance)
    for number in range(comparison.options.queries):
        comparison.case = f"{seed}.{number}"
        plan = PlanMaker(chance, tables).plan(chance.randint(1, 4))
        if most_rows(plan, tables) > comparison.options.limit:
            comparison.count("plans with too many rows")
            continue
        for name, before, after in [*applications(plan, tables), ("end", plan, normal_form(plan, tables, MORE))]:
            texts = [plan_text(before, tables), plan_text(after, tables)]
            with open(os.path.join(folder, "plans.txt"), "w", encoding="utf-8") as out:
                out.write(lines_text([*texts, repr(tables)]))
            comparison.check(name, [], folder, rows_of(before, tables), rows_of(after, tables))


def compare_queries(comparison, seed, folder):
    """Some queries over one database: the rows of the end of the rules, and the answer."""
    case = random_case(seed)
    for _ in queries_of(comparison, case, seed, folder):
        start, end = (Command(case.words("sql"), folder).plan(own) for own in (None, MORE))
        comparison.count("plans that rules change" if start != end else "plans that no rule changes")
        compare_rows(comparison, case, folder, Ending(0, end), expected(case.words("query"), folder))
