"""The text of the plan that `vkg sql` prints for random queries over random mappings."""
from comparisons.queries import compare_rows, queries_of
from random_inputs.cases import random_case
from random_inputs.chance import Chance
from random_inputs.near_default import add_near_default
from reference.calls import Command, Ending, expected
from reference.rules import OWN


# A query for the quads of all named graphs, the first one over mappings with names of graphs near rr:defaultGraph.
ANY_GRAPH = "SELECT * { GRAPH ?g { ?s ?p ?o } }"


def compare(comparison, seed, folder):
    """Some queries over one database: the plan's text, and its rows."""
    case, chance = random_case(seed), Chance(f"plans {seed}")
    is_near = bool(case.maps) and chance.happens(0.3)
    if is_near:
        add_near_default(case, chance)
    for number, _ in enumerate(queries_of(comparison, case, seed, folder)):
        if is_near and number == 0:
            case.files["query.rq"] = ANY_GRAPH
            case.write(folder)
        compare_plan(comparison, case, folder)


def compare_plan(comparison, case, folder):
    """One query: the plan's text, which is the end of the rewrite rules or the start plan, and its rows."""
    words = case.words("sql")
    ours, command = comparison.call(words, folder), Command(words, folder)
    start, end = command.plan(), command.plan(OWN)
    comparison.check("text of the plan", words, folder, ours, Ending(0, start if comparison.options.start else end))
    comparison.count("plans that rules change" if start != end else "plans that no rule changes")
    compare_rows(comparison, case, folder, ours, expected(case.words("query"), folder))
