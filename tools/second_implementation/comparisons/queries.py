"""`vkg query` and `vkg sql` on random queries over random databases."""
import re

from random_inputs.cases import add_query, random_case
from reference.calls import Ending, expected, lines_text
from reference.evaluation import answer_lines, lines_of_rows
from reference.plans import plan_rows
from reference.query_syntax import read_query
from reference.rdf import dataset_of, in_byte_order
from reference.refusal import Refused

# Where rdflib 6.1.1 is known to differ from the standards: GRAPH with an IRI that names no graph (SPARQL, 18.6), unions of empty
# groups (18.2.2.8), xsd:string as another datatype than that of plain literals (RDF 1.1 Concepts, 3.3), a tab in a string (19.8).
KNOWN_OF_RDFLIB = [
    ("GRAPH", r"\bgraph\b"),
    ("an empty group", r"\{\s*\}"),
    ("xsd:string", r"\^\^(<[^>]*#string>|xsd:string)"),
    ("a tab", "\t"),
]


def queries_of(comparison, case, seed, folder):
    """The values of some queries over the database of a case, whose files are then in a folder."""
    for number in range(comparison.options.queries):
        comparison.case = f"{seed}.{number}"
        try:
            query = add_query(case, comparison.case, comparison.options.limit, 0 if comparison.options.rdflib else 0.02)
        except Refused:
            comparison.count("cases with a data error")
            return
        case.write(folder)
        yield query


def compare(comparison, seed, folder):
    """Some queries over one database."""
    case = random_case(seed)
    for query in queries_of(comparison, case, seed, folder):
        compare_query(comparison, case, query, folder)


def compare_query(comparison, case, query, folder):
    """One query: the answer by the files, by the values, by the plan that `sql` prints, and by rdflib where that is asked for."""
    words = case.words("query")
    ours, theirs = comparison.call(words, folder), expected(words, folder)
    comparison.check("answer, by files", words, folder, ours, theirs)
    comparison.count("answers with solutions" if theirs.output.count("\n") > 1 else "answers without a solution")
    read = read_query(case.files["query.rq"].encode(), case.base)
    query.visible, query.template, query.nodes = read.visible, read.template, read.nodes
    by_values = Ending(0, lines_text(answer_lines(query, dataset_of(case.quads()))))
    comparison.check("answer, by values", words, folder, ours, by_values)
    compare_rows(comparison, case, folder, comparison.call(case.words("sql"), folder), theirs)
    if comparison.options.rdflib and ours is not None and ours.status == 0:
        compare_rdflib(comparison, case, folder, ours)


def with_rows(ending, case):
    """How a call of `sql` ended, with the query's output over the rows of the plan in the place of its text."""
    try:
        query = read_query(case.files["query.rq"].encode(), case.base)
        return ending._replace(output=lines_text(lines_of_rows(query, plan_rows(ending.output, case.tables))))
    except Exception as error:  # a text that is no plan fails anywhere in it
        return ending._replace(output=f"no plan: {error!r}\n")


def compare_rows(comparison, case, folder, ours, answer):
    """Runs the plan that a call of `sql` printed, where it is not too long, and compares its rows with an answer."""
    if ours is None or len(ours.output) > comparison.options.plan:
        comparison.count("plans that are too long to be run")
    else:
        comparison.check("rows of the plan", case.words("sql"), folder, with_rows(ours, case), answer)


def compare_rdflib(comparison, case, folder, ours):
    """Compares an answer with rdflib's over the quads of the values, as bags of solutions."""
    from comparisons.rdflib_answers import solution_lines  # only here: rdflib need not be installed

    header, *lines = ours.output.split("\n")[:-1]
    text = case.files["query.rq"]
    if read_query(text.encode(), case.base).form != "SELECT":
        comparison.count("queries of ASK and CONSTRUCT, which rdflib is not asked")
        return
    try:
        theirs = solution_lines(case.quads(), text, case.base, header)
    except Exception as error:  # rdflib refuses by errors of many classes
        comparison.count(f"queries that rdflib refuses by {type(error).__name__}")
        return
    known = [sign for sign, pattern in KNOWN_OF_RDFLIB if re.search(pattern, text, re.IGNORECASE)]
    if in_byte_order(lines) != in_byte_order(theirs) and known:
        comparison.count(f"rdflib differs, and the query has {known[0]}")
        return
    bags = [Ending(0, lines_text(in_byte_order(bag))) for bag in (lines, theirs)]
    comparison.check("answer, by rdflib", case.words("query"), folder, *bags)
