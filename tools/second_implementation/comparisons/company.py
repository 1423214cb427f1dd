"""`vkg gen` on the companies of 1, 2, 3 and so on employees."""
from reference.calls import Ending, lines_text
from reference.direct_mapping import direct_graph
from reference.evaluation import answer_lines
from reference.query_syntax import read_query
from reference.rdf import dataset_of, dump_lines
from reference.tables import Column, ForeignKey, Table

BASE = "http://e/"
QUERIES = {
    "names": "SELECT ?n { ?e <http://e/emp#name> ?n }",
    "distinct": "SELECT DISTINCT ?n { ?e <http://e/emp#name> ?n }",
    "depts": "SELECT ?n ?d { ?e <http://e/emp#name> ?n OPTIONAL { ?e <http://e/emp#ref-dept> ?d } }",
}


def company(size):
    """The tables of the company of so many employees (docs/DEFINITIONS.md, `company` and `company_rows`)."""
    departments = size // 10 + 1
    titles = [[str(number), None if number % 5 == 0 else f"D{number}"] for number in range(1, departments + 1)]
    people = [[str(number), f"N{number % 7}", None if number % 4 == 0 else str(number % departments + 1)]
              for number in range(1, size + 1)]
    identity, name = Column("id", "integer", True), Column("name", "string")
    dept = Table("dept", [identity, Column("title", "string")], [0], [[0]], [], titles)
    return [dept, Table("emp", [identity, name, Column("dept", "integer")], [0], [[0]], [ForeignKey([2], 0, [0])], people)]


def compare(comparison, seed, folder):
    """The report on a company."""
    quads = direct_graph(company(seed + 1), BASE)
    counts = {"quads": len(dump_lines(quads))}
    for name, query in QUERIES.items():
        counts[name] = len(answer_lines(read_query(query.encode(), BASE), dataset_of(quads))) - 1
    words = ["gen", str(seed + 1)]
    theirs = Ending(0, lines_text(f"{name} {count}" for name, count in counts.items()))
    comparison.check("company", words, folder, comparison.call(words, folder), theirs)
