"""What the functions of a plan's expressions make of cells (docs/DEFINITIONS.md, `value_of`).

A cell is a lexical form, a truth for a boolean, a term, or None for NULL. Within a column all cells but NULL are of one sort, and
numbers have one form for one value, so a cell need not tell its kind.
"""
from reference import expressions as sparql
from reference.iris import iri_safe, is_absolute
from reference.queries import STRING_TESTS
from reference.rdf import blank, iri, literal

COMPARISONS = {"EQ": "=", "NE": "!=", "LT": "<", "GT": ">", "LE": "<=", "GE": ">="}
TESTS = {"IS_IRI": "ISIRI", "IS_BLANK": "ISBLANK", "IS_LITERAL": "ISLITERAL", "IS_NUMERIC": "ISNUMERIC"}


def literal_of(text, annotation=""):
    """The literal of LIT: of a text alone, or with `@` and a tag, or with `^^` and a datatype."""
    tag = annotation[1:] if annotation.startswith("@") else ""
    return literal(text, tag, annotation[2:] if annotation.startswith("^^") else "")


# The functions that are NULL where an argument is.
STRICT = {
    "NOT": lambda truth: not truth,
    "SAME": lambda one, other: one == other,
    "LEX": lambda cell: str(cell).lower() if isinstance(cell, bool) else cell,
    "SAFE": iri_safe,
    "CONCAT": lambda *texts: "".join(texts),
    "IRI": iri,
    "IRI_OF": lambda base, text: text if is_absolute(text) else base + text,
    "BLANK": blank,
    "LIT": literal_of,
    "EBV": sparql.effective_truth,
}


def strict_value(name, arguments):
    """The value of a function or of an operator of SPARQL on cells that are not NULL; an error is NULL."""
    try:
        if name in STRICT:
            return STRICT[name](*arguments)
        if name in COMPARISONS:
            return sparql.compare(COMPARISONS[name], *arguments)
        if name in STRING_TESTS:
            return sparql.test_strings(name, *arguments)
        return sparql.test(TESTS[name], *arguments) if name in TESTS else sparql.access(name, *arguments)
    except sparql.ExpressionError:
        return None


def value(name, arguments):
    """The value of a function on cells (SQL-92, 8.12, for AND, OR and NOT)."""
    if name in ("AND", "OR"):
        return sparql.three_valued({"AND": "&&", "OR": "||"}[name], arguments)
    if name == "COALESCE":
        return next((one for one in arguments if one is not None), None)
    if name == "IS_NULL":
        return arguments == [None]
    return None if None in arguments else strict_value(name, arguments)
