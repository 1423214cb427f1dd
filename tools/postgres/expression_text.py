"""The text of an expression of a plan in PostgreSQL's SQL, over the functions of prelude.sql.

NULL, AND, OR, NOT and COALESCE mean in a plan what they mean in SQL, so they are written as they are, and SAME is `=`. A term is its
text in N-Quads. A comparison of terms whose kinds of value the expression itself tells is written as one of those values, so that no
term has to be made and taken apart again, and an index on the column can serve.
"""
import re
from typing import NamedTuple

import second_implementation  # noqa: F401  (the path of what follows)
from reference.datatypes import NUMBERS, canonical_number, lexical_form, width
from reference.expressions import known_value
from reference.plan_nodes import Call, Column, Constant
from reference.rdf import XSD, term_text
from reference.tables import family

# The type of a NULL of each kind. Moments and times of day are written as their forms where they are no column of a table: a column
# may be of PostgreSQL's type or, with more digits than that keeps, of the type text.
TYPES = {"integer": "bigint", "decimal": "numeric", "boolean": "boolean", "string": "text", "date": "date", "dateTime": "text",
         "hexBinary": "bytea", "time": "text", "term": "text"}
MOMENTS = ("dateTime", "time")
MOST_DIGITS = 6

# The kinds whose forms hold neither what an IRI has to encode nor what a literal has to escape, and those without the latter.
SAFE_FORMS = (*NUMBERS, "boolean", "date", "hexBinary")
PLAIN_FORMS = (*SAFE_FORMS, *MOMENTS)

SIGNS = {"EQ": "=", "NE": "<>", "LT": "<", "GT": ">", "LE": "<=", "GE": ">="}
NATURAL = {kind: XSD + kind for kind in (*NUMBERS, "boolean", "date", "dateTime")} | {"string": ""}
SORTS = {"integer": "number", "decimal": "number"}


class Value(NamedTuple):
    """An operand: its text and kind, whether it is a moment as its form, and of a form the kind whose form it is."""

    text: str
    kind: str
    is_form: bool = False
    form_of: str = ""


def quoted(text):
    """A text in quotes, in which a quote is doubled."""
    return "'" + text.replace("'", "''") + "'"


def truth(text):
    """A truth."""
    return Value(text, "boolean")


# ---- constants ----


def constant(kind, value):
    """A constant."""
    if value is None:
        return Value(f"NULL::{TYPES[kind]}", kind, kind in MOMENTS)
    match kind:
        case "boolean":
            text = "TRUE" if value else "FALSE"
        case "integer" | "decimal":
            text = f"({value})" if value.startswith("-") else value
        case "date":
            text = "DATE " + quoted(value)
        case "hexBinary":
            text = rf"'\x{value}'::bytea"
        case "term":
            text = quoted(term_text(value))
        case _:
            text = quoted(value)
    return Value(text, kind, kind in MOMENTS)


# ---- the functions of the notation ----


def lex(value):
    """The lexical form of a value."""
    text = value.text if value.is_form else f"vkg.lex({value.text})"
    return Value(text, "string", form_of=value.kind)


def safe(value):
    """The IRI-safe form of a text."""
    return value if value.form_of in SAFE_FORMS else Value(f"vkg.safe({value.text})", "string")


def concat(*values):
    """Texts one behind the other."""
    return Value("(" + " || ".join(one.text for one in values) + ")" if values else "''", "string")


def lit(value, annotation=None):
    """A literal. The constant behind its form is that of N-Quads, the closing quote included."""
    name = "lit_of_form" if value.form_of in PLAIN_FORMS else "lit"
    text = "" if annotation is None else annotation.text[1:-1]
    end = f'"^^<{text[2:]}>' if text.startswith("^^") else '"' + text
    return Value(f"vkg.{name}({value.text}, '{end}')", "term")


def has_few_digits(value):
    """Whether a value is a constant of a moment whose fraction PostgreSQL's types keep whole."""
    found = re.fullmatch(r"'[^'.]*(?:\.([0-9]*))?'", value.text)
    return found is not None and len(found[1] or "") <= MOST_DIGITS


def alike(one, other):
    """Two values as they can be compared: moments as columns are, where both are or the one that is not says the same, else as forms."""
    if one.kind not in MOMENTS or one.is_form == other.is_form or has_few_digits(one if one.is_form else other):
        return one, other
    return lex(one), lex(other)


def same(*values):
    """SQL's equality, unknown where a side is NULL."""
    one, other = alike(*values)
    return truth(f"({one.text} = {other.text})")


def chain(sign, empty):
    """The function that writes some conditions with a sign between them; of none it is a constant."""
    return lambda *values: truth("(" + f" {sign} ".join(one.text for one in values) + ")" if values else empty)


def coalesce(*values):
    """The first value that is not NULL."""
    kind = values[0].kind
    texts = [lex(one).text if kind in MOMENTS else one.text for one in values]
    return Value(f"coalesce({', '.join(texts)})", kind, kind in MOMENTS)


def negation(value):
    """NOT; of a test for NULL it is SQL's own test."""
    is_test = value.text.endswith(" IS NULL)")
    return truth(value.text[:-len("NULL)")] + "NOT NULL)" if is_test else f"(NOT {value.text})")


FUNCTIONS = {
    "LEX": lex,
    "SAFE": safe,
    "CONCAT": concat,
    "LIT": lit,
    "SAME": same,
    "COALESCE": coalesce,
    "AND": chain("AND", "TRUE"),
    "OR": chain("OR", "FALSE"),
    "NOT": negation,
    "IS_NULL": lambda value: truth(f"({value.text} IS NULL)"),
}
RESULTS = {"IRI_OF": "string"} | dict.fromkeys(("IRI", "BLANK", "STR", "LANG", "DATATYPE", "STRLEN"), "term")


def value_of(expression, row):
    """The value of an expression over the values of a row's columns."""
    match expression:
        case Column(place):
            return row[place]
        case Constant(kind, value):
            return constant(kind, value)
        case Call(name, arguments):
            found = value_by_values(name, arguments, row)
            if found is not None:
                return found
            values = [value_of(one, row) for one in arguments]
            if name in FUNCTIONS:
                return FUNCTIONS[name](*values)
            return Value(f"vkg.{name.lower()}({', '.join(one.text for one in values)})", RESULTS.get(name, "boolean"))


# ---- comparisons of terms by values that are known from the expressions alone ----


def known_constant(term):
    """The sort and the constant of a term's known value, None where it has none."""
    found = known_value(term)
    if found is None:
        return None
    sort, _ = found
    if sort == "number":
        return (sort, constant("decimal", canonical_number(term.text))) if width(term.text) <= 38 else None
    if sort == "boolean":
        return sort, constant(sort, found[1])
    return sort, constant(sort, lexical_form(sort, term.text))


def known(expression, row):
    """The sort and the value of a term as the expression tells them: a constant, or a column's own literal; None for others."""
    match expression:
        case Constant("term", term) if term is not None:
            return known_constant(term)
        case Call("LIT", (Call("LEX", (inner,)), *annotation)):
            value = value_of(inner, row)
            written = annotation[0].value.removeprefix("^^") if annotation else ""
            if written == NATURAL.get(value.kind):
                return SORTS.get(value.kind, value.kind), value
    return None


def value_by_values(name, arguments, row):
    """A comparison of two terms of one known sort, or the effective truth of one, by their values; None where that cannot be."""
    if name not in SIGNS and name != "EBV":
        return None
    found = [known(one, row) for one in arguments]
    if None in found or len({sort for sort, _ in found}) > 1:
        return None
    sort, values = found[0][0], [value for _, value in found]
    if name == "EBV":
        return truth_by_value(sort, *values)
    one, other = alike(*values)
    is_text = one.kind == "string" or one.is_form and other.is_form  # a column of moments may be none
    collation = ' COLLATE "C"' if is_text and name not in ("EQ", "NE") else ""
    return truth(f"({one.text} {SIGNS[name]} {other.text}{collation})")


def truth_by_value(sort, value):
    """The effective boolean value of a known value; that of a date or a moment is an error."""
    match sort:
        case "boolean":
            return value
        case "number":
            return truth(f"({value.text} <> 0)")
        case "string":
            return truth(f"({value.text} <> '')")
    return constant("boolean", None)
