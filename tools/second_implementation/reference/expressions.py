"""The value of an expression over a solution (SPARQL 1.1 Query, 17.2 to 17.4), in the profile of docs/DECISIONS.md.

Its numbers are xsd:integer and xsd:decimal, its dates and moments those without a zone. A literal of any other datatype has no
known value: isNumeric is false of an xsd:double, say, and comparing it with another literal is an error.
"""
import re
from decimal import Decimal

from reference.datatypes import NUMBERS, is_well_typed
from reference.queries import ACCESSORS, COMPARISONS, STRING_TESTS, Call, Var
from reference.rdf import RDF, XSD, Term, iri, literal


class ExpressionError(Exception):
    """An error, which is a third truth value (17.2)."""


def known_value(term):
    """The sort of a literal's value and the value, which compares within its sort; None where the profile knows none."""
    if term.kind != "literal" or term.language or not is_well_typed(term.text, term.datatype):
        return None
    sort = term.datatype.removeprefix(XSD)
    if sort == "":
        return "string", term.text
    if sort in NUMBERS:
        return "number", Decimal(term.text)
    if sort == "boolean":
        return sort, term.text in ("true", "1")
    if sort == "date" and len(term.text) == len("YYYY-MM-DD"):
        return sort, term.text
    moment = re.fullmatch(r"(.{10}T(?!24).{8})(?:\.([0-9]{1,9}))?", term.text)
    if sort == "dateTime" and moment:
        return sort, (moment[1], (moment[2] or "").ljust(9, "0"))
    return None


def effective_truth(term):
    """The effective boolean value of a term (17.2.2); that of an ill-typed number or boolean is false."""
    value = known_value(term)
    if value and value[0] in ("string", "number", "boolean"):
        return bool(value[1])
    if term.language:
        return term.text != ""
    if value is None and term.datatype in [XSD + sort for sort in (*NUMBERS, "boolean")]:
        return False
    raise ExpressionError


def is_equal(left, right):
    """The operator `=`: by value, else RDFterm-equal, an error for two literals that are not one term (17.3, 17.4.1.7)."""
    values = known_value(left), known_value(right)
    if None not in values and values[0][0] == values[1][0]:
        return values[0][1] == values[1][1]
    if left != right and left.kind == right.kind == "literal":
        raise ExpressionError
    return left == right


def compare(sign, left, right):
    """The operators of comparison (17.3); terms other than literals of one known sort have no order."""
    if sign in ("=", "!="):
        return is_equal(left, right) == (sign == "=")
    values = known_value(left), known_value(right)
    if None in values or values[0][0] != values[1][0]:
        raise ExpressionError
    (_, one), (_, other) = values
    return {"<": one < other, ">": one > other, "<=": one <= other, ">=": one >= other}[sign]


def test(name, term):
    """The tests of a term (17.4.2.1 to 17.4.2.4)."""
    if name == "ISNUMERIC":
        value = known_value(term)
        return value is not None and value[0] == "number"
    return term.kind == {"ISBLANK": "blank", "ISLITERAL": "literal"}.get(name, "iri")


def is_string(term):
    """Whether a term is a string: a plain literal, or one with a tag (17.4.3.1.1)."""
    return term.kind == "literal" and not term.datatype


def access(name, term):
    """The accessors STR, LANG and DATATYPE (17.4.2.5 to 17.4.2.7), and STRLEN, which counts code points (17.4.3.2)."""
    if name == "STRLEN":
        if not is_string(term):
            raise ExpressionError
        return literal(str(len(term.text)), datatype=XSD + "integer")
    if term.kind == "blank" or name != "STR" and term.kind != "literal":
        raise ExpressionError
    if name == "DATATYPE":
        return iri(RDF + "langString" if term.language else term.datatype or XSD + "string")
    return literal(term.text if name == "STR" else term.language)


def test_strings(name, text, part):
    """STRSTARTS, STRENDS and CONTAINS (17.4.3.6 to 17.4.3.8), of strings that are compatible: the second is plain, or both have one tag."""
    if not (is_string(text) and is_string(part) and part.language in ("", text.language)):
        raise ExpressionError
    return {"STRSTARTS": text.text.startswith, "STRENDS": text.text.endswith, "CONTAINS": text.text.__contains__}[name](part.text)


def three_valued(sign, truths):
    """The connectives over true, false and error, which is None here and in the answer (17.2, table of || and &&)."""
    decisive = sign == "||"
    if decisive in truths:
        return decisive
    return None if None in truths else not decisive


def truth_of(expression, solution):
    """The effective boolean value of an expression, None for an error."""
    try:
        return effective_truth(value_of(expression, solution))
    except ExpressionError:
        return None


def value_of(expression, solution):
    """The term that an expression gives over a solution, or an error; a solution maps names of variables to terms."""
    match expression:
        case Term():
            return expression
        case Var(name):
            if name not in solution:
                raise ExpressionError
            return solution[name]
        case Call(name, (argument,)) if name in ACCESSORS:
            return access(name, value_of(argument, solution))
    truth = truth_of_call(expression, solution)
    if truth is None:
        raise ExpressionError
    return literal("true" if truth else "false", datatype=XSD + "boolean")


def truth_of_call(call, solution):
    """The truth of a call that gives a boolean; None stands for an error."""
    match call:
        case Call("BOUND", (Var(name),)):
            return name in solution
        case Call("||" | "&&" as sign, arguments):
            return three_valued(sign, [truth_of(argument, solution) for argument in arguments])
        case Call("!", (argument,)):
            truth = truth_of(argument, solution)
            return None if truth is None else not truth
    terms = [value_of(argument, solution) for argument in call.arguments]
    if call.name == "SAMETERM":
        return terms[0] == terms[1]
    if call.name in STRING_TESTS:
        return test_strings(call.name, *terms)
    return compare(call.name, *terms) if call.name in COMPARISONS else test(call.name, terms[0])
