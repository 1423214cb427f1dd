"""Fields of tables by the kinds of their columns (R2RML, 10.2), and literals by their datatypes (XML Schema 1.1 Part 2).

A kind is called by its natural datatype: string, integer, decimal, boolean, date, dateTime, hexBinary or time.
"""
import datetime
import re

from reference.rdf import XSD

NUMBERS = ("integer", "decimal")
MOST_DIGITS = 38

INTEGER = "[+-]?[0-9]+"
DECIMAL = r"[+-]?([0-9]+(\.[0-9]*)?|\.[0-9]+)"
DATE = "[0-9]{4}-[0-9]{2}-[0-9]{2}"
CLOCK = "([01][0-9]|2[0-3]):[0-5][0-9]:[0-5][0-9]"
ZONE = "(Z|[+-](0[0-9]|1[0-3]):[0-5][0-9]|[+-]14:00)?"

# What a CSV file may hold (README.md).
FIELDS = {
    "string": "(?s:.*)",
    "integer": INTEGER,
    "decimal": DECIMAL,
    "boolean": "(?ai:true|t|1|false|f|0)",
    "date": DATE,
    "dateTime": DATE + "[T ]" + CLOCK + r"(\.[0-9]{1,9})?",
    "hexBinary": "([0-9A-Fa-f]{2})*",
    "time": CLOCK + r"(\.[0-9]{1,9})?",
}

# XML Schema 1.1 Part 2: 3.4.13, 3.3.3, 3.3.2, 3.3.9 and 3.3.7, the last two with years of four digits.
LEXICAL_SPACES = {
    XSD + "integer": INTEGER,
    XSD + "decimal": DECIMAL,
    XSD + "boolean": "true|false|1|0",
    XSD + "date": DATE + ZONE,
    XSD + "dateTime": DATE + "T(" + CLOCK + r"(\.[0-9]+)?|24:00:00(\.0+)?)" + ZONE,
}


class BadField(Exception):
    """A field is none of its column's kind; its argument is the code."""


def is_day(text):
    """Whether a text of the form YYYY-MM-DD is a day of the calendar, of the years 0001 to 9999."""
    try:
        datetime.date.fromisoformat(text)
    except ValueError:
        return False
    return True


def width(number):
    """How many digits of an integer or a decimal count: zeros at either end do not."""
    whole, _, fraction = number.lstrip("+-").partition(".")
    return len(whole.lstrip("0")) + len(fraction.rstrip("0"))


def canonical_number(number):
    """The canonical form of an integer or a decimal (XML Schema 1.1 Part 2, decimalCanonicalMap)."""
    whole, _, fraction = number.lstrip("+-").partition(".")
    form = ".".join(part for part in (whole.lstrip("0") or "0", fraction.rstrip("0")) if part)
    return "-" + form if number.startswith("-") and form != "0" else form


def lexical_form(kind, field):
    """The canonical form of the natural lexical form of a field (R2RML, 10.2); BadField where the kind has no such field."""
    if not re.fullmatch(FIELDS[kind], field) or kind in ("date", "dateTime") and not is_day(field[:10]):
        raise BadField("T06")
    if kind in NUMBERS:
        if width(field) > MOST_DIGITS:
            raise BadField("T08")
        return canonical_number(field)
    if kind == "boolean":
        return "true" if field[0] in "tT1" else "false"
    if kind in ("dateTime", "time"):
        moment = field.replace(" ", "T")
        return moment.rstrip("0").rstrip(".") if "." in moment else moment
    return field.upper() if kind == "hexBinary" else field


def is_well_typed(text, datatype):
    """Whether a text is in the lexical space of a datatype; true of every datatype whose space is not known here.

    Like vkg this knows five datatypes. R2RML, 10.3, asks for the spaces of xsd:hexBinary, xsd:double and xsd:time as well:
    that departure stands in docs/DECISIONS.md.
    """
    if datatype not in LEXICAL_SPACES:
        return True
    is_of_form = re.fullmatch(LEXICAL_SPACES[datatype], text) is not None
    return is_of_form and (datatype not in (XSD + "date", XSD + "dateTime") or is_day(text[:10]))


def is_wide_number(text, datatype):
    """Whether a literal is a number, well typed and of more digits than vkg computes with."""
    is_number = datatype in (XSD + "integer", XSD + "decimal") and is_well_typed(text, datatype)
    return is_number and width(text) > MOST_DIGITS
