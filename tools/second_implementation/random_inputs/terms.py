"""Terms of all sorts, for queries: literals of the profile's datatypes and of others, well typed and not, and IRIs."""
from reference.iris import resolve
from reference.rdf import RDF, XSD, iri, literal

TEXTS = {
    "string": ["", "a", "A", "b", "aa", "Ann", "é", "😀", "\uffff", "7", "true", "2024-02-29", "en", "en-gb", " "],
    "integer": ["0", "-0", "+0", "00", "1", "01", "+1", "-1", "-3", "7", "07", "10", "9", 38 * "9", "-" + 38 * "9", "x", "", " 7",
                "1.0", "1e0", "--1", "1 "],
    "decimal": ["0", "0.0", "-0.0", "1", "1.0", "01.10", "1.1", ".5", "0.5", "5.", "-.5", "7.0", "9.99", 37 * "9" + ".9",
                37 * "9" + "8.0", 38 * "9", "x", ".", "", "1e0", "+.5"],
    "boolean": ["true", "false", "1", "0", "TRUE", "x", "", " true", "t"],
    "date": ["2024-02-29", "2023-02-29", "1999-04-01", "0001-01-01", "9999-12-31", "2024-02-29Z", "2024-02-29+01:00",
             "2024-2-29", "x", "0000-01-01", "-0001-01-01", "12024-01-01", "2024-02-29-14:00", "2024-02-29+14:30"],
    "dateTime": ["2024-02-29T12:00:00", "2024-02-29T12:00:00.0", "2024-02-29T12:00:00.5", "2024-02-29T12:00:00.50",
                 "2024-02-29T12:00:00.500000001", "2024-02-29T12:00:00.1234567891", "2024-02-29T12:00:00Z", "2024-02-29T12:00:00.",
                 "2024-02-29T12:00:00+00:00", "2024-02-29T13:00:00+01:00", "2024-02-28T24:00:00", "2024-02-29T00:00:00",
                 "2024-02-29 12:00:00", "2024-02-29T12:00", "2024-02-29T25:00:00", "x", "2024-02-29T24:00:00",
                 "2024-03-01T00:00:00", "2024-02-29T12:00:60", "2023-02-29T12:00:00", "0001-01-01T00:00:00"],
    "double": ["1e0"],
    "float": ["1"],
    "int": ["1"],
    "hexBinary": ["0AFF", "0aff"],
    "time": ["12:00:00", "12:00:00.50", "24:00:00", "x"],
    "nonNegativeInteger": ["0"],
}
LITERALS = [literal(text, datatype=XSD + sort) for sort, texts in TEXTS.items() for text in texts]
LITERALS += [literal(text, tag) for text, tag in [("a", "en"), ("A", "en-GB"), ("a", "fr"), ("", "en"), ("b", "en"), ("aé", "en")]]
LITERALS += [literal(text, datatype="urn:d:t") for text in "xy"]
IRIS = [iri(text) for text in ("http://e/none", "http://e/x/1", "urn:a:b", RDF + "langString")]
IRIS += [iri(XSD + sort) for sort in ("integer", "decimal", "string", "date")]


def can_be_written(term):
    """Whether a query of the profile can name a term.

    It can name no blank node, no xsd:double, and no IRI with dot segments: such an IRI loses them where a query writes it
    (docs/DECISIONS.md), so that a query finds it by a variable alone.
    """
    if term.kind == "iri":
        return resolve("http://e/", term.text) == term.text
    return term.kind == "literal" and term.datatype not in (XSD + "double", XSD + "float")
