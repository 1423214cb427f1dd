"""RDF terms, quads and their lines (RDF 1.1 Concepts, 3 and 4; RDF 1.1 N-Quads, 2 and 4).

A triple is a tuple of three terms. A quad is one of four, whose last is the name of a graph, or None for the default graph.
A dataset as queries see it is a dictionary from names of graphs, None among them, to lists of triples.
"""
from typing import NamedTuple

XSD = "http://www.w3.org/2001/XMLSchema#"
RDF = "http://www.w3.org/1999/02/22-rdf-syntax-ns#"
RR = "http://www.w3.org/ns/r2rml#"

ESCAPES = str.maketrans({"\\": "\\\\", '"': '\\"', "\n": "\\n", "\r": "\\r", "\t": "\\t"})


class Term(NamedTuple):
    """An IRI, a blank node (its text is the label), or a literal with a language tag, a datatype or neither of them."""

    kind: str
    text: str
    language: str = ""
    datatype: str = ""


def iri(text):
    """The IRI of this text."""
    return Term("iri", text)


def blank(text):
    """The blank node of a text (R2RML, 11.2): its label is `b` and the text's UTF-8 in hexadecimal, which is vkg's own."""
    return Term("blank", "b" + text.encode().hex())


def literal(text, language="", datatype=""):
    """A literal: tags are kept in lower case, and xsd:string is the datatype of plain ones (RDF 1.1 Concepts, 3.3)."""
    return Term("literal", text, language.lower(), "" if datatype == XSD + "string" else datatype)


RDF_TYPE = iri(RDF + "type")
DEFAULT_GRAPH = iri(RR + "defaultGraph")


def term_text(term):
    """A term as N-Quads has it (4); a tab is written as an escape, as docs/DECISIONS.md has it."""
    if term.kind == "iri":
        return f"<{term.text}>"
    if term.kind == "blank":
        return "_:" + term.text
    string = '"' + term.text.translate(ESCAPES) + '"'
    if term.language:
        return f"{string}@{term.language}"
    return f"{string}^^<{term.datatype}>" if term.datatype else string


def in_byte_order(lines):
    """Lines in the order of their bytes."""
    return sorted(lines, key=str.encode)


def quad_line(quad):
    """The line of a quad, without its line feed."""
    return " ".join(term_text(term) for term in quad if term is not None) + " ."


def dump_lines(quads):
    """The lines of quads, each once, in the order of their bytes."""
    return in_byte_order({quad_line(quad) for quad in quads})


def dataset_of(quads):
    """The dataset of a set of quads; the default graph is there even where it is empty (RDF 1.1 Concepts, 4)."""
    graphs = {None: []}
    for *triple, graph in sorted(quads, key=repr):
        graphs.setdefault(graph, []).append(tuple(triple))
    return graphs
