"""The rules by which a mapping makes quads of rows: one for each class and graph, and one for each predicate, object and graph.

A rule is what R2RML, 11.1, generates of a triples map, with the terms as expressions of `plan_nodes.py` over the rows of its
table, or over the pairs of rows that a referencing object map joins (R2RML, 8).
"""
import re
from collections import namedtuple
from urllib.parse import unquote_to_bytes

from reference.datatypes import BadField, lexical_form
from reference.iris import iri_safe, is_unreserved
from reference.plan_nodes import Call, Column, call, moved, term_constant, text_constant
from reference.r2rml import ReferencingMap, TermMap
from reference.rdf import DEFAULT_GRAPH, RDF_TYPE, XSD

# `join` is None, or the parent's table and pairs of a child's and a parent's column. `graph` is None for the default graph. Where
# `may_be_default` is false no row makes rr:defaultGraph of the rule's graph.
QuadRule = namedtuple("QuadRule", "table join subject predicate object graph may_be_default")


# ---- terms (R2RML, 7 and 11.2) ----


def template_pieces(term_map, base, is_iri):
    """The pieces of a template; the base stands in front of one for IRIs that begins with no scheme (RFC 3986, 3.1)."""
    front = "".join(piece for piece in term_map.value[:1] if isinstance(piece, str))
    has_scheme = re.match("[A-Za-z][A-Za-z0-9+.-]*:", front)
    return term_map.value if has_scheme or not is_iri else [base, *term_map.value]


def piece_text(piece, is_iri):
    """The expression of a piece: a text, or the lexical form of a column, which is made IRI-safe in an IRI (7.3)."""
    if isinstance(piece, str):
        return text_constant(piece)
    form = call("LEX", Column(piece))
    return call("SAFE", form) if is_iri else form


def term_text_of(term_map, base, is_iri):
    """The expression of the text of which a column or a template makes a term (7.2 and 7.3)."""
    if term_map.form == "column":
        form = call("LEX", Column(term_map.value))
        return call("IRI_OF", text_constant(base), form) if is_iri else form
    texts = [piece_text(piece, is_iri) for piece in template_pieces(term_map, base, is_iri)]
    if len(texts) > 1:
        return Call("CONCAT", tuple(texts))
    return texts[0] if texts else text_constant("")


def annotation(term_map, table):
    """What stands behind a literal: a tag (7.5), a datatype (7.6), the natural one of a column (10.2), or nothing."""
    if term_map.language:
        return [text_constant("@" + term_map.language.lower())]
    kind = table.columns[term_map.value].kind if term_map.form == "column" else "string"
    datatype = term_map.datatype or XSD + kind
    return [] if datatype == XSD + "string" else [text_constant("^^" + datatype)]


def term_expression(term_map, role, table, base):
    """The expression of the term that a term map makes of a row of its table in a role (11.2)."""
    if term_map.form == "constant":
        return term_constant(term_map.value)
    term_type = term_map.type_in(role)
    text = term_text_of(term_map, base, term_type == "IRI")
    if term_type == "Literal":
        return call("LIT", text, *annotation(term_map, table))
    return call("IRI" if term_type == "IRI" else "BLANK", text)


# ---- whether a graph's name can be rr:defaultGraph (docs/DEFINITIONS.md, `verdict_of`) ----


def segments_of(pieces):
    """Pieces cut at the characters that no IRI-safe text holds: segments of characters and columns, and what they are cut at."""
    segments, breaks = [[]], []
    for piece in pieces:
        for part in [piece] if isinstance(piece, int) else piece:
            if isinstance(part, str) and not is_unreserved(part) and part != "%":
                breaks.append(part)
                segments.append([])
            else:
                segments[-1].append(part)
    return segments, breaks


def can_hold(kind, text):
    """Whether the IRI-safe form of a value of a kind can be this text."""
    try:
        form = unquote_to_bytes(text).decode()
        return iri_safe(form) == text and lexical_form(kind, form) == form
    except (UnicodeDecodeError, BadField):
        return False


def can_be(segment, text, table):
    """Whether a segment of a template can be a text; of one with more than a column alone no more is asked."""
    if not any(isinstance(part, int) for part in segment):
        return "".join(segment) == text
    return len(segment) > 1 or can_hold(table.columns[segment[0]].kind, text)


def may_be_default(graph, table, base):
    """Whether a graph map may make rr:defaultGraph of a row (R2RML, 9)."""
    if graph.form == "constant":
        return graph.value == DEFAULT_GRAPH
    if graph.form == "column":
        return True
    segments, breaks = segments_of(template_pieces(graph, base, True))
    texts, own_breaks = segments_of([DEFAULT_GRAPH.text])
    return breaks == own_breaks and all(can_be(one, "".join(text), table) for one, text in zip(segments, texts))


# ---- rules (R2RML, 6, 8, 9 and 11.1) ----


def constant(term):
    """The term map of a constant."""
    return TermMap("constant", term)


class RuleMaker:
    """Makes the rules of triples maps over tables."""

    def __init__(self, maps, tables, base):
        self.maps, self.tables, self.base = maps, tables, base

    def rules(self):
        """All rules, in the order of the mapping."""
        for triples_map in self.maps:
            classes = [constant(one) for one in triples_map.classes]
            yield from self.rules_of(triples_map, [constant(RDF_TYPE)], classes, triples_map.graphs)
            for part in triples_map.parts:
                yield from self.rules_of(triples_map, part.predicates, part.objects, triples_map.graphs + part.graphs)

    def rules_of(self, triples_map, predicates, objects, graphs):
        """The rules of each predicate with each object in each graph; without a graph map in the default graph."""
        table = self.tables[triples_map.table]
        subject = term_expression(triples_map.subject, "subject", table, self.base)
        for predicate in predicates:
            for one in objects:
                join, value = self.object_of(one, triples_map.table)
                verb = term_expression(predicate, "predicate", table, self.base)
                for graph in graphs or [None]:
                    name = graph and term_expression(graph, "graph", table, self.base)
                    is_open = graph is None or may_be_default(graph, table, self.base)
                    yield QuadRule(triples_map.table, join, subject, verb, value, name, is_open)

    def object_of(self, one, child):
        """The join of an object map, if it is a referencing one with conditions, and its term (8)."""
        if not isinstance(one, ReferencingMap):
            return None, term_expression(one, "object", self.tables[child], self.base)
        parent = self.maps[one.parent]
        subject = term_expression(parent.subject, "subject", self.tables[parent.table], self.base)
        if not one.conditions:
            return None, subject
        return (parent.table, one.conditions), moved(subject, len(self.tables[child].columns))


def quad_rules(maps, tables, base):
    """The rules of a mapping."""
    return list(RuleMaker(maps, tables, base).rules())
