"""R2RML: mappings as values, and the output dataset of a mapping over a database (R2RML, 6 to 9 and 11)."""
from dataclasses import dataclass, field
from itertools import product

from reference.datatypes import MOST_DIGITS, NUMBERS, is_well_typed, width
from reference.iris import iri_safe, is_absolute
from reference.rdf import DEFAULT_GRAPH, RDF_TYPE, XSD, Term, blank, iri, literal
from reference.refusal import Refused
from reference.tables import agree


@dataclass
class TermMap:
    """A term map: `form` is constant, column or template, and `value` a term, a column's place, or a template.

    A template is a list of its pieces: texts, and places of columns. `term_type` is None where the default of 7.4 holds.
    """

    form: str
    value: Term | int | list[str | int] | None
    term_type: str | None = None
    language: str | None = None
    datatype: str | None = None

    def type_in(self, role):
        """The term type in a role: subject, predicate, object or graph (R2RML, 7.4)."""
        if self.term_type:
            return self.term_type
        is_literal = role == "object" and (self.form == "column" or self.language or self.datatype)
        return "Literal" if is_literal else "IRI"


@dataclass
class ReferencingMap:
    """A referencing object map (8): the number of its parent, and join conditions as pairs of a child's and a parent's column."""

    parent: int
    conditions: list[tuple[int, int]]


@dataclass
class PredicateObjectMap:
    """A predicate-object map (6.3), with its graph maps."""

    predicates: list[TermMap]
    objects: list[TermMap | ReferencingMap]
    graphs: list[TermMap] = field(default_factory=list)


@dataclass
class TriplesMap:
    """A triples map (6) over the table of a number; classes and graph maps are those of its subject map."""

    table: int
    subject: TermMap
    classes: list[Term] = field(default_factory=list)
    graphs: list[TermMap] = field(default_factory=list)
    parts: list[PredicateObjectMap] = field(default_factory=list)


class DataError(Exception):
    """A term map makes no valid term of a row (R2RML, 4.3); its argument is the code."""


# ---- terms (7 and 11.2) ----


def generated_text(term_map, row, is_iri):
    """The text that a column or a template makes of a row, None where a column of it is NULL (7.2, 7.3 and 11.2)."""
    if term_map.form == "column":
        return row[term_map.value]
    pieces = []
    for piece in term_map.value:
        form = row[piece] if isinstance(piece, int) else piece
        if form is None:
            return None
        pieces.append(iri_safe(form) if is_iri and isinstance(piece, int) else form)
    return "".join(pieces)


def generated_iri(text, base):
    """The IRI of a text: itself, or behind the base, which is put in front as it is (11.2, 5)."""
    found = text if is_absolute(text) else base + text
    if not is_absolute(found):
        raise DataError("X01")
    return iri(found)


def typed_literal(text, datatype):
    """The literal of a text with an `rr:datatype` (10.3); an ill-typed one is a data error, and so is a number too wide."""
    if not is_well_typed(text, datatype):
        raise DataError("X02")
    if datatype in [XSD + kind for kind in NUMBERS] and width(text) > MOST_DIGITS:
        raise DataError("X03")
    return literal(text, datatype=datatype)


def generated_literal(term_map, text, table):
    """The literal of a text: with the language or datatype of its term map, or the natural datatype of a column (11.2)."""
    if term_map.language:
        return literal(text, term_map.language)
    if term_map.datatype:
        return typed_literal(text, term_map.datatype)
    kind = table.columns[term_map.value].kind if term_map.form == "column" else "string"
    return literal(text, datatype=XSD + kind)


def generated_term(term_map, role, table, row, base):
    """The term that a term map makes of a row of its table in a role, or None (11.2)."""
    if term_map.form == "constant":
        return term_map.value
    term_type = term_map.type_in(role)
    text = generated_text(term_map, row, term_type == "IRI")
    if text is None:
        return None
    if term_type == "BlankNode":
        return blank(text)
    return generated_iri(text, base) if term_type == "IRI" else generated_literal(term_map, text, table)


def generated(term_maps, role, table, row, base):
    """The terms that some term maps make of a row, without those that make none."""
    terms = [generated_term(term_map, role, table, row, base) for term_map in term_maps]
    return [term for term in terms if term is not None]


# ---- data errors (4.3) ----


def numbered(triples_map):
    """The term maps in the order of their numbers from 0, each with its role; None stands for a referencing object map."""
    yield triples_map.subject, "subject"
    yield from ((graph, "graph") for graph in triples_map.graphs)
    for part in triples_map.parts:
        yield from ((predicate, "predicate") for predicate in part.predicates)
        yield from ((None if isinstance(one, ReferencingMap) else one, "object") for one in part.objects)
        yield from ((graph, "graph") for graph in part.graphs)


def check_data(maps, tables, base):
    """Refuses the least data error by triples map, row and term map; every term map is asked over every row."""
    for map_number, triples_map in enumerate(maps, 1):
        table = tables[triples_map.table]
        for row_number, row in enumerate(table.rows, 1):
            for number, (term_map, role) in enumerate(numbered(triples_map)):
                try:
                    if term_map is not None:
                        generated_term(term_map, role, table, row, base)
                except DataError as error:
                    raise Refused(error.args[0], f"{map_number}:{row_number}:{number}") from None


# ---- triples (11.1) ----


def objects_of(one, maps, tables, table, row, base):
    """The objects that an object map or a referencing object map makes of a row (8 and 11.1)."""
    if not isinstance(one, ReferencingMap):
        return generated([one], "object", table, row, base)
    parent = maps[one.parent]
    rows = tables[parent.table].rows if one.conditions else [row]
    return [term for other in rows if agree(row, other, one.conditions)
            for term in generated([parent.subject], "subject", tables[parent.table], other, base)]


def quads_of_row(triples_map, maps, tables, row, base):
    """The quads that a triples map makes of a row, by the steps of 11.1; without a graph map they are in the default graph."""
    table = tables[triples_map.table]
    subjects = generated([triples_map.subject], "subject", table, row, base)
    subject_graphs = generated(triples_map.graphs, "graph", table, row, base)
    yield from product(subjects, [RDF_TYPE], triples_map.classes, subject_graphs if triples_map.graphs else [DEFAULT_GRAPH])
    for part in triples_map.parts:
        predicates = generated(part.predicates, "predicate", table, row, base)
        objects = [term for one in part.objects for term in objects_of(one, maps, tables, table, row, base)]
        graphs = subject_graphs + generated(part.graphs, "graph", table, row, base)
        yield from product(subjects, predicates, objects, graphs if triples_map.graphs or part.graphs else [DEFAULT_GRAPH])


def output_dataset(maps, tables, base):
    """The quads of the output dataset of a mapping (11), or its first data error; rr:defaultGraph is the default graph (9)."""
    check_data(maps, tables, base)
    return {(*triple, None if graph == DEFAULT_GRAPH else graph)
            for triples_map in maps for row in tables[triples_map.table].rows
            for *triple, graph in quads_of_row(triples_map, maps, tables, row, base)}
