"""The R2RML mapping that a graph is over a schema (R2RML, 5 to 9), with the checks M06 to M22 of docs/DIAGNOSTICS.md."""
import re

from reference.datatypes import is_wide_number
from reference.r2rml import PredicateObjectMap, ReferencingMap, TermMap, TriplesMap
from reference.rdf import RDF, RDF_TYPE, RR, iri
from reference.refusal import Refused
from reference.schemas import find
from reference.tables import family
from reference.templates import BadTemplate, is_doubtful, name_token, pieces_of

TERM_TYPES = {
    "subject": ("IRI", "BlankNode"),
    "predicate": ("IRI",),
    "graph": ("IRI",),
    "object": ("IRI", "BlankNode", "Literal"),
}
TAG = "[A-Za-z]+(-[A-Za-z0-9]+)*"
MOST_MAPS = 1024


def is_plain(term):
    """Whether a term is a plain literal."""
    return term.kind == "literal" and not term.language and not term.datatype


class MappingReader:
    """Reads triples maps; `failed` gathers pairs of a triples map's number and the code of a check that fails of it."""

    def __init__(self, triples, tables):
        self.tables, self.properties, self.failed, self.number = tables, {}, set(), 0
        for subject, predicate, value in triples:
            if predicate.text.startswith(RR):
                self.properties.setdefault(subject, []).append((predicate.text.removeprefix(RR), value))
        self.nodes = list(dict.fromkeys(
            subject for subject, predicate, value in triples
            if predicate.text == RR + "logicalTable" or (predicate, value) == (RDF_TYPE, iri(RR + "TriplesMap"))))

    def pairs(self, node, *names):
        """The values of some properties of a node in the order of the document, each as a pair with its property's name."""
        return [(name, value) for name, value in self.properties.get(node, ()) if name in names]

    def values(self, node, name):
        """The values of a property of a node."""
        return [value for _, value in self.pairs(node, name)]

    def fail(self, code):
        """Notes that a check fails of the triples map that is being read."""
        self.failed.add((self.number, code))

    def mapping(self):
        """Reads all triples maps."""
        maps = []
        for node in self.nodes:
            self.number += 1
            maps.append(self.triples_map(node))
        return maps

    # ---- tables and columns (5.1, 7.2) ----

    def table_of(self, node):
        """The table of a triples map, or None, and the code of the check that fails, or None."""
        found = self.values(node, "logicalTable")
        if len(found) != 1 or found[0].kind == "literal":
            return None, "M06"
        names = self.pairs(found[0], "tableName", "sqlQuery")
        if len(names) != 1:
            return None, "M07"
        [(name, value)] = names
        if name == "sqlQuery":
            return None, "M08"
        token = name_token(value.text) if is_plain(value) else None
        if token is None:
            return None, "M07"
        table = find(token, [one.name for one in self.tables])
        return table, "M09" if table is None else None

    def column(self, token, table):
        """The place of the column that a token means, or None; where the table is not known, only that it is a name is asked."""
        if token is None:
            self.fail("M12")
        if token is None or table is None:
            return None
        place = find(token, [column.name for column in self.tables[table].columns])
        if place is None:
            self.fail("M12")
        return place

    # ---- term maps (7) ----

    def term_maps(self, node, role, table):
        """The term maps of a node in a role, in the order of their triples, constant shortcuts among them (7.1)."""
        return [self.constant(value, role) if name == role else self.term_map(value, role, table)
                for name, value in self.pairs(node, role, role + "Map")]

    def term_map(self, node, role, table):
        """The term map at a node; None where it is of no kind."""
        forms = self.pairs(node, "constant", "column", "template")
        if node.kind == "literal" or len(forms) != 1:
            return self.fail("M11")
        [(form, value)] = forms
        if form == "constant":
            return self.constant(value, role)
        if not is_plain(value):
            return self.fail("M11")
        term_map = TermMap(form, None)
        is_typed = self.read_term_type(node, role, term_map)
        self.read_annotation(node, role, term_map)
        if form == "column":
            term_map.value = self.column(name_token(value.text), table)
        else:
            term_map.value = self.template(value.text, is_typed and term_map.type_in(role) == "IRI", table)
        return term_map

    def constant(self, value, role):
        """The constant-valued term map of a value (7.1); rdf:langString is no datatype of a literal without a tag."""
        if value.kind == "blank" or value.kind == "literal" and role != "object" or value.datatype == RDF + "langString":
            self.fail("M11")
        if is_wide_number(value.text, value.datatype):
            self.fail("M22")
        return TermMap("constant", value)

    def template(self, text, is_iri, table):
        """The pieces of a template (7.3), with the places of columns."""
        try:
            pieces = pieces_of(text)
        except BadTemplate:
            return self.fail("M13")
        if is_iri and is_doubtful(pieces):
            self.fail("M14")
        return [piece if isinstance(piece, str) else self.column(piece, table) for piece in pieces]

    def read_term_type(self, node, role, term_map):
        """Reads the term type of a term map (7.4); says whether it is allowed."""
        types = self.values(node, "termType")
        is_allowed = not types or len(types) == 1 and types[0] in [iri(RR + name) for name in TERM_TYPES[role]]
        if not is_allowed:
            self.fail("M15")
        elif types:
            term_map.term_type = types[0].text.removeprefix(RR)
        return is_allowed

    def read_annotation(self, node, role, term_map):
        """Reads the language tag (7.5) or the datatype (7.6) of a term map; they are for literals, and not both."""
        found = self.pairs(node, "language", "datatype")
        for name, value in found[:1]:
            setattr(term_map, name, value.text)
            is_tag = is_plain(value) and re.fullmatch(TAG, value.text)
            is_datatype = value.kind == "iri" and value.text != RDF + "langString"
            if not (is_tag if name == "language" else is_datatype):
                self.fail("M16")
        if len(found) > 1 or found and term_map.type_in(role) != "Literal":
            self.fail("M16")

    # ---- referencing object maps (8) ----

    def referencing_map(self, node, table):
        """The referencing object map at a node."""
        if self.pairs(node, "constant", "column", "template"):
            self.fail("M11")
        parents = self.values(node, "parentTriplesMap")
        parent, parent_table = None, None
        if len(parents) == 1 and parents[0] in self.nodes:
            parent = self.nodes.index(parents[0])
            parent_table, _ = self.table_of(parents[0])
        else:
            self.fail("M18")
        conditions = self.values(node, "joinCondition")
        if not conditions and None not in (table, parent_table) and table != parent_table:
            self.fail("M19")
        return ReferencingMap(parent, [self.condition(one, table, parent_table) for one in conditions])

    def condition(self, node, table, parent_table):
        """The pair of columns of a join condition, or None; each value of rr:child and rr:parent has to be a column."""
        places, is_single = [], node.kind != "literal"
        for name, owner in (("child", table), ("parent", parent_table)):
            values = self.values(node, name)
            is_single = is_single and len(values) == 1
            places += [self.column(name_token(value.text) if is_plain(value) else None, owner) for value in values]
        if not is_single:
            return self.fail("M19")
        if None in places:
            return None
        child, parent = places
        if family(self.tables[table].columns[child].kind) != family(self.tables[parent_table].columns[parent].kind):
            self.fail("M20")
        return child, parent

    # ---- triples maps (6) ----

    def triples_map(self, node):
        """The triples map at a node."""
        table, code = self.table_of(node)
        if code:
            self.fail(code)
        subjects = self.pairs(node, "subject", "subjectMap")
        if len(subjects) != 1:
            self.fail("M10")
        found = TriplesMap(table, None)
        for name, value in subjects:
            if name == "subject":
                found.subject = self.constant(value, "subject")
            else:
                found.subject = self.term_map(value, "subject", table)
                found.graphs = self.term_maps(value, "graph", table)
                found.classes = self.values(value, "class")
            if any(one.kind != "iri" for one in found.classes):
                self.fail("M11")
        found.parts = [self.predicate_object_map(value, table) for value in self.values(node, "predicateObjectMap")]
        return found

    def predicate_object_map(self, node, table):
        """The predicate-object map at a node (6.3)."""
        part = PredicateObjectMap(self.term_maps(node, "predicate", table), [], self.term_maps(node, "graph", table))
        for name, value in self.pairs(node, "object", "objectMap"):
            if name == "object":
                part.objects.append(self.constant(value, "object"))
            elif self.values(value, "parentTriplesMap"):
                part.objects.append(self.referencing_map(value, table))
            else:
                part.objects.append(self.term_map(value, "object", table))
        if node.kind == "literal" or not part.predicates or not part.objects:
            self.fail("M17")
        return part


def read_mapping(triples, tables):
    """The triples maps of a graph over a schema; refused at the least pair of a triples map and a check."""
    reader = MappingReader(triples, tables)
    if not reader.nodes:
        raise Refused("M21", 0)
    if len(reader.nodes) > MOST_MAPS:
        raise Refused("M22", 0)
    maps = reader.mapping()
    if reader.failed:
        number, code = min(reader.failed)
        raise Refused(code, number)
    return maps
