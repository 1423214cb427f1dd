"""Mappings as nodes of an R2RML graph (R2RML, 5 to 9), each part in one of the forms that the language gives it."""
import re
from dataclasses import dataclass, field

from random_inputs.schema_text import delimited
from reference.r2rml import ReferencingMap
from reference.rdf import RDF, RR, Term, iri, literal

COMMENT = "http://www.w3.org/2000/01/rdf-schema#comment"


@dataclass(eq=False)
class Node:
    """A node: an IRI, a blank node or, without a name, brackets. A property is a pair of its IRI and a term or a node."""

    name: Term | None = None
    properties: list = field(default_factory=list)

    def add(self, name, *values):
        """Adds values of a property of R2RML."""
        self.properties += [(RR + name, value) for value in values]
        return self

    def within(self):
        """This node and those that stand within it."""
        found = [self]
        for _, value in self.properties:
            found += value.within() if isinstance(value, Node) else []
        return found


class MappingNodes:
    """Makes the nodes of the triples maps of a mapping, which stand in `nodes` in the order of the maps."""

    def __init__(self, chance, tables, maps, base):
        self.chance, self.tables, self.maps, self.count = chance, tables, maps, 0
        start = chance.choice(["http://maps.org/m#", base + "map", "urn:m:"])
        self.nodes = [Node(Term("blank", f"m{number}") if chance.happens(0.2) else iri(f"{start}{number}"))
                      for number in range(len(maps))]
        for number in range(len(maps)):
            self.fill(number)

    # ---- names ----

    def name(self, name):
        """The name of a table or a column: as it is, in another case, or in quotes."""
        if name.startswith('"') or self.chance.happens(0.2):
            return delimited(name)
        return self.chance.any_case(name) if self.chance.happens(0.2) else name

    def column(self, table, place):
        """The name of a column, as a literal."""
        return literal(self.name(self.tables[table].columns[place].name))

    def template(self, table, pieces):
        """The text of a template, with braces and backslashes escaped (7.3), as a literal."""
        texts = [piece if isinstance(piece, str) else self.column(table, piece).text for piece in pieces]
        masked = [re.sub(r"([\\{}])", r"\\\1", text) for text in texts]
        return literal("".join(text if isinstance(piece, str) else "{" + text + "}" for piece, text in zip(pieces, masked)))

    # ---- nodes ----

    def node(self):
        """A node for a part of a mapping: brackets as a rule."""
        self.count += 1
        if self.chance.happens(0.8):
            return Node()
        return Node(self.chance.choice([iri(f"http://maps.org/n{self.count}"), Term("blank", f"n{self.count}")]))

    def decorated(self, node):
        """A node with its properties shuffled, and at times with one that means nothing, or one twice."""
        if self.chance.happens(0.05):
            node.properties.append((COMMENT, literal("rr:column")))
        repeatable = [pair for pair in node.properties if not isinstance(pair[1], Node) or pair[1].name is not None]
        if repeatable and self.chance.happens(0.05):
            node.properties.append(self.chance.choice(repeatable))
        self.chance.shuffle(node.properties)
        return node

    # ---- term maps (7) ----

    def term_map(self, table, term_map):
        """The node of a term map."""
        node = self.node()
        if term_map.form == "constant":
            node.add("constant", term_map.value)
        elif term_map.form == "column":
            node.add("column", self.column(table, term_map.value))
        else:
            node.add("template", self.template(table, term_map.value))
        if term_map.term_type:
            node.add("termType", iri(RR + term_map.term_type))
        if term_map.language:
            node.add("language", literal(term_map.language))
        if term_map.datatype:
            node.add("datatype", iri(term_map.datatype))
        return self.decorated(node)

    def add_term_map(self, node, role, table, term_map):
        """Adds a term map in a role to a node, a constant by its shortcut at random (7.1)."""
        if term_map.form == "constant" and self.chance.happens(0.7):
            node.add(role, term_map.value)
        else:
            node.add(role + "Map", self.term_map(table, term_map))

    def referencing_map(self, table, one):
        """The node of a referencing object map (8)."""
        node = self.node().add("parentTriplesMap", self.nodes[one.parent].name)
        for child, parent in one.conditions:
            condition = self.node().add("child", self.column(table, child))
            condition.add("parent", self.column(self.maps[one.parent].table, parent))
            node.add("joinCondition", self.decorated(condition))
        return self.decorated(node)

    # ---- triples maps (6) ----

    def part(self, table, part):
        """The node of a predicate-object map."""
        node = self.node()
        for predicate in part.predicates:
            self.add_term_map(node, "predicate", table, predicate)
        for one in part.objects:
            if isinstance(one, ReferencingMap):
                node.add("objectMap", self.referencing_map(table, one))
            else:
                self.add_term_map(node, "object", table, one)
        for graph in part.graphs:
            self.add_term_map(node, "graph", table, graph)
        return self.decorated(node)

    def add_subject(self, node, one):
        """Adds the subject map of a triples map to its node, with its classes and graph maps."""
        if one.subject.form == "constant" and not one.classes and not one.graphs and self.chance.happens(0.5):
            node.add("subject", one.subject.value)
            return
        subject = self.term_map(one.table, one.subject).add("class", *one.classes)
        for graph in one.graphs:
            self.add_term_map(subject, "graph", one.table, graph)
        node.add("subjectMap", self.decorated(subject))

    def fill(self, number):
        """Gives the node of a triples map its properties."""
        one, node = self.maps[number], self.nodes[number]
        node.add("logicalTable", self.node().add("tableName", literal(self.name(self.tables[one.table].name))))
        self.add_subject(node, one)
        node.add("predicateObjectMap", *[self.part(one.table, part) for part in one.parts])
        if self.chance.happens(0.3):
            node.properties.append((RDF + "type", iri(RR + "TriplesMap")))
        self.decorated(node)
