"""Faults in the graph of a mapping: properties of its nodes that are deleted, added, copied or changed."""
import re

from random_inputs.mapping_nodes import Node
from reference.rdf import RDF, RR, XSD, Term, iri, literal

# Neighbours are mistaken for each other.
PROPERTIES = (
    "logicalTable tableName sqlQuery subject subjectMap class graph graphMap predicateObjectMap predicate predicateMap object "
    "objectMap constant column template termType language datatype parentTriplesMap joinCondition child parent"
).split()
TEXTS = ["", "nope", '"nope"', '"', "{", "{}", "a{x}:b", "{x}:y", "\\{x}", "x\\", 'http://e/{"x}', "en", "en-", "1", "e_n"]
VALUES = [*map(literal, TEXTS), literal("a", "en"), literal("0." + 39 * "1", datatype=XSD + "decimal"), Term("blank", "none")]
VALUES += [literal(text, datatype=XSD + "integer") for text in ("1", 40 * "9")]
VALUES += [iri(RR + name) for name in ("IRI", "BlankNode", "Literal", "defaultGraph")]
VALUES += [iri(text) for text in (XSD + "integer", RDF + "langString", "http://e/none")]


def another_value(chance, value, used):
    """Another value for a property: as a rule of the same kind of term; else any, empty brackets among them."""
    terms = chance.choice([VALUES, used])
    if isinstance(value, Node) or chance.happens(0.3):
        return chance.choice([*terms, Node()])
    if "{" in value.text and chance.happens(0.3):  # a template whose first hole would be its scheme
        return literal(re.sub(r"[^{]*(\{[^}]*\})", r"\1:", value.text, count=1))
    return chance.choice([term for term in terms if term.kind == value.kind] or VALUES)


def another_name(chance, name):
    """Another name for a property: a neighbour of it in half of the cases."""
    known = name.removeprefix(RR)
    if known in PROPERTIES and chance.happens(0.5):
        return RR + PROPERTIES[(PROPERTIES.index(known) + chance.choice([-1, 1])) % len(PROPERTIES)]
    return RR + chance.choice(PROPERTIES)


def change(chance, nodes, used):
    """Changes one property of the nodes; `used` are the terms that stand in them."""
    node, place = chance.choice([(node, place) for node in nodes for place in range(len(node.properties))])
    name, value = node.properties[place]
    match chance.choice(["delete", "value", "value", "name", "copy", "add"]):
        case "delete":
            del node.properties[place]
        case "value":
            node.properties[place] = name, another_value(chance, value, used)
        case "name":
            node.properties[place] = another_name(chance, name), value
        case "copy" if not isinstance(value, Node):
            chance.choice(nodes).properties.append((name, value))
        case "add":
            node.properties.append((chance.choice([name, another_name(chance, name)]), another_value(chance, value, used)))


def spoil(chance, nodes):
    """Makes one to three changes to the nodes of triples maps, or to those within them."""
    for _ in range(chance.choice([1, 1, 1, 2, 3])):
        found = [one for node in nodes for one in node.within()]
        used = [value for one in found for _, value in one.properties if not isinstance(value, Node)]
        if any(one.properties for one in found):
            change(chance, found, used)
