"""Nodes as a Turtle document, each part in one of its spellings (RDF 1.1 Turtle, 2 and 6.5)."""
from random_inputs.mapping_nodes import Node
from random_inputs.spelling import TermWriter, joined
from reference.rdf import RDF, RR, XSD

PREFIXES = [("xsd", XSD), ("ex", "http://e/"), ("rdf", RDF), ("e.x-1", "http://ex.org/ns#"), ("é", "urn:a:")]
BASES = [None, None, None, "http://e/", "http://other.org/a/b?c#d"]


class TurtleWriter:
    """Writes the nodes of some triples maps; nodes with names, to which they lead, get statements behind theirs."""

    def __init__(self, chance, nodes, base):
        self.chance, self.nodes, self.own_base, self.later = chance, nodes, chance.choice(BASES), []
        prefixes = {chance.choice(["rr", "rr", "r", ""]): RR}
        prefixes.update(pair for pair in PREFIXES if chance.happens(0.6))
        self.terms = TermWriter(chance, prefixes, self.own_base or base, ("integer", "decimal", "double"), 0.05)

    def declarations(self):
        """The tokens of the base and of the prefixes, in either form (2.4)."""
        tokens = []
        if self.own_base:
            iri = f"<{self.own_base}>"
            tokens += self.chance.choice([["@base", iri, "."], [self.chance.any_case("BASE"), iri]])
        for prefix, text in self.terms.prefixes.items():
            pair = [prefix + ":", f"<{text}>"]
            tokens += ["@prefix", *pair, "."] if self.chance.happens(0.7) else [self.chance.any_case("PREFIX"), *pair]
        return tokens

    def value(self, value):
        """The tokens of a value of a property."""
        if not isinstance(value, Node):
            return self.terms.term(value)
        if value.name is None:
            return ["[", *self.properties(value.properties), "]"]
        if value not in self.later:
            self.later.append(value)
        return self.terms.term(value.name)

    def properties(self, pairs):
        """The tokens of properties, those of one predicate that stand side by side as a list at random (2.3)."""
        tokens, before = [], None
        for name, value in pairs:
            if name == before and self.chance.happens(0.6):
                tokens.append(",")
            else:
                tokens += [] if before is None else [";"] * self.chance.choice([1, 1, 1, 1, 2])
                tokens.append("a" if name == RDF + "type" and self.chance.happens(0.7) else self.terms.iri(name))
            tokens += self.value(value)
            before = name
        return tokens + ([";"] if before is not None and self.chance.happens(0.1) else [])

    def statements(self, node):
        """The tokens of one statement or two with a node's properties; none where it has none."""
        cut = self.chance.randrange(len(node.properties)) if len(node.properties) > 1 and self.chance.happens(0.2) else 0
        tokens = []
        for pairs in (node.properties[:cut], node.properties[cut:]):
            tokens += [*self.terms.term(node.name), *self.properties(pairs), "."] if pairs else []
        return tokens

    def text(self):
        """The document; a map to which no other one refers may stand in brackets."""
        tokens = self.declarations()
        named = [value for node in self.nodes for one in node.within() for _, value in one.properties]
        for node in self.chance.sample(self.nodes, len(self.nodes)):
            if node.name not in named and node.properties and self.chance.happens(0.2):
                tokens += ["[", *self.properties(node.properties), "]", "."]
            else:
                tokens += self.statements(node)
        for node in self.later:  # grows while it is read
            tokens += self.statements(node)
        return joined(self.chance, tokens)
