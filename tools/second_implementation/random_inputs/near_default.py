"""Graph maps whose IRIs look like rr:defaultGraph, for plans that have to tell whether they are it (R2RML, 9)."""
import re

from random_inputs.mapping_nodes import MappingNodes
from random_inputs.turtle_text import TurtleWriter
from reference.r2rml import TermMap
from reference.rdf import DEFAULT_GRAPH

FIRST = len("http:")


def near_default(chance, table):
    """A template that is rr:defaultGraph but for a part of it, behind the scheme, where columns stand, and perhaps a text."""
    text = DEFAULT_GRAPH.text
    if chance.happens(0.7):
        start, end = chance.choice([match.span() for match in re.finditer(r"\b[\w.]+", text) if match.start() >= FIRST])
    else:
        start, end = sorted(chance.choices(range(FIRST, len(text) + 1), k=2))
    columns = [chance.randrange(len(table.columns)) for _ in range(chance.choice(7 * [1] + [2]))]
    pieces = [text[:start], *columns, chance.choice(8 * [""] + ["x", "#"]), text[end:]]
    return TermMap("template", [piece for piece in pieces if piece != ""])


def add_near_default(case, chance):
    """Gives some triples maps of a case's mapping such graph maps, and writes the mapping again."""
    for triples_map in case.maps:
        for _ in range(chance.choice([0, 1, 1, 2])):
            triples_map.graphs.append(near_default(chance, case.tables[triples_map.table]))
    nodes = MappingNodes(chance, case.tables, case.maps, case.base).nodes
    case.files["mapping.ttl"] = TurtleWriter(chance, nodes, case.base).text()
