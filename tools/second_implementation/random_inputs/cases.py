"""Random cases: a folder with a schema, the files of its tables, and perhaps a mapping and a query."""
import os
from dataclasses import dataclass, field

from random_inputs.chance import Chance
from random_inputs.mapping_faults import spoil
from random_inputs.mapping_nodes import MappingNodes
from random_inputs.mappings import MappingMaker
from random_inputs.queries import QueryMaker
from random_inputs.query_text import QueryWriter
from random_inputs.schema_text import SchemaWriter
from random_inputs.table_text import csv_text
from random_inputs.tables import random_tables
from random_inputs.turtle_text import TurtleWriter
from reference.direct_mapping import direct_graph
from reference.iris import iri_safe
from reference.r2rml import TriplesMap, output_dataset
from reference.tables import Table

BASES = 2 * ["http://example.org/"] + ["http://e/", "urn:x:", "http://e/db#", "http://ex.org/é/", "http://e/a/b;c?d="]
OPTIONS = {
    "dump": ["--schema", "--data", "--base", "--mapping"],
    "query": ["--schema", "--data", "--base", "--mapping", "--query"],
    "sql": ["--schema", "--base", "--mapping", "--query"],
}
FILES = {"--schema": "schema.sql", "--data": "data", "--mapping": "mapping.ttl", "--query": "query.rq"}


@dataclass
class Case:
    """A case: its values, of which `maps` is None for the direct mapping, and the texts of its files by name."""

    base: str
    tables: list[Table]
    maps: list[TriplesMap] | None = None
    files: dict[str, str | bytes] = field(default_factory=dict)

    def quads(self):
        """The quads of its dataset, from its values; refused where it has a data error."""
        if self.maps is None:
            return direct_graph(self.tables, self.base)
        return output_dataset(self.maps, self.tables, self.base)

    def words(self, command):
        """The words of a call over its files."""
        given = {**FILES, "--base": self.base}
        names = [name for name in OPTIONS[command] if name != "--mapping" or FILES[name] in self.files]
        return [command] + [word for name in names for word in (name, given[name])]

    def write(self, folder):
        """Writes its files into a folder."""
        for name, text in self.files.items():
            path = os.path.join(folder, name)
            os.makedirs(os.path.dirname(path), exist_ok=True)
            with open(path, "wb") as file:
                file.write(text if isinstance(text, bytes) else text.encode())


def reordered(chance, words):
    """The words of a call with its options in any order, each as two words or as one."""
    pairs = list(zip(words[1::2], words[2::2]))
    chance.shuffle(pairs)
    return words[:1] + [word for pair in pairs for word in (["=".join(pair)] if chance.happens(0.2) else pair)]


def random_case(seed):
    """A valid case without a query, but perhaps with a data error; three of ten are of the direct mapping."""
    chance = Chance(f"case {seed}")
    case = Case(chance.choice(BASES), random_tables(chance))
    case.files["schema.sql"] = SchemaWriter(chance, case.tables).text()
    for table in case.tables:
        case.files[f"data/{iri_safe(table.name)}.csv"] = csv_text(chance, table)
    if chance.happens(0.7):
        case.maps = MappingMaker(chance, case.tables, case.base).mapping()
        nodes = MappingNodes(chance, case.tables, case.maps, case.base).nodes
        case.files["mapping.ttl"] = TurtleWriter(chance, nodes, case.base).text()
    return case


def add_query(case, seed, limit, escapes=0.02):
    """Gives a case without a data error a query over its quads, and returns the query's value."""
    chance = Chance(f"query {seed}")
    query = QueryMaker(chance, case.quads(), limit).query()
    case.files["query.rq"] = QueryWriter(chance, query, case.base, escapes).text()
    return query


def spoil_mapping(case, chance):
    """Gives a case a mapping whose graph has faults, as a rule."""
    maps = MappingMaker(chance, case.tables, case.base).mapping()
    nodes = MappingNodes(chance, case.tables, maps, case.base).nodes
    spoil(chance, nodes)
    case.files["mapping.ttl"] = TurtleWriter(chance, nodes, case.base).text()
