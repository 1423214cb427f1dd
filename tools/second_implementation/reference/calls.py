"""How a call of `dump`, `query` or `sql` should end, by the files of a folder: the loads in the order of docs/DIAGNOSTICS.md."""
import os
from typing import NamedTuple

from reference.direct_mapping import direct_graph, direct_maps
from reference.evaluation import answer_lines
from reference.iris import iri_safe, is_absolute
from reference.mapping_graph import read_mapping
from reference.plan_nodes import order_text, plan_text
from reference.quad_rules import quad_rules
from reference.query_syntax import read_query
from reference.r2rml import output_dataset
from reference.rdf import dataset_of, dump_lines
from reference.refusal import Refused
from reference.rules import normal_form
from reference.schemas import read_schema
from reference.table_files import check_keys, check_references, read_rows
from reference.turtle import read_turtle
from reference.unfolding import start_plan


class Ending(NamedTuple):
    """How a call ended: its status, its output, and the line on standard error. An output of None is not known."""

    status: int
    output: str | None
    line: str = ""


def lines_text(lines):
    """Lines as they are written."""
    return "".join(line + "\n" for line in lines)


class Command:
    """What a call asks for, by its words, each option apart from its value, and the folder in which it is made."""

    def __init__(self, words, folder):
        self.name, *rest = words
        self.options, self.folder = dict(zip(rest[::2], rest[1::2])), folder

    @property
    def base(self):
        """The base IRI."""
        return self.options["--base"]

    def load(self, option, *names):
        """The bytes of the file of an option, or of one within its folder."""
        with open(os.path.join(self.folder, self.options[option], *names), "rb") as file:
            return file.read()

    def tables(self):
        """The tables, with rows but for `sql`."""
        tables = read_schema(self.load("--schema"))
        if self.name != "sql":
            for number, table in enumerate(tables, 1):
                table.rows = read_rows(self.load("--data", iri_safe(table.name) + ".csv"), table, number)
            check_keys(tables)
            check_references(tables)
        return tables

    def maps(self, tables):
        """The triples maps of the mapping."""
        return read_mapping(read_turtle(self.load("--mapping"), self.base), tables)

    def quads(self, tables):
        """The quads of the mapping over the tables, or those of the direct mapping."""
        if "--mapping" not in self.options:
            return direct_graph(tables, self.base)
        return output_dataset(self.maps(tables), tables, self.base)

    def plan(self, own=None):
        """The line of the plan of the query: its normal form, with these rules of our own, or the start plan."""
        tables = self.tables()
        maps = self.maps(tables) if "--mapping" in self.options else direct_maps(tables, self.base)
        query = read_query(self.load("--query"), self.base)
        plan = start_plan(query, tables, quad_rules(maps, tables, self.base))
        if own is not None:
            plan = normal_form(plan, tables, own)
        return lines_text([plan_text(plan, tables) + order_text(query)])

    def output(self):
        """The output; refused at the first fault."""
        quads = self.quads(self.tables())
        if self.name == "dump":
            return lines_text(dump_lines(quads))
        query = read_query(self.load("--query"), self.base)
        return None if self.name == "sql" else lines_text(answer_lines(query, dataset_of(quads)))


def expected(words, folder):
    """How a call should end; the output of `sql` is left open here, and is compared by mode `plans`."""
    command = Command(words, folder)
    if not is_absolute(command.base):
        return Ending(2, "", "vkg: base is not an absolute IRI\n")
    try:
        return Ending(0, command.output())
    except OSError:
        return Ending(8, "", "vkg: read fault\n")
    except Refused as refused:
        return Ending(refused.status, "", refused.line)
