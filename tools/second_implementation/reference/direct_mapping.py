"""A Direct Mapping of Relational Data to RDF: the direct graph of a database whose tables all have primary keys."""
from reference.iris import iri_safe
from reference.r2rml import PredicateObjectMap, ReferencingMap, TermMap, TriplesMap
from reference.rdf import RDF_TYPE, XSD, iri, literal
from reference.refusal import Refused
from reference.tables import agree

MOST_RULES = 4096


def table_iri(table, base):
    """The table IRI."""
    return base + iri_safe(table.name)


def names(table, columns, sign=";"):
    """The IRI-safe names of columns, with a sign between them."""
    return sign.join(iri_safe(table.columns[column].name) for column in columns)


def row_node(table, row, base):
    """The row node: an IRI by the names and values of the primary key."""
    values = [f"{names(table, [column])}={iri_safe(row[column])}" for column in table.primary_key]
    return iri(f"{table_iri(table, base)}/{';'.join(values)}")


def literal_quads(table, row, base):
    """The literal triples of a row: one for each column that is not NULL, of its natural datatype."""
    for place, (column, form) in enumerate(zip(table.columns, row)):
        if form is not None:
            predicate = iri(f"{table_iri(table, base)}#{names(table, [place])}")
            yield row_node(table, row, base), predicate, literal(form, datatype=XSD + column.kind), None


def reference_quads(tables, table, row, base):
    """The reference triples of a row: one for each foreign key without NULL.

    A key that refers to a unique key leads to the row node of that row, which is by its primary key.
    """
    for key in table.foreign_keys:
        target = tables[key.table]
        predicate = iri(f"{table_iri(table, base)}#ref-{names(table, key.columns)}")
        for other in target.rows:
            if agree(row, other, zip(key.columns, key.target)):
                yield row_node(table, row, base), predicate, row_node(target, other, base), None


def check(tables):
    """Refuses the first table without a primary key (the standard takes blank nodes for its rows), and what is too much."""
    for number, table in enumerate(tables, 1):
        if table.primary_key is None:
            raise Refused("D01", number)
    if sum(1 + len(table.columns) + len(table.foreign_keys) for table in tables) > MOST_RULES:
        raise Refused("M22", 0)


def direct_graph(tables, base):
    """The quads of the direct graph: of each row its type triple, its literal triples and its reference triples."""
    check(tables)
    quads = set()
    for table in tables:
        for row in table.rows:
            quads.add((row_node(table, row, base), RDF_TYPE, iri(table_iri(table, base)), None))
            quads.update(literal_quads(table, row, base))
            quads.update(reference_quads(tables, table, row, base))
    return quads


# ---- the same as an R2RML mapping, for plans ----


def property_map(text, one):
    """The predicate-object map of a property IRI."""
    return PredicateObjectMap([TermMap("constant", iri(text))], [one])


def triples_map(number, table, base):
    """The triples map of a table: its row node, its class, its columns and its foreign keys."""
    place = table_iri(table, base)
    subject = [place]
    for sign, column in zip("/" + ";" * len(table.columns), table.primary_key):
        subject += [f"{sign}{names(table, [column])}=", column]
    parts = [property_map(f"{place}#{names(table, [column])}", TermMap("column", column))
             for column in range(len(table.columns))]
    for key in table.foreign_keys:
        reference = ReferencingMap(key.table, list(zip(key.columns, key.target)))
        parts.append(property_map(f"{place}#ref-{names(table, key.columns)}", reference))
    return TriplesMap(number, TermMap("template", subject, "IRI"), [iri(place)], [], parts)


def direct_maps(tables, base):
    """The triples maps of which the direct graph is the output dataset."""
    check(tables)
    return [triples_map(number, table, base) for number, table in enumerate(tables)]
