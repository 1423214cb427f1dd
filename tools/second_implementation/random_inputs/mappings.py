"""Random R2RML mappings over tables, as values of `reference/r2rml.py`."""
from reference.r2rml import DataError, PredicateObjectMap, ReferencingMap, TermMap, TriplesMap, generated_term
from reference.rdf import RDF, RR, XSD, iri, literal
from reference.tables import family

# ---- what mappings are made of ----

FIRST_TEXTS = ["http://e/", "http://e/x/", "http://ex.org/ns#", "urn:a:", "mailto:", "", "x/", "é-", "http://é.org/", "#", "?",
               "HTTP://E/a%20b/", "../", "a+b-c.d:"]
INNER_TEXTS = ["-", "/", ";", "=", "", "_", ".", "%20", "é", "~", "(", "&", "#"]
LAST_TEXTS = ["", "", "", "/", "#me", "x"]
LITERAL_TEXTS = ["", " ", "x", "{", "}", "\\", '"', "\n", ": ", "é", "{}", "'", "😀", "\t", "a:"]
TAGS = ["en", "en-GB", "DE", "zh-Hans-CN", "x-1", "fr"]
DATATYPES = [XSD + sort for sort in "integer decimal boolean date dateTime string double hexBinary time token int".split()]
DATATYPES += ["urn:d:t"]
CLASSES = [iri(text) for text in ("http://e/C", "http://e/D", "http://ex.org/ns#Person", "urn:a:C")]
CONSTANTS = {
    "subject": [iri("http://e/x/1"), iri("http://e/s")],
    "predicate": [iri(text) for text in ("http://e/p", "http://e/q", "http://ex.org/ns#name", "http://e/r%20s", RDF + "type",
                                         "urn:a:p", "http://e/é")],
    "graph": [iri(text) for text in ("http://e/g", "http://e/h", RR + "defaultGraph", "http://e/C")],
    "object": [iri("http://e/c"), iri("http://e/x/1"), iri("urn:a:b"), literal("Ann"), literal(""), literal("a", "en"),
               literal('say "hi"\n\\', "en-GB"), literal("tab\there é 😀"), literal("x", datatype="urn:d:t"),
               literal("<p>&amp;</p>", datatype=RDF + "HTML"),
               literal("1e0", datatype=XSD + "double"), literal("a", datatype=XSD + "string"),
               literal("2024-02-29Z", datatype=XSD + "date"), literal("2024-02-29T12:00:00+01:00", datatype=XSD + "dateTime"),
               literal("7.0", datatype=XSD + "decimal"), *[literal(text, datatype=XSD + "boolean") for text in ("true", "1")],
               *[literal(text, datatype=XSD + "integer") for text in ("7", "07", "-5", "x")]],
}
CONSTANT_SHARES = {"subject": 0.05, "predicate": 0.85, "graph": 0.5, "object": 0.2}
FORMS = {
    "subject": ["column", "template", "template"],
    "predicate": ["column", "template", "template"],
    "graph": ["column", "template", "template"],
    "object": ["column", "template"],
}
TERM_TYPES = {
    "subject": [None, None, None, "IRI", "BlankNode"],
    "predicate": [None, "IRI"],
    "graph": [None, "IRI"],
    "object": [None, None, None, None, "IRI", "BlankNode", "Literal"],
}


class MappingMaker:
    """Makes a mapping over tables; one in six is careless, and takes term maps with data errors as they are drawn."""

    def __init__(self, chance, tables, base):
        self.chance, self.tables, self.base, self.is_careless = chance, tables, base, chance.happens(1 / 6)

    # ---- term maps ----

    def is_fine(self, term_map, role, table):
        """Whether a term map makes no data error."""
        try:
            for row in table.rows:
                generated_term(term_map, role, table, row, self.base)
        except DataError:
            return False
        return True

    def template(self, table, is_iri):
        """The pieces of a template."""
        choice = self.chance.choice
        pieces = [choice(FIRST_TEXTS if is_iri else LITERAL_TEXTS)]
        for number in range(choice([0, 1, 1, 1, 1, 2, 2, 3])):
            pieces += [choice(INNER_TEXTS if is_iri else LITERAL_TEXTS)] if number else []
            pieces.append(self.chance.randrange(len(table.columns)))
        pieces.append(choice(LAST_TEXTS if is_iri else LITERAL_TEXTS))
        return [piece for piece in pieces if piece != ""]

    def draw(self, role, table):
        """A term map for a role that is no constant, valid or not."""
        term_map = TermMap(self.chance.choice(FORMS[role]), None, self.chance.choice(TERM_TYPES[role]))
        if role == "object" and term_map.term_type in (None, "Literal"):
            if self.chance.happens(0.2):
                term_map.language = self.chance.choice(TAGS)
            elif self.chance.happens(0.25):
                term_map.datatype = self.chance.choice(DATATYPES)
        if term_map.form == "column":
            term_map.value = self.chance.randrange(len(table.columns))
        else:
            term_map.value = self.template(table, term_map.type_in(role) == "IRI")
        return term_map

    def term_map(self, role, table):
        """A term map for a role; one that has a data error is drawn again, but for a careless mapping."""
        if self.chance.happens(CONSTANT_SHARES[role]):
            return TermMap("constant", self.chance.choice(CONSTANTS[role]))
        while True:
            term_map = self.draw(role, table)
            if self.is_careless or self.is_fine(term_map, role, table):
                return term_map

    def term_maps(self, role, table, counts):
        """Some term maps for a role; how many, is one of some counts."""
        return [self.term_map(role, table) for _ in range(self.chance.choice(counts))]

    # ---- referencing object maps ----

    def conditions(self, child, parent):
        """Join conditions between two tables: those of a foreign key as a rule; none where no columns compare."""
        keys = [list(zip(key.columns, key.target)) for key in self.tables[child].foreign_keys if key.table == parent]
        if keys and self.chance.happens(0.7):
            return self.chance.choice(keys)
        pairs = [(one, other) for one, left in enumerate(self.tables[child].columns)
                 for other, right in enumerate(self.tables[parent].columns) if family(left.kind) == family(right.kind)]
        return self.chance.sample(pairs, min(len(pairs), self.chance.choice([1, 1, 2])))

    def referencing_map(self, maps, table):
        """A referencing object map, or None where none is found."""
        number = self.chance.randrange(len(maps))
        parent = maps[number].table
        conditions = [] if parent == table and self.chance.happens(0.5) else self.conditions(table, parent)
        return ReferencingMap(number, conditions) if conditions or parent == table else None

    # ---- triples maps ----

    def part(self, maps, number):
        """A predicate-object map of a triples map over the table of a number."""
        table = self.tables[number]
        part = PredicateObjectMap(self.term_maps("predicate", table, [1, 1, 1, 2]), [])
        for _ in range(self.chance.choice([1, 1, 1, 2])):
            found = self.referencing_map(maps, number) if self.chance.happens(0.25) else None
            part.objects.append(found or self.term_map("object", table))
        part.graphs = self.term_maps("graph", table, [0, 0, 0, 0, 1, 2])
        return part

    def mapping(self):
        """One to four triples maps."""
        maps = []
        for _ in range(self.chance.choice([1, 1, 2, 2, 3, 4])):
            number = self.chance.randrange(len(self.tables))
            table = self.tables[number]
            classes = self.chance.sample(CLASSES, self.chance.choice([0, 0, 1, 1, 2]))
            subject, graphs = self.term_map("subject", table), self.term_maps("graph", table, [0, 0, 0, 1, 2])
            maps.append(TriplesMap(number, subject, classes, graphs))
        for one in maps:
            one.parts = [self.part(maps, one.table) for _ in range(self.chance.choice([0, 1, 1, 2, 2, 3]))]
        return maps
