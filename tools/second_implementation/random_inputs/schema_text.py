"""Schemas as CREATE TABLE statements, each part in one of its spellings."""
import re

from reference.schema_syntax import KEYWORDS
from reference.schemas import TYPES

NUMBERS = {
    "string": ["", "(20)", "( 007 )"],
    "hexBinary": ["", "(8)"],
    "decimal": ["", "(38,20)", "(5)"],
    "dateTime": ["", "(6)", "(0)"],
    "time": ["", "(9)", "(0)"],
}


def delimited(name):
    """A name in quotes."""
    return '"' + name.replace('"', '""') + '"'


class SchemaWriter:
    """Writes the schema of some tables."""

    def __init__(self, chance, tables):
        self.chance, self.tables = chance, tables

    # ---- names and types ----

    def is_word(self, name):
        """Whether a name can stand without quotes."""
        return re.fullmatch("[A-Za-z_][A-Za-z0-9_]*", name) is not None and name.upper() not in KEYWORDS

    def declared(self, name):
        """A name where it is declared."""
        return name if self.is_word(name) and self.chance.happens(0.8) else delimited(name)

    def referred(self, name):
        """A name where it is used: without quotes in any case, or in quotes exactly."""
        return self.chance.any_case(name) if self.is_word(name) and self.chance.happens(0.7) else self.declared(name)

    def names(self, table, places):
        """A list of columns in brackets."""
        return "(" + ", ".join(self.referred(table.columns[place].name) for place in places) + ")"

    def type(self, kind):
        """A type of a kind, with numbers in brackets where it takes them."""
        word = self.chance.any_case(self.chance.choice(TYPES[kind].split()))
        return word + self.chance.choice(NUMBERS.get(kind, [""]))

    # ---- constraints ----

    def references(self, key):
        """REFERENCES with its table and, where they are not the primary key or at random, its columns."""
        target = self.tables[key.table]
        words = "REFERENCES " + self.referred(target.name)
        if key.target == target.primary_key and self.chance.happens(0.6):
            return words
        return f"{words} {self.names(target, key.target)}"

    def constraints(self, table):
        """The constraints of a table: those written with a column, by its place, and those that stand for themselves."""
        inline, apart = {}, []
        for number, key in enumerate(table.keys):
            word = "UNIQUE" if number else "PRIMARY KEY"
            if len(key) == 1 and self.chance.happens(0.6):
                inline.setdefault(key[0], []).append(word)
            else:
                apart.append(f"{word} {self.names(table, key)}")
        for key in table.foreign_keys:
            if len(key.columns) == 1 and self.chance.happens(0.6):
                inline.setdefault(key.columns[0], []).append(self.references(key))
            else:
                apart.append(f"FOREIGN KEY {self.names(table, key.columns)} {self.references(key)}")
        names = [f"CONSTRAINT c{self.chance.randrange(9)} " if self.chance.happens(0.2) else "" for _ in apart]
        return inline, [name + words for name, words in zip(names, apart)]

    # ---- tables ----

    def elements(self, table):
        """The columns of a table in order, with its constraints behind or between them."""
        inline, elements = self.constraints(table)
        at = 0
        for place, column in enumerate(table.columns):
            words = inline.get(place, [])
            if column.not_null and (place not in table.primary_key or self.chance.happens(0.2)):
                words.append("NOT NULL")
            self.chance.shuffle(words)
            if self.chance.happens(0.2):
                at = self.chance.randint(at, len(elements))
            elements.insert(at, " ".join([self.declared(column.name), self.type(column.kind), *words]))
            at += 1
        return elements

    def statement(self, table):
        """The statement that makes a table."""
        create = self.chance.choice(["CREATE TABLE", "CREATE table", "CREATE -- x\n Table"])
        start = self.chance.choice(["", "\n  "])
        elements = self.chance.choice([", ", ",\n  ", " , -- y\n"]).join(self.elements(table))
        return f"{create} {self.declared(table.name)} ({start}{elements});" + self.chance.choice(["", "\n", "\r\n\t"])

    def text(self):
        """The schema."""
        return self.chance.choice(["", "-- a schema\n", "\ufeff"]) + "".join(map(self.statement, self.tables))
