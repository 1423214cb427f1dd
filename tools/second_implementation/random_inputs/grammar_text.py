"""Texts that the grammars of tools/*.grammar make, of few names: most are refused by a check behind the grammar.

A mapping begins with a triples map over a table of `SCHEMA`.
"""
import os
import sys

TOOLS = os.path.join(os.path.dirname(__file__), "..", "..")
sys.path.append(os.path.abspath(TOOLS))
from grammar_table import Table, read

NAMES = ["a", "b", "A", "t", "u", "T", "key_1"]
TYPES = 2 * ["INT", "integer", "VARCHAR", "CHAR", "DECIMAL", "NUMERIC", "DATE", "TIMESTAMP", "TIME", "BOOLEAN", "VARBINARY"] + ["FLOAT", "a"]
PROPERTIES = (
    "logicalTable tableName sqlQuery subject subjectMap class graph predicateObjectMap predicate predicateMap object objectMap constant "
    "column template termType language datatype parentTriplesMap joinCondition child parent TriplesMap IRI Literal"
).split()
TERMS = {
    "IRIREF": 4 * ["<p>", "<#m>", "<#n>", "<http://e/p>", "<http://e/\\u00e9>", "<mailto:x>"] + ["<>", "<//h>", "<../a>", "<\\u0020>", "<http://e/\\u003E>"],
    "PNAME_NS": 3 * ["p:", "xsd:"] + [":", "rr:"],
    "BLANK": ["_:a", "_:b", "_:s", "_:p", "_:o"],
    "STRING": ['"t"', "'a'", '""', '"http://e/{a}"', '"{a}"', "'''x'y'''", '"\\u00e9"', '"en"', '"\\""'],
    "LANGTAG": ["@en", "@EN-gb", "@a-1"],
    "INTEGER": 3 * ["0", "1", "+7", "-07", 38 * "9"] + [39 * "9"],
    "DECIMAL": 3 * ["1.0", ".5", "-1.50", 38 * "9" + ".0"] + ["0." + 39 * "1"],
    "DOUBLE": ["1e0", ".5E-3"],
    "VAR": ["?a", "?b", "$a", "?c"],
}
KINDS = {
    "ddl": {"WORD": NAMES, "DELIMITED": ['"a"', '"A"', '"t"', '"a b"', '"x""y"'],
            "INT": ["0", "1", "5", "38", "39", "007", "2147483647", "2147483648"]},
    "turtle": {**TERMS, "PNAME_LN": ["rr:" + name for name in PROPERTIES] + 3 * ["p:x", "xsd:integer"] + [":a", "q:x"],
               "AT_PREFIX": ["@prefix"], "AT_BASE": ["@base"]},
    "sparql": {**TERMS, "PNAME_LN": 3 * ["p:x", "xsd:integer"] + [":a", "xsd:double", "q:x"]},
}
SCHEMA = "CREATE TABLE t (a INT PRIMARY KEY, b VARCHAR(9), d DATE); CREATE TABLE u (a INT PRIMARY KEY);"
DECLARED = {
    "ddl": "",
    "turtle": "@prefix rr: <http://www.w3.org/ns/r2rml#> . @prefix xsd: <http://www.w3.org/2001/XMLSchema#> . @prefix p: <http://e/> . "
              "<#m> rr:logicalTable _:t ; rr:subjectMap _:s ; rr:predicateObjectMap _:p . _:t rr:tableName 't' . _:s rr:template 'http://e/{a}' . "
              "_:p rr:predicate p:x ; rr:objectMap _:o . _:o rr:column 'b' . ",
    "sparql": "PREFIX xsd: <http://www.w3.org/2001/XMLSchema#> PREFIX p: <http://e/> ",
}


class GrammarText:
    """Makes a text of a language; `size` is about how many tokens it may have."""

    def __init__(self, chance, language, size):
        self.chance, self.language, self.left = chance, language, size
        self.table = Table(*read(os.path.join(TOOLS, language + ".grammar")))

    def text(self):
        """A text of the grammar, behind declarations of prefixes."""
        start = next(iter(self.table.productions))
        return DECLARED[self.language] + " ".join(self.production(start, ""))

    def production(self, name, role):
        """The tokens of a production."""
        part, _ = self.table.choice(self.table.productions[name], 0)
        return self.part(part, role)

    def part(self, part, role):
        """The tokens of a part: few where the text is long enough."""
        match part:
            case ("Token", kind, own):
                return [self.token(kind, role if own == "*" else own)]
            case ("Production", name, own):
                return self.production(name, role if own == "*" else own)
            case ("Then", first, second):
                return self.part(first, role) + self.part(second, role)
            case ("Optional", inner):
                return self.part(inner, role) if self.left > 0 and self.chance.happens(0.4) else []
            case ("Repeated", inner):
                return self.repeated(inner, role)
            case ("Either", *_):
                return self.part(self.chosen(part), role)

    def repeated(self, inner, role):
        """The tokens of a part that may stand any number of times."""
        found = []
        while self.left > 0 and self.chance.happens(0.6):
            found += self.part(inner, role)
        return found

    def chosen(self, part):
        """One alternative, the last more often; the shortest where the text is long enough."""
        ways = []
        while part[0] == "Either":
            ways.append(part[1])
            part = part[2]
        ways += 3 * [part]
        return self.chance.choice(ways) if self.left > 0 else min(ways, key=lambda way: len(repr(way)))

    def token(self, kind, role):
        """A text of a kind of token."""
        self.left -= 1
        if role == "kind":
            return self.chance.choice(TYPES)
        return self.chance.choice(KINDS[self.language].get(kind, [kind]))
