"""Reads the text of a plan, which `vkg sql` prints, over the tables of a schema (docs/DEFINITIONS.md, `sql_text` and `is_well_typed`).

Each reader gives a value of `reference/plan_nodes.py` with the kinds of its columns, or its own kind, since a text is refused where a
kind does not fit: at the byte of the first token that cannot stand there.
"""
import re
from typing import NamedTuple

from names import NO_CHARACTER
from reference.datatypes import BadField, lexical_form
from reference.iris import is_absolute
from reference.plan_nodes import (KIND_NAMES, TERM_FUNCTIONS, TEXT_FUNCTIONS, Anti, Call, Column, Constant, Distinct, Empty, Join, Left,
                                  Project, Scan, Select, Unit, UnionAll)
from reference.plans import term_of, unquoted
from reference.rdf import term_text
from reference.refusal import Refused
from reference.tables import family
from reference.tokens import Cursor, cut, decoded

NO_PLAN = "no plan of this schema"
CLASSES = [("KEYWORD", "[A-Za-z_][A-Za-z0-9_]*"), ("NAME", '"(?:[^"]|"")*"'), ("TEXT", "'(?:[^']|'')*'"), ("NUMBER", "[0-9]+"), ("SIGN", "[(),*]")]
SKIPPED = r"[ \t\r\n]*"
KINDS = {name: kind for kind, name in KIND_NAMES.items()}

# The functions with what they take, where each argument is of one kind.
TAKEN = {
    **dict.fromkeys(("IRI", "BLANK", "SAFE"), ["string"]),
    **dict.fromkeys(("STR", "LANG", "DATATYPE", "STRLEN", "EBV", "IS_IRI", "IS_BLANK", "IS_LITERAL", "IS_NUMERIC"), ["term"]),
    **dict.fromkeys(("EQ", "NE", "LT", "GT", "LE", "GE", "STRSTARTS", "STRENDS", "CONTAINS"), ["term", "term"]),
    "NOT": ["boolean"],
}


def is_text(expression):
    """Whether an expression is the constant of a text."""
    return isinstance(expression, Constant) and expression.kind == "string" and expression.value is not None


def is_annotation(expression):
    """Whether an expression is what LIT takes behind a form: `@` and a tag, or `^^` and a datatype."""
    if not is_text(expression):
        return False
    text = expression.value
    return re.fullmatch("@[a-z]+(-[a-z0-9]+)*", text) is not None or text.startswith("^^") and is_absolute(text[2:])


def fits(name, arguments, kinds):
    """Whether a function takes arguments of these kinds."""
    match name:
        case "LEX":
            return len(kinds) == 1 and kinds[0] != "term"
        case "IS_NULL":
            return len(kinds) == 1
        case "SAME":
            return len(kinds) == 2 and family(kinds[0]) == family(kinds[1])
        case "AND" | "OR":
            return set(kinds) <= {"boolean"}
        case "CONCAT":
            return set(kinds) <= {"string"} and not any(isinstance(one, Column) for one in arguments)
        case "COALESCE":
            return len(set(kinds)) == 1
        case "IRI_OF":
            return kinds == ["string", "string"] and is_text(arguments[0])
        case "LIT":
            return kinds[:1] == ["string"] and (len(kinds) == 1 or len(kinds) == 2 and is_annotation(arguments[1]))
    return kinds == TAKEN.get(name)


def result_kind(name, kinds):
    """The kind of what a function gives of arguments of these kinds."""
    if name == "COALESCE":
        return kinds[0]
    return "term" if name in TERM_FUNCTIONS else "string" if name in TEXT_FUNCTIONS else "boolean"


class Order(NamedTuple):
    """What stands behind a plan: for each key, whose columns are the last ones, whether it descends, and the slice."""

    keys: list
    limit: int | None
    offset: int


class PlanReader(Cursor):
    """Reads a plan over the tables of a schema; Refused where the bytes are none."""

    def __init__(self, data, tables):
        super().__init__(cut(decoded(data, NO_PLAN), CLASSES, SKIPPED, NO_PLAN), NO_PLAN)
        self.tables = tables

    def whole(self):
        """Reads the whole text: one plan, and behind it its order and slice."""
        plan, kinds = self.plan()
        keys = self.keys(kinds) if self.takes("ORDER") else []
        order = Order(keys, self.number_behind("LIMIT"), self.number_behind("OFFSET") or 0)
        if not self.sees_kind("END"):
            self.refuse()
        return plan, order

    def keys(self, kinds):
        """Reads what stands behind ORDER: the last columns, which are terms."""
        self.expect("BY")
        found = []
        while not found or self.takes(","):
            column = self.take("KEYWORD")
            found.append((column, self.expect("ASC", "DESC").text == "DESC"))
        for place, (column, _) in enumerate(found, len(kinds) - len(found)):
            if place < 0 or column.text != f"c{place + 1}" or kinds[place] != "term":
                raise Refused(NO_PLAN, column.at)
        return [descends for _, descends in found]

    def number_behind(self, word):
        """Reads a number behind this word, where it comes next."""
        return int(self.take("NUMBER").text) if self.takes(word) else None

    def words(self, text):
        """Takes these words and signs, which have to come next."""
        for word in text.split():
            self.expect(word)

    def listed(self, read):
        """Reads what stands in brackets, with commas between."""
        self.expect("(")
        found = []
        while not self.takes(")"):
            if found:
                self.expect(",")
            found.append(read())
        return found

    # ---- plans, each with the kinds of its columns ----

    def plan(self):
        """Reads a plan."""
        if self.takes("VALUES"):
            self.words("( )")
            return Unit(), ()
        if self.takes("EMPTY"):
            kinds = tuple(self.listed(self.kind))
            return Empty(kinds), kinds
        if self.takes("TABLE"):
            return self.scan()
        return self.selected() if self.takes("SELECT") else self.union()

    def scan(self):
        """Reads the name of a table, which is the schema's own spelling of it."""
        token = self.take("NAME")
        for place, table in enumerate(self.tables):
            if table.name == unquoted(token.text):
                return Scan(place), tuple(column.kind for column in table.columns)
        raise Refused(NO_PLAN, token.at)

    def in_brackets(self):
        """Reads a plan in brackets."""
        self.expect("(")
        found = self.plan()
        self.expect(")")
        return found

    def source(self, name):
        """Reads a plan in brackets under a name."""
        found = self.in_brackets()
        self.words("AS " + name)
        return found

    def union(self):
        """Reads plans in brackets with UNION ALL between them, all with columns of the same kinds."""
        members, kinds = [], None
        while not members or self.takes("UNION"):
            if members:
                self.expect("ALL")
            at = self.next.at
            plan, found = self.in_brackets()
            if members and found != kinds:
                raise Refused(NO_PLAN, at)
            members, kinds = [*members, plan], found
        return UnionAll(tuple(members)), kinds

    def selected(self):
        """Reads what stands behind SELECT."""
        if self.takes("DISTINCT"):
            self.words("* FROM")
            plan, kinds = self.source("t")
            return Distinct(plan), kinds
        if self.takes("*"):
            self.expect("FROM")
            return self.combined()
        return self.projection()

    def combined(self):
        """Reads what stands behind SELECT * FROM: a source with a condition, a left join, an anti join, or sources one beside the other."""
        plan, kinds = self.in_brackets()
        self.expect("AS")
        if self.takes("t"):
            self.expect("WHERE")
            return Select(self.condition(kinds), plan), kinds
        self.expect("t1")
        if self.takes("LEFT"):
            self.expect("JOIN")
            right, more = self.source("t2")
            self.expect("ON")
            return Left(plan, right, self.condition(kinds + more)), kinds + more
        if self.takes("ANTI"):
            self.expect("JOIN")
            right, more = self.source("t2")
            self.expect("ON")
            return Anti(plan, right, self.condition(kinds + more)), kinds
        members = [plan]
        while self.takes("CROSS"):
            self.expect("JOIN")
            member, more = self.source(f"t{len(members) + 1}")
            members, kinds = [*members, member], kinds + more
        self.expect("WHERE")
        return Join(tuple(members), self.condition(kinds)), kinds

    def projection(self):
        """Reads what stands behind SELECT: expressions, and then their source, whose kinds have to be known first."""
        start, depth = self.place, 0
        while depth or not self.sees("FROM"):
            depth += self.sees("(") - self.sees(")")
            self.take("KEYWORD", "NAME", "TEXT", "SIGN")
        self.expect("FROM")
        plan, kinds = self.source("t")
        end, self.place = self.place, start
        outputs = self.outputs(kinds)
        self.expect("FROM")
        self.place = end
        return Project(tuple(one for one, _ in outputs), plan), tuple(kind for _, kind in outputs)

    def outputs(self, kinds):
        """Reads expressions under the names c1, c2 and so on, each with its kind."""
        found = []
        if self.takes("("):
            self.expect(")")
            return found
        while not found or self.takes(","):
            found.append(self.expression(kinds))
            self.words(f"AS c{len(found)}")
        return found

    # ---- expressions over columns of some kinds, each with its kind ----

    def condition(self, kinds):
        """Reads a condition."""
        at = self.next.at
        found, kind = self.expression(kinds)
        if kind != "boolean":
            raise Refused(NO_PLAN, at)
        return found

    def expression(self, kinds):
        """Reads a column, a constant or a call."""
        if self.sees_kind("TEXT"):
            return Constant("string", self.text()), "string"
        word = self.take("KEYWORD")
        if re.fullmatch("c[1-9][0-9]*", word.text):
            place = int(word.text[1:]) - 1
            if place >= len(kinds):
                raise Refused(NO_PLAN, word.at)
            return Column(place), kinds[place]
        if word.text in ("TRUE", "FALSE"):
            return Constant("boolean", word.text == "TRUE"), "boolean"
        if word.text == "CAST":
            self.words("( NULL AS")
            kind = self.kind()
            self.expect(")")
            return Constant(kind, None), kind
        return self.constant(KINDS[word.text]) if word.text in KINDS else self.call(word, kinds)

    def kind(self):
        """Reads the name of a kind."""
        return KINDS[self.expect(*KINDS).text]

    def text(self):
        """Reads what stands in quotes."""
        token = self.take("TEXT")
        if "\0" in token.text:
            raise Refused(NO_CHARACTER, token.at)
        return unquoted(token.text)

    def constant(self, kind):
        """Reads the text of a constant behind the name of its kind: a lexical form, or a term as N-Quads has it."""
        at = self.next.at
        text = self.text()
        try:
            value = term_of(text) if kind == "term" else lexical_form(kind, text)
            is_sound = kind not in ("string", "boolean") and text == (term_text(value) if kind == "term" else value)
        except (BadField, AttributeError, IndexError, KeyError):
            is_sound = False
        if not is_sound:
            raise Refused(NO_PLAN, at)
        return Constant(kind, value), kind

    def call(self, word, kinds):
        """Reads the arguments of a function."""
        found = self.listed(lambda: self.expression(kinds))
        arguments, own = [one for one, _ in found], [kind for _, kind in found]
        if not fits(word.text, arguments, own):
            raise Refused(NO_PLAN, word.at)
        return Call(word.text, tuple(arguments)), result_kind(word.text, own)
