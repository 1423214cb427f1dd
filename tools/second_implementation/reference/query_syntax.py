"""Reads queries by the grammar of SPARQL 1.1 Query, 19.8, or tells their first fault Q01 to Q08 or Q10 to Q12 (docs/DIAGNOSTICS.md).

The limits of Q09 are not looked at: no random query comes near them.
"""
from reference.datatypes import is_wide_number
from reference.queries import (ACCESSORS, COMPARISONS, STRING_TESTS, TESTS, BindElement, Call, FilterElement, GraphElement, Key,
                               MinusElement, Modifiers, OptionalElement, Query, TriplesBlock, UnionElement, ValuesElement, Var,
                               visible_of)
from reference.rdf import RDF_TYPE, XSD, Term
from reference.refusal import Refused, refuse_first
from reference.tokens import Token, check_depth, cut_bytes
from reference.triples_syntax import BASE_CHARS, CLASSES, SKIPPED, TriplesCursor

SIGNS = [
    ("SIGN", r"\^\^|!=|<=|>=|&&|\|\||[{}()\[\].;,=<>!*/|^+?-]"),
    ("VAR", f"[?$][{BASE_CHARS}_0-9][{BASE_CHARS}_0-9\u00b7\u0300-\u036f\u203f-\u2040]*"),
]
WORDS = [*"BASE PREFIX SELECT ASK CONSTRUCT DISTINCT REDUCED WHERE OPTIONAL GRAPH FILTER UNION MINUS VALUES UNDEF BIND AS".split(),
         *"ORDER BY ASC DESC LIMIT OFFSET BOUND SAMETERM".split(), *TESTS, *ACCESSORS,
         *STRING_TESTS]

# The words and signs of Q07; some (SELECT, `*`, `(`) are outside the profile in other places than those where they are taken.
OUTSIDE_WORDS = (
    "DESCRIBE SELECT FROM SERVICE VALUES GROUP HAVING COUNT SUM MIN MAX AVG "
    "SAMPLE GROUP_CONCAT EXISTS NOT IN REGEX IF COALESCE LANGMATCHES INSERT DELETE LOAD CLEAR"
).split()
OUTSIDE_SIGNS = "( / | ^ * + - ?".split()


def with_keyword(token):
    """A token, as a keyword where it is a word that the profile takes; all but `a` are in any case (19.8)."""
    if token.kind != "WORD":
        return token
    if token.text == "a":
        return token._replace(kind="KEYWORD")
    if token.text.lower() in ("true", "false"):
        return Token("KEYWORD", token.text.lower(), token.at)
    return Token("KEYWORD", token.text.upper(), token.at) if token.text.upper() in WORDS else token


# The greatest number that LIMIT and OFFSET take.
MOST_SOLUTIONS = 2**32 - 1


class QueryCursor(TriplesCursor):
    """Reads a query; `visible` gathers the variables of patterns and of GRAPH by first appearance (18.2.1)."""

    NUMBER_KINDS = ("INTEGER", "DECIMAL")

    def __init__(self, tokens, base):
        super().__init__(tokens, "Q", base)
        self.visible, self.braces, self.labels, self.nodes = [], 0, {}, []

    def refuse(self):
        """Refuses the next token, as outside the profile where it is one that SPARQL has and the profile has not."""
        token = self.next
        is_word = token.kind in ("WORD", "KEYWORD") and token.text.upper() in OUTSIDE_WORDS
        is_sign = token.kind == "SIGN" and token.text in OUTSIDE_SIGNS
        raise Refused("Q07" if is_word or is_sign or token.kind == "DOUBLE" else "Q02", token.at)

    def query(self):
        """Reads the whole query (rules 1 to 9 and 17)."""
        while self.sees("BASE", "PREFIX"):
            self.declaration(self.expect("BASE", "PREFIX").text == "PREFIX")
        form = self.expect("SELECT", "ASK", "CONSTRUCT").text
        selected, is_distinct = ([], False) if form == "ASK" else self.head() if form == "SELECT" else (None, False)
        template, nodes = self.template() if form == "CONSTRUCT" else ([], [])
        self.takes("WHERE")
        group = self.group()
        modifiers = Modifiers() if form == "ASK" else self.modifiers()
        self.take("END")
        return Query(selected, is_distinct, group, self.visible, form, template, nodes, modifiers)

    def head(self):
        """Reads what stands behind SELECT (rule 9)."""
        is_distinct = self.takes("DISTINCT")
        if not is_distinct:
            self.takes("REDUCED")
        return (None if self.takes("*") else self.selection()), is_distinct

    def selection(self):
        """Reads the selected variables."""
        names = [self.take("VAR").text[1:]]
        while self.sees_kind("VAR"):
            names.append(self.take("VAR").text[1:])
        return names

    def template(self):
        """Reads the template of CONSTRUCT, and its blank nodes by first appearance; neither is seen in the group (rule 73; 16.2)."""
        elements = []
        self.expect("{")
        self.block(elements)
        self.expect("}")
        nodes = list(dict.fromkeys(self.nodes))
        self.visible, self.labels = [], {}
        return [pattern for block in elements for pattern in block.patterns], nodes

    # ---- order and slice (rules 18 to 27) ----

    def modifiers(self):
        """Reads ORDER BY, and LIMIT and OFFSET in either order."""
        found = Modifiers()
        if self.takes("ORDER"):
            self.expect("BY")
            found.keys.append(self.key())
            while self.sees("(", "ASC", "DESC") or self.sees_kind("VAR") or self.sees_call():
                found.keys.append(self.key())
        slices = {}
        while self.sees(*{"LIMIT", "OFFSET"} - set(slices)):
            word = self.expect("LIMIT", "OFFSET").text
            slices[word] = self.slice_number()
        found.limit, found.offset = slices.get("LIMIT"), slices.get("OFFSET")
        return found

    def key(self):
        """Reads a key of the order (rule 24)."""
        if self.sees("ASC", "DESC"):
            is_descending = self.expect("ASC", "DESC").text == "DESC"
            return Key(self.bracketed(), is_descending)
        if self.sees_kind("VAR"):
            return Key(Var(self.take("VAR").text[1:]), False)
        return Key(self.bracketed() if self.sees("(") else self.call(), False)

    def slice_number(self):
        """Reads the number of LIMIT or OFFSET; it is no literal, so its own fault alone is told of it."""
        token = self.take("INTEGER")
        if not token.text.isdigit() or int(token.text) > MOST_SOLUTIONS:
            self.faults.append(("Q12", token.at))
            return 0
        return int(token.text)

    # ---- groups (rules 53 to 68) ----

    def group(self):
        """Reads a group: blocks of triples, and other elements between them."""
        elements = []
        self.brace("{")
        self.block(elements)
        while not self.sees("}"):
            elements.append(self.element(elements))
            self.takes(".")
            self.block(elements)
        self.brace("}")
        return elements

    def brace(self, sign):
        """Reads a brace; for labels, a basic graph pattern is told by the last brace before it (5.1.1; docs/DECISIONS.md)."""
        self.expect(sign)
        self.braces += 1

    def element(self, before):
        """Reads what stands behind elements of a group and is no block of triples."""
        if self.takes("OPTIONAL"):
            return OptionalElement(self.group())
        if self.takes("GRAPH"):
            name = self.variable() if self.sees_kind("VAR") else self.iri()
            return GraphElement(name, self.group())
        if self.takes("FILTER"):
            return FilterElement(self.bracketed() if self.sees("(") else self.call())
        if self.takes("MINUS"):
            outside = list(self.visible)
            inner = self.group()
            self.visible = outside
            return MinusElement(inner)
        if self.takes("VALUES"):
            return self.values()
        if self.takes("BIND"):
            return self.bind(visible_of(before))
        groups = [self.group()]
        while self.takes("UNION"):
            groups.append(self.group())
        return UnionElement(groups)

    def values(self):
        """Reads a table of values (rules 61 to 65); Q10 is a row of another width, or a variable listed twice."""
        self.braces += 1
        is_list = self.takes("(")
        names = []
        while self.sees_kind("VAR") if is_list else not names:
            at = self.next.at
            name = self.variable().name
            if name in names:
                self.faults.append(("Q10", at))
            names.append(name)
        if is_list:
            self.expect(")")
        self.expect("{")
        rows = []
        while not self.sees("}"):
            at = self.next.at
            row = self.row() if is_list else [self.value()]
            if len(row) != len(names):
                self.faults.append(("Q10", at))
            rows.append(tuple(row))
        self.expect("}")
        return ValuesElement(tuple(names), tuple(rows))

    def row(self):
        """Reads a row of values in brackets."""
        self.expect("(")
        found = []
        while not self.sees(")"):
            found.append(self.value())
        self.expect(")")
        return found

    def value(self):
        """Reads a value of a table; UNDEF is none."""
        if self.takes("UNDEF"):
            return None
        return self.iri() if self.sees_iri() else self.literal()

    def bind(self, before):
        """Reads BIND (rule 60); Q11 is a variable that is visible in what the group holds before it (18.2.1)."""
        self.braces += 1
        self.expect("(")
        expression = self.expression()
        self.expect("AS")
        at = self.next.at
        name = self.variable().name
        if name in before:
            self.faults.append(("Q11", at))
        self.expect(")")
        return BindElement(expression, name)

    def block(self, elements):
        """Reads triples, if there are any (rule 55)."""
        self.triples = []
        while self.sees_node() or self.sees("["):
            self.triples_of_a_subject()
            if not self.takes("."):
                break
        if self.triples:
            elements.append(TriplesBlock([pattern for pattern, _ in self.triples]))

    # ---- variables and terms (rules 106 to 138) ----

    def sees_node(self):
        """Whether a variable or a term comes next."""
        return self.sees_kind("VAR", "BLANK", "STRING", *self.NUMBER_KINDS) or self.sees_iri() or self.sees("true", "false")

    def subject(self):
        """Reads a variable or a term."""
        if self.sees_kind("VAR"):
            return self.variable()
        if self.sees_kind("BLANK"):
            return self.label()
        return self.iri() if self.sees_iri() else self.literal()

    object = subject

    def sees_verb(self):
        """Whether a verb comes next."""
        return self.sees_kind("VAR") or self.sees("a") or self.sees_iri()

    def verb(self):
        """Reads a verb."""
        if self.takes("a"):
            return RDF_TYPE
        return self.variable() if self.sees_kind("VAR") else self.iri()

    def variable(self):
        """Reads a variable of a pattern or of GRAPH."""
        name = self.take("VAR").text[1:]
        if name not in self.visible:
            self.visible.append(name)
        return Var(name)

    def label(self):
        """Reads a blank node; its label in two basic graph patterns is a fault (5.1.1)."""
        token = self.take("BLANK")
        if self.labels.setdefault(token.text, self.braces) != self.braces:
            self.faults.append(("Q06", token.at))
        self.nodes.append(Term("blank", token.text))
        return self.nodes[-1]

    def bracket(self):
        """Reads an opening bracket; gives the blank node that it stands for."""
        self.nodes.append(super().bracket())
        return self.nodes[-1]

    def literal(self):
        """Reads a literal; one of a type that the profile does not know and a number that is too wide are faults."""
        at = self.next.at
        found = super().literal()
        if found.datatype in (XSD + "double", XSD + "float"):
            self.faults.append(("Q07", at))
        if is_wide_number(found.text, found.datatype):
            self.faults.append(("Q08", at))
        return found

    # ---- expressions (rules 110 to 121) ----

    def bracketed(self):
        """Reads an expression in brackets (BrackettedExpression)."""
        self.expect("(")
        found = self.expression()
        self.expect(")")
        return found

    def expression(self):
        """Reads an Expression, that is a ConditionalOrExpression."""
        return self.chain("||", lambda: self.chain("&&", self.comparison))

    def chain(self, sign, member):
        """Reads members with a sign between them, which are joined from the left."""
        found = member()
        while self.takes(sign):
            found = Call(sign, (found, member()))
        return found

    def comparison(self):
        """Reads a RelationalExpression."""
        left = self.unary()
        if not self.sees(*COMPARISONS):
            return left
        return Call(self.expect(*COMPARISONS).text, (left, self.unary()))

    def unary(self):
        """Reads a UnaryExpression."""
        return Call("!", (self.primary(),)) if self.takes("!") else self.primary()

    def primary(self):
        """Reads a PrimaryExpression."""
        if self.sees("("):
            return self.bracketed()
        if self.sees_kind("VAR"):
            return Var(self.take("VAR").text[1:])
        if self.sees_iri():
            return self.iri()
        is_literal = self.sees_kind("STRING", *self.NUMBER_KINDS) or self.sees("true", "false")
        return self.literal() if is_literal else self.call()

    def sees_call(self):
        """Whether a BuiltInCall comes next."""
        return self.sees("BOUND", "SAMETERM", *TESTS, *ACCESSORS, *STRING_TESTS)

    def call(self):
        """Reads a BuiltInCall."""
        name = self.expect("BOUND", "SAMETERM", *TESTS, *ACCESSORS, *STRING_TESTS).text
        self.expect("(")
        arguments = [Var(self.take("VAR").text[1:]) if name == "BOUND" else self.expression()]
        if name in ("SAMETERM", *STRING_TESTS):
            self.expect(",")
            arguments.append(self.expression())
        self.expect(")")
        return Call(name, tuple(arguments))


def read_query(data, base):
    """The query that a file's bytes are; refused at its first fault."""
    tokens = [with_keyword(token) for token in cut_bytes(data, CLASSES + SIGNS, SKIPPED, "Q01")]
    check_depth(tokens, "Q03")
    cursor = QueryCursor(tokens, base)
    query = cursor.query()
    refuse_first(cursor.faults)
    return query
