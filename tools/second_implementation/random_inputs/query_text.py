"""Queries as texts, each part in one of its spellings (SPARQL 1.1 Query, 4 and 19.8)."""
from collections import Counter

from random_inputs.spelling import TermWriter, joined
from reference.queries import (ACCESSORS, COMPARISONS, STRING_TESTS, TESTS, BindElement, Call, FilterElement, GraphElement,
                               MinusElement, OptionalElement, TriplesBlock, UnionElement, ValuesElement, Var)
from reference.rdf import RDF, RDF_TYPE, XSD

BASES = [None, None, None, "http://e/", "http://other.org/a/b?c"]
# The words of the profile's functions as the standard writes them, where that is not in capitals.
FUNCTIONS = {"SAMETERM": "sameTerm", "ISIRI": "isIRI", "ISURI": "isURI", "ISBLANK": "isBlank", "ISLITERAL": "isLiteral",
             "ISNUMERIC": "isNumeric"}


def blank_nodes(group):
    """The blank nodes of the triple patterns of a group, each as often as it stands there."""
    for element in group:
        match element:
            case TriplesBlock(patterns):
                terms = [term for pattern in patterns for term in pattern if not isinstance(term, Var)]
                yield from (term for term in terms if term.kind == "blank")
            case UnionElement(groups):
                yield from (node for inner in groups for node in blank_nodes(inner))
            case OptionalElement(inner) | GraphElement(_, inner) | MinusElement(inner):
                yield from blank_nodes(inner)


class QueryWriter:
    """Writes a query; without escapes, comments and relative IRIs where `escapes`, the share of escaped characters, is 0."""

    def __init__(self, chance, query, base, escapes):
        self.chance, self.query, self.escapes = chance, query, escapes
        choices = [("xsd", XSD), ("ex", base), ("", "http://e/"), ("rdf", RDF), ("e.x-1", "http://ex.org/ns#"), ("é", "urn:a:")]
        prefixes = dict(pair for pair in choices if chance.happens(0.5))
        self.own_base, self.blanks = chance.choice(BASES), Counter(blank_nodes(query.group))
        self.terms = TermWriter(chance, prefixes, self.own_base or base, ("integer", "decimal"), escapes)

    def text(self):
        """The query."""
        tokens = [self.word("BASE"), f"<{self.own_base}>"] if self.own_base else []
        for prefix, text in self.terms.prefixes.items():
            tokens += [self.word("PREFIX"), prefix + ":", f"<{text}>"]
        tokens += self.head() + ([self.word("WHERE")] if self.chance.happens(0.5) else [])
        return joined(self.chance, tokens + self.group(self.query.group) + self.modifiers(), self.escapes == 0)

    def head(self):
        """The tokens of the form of the query."""
        tokens = [self.word(self.query.form)]
        if self.query.form == "CONSTRUCT":
            return tokens + self.template()
        if self.query.form == "ASK":
            return tokens
        if self.query.is_distinct:
            tokens.append(self.word("DISTINCT"))
        elif self.escapes and self.chance.happens(0.05):
            tokens.append(self.word("REDUCED"))
        return tokens + (["*"] if self.query.selected is None else [self.variable(name) for name in self.query.selected])

    def template(self):
        """The tokens of a template; its blank nodes are apart from those of the group."""
        of_group, self.blanks = self.blanks, Counter(blank_nodes([TriplesBlock(self.query.template)]))
        tokens = ["{", *self.block(self.query.template), "}"]
        self.blanks = of_group
        return tokens

    def modifiers(self):
        """The tokens of the order and of the slice, whose parts may stand in either order."""
        found = self.query.modifiers
        tokens = [self.word("ORDER"), self.word("BY")] if found.keys else []
        for key in found.keys:
            tokens += self.key(key)
        parts = [[self.word("LIMIT"), str(found.limit)]] if found.limit is not None else []
        parts += [[self.word("OFFSET"), str(found.offset)]] if found.offset is not None else []
        self.chance.shuffle(parts)
        return tokens + [token for part in parts for token in part]

    def key(self, key):
        """The tokens of a key of the order."""
        in_brackets = ["(", *self.expression(key.expression), ")"]
        if key.is_descending:
            return [self.word("DESC"), *in_brackets]
        if self.chance.happens(0.2):
            return [self.word("ASC"), *in_brackets]
        if isinstance(key.expression, Var) and self.chance.happens(0.8):
            return [self.variable(key.expression.name)]
        return self.constraint(key.expression)

    # ---- words and terms ----

    def word(self, text):
        """A word of the grammar, in any case at random."""
        return self.chance.any_case(text) if self.chance.happens(0.2) else text

    def variable(self, name):
        """A variable with either sign (4.1.3)."""
        return ("$" if self.chance.happens(0.1) else "?") + name

    def term(self, term):
        """The tokens of a variable or a term."""
        return [self.variable(term.name)] if isinstance(term, Var) else self.terms.term(term)

    # ---- groups (5) ----

    def group(self, elements):
        """The tokens of a group; triples that stand side by side are parted by a dot."""
        tokens = ["{"]
        for place, element in enumerate(elements):
            is_block = isinstance(element, TriplesBlock)
            if is_block and place and isinstance(elements[place - 1], TriplesBlock) and tokens[-1] != ".":
                tokens.append(".")
            tokens += self.element(element)
            tokens += ["."] if not is_block and self.chance.happens(0.15) else []
        return tokens + ["}"]

    def element(self, element):
        """The tokens of an element of a group."""
        match element:
            case TriplesBlock(patterns):
                return self.block(patterns)
            case FilterElement(condition):
                return [self.word("FILTER"), *self.constraint(condition)]
            case OptionalElement(inner):
                return [self.word("OPTIONAL"), *self.group(inner)]
            case GraphElement(name, inner):
                return [self.word("GRAPH"), *self.term(name), *self.group(inner)]
            case MinusElement(inner):
                return [self.word("MINUS"), *self.group(inner)]
            case ValuesElement(names, rows):
                return [self.word("VALUES"), *self.values(names, rows)]
            case BindElement(expression, name):
                return [self.word("BIND"), "(", *self.expression(expression), self.word("AS"), self.variable(name), ")"]
            case UnionElement([first, *rest]):
                return self.group(first) + [token for group in rest for token in [self.word("UNION"), *self.group(group)]]

    def values(self, names, rows):
        """The tokens of a table of values: one variable may stand without brackets."""
        cells = [[[self.word("UNDEF")] if term is None else self.term(term) for term in row] for row in rows]
        if len(names) == 1 and self.chance.happens(0.6):
            return [self.variable(names[0]), "{", *[token for [cell] in cells for token in cell], "}"]
        tokens = ["(", *map(self.variable, names), ")", "{"]
        for row in cells:
            tokens += ["(", *[token for cell in row for token in cell], ")"]
        return tokens + ["}"]

    # ---- triples (4.1 and 4.2) ----

    def block(self, patterns):
        """The tokens of triple patterns in their order, with lists of verbs and of objects, and brackets for blank nodes."""
        rest, tokens = list(patterns), []
        while rest:
            subject = rest[0][0]
            is_alone = self.blanks[subject] == 1
            tokens += ["[", "]"] if is_alone and self.chance.happens(0.6) else self.term(subject)
            tokens += self.properties(subject, rest)
            tokens += [";"] if self.chance.happens(0.05) else []
            tokens += ["."] if rest or self.chance.happens(0.5) else []
        return tokens

    def properties(self, subject, rest):
        """The tokens of the next patterns of a subject, which are taken from the rest: one of them or some."""
        tokens, before = [], None
        while rest and rest[0][0] == subject and (before is None or self.chance.happens(0.6)):
            _, verb, value = rest.pop(0)
            if verb == before and self.chance.happens(0.7):
                tokens.append(",")
            else:
                tokens += ([";"] if before is not None else []) + self.verb(verb)
            tokens += self.object(value, rest)
            before = verb
        return tokens

    def verb(self, verb):
        """The tokens of a verb."""
        return ["a"] if verb == RDF_TYPE and self.chance.happens(0.7) else self.term(verb)

    def object(self, value, rest):
        """The tokens of an object: brackets at random for a blank node whose other uses are all as a subject of the rest.

        Those patterns then go into the brackets (4.1.4).
        """
        own = [pattern for pattern in rest if pattern[0] == value and value not in pattern[1:]]
        if self.blanks[value] != 1 + len(own) or self.chance.happens(0.3):
            return self.term(value)
        for pattern in own:
            rest.remove(pattern)
        tokens = []
        for _, verb, inner in own:
            tokens += ([";"] if tokens else []) + self.verb(verb) + self.object(inner, rest)
        return ["[", *tokens, "]"]

    # ---- expressions (rules 68 and 110 to 121) ----

    def constraint(self, expression):
        """The tokens of a filter's constraint: a call, or an expression in brackets."""
        is_call = isinstance(expression, Call) and expression.name in ("BOUND", "SAMETERM", *TESTS, *ACCESSORS, *STRING_TESTS)
        return self.expression(expression) if is_call and self.chance.happens(0.5) else ["(", *self.expression(expression), ")"]

    def expression(self, expression):
        """The tokens of an expression."""
        if not isinstance(expression, Call):
            return self.term(expression)
        name, arguments = expression.name, expression.arguments
        if name == "!":
            return ["!", *self.member(arguments[0], ())]
        if name in ("||", "&&"):
            tighter = ("!", *COMPARISONS) if name == "&&" else ("!", *COMPARISONS, "&&")
            return [*self.member(arguments[0], (*tighter, name)), name, *self.member(arguments[1], tighter)]
        if name in COMPARISONS:
            return [*self.member(arguments[0], ("!",)), name, *self.member(arguments[1], ("!",))]
        tokens = [self.word(FUNCTIONS.get(name, name)), "(", *self.expression(arguments[0])]
        for argument in arguments[1:]:
            tokens += [",", *self.expression(argument)]
        return tokens + [")"]

    def member(self, expression, signs):
        """The tokens of a part of an expression, in brackets where it is of a sign other than these, or at random."""
        is_signed = isinstance(expression, Call) and expression.name in ("||", "&&", "!", *COMPARISONS)
        needs_brackets = is_signed and expression.name not in signs or self.chance.happens(0.05)
        return ["(", *self.expression(expression), ")"] if needs_brackets else self.expression(expression)
