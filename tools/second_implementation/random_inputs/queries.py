"""Random queries of the profile over the quads of a dataset, as values of `reference/queries.py`.

Patterns are triples of the dataset in which terms are replaced by variables, one variable for one term as a rule, so that most
answers have solutions.
"""
from random_inputs.terms import IRIS, LITERALS, can_be_written
from reference.evaluation import extension
from reference.queries import (ACCESSORS, COMPARISONS, STRING_TESTS, TESTS, BindElement, Call, FilterElement, GraphElement, Key,
                               MinusElement, Modifiers, OptionalElement, Query, TriplesBlock, UnionElement, ValuesElement, Var,
                               visible_of)
from reference.rdf import DEFAULT_GRAPH, RDF_TYPE, XSD, Term, dataset_of, iri, literal

NAMES = ["s", "p", "o", "x", "y", "é", "n_1", "1", "Name", "g"]
# How often a subject, a predicate or an object becomes a variable, and a blank node.
SHARES = [(0.75, 0.1), (0.2, 0), (0.55, 0.08)]
WRITABLE = [term for term in LITERALS + IRIS if can_be_written(term)]


class QueryMaker:
    """Makes a query over quads.

    `budget` bounds how many elements it has. `size` is a bound on the combinations of triples that its patterns ask for, and may
    not pass `limit`: both implementations look at all of them.
    """

    def __init__(self, chance, quads, limit):
        self.chance, self.dataset, self.limit, self.size = chance, dataset_of(quads), limit, 1
        terms = {term for quad in quads for term in quad if term is not None}
        self.terms = sorted(term for term in terms - {RDF_TYPE} if can_be_written(term))
        self.graphs = sorted(graph for graph in self.dataset if graph is not None)
        self.variables, self.names, self.fresh = {}, [], 0
        self.budget = {
            "element": chance.choice([0, 0, 1, 1, 2, 3, 4]),
            "filter": chance.choice([0, 0, 1, 1, 2, 3]),
            "triple": chance.choice([1, 2, 3, 4, 5]),
        }

    def spends(self, sort, share=1.0):
        """True in a share of cases, as long as the query may hold one more of a sort."""
        is_spent = self.budget[sort] > 0 and self.chance.happens(share)
        self.budget[sort] -= is_spent
        return is_spent

    # ---- patterns ----

    def variable(self, term):
        """A variable for a term: as a rule the one that stands for it elsewhere."""
        if term in self.variables and self.chance.happens(0.75):
            return self.variables[term]
        if self.names and self.chance.happens(0.07):
            return Var(self.chance.choice(self.names))
        self.fresh += 1
        name = self.chance.choice(NAMES) + self.chance.choice(["", "", str(self.fresh)])
        if name not in self.names:
            self.names.append(name)
        self.variables[term] = Var(name)
        return self.variables[term]

    def label(self, term, labels):
        """A blank node for a term; `labels` holds those of this basic graph pattern."""
        if term not in labels or self.chance.happens(0.2):
            self.fresh += 1
            labels[term] = Term("blank", f"{self.chance.choice('bB1é')}{self.fresh}")
        return labels[term]

    def generalised(self, triple, labels):
        """A triple with some of its terms replaced by variables, blank nodes and, at times, other terms."""
        pattern = []
        for place, (term, (variables, blanks)) in enumerate(zip(triple, SHARES)):
            is_writable, roll = can_be_written(term), self.chance.random()
            if roll < variables or not is_writable and (place == 1 or self.chance.happens(0.6)):
                pattern.append(self.variable(term))
            elif roll < variables + blanks or not is_writable:
                pattern.append(self.label(term, labels))
            elif self.chance.happens(0.03):
                pattern.append(self.chance.choice(IRIS if place == 1 else WRITABLE))
            else:
                pattern.append(term)
        return tuple(pattern)

    def block(self, graph, labels):
        """One to four triple patterns from triples of a graph, neighbours as a rule; at times none."""
        known = self.dataset.get(graph, [])
        if not known or not self.spends("triple"):
            return [(self.variable(RDF_TYPE), RDF_TYPE, Var("o"))] if self.chance.happens(0.1) else []
        triples = [self.chance.choice(known)]
        while len(triples) < 4 and self.spends("triple", 0.5):
            subject, _, value = self.chance.choice(triples)
            near = [triple for triple in known if {triple[0], triple[2]} & {subject, value}]
            triples.append(self.chance.choice(near if self.chance.happens(0.8) else known))
        patterns = []
        for triple in triples:
            pattern = self.generalised(triple, labels)
            count = sum(extension(pattern, other, {}) is not None for other in known)
            if self.size * max(count, 1) <= self.limit:
                self.size *= max(count, 1)
                patterns.append(pattern)
        return patterns

    # ---- expressions ----

    def constant(self):
        """A constant of an expression."""
        if self.terms and self.chance.happens(0.55):
            return self.chance.choice(self.terms)
        return self.chance.choice(WRITABLE)

    def some_variable(self):
        """A variable of the query, or one that is nowhere else."""
        is_other = not self.names or self.chance.happens(0.1)
        return Var(self.chance.choice([*self.names, "nope"] if is_other else self.names))

    def operand(self, depth):
        """A variable, a constant, or something of one."""
        roll = self.chance.random()
        if roll < 0.55 or depth == 0 and roll < 0.7:
            return self.some_variable()
        if roll < 0.8 or depth == 0:
            return self.constant()
        if roll < 0.95:
            return Call(self.chance.choice(ACCESSORS), (self.operand(depth - 1),))
        return self.expression(depth - 1)

    def connective(self, depth):
        """Two or three expressions with one sign between them."""
        sign, found = self.chance.choice(["||", "&&"]), self.expression(depth)
        for _ in range(self.chance.choice([1, 1, 2])):
            found = Call(sign, (found, self.expression(depth)))
        return found

    def comparison(self, depth):
        """A comparison; in some cases of a variable with a term that stands in its place in the dataset."""
        sign = self.chance.choice(["=", *COMPARISONS])
        known = [(term, variable) for term, variable in self.variables.items() if can_be_written(term)]
        if known and self.chance.happens(0.4):
            return Call(sign, tuple(self.chance.sample(self.chance.choice(known), 2)))
        if self.chance.happens(0.1):
            return Call(sign, (Call("STRLEN", (self.operand(depth),)), literal(str(self.chance.randrange(8)), datatype=XSD + "integer")))
        return Call(sign, (self.operand(depth), self.operand(depth)))

    def string_test(self, depth):
        """A test of two strings; in some cases of a variable and a part of a literal that stands in its place in the dataset."""
        name = self.chance.choice(STRING_TESTS)
        known = [(term, variable) for term, variable in self.variables.items() if term.kind == "literal" and can_be_written(term)]
        if known and self.chance.happens(0.6):
            term, variable = self.chance.choice(known)
            start, end = sorted(self.chance.randrange(len(term.text) + 1) for _ in range(2))
            return Call(name, (variable, literal(term.text[start:end], self.chance.choice(["", term.language]))))
        return Call(name, (self.operand(depth), self.operand(depth)))

    def expression(self, depth):
        """An expression; that of a filter is asked for its truth."""
        roll = self.chance.random()
        if depth > 0 and roll < 0.35:
            return self.connective(depth - 1)
        if depth > 0 and roll < 0.47:
            return Call("!", (self.expression(depth - 1),))
        if roll < 0.55:
            return Call("BOUND", (self.some_variable(),))
        if roll < 0.62:
            return Call("SAMETERM", (self.operand(depth), self.operand(depth)))
        if roll < 0.7:
            return Call(self.chance.choice(TESTS), (self.operand(depth),))
        if roll < 0.78:
            return self.string_test(depth)
        return self.operand(depth) if roll < 0.82 else self.comparison(depth)

    # ---- groups ----

    def graph_element(self, depth):
        """GRAPH with a name or a variable, whose patterns are of one graph of the dataset."""
        if self.graphs and self.chance.happens(0.5):
            graph = self.chance.choice([*self.graphs, DEFAULT_GRAPH])
            name = graph if can_be_written(graph) else self.variable(graph)
        else:
            graph = self.chance.choice(self.graphs or [iri("http://e/none")])
            name = self.variable(graph) if self.chance.happens(0.8) else Var(self.chance.choice(self.names or ["g"]))
            self.size *= max(1, len(self.graphs))
        return GraphElement(name, self.group(depth - 1, graph))

    def values(self):
        """A table of a few values: terms of the dataset as a rule, for variables of the query or new ones."""
        known = self.chance.sample(self.names, min(len(self.names), self.chance.choice([0, 1, 1, 1, 2])))
        names = known or [self.new_name()] if self.chance.happens(0.95) else []
        rows = [tuple(None if self.chance.happens(0.2) else self.constant() for _ in names) for _ in range(self.chance.choice([0, 1, 2, 2, 3]))]
        self.size *= max(1, len(rows))
        return ValuesElement(tuple(names), tuple(rows))

    def new_name(self):
        """A name of a variable that is nowhere yet."""
        self.fresh += 1
        self.names.append(f"v{self.fresh}")
        return self.names[-1]

    def bind(self, before):
        """BIND of an expression to a variable that is not visible in what the group holds before it."""
        free = [name for name in self.names if name not in visible_of(before)]
        expression = self.operand(2) if self.chance.happens(0.6) else self.expression(1)
        return BindElement(expression, self.chance.choice(free) if free and self.chance.happens(0.3) else self.new_name())

    def element(self, depth, graph, before):
        """An element of a group that is no triples and no filter."""
        roll = self.chance.random()
        if roll < 0.08:
            return MinusElement(self.group(depth - 1, graph))
        if roll < 0.15:
            return self.values()
        if roll < 0.22:
            return self.bind(before)
        if roll < 0.5:
            inner = self.group(depth - 1, graph)
            return OptionalElement([UnionElement([inner])] if self.chance.happens(0.12) else inner)
        if roll < 0.65:
            return UnionElement([self.group(depth - 1, graph) for _ in range(self.chance.choice([1, 2, 2, 2, 3]))])
        return self.graph_element(depth)

    def group(self, depth, graph):
        """A group: triples, other elements and filters in any order; a label lives up to the next element that is no filter."""
        elements, labels = [], {}
        for _ in range(self.chance.choice([1, 1, 1, 2] if depth > 0 else [0, 1, 1, 1, 1])):
            patterns = self.block(graph, labels)
            elements += [TriplesBlock(patterns)] if patterns else []
            while depth > 0 and self.spends("element", 0.6):
                elements.append(self.element(depth, graph, elements))
                labels = {}
        while (self.names or self.chance.happens(0.2)) and self.spends("filter", 0.35):
            elements.insert(self.chance.randint(0, len(elements)), FilterElement(self.expression(2)))
        return elements

    # ---- forms and modifiers (15 and 16) ----

    def modifiers(self):
        """Keys of an order, and a slice, for a part of the queries."""
        found = Modifiers()
        for _ in range(self.chance.choice([0, 0, 0, 1, 1, 2])):
            key = self.some_variable() if self.chance.happens(0.7) else self.expression(1)
            found.keys.append(Key(key, self.chance.happens(0.4)))
        if self.chance.happens(0.2):
            found.limit = self.chance.choice([0, 1, 1, 2, 3, 2**32 - 1])
        if self.chance.happens(0.15):
            found.offset = self.chance.choice([0, 1, 1, 2, 2**32 - 1])
        return found

    def template(self):
        """Triples of a template: variables of the query, terms, and blank nodes, also where no triple can be made of them."""
        nodes = [Term("blank", f"t{number}") for number in range(2)]
        places = [lambda: self.some_variable(), lambda: self.chance.choice(nodes), lambda: self.chance.choice(IRIS), self.constant]
        found = []
        for _ in range(self.chance.choice([0, 1, 1, 2, 3])):
            subject, value = (self.chance.choice(places)() for _ in range(2))
            found.append((subject, self.some_variable() if self.chance.happens(0.3) else self.chance.choice(IRIS), value))
        return [triple for triple in found if all(isinstance(one, Var) or one.kind == "blank" or can_be_written(one) for one in triple)]

    def query(self):
        """A query; most groups ask the default graph."""
        graph = self.chance.choice(self.graphs) if self.graphs and self.chance.happens(0.25) else None
        group, selected = self.group(self.chance.choice([1, 2, 3]), graph), None
        if not self.names or self.chance.happens(0.75):
            names = [*self.names, "nope"] if not self.names or self.chance.happens(0.1) else self.names
            selected = self.chance.sample(names, self.chance.randint(1, min(len(names), 4)))
            selected += selected[:1] if self.chance.happens(0.03) else []
        roll = self.chance.random()
        if roll < 0.06:
            return Query([], False, group, [], "ASK")
        if roll < 0.18:
            return Query(None, False, group, [], "CONSTRUCT", self.template(), [], self.modifiers())
        return Query(selected, self.chance.happens(0.3), group, [], modifiers=self.modifiers())
