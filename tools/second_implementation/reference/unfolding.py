"""The plan of a query over the rules of a mapping, before any rewriting (docs/DEFINITIONS.md, `start_plan`).

A plan of an algebra has a column for each variable that is visible in it (SPARQL 1.1 Query, 18.2.1), NULL where it is not bound.
The rows are those of 18.3 to 18.6 with one graph as the active one: the default graph, that of an IRI, or each named graph in
turn, where the graph's name is the last column. These are the modes DEFAULT, a term, and EACH.
"""
from reference import plan_nodes
from reference.algebra import BasicGraphPattern, Extend, Filter, Graph, Join, LeftJoin, Minus, Table, Union, algebra_of
from reference.plan_nodes import (TRUE, Anti, Column, Distinct, Empty, Left, Project, Scan, Select, Unit, UnionAll, call, conjunction,
                                  disjunction, null, term_constant, text_constant)
from reference.queries import ACCESSORS, STRING_TESTS, Call, Var
from reference.rdf import DEFAULT_GRAPH, XSD, Term

DEFAULT, EACH = "default", "each"
HIDDEN = Var(None)  # the name of the graph's column

FUNCTIONS = {"=": "EQ", "!=": "NE", "<": "LT", ">": "GT", "<=": "LE", ">=": "GE", "ISIRI": "IS_IRI", "ISURI": "IS_IRI",
             "ISBLANK": "IS_BLANK", "ISLITERAL": "IS_LITERAL", "ISNUMERIC": "IS_NUMERIC", "SAMETERM": "SAME",
             **{name: name for name in (*ACCESSORS, *STRING_TESTS)}}
CONNECTIVES = {"||": "OR", "&&": "AND", "!": "NOT"}


def each_once(names):
    """Names, each at its first place."""
    return list(dict.fromkeys(names))


# ---- the expressions of filters (17.2) ----


def gives_truth(expression):
    """Whether an expression gives a boolean as a truth; else it gives a term."""
    return isinstance(expression, Call) and expression.name not in ACCESSORS


def as_term(expression, at):
    """An expression as one that gives a term; `at` gives the expression of a variable."""
    made = filter_expression(expression, at)
    return call("LIT", call("LEX", made), text_constant("^^" + XSD + "boolean")) if gives_truth(expression) else made


def as_truth(expression, at):
    """An expression as one that gives a truth, by its effective boolean value (17.2.2)."""
    made = filter_expression(expression, at)
    return made if gives_truth(expression) else call("EBV", made)


def filter_expression(expression, at):
    """An expression of a filter over a row."""
    match expression:
        case Var(name):
            return at(name)
        case Term():
            return term_constant(expression)
        case Call("BOUND", (Var(name),)):
            return call("NOT", call("IS_NULL", at(name)))
        case Call(name, arguments) if name in CONNECTIVES:
            return plan_nodes.Call(CONNECTIVES[name], tuple(as_truth(one, at) for one in arguments))
        case Call(name, arguments):
            return plan_nodes.Call(FUNCTIONS[name], tuple(as_term(one, at) for one in arguments))


# ---- variables ----


def names_in(pattern):
    """The variables and blank nodes of a triple pattern; blank nodes stand for variables that are not seen (4.1.4)."""
    return [one for one in pattern if isinstance(one, Var) or one.kind == "blank"]


def visible(algebra):
    """The variables that are visible in an algebra (18.2.1), by first appearance."""
    match algebra:
        case BasicGraphPattern(patterns):
            return each_once(one.name for pattern in patterns for one in pattern if isinstance(one, Var))
        case Filter(_, inner):
            return visible(inner)
        case Graph(Var(name), inner):
            return each_once([name] + visible(inner))
        case Graph(_, inner):
            return visible(inner)
        case Join(left, right) | LeftJoin(left, right, _) | Union(left, right):
            return each_once(visible(left) + visible(right))
        case Minus(left, _):
            return visible(left)
        case Table(names, _):
            return each_once(names)
        case Extend(inner, name, _):
            return visible(inner) + [name]


def column(names, name, first=0):
    """The column of a variable, where the columns of some begin at a place."""
    return Column(first + names.index(name))


def column_or_null(names, name):
    """The column of a variable, or NULL where it is not among them."""
    return column(names, name) if name in names else null("term")


def repeats(named):
    """That each later expression of a name is the same as its first one; `named` holds pairs of a name and an expression."""
    first, found = {}, []
    for name, expression in named:
        if name in first:
            found.append(call("SAME", expression, first[name]))
        first.setdefault(name, expression)
    return found


# ---- rules ----


def is_in_graph(rule, mode):
    """The conditions under which a rule makes quads of the active graph, or None where it makes none (R2RML, 9)."""
    if rule.graph is None:
        return [] if mode == DEFAULT else None
    is_default = call("SAME", rule.graph, term_constant(DEFAULT_GRAPH))
    if mode == DEFAULT:
        return [is_default]
    if mode == EACH:
        return [call("NOT", is_default)] if rule.may_be_default else []
    return None if mode == DEFAULT_GRAPH else [call("SAME", rule.graph, term_constant(mode))]


def graph_terms(rule):
    """The graph's name of a rule, if it has one."""
    return [] if rule.graph is None else [rule.graph]


def in_mode_each(mode, one):
    """What is there only where the graph's name is the last column."""
    return [one] if mode == EACH else []


class Unfolder:
    """Makes plans over tables and rules."""

    def __init__(self, tables, rules):
        self.tables, self.rules = tables, rules

    def rows_of_rule(self, rule, conditions):
        """The rows of a rule's table on which conditions are true, or its pairs of rows (R2RML, 8)."""
        if rule.join is None:
            return Select(conjunction(conditions), Scan(rule.table))
        parent, pairs = rule.join
        width = len(self.tables[rule.table].columns)
        agree = [call("SAME", Column(child), Column(width + other)) for child, other in pairs]
        return plan_nodes.Join((Scan(rule.table), Scan(parent)), conjunction(agree + conditions))

    def member(self, rule, mode, expressions, conditions):
        """The expressions of the rows of which a rule makes quads of the active graph, or None."""
        in_graph = is_in_graph(rule, mode)
        if in_graph is None:
            return None
        terms = [rule.subject, rule.predicate, rule.object, *graph_terms(rule)]
        are_there = [call("NOT", call("IS_NULL", term)) for term in terms]
        return Project(tuple(expressions), self.rows_of_rule(rule, are_there + in_graph + conditions))

    def pattern_member(self, rule, mode, pattern):
        """The rows of a triple pattern that a rule gives, or None."""
        places = list(zip(pattern, (rule.subject, rule.predicate, rule.object)))
        named = [(one, term) for one, term in places if one in names_in(pattern)]
        fixed = [call("SAME", term_constant(one), term) for one, term in places if one not in names_in(pattern)]
        columns = {}
        for name, expression in named:
            columns.setdefault(name, expression)
        graph = graph_terms(rule) if mode == EACH else []
        return self.member(rule, mode, [*columns.values(), *graph], fixed + repeats(named))

    def union(self, width, members):
        """Each row of some members once; None among them are left out."""
        members = tuple(member for member in members if member is not None)
        return Distinct(UnionAll(members)) if members else Empty(width * ("term",))

    def graph_names(self):
        """The names of all graphs."""
        return self.union(1, [self.member(rule, EACH, graph_terms(rule), []) for rule in self.rules])

    def graph_exists(self, name):
        """One row without columns where there is a graph of a name."""
        return self.union(0, [self.member(rule, name, [], []) for rule in self.rules])

    # ---- algebras (18.5 and 18.6) ----

    def plan(self, algebra, mode):
        """The plan of an algebra."""
        match algebra:
            case BasicGraphPattern(patterns):
                return self.patterns(patterns, mode)
            case Join(left, right):
                return self.joined(left, right, mode, lambda one, other, condition: plan_nodes.Join((one, other), condition), [])
            case LeftJoin(left, right, condition):
                at = merged(visible(left), visible(right), mode)
                more = [] if condition is None else [as_truth(condition, at)]
                return self.joined(left, right, mode, Left, more)
            case Union(left, right):
                return self.united(left, right, mode)
            case Filter(condition, inner):
                names = visible(inner)
                return Select(as_truth(condition, lambda name: column_or_null(names, name)), self.plan(inner, mode))
            case Minus(left, right):
                return self.difference(left, right, mode)
            case Table(names, rows):
                members = [Project(tuple(map(value_constant, row)), Unit()) for row in rows]
                plan = UnionAll(tuple(members)) if members else Empty(len(names) * ("term",))
                return self.after(self.graph_names(), 1, list(names), plan) if mode == EACH else plan
            case Extend(inner, _, expression):
                names = visible(inner)
                columns = [column(names, name) for name in names] + [as_term(expression, lambda name: column_or_null(names, name))]
                return Project(tuple(columns + in_mode_each(mode, Column(len(names)))), self.plan(inner, mode))
            case Graph(name, inner):
                plan = self.each_graph(name.name, inner) if isinstance(name, Var) else self.one_graph(name, inner)
                return self.after(self.graph_names(), 1, visible(algebra), plan) if mode == EACH else plan

    def patterns(self, patterns, mode):
        """A basic graph pattern; the empty one has one solution, with mode EACH one in each graph."""
        if not patterns:
            return self.graph_names() if mode == EACH else Unit()
        names, members = [], []
        for pattern in patterns:
            own = each_once(names_in(pattern)) + in_mode_each(mode, HIDDEN)
            members.append(self.union(len(own), [self.pattern_member(rule, mode, pattern) for rule in self.rules]))
            names += own
        agree = repeats([(name, Column(place)) for place, name in enumerate(names)])
        wanted = [Var(name) for name in visible(BasicGraphPattern(patterns))] + in_mode_each(mode, HIDDEN)
        return Project(tuple(column(names, name) for name in wanted), plan_nodes.Join(tuple(members), conjunction(agree)))

    def joined(self, left, right, mode, node, conditions):
        """The pairs of two algebras that agree and meet conditions, as a node of two plans and a condition has them."""
        names, others = visible(left), visible(right)
        at, first = merged(names, others, mode), len(names) + (mode == EACH)
        agree = []
        for name in names:
            if name in others:
                one, other = column(names, name), column(others, name, first)
                agree.append(disjunction([call("IS_NULL", one), call("IS_NULL", other), call("SAME", one, other)]))
        agree += in_mode_each(mode, call("SAME", Column(len(names)), Column(first + len(others))))
        columns = [at(name) for name in each_once(names + others)] + in_mode_each(mode, Column(len(names)))
        pairs = node(self.plan(left, mode), self.plan(right, mode), conjunction(agree + conditions))
        return Project(tuple(columns), pairs)

    def difference(self, left, right, mode):
        """The rows of an algebra for which another one has none that agrees and shares a bound variable (18.5, Minus)."""
        names, others = visible(left), visible(right)
        shared, first = [name for name in names if name in others], len(names) + (mode == EACH)
        if not shared:
            return self.plan(left, mode)
        pairs = [(column(names, name), column(others, name, first)) for name in shared]
        agree = in_mode_each(mode, call("SAME", Column(len(names)), Column(first + len(others))))
        agree += [disjunction([call("IS_NULL", one), call("IS_NULL", other), call("SAME", one, other)]) for one, other in pairs]
        both = [conjunction([call("NOT", call("IS_NULL", one)), call("NOT", call("IS_NULL", other))]) for one, other in pairs]
        return Anti(self.plan(left, mode), self.plan(right, mode), conjunction(agree + [disjunction(both)]))

    def united(self, left, right, mode):
        """The rows of two algebras over the variables of both."""
        wanted, members = each_once(visible(left) + visible(right)), []
        for one in (left, right):
            names = visible(one)
            columns = [column_or_null(names, name) for name in wanted] + in_mode_each(mode, Column(len(names)))
            members.append(Project(tuple(columns), self.plan(one, mode)))
        return UnionAll(tuple(members))

    # ---- GRAPH (18.6; 13.3) ----

    def after(self, first, width, names, plan):
        """A plan behind one of graphs' names, which becomes the last column, or of none; `width` says which."""
        columns = [column(names, name, width) for name in names] + [Column(0)] * width
        return Project(tuple(columns), plan_nodes.Join((first, plan), TRUE))

    def one_graph(self, name, inner):
        """GRAPH with an IRI: there is no solution in a graph that is not there, which a triple pattern asks itself."""
        plan = self.plan(inner, name)
        if isinstance(inner, BasicGraphPattern) and inner.patterns:
            return plan
        return self.after(self.graph_exists(name), 0, visible(inner), plan)

    def each_graph(self, name, inner):
        """GRAPH with a variable: the graph's name is its value, also where it is bound inside."""
        names, plan = visible(inner), self.plan(inner, EACH)
        graph = Column(len(names))
        if name in names:
            own = column(names, name)
            plan = Select(disjunction([call("IS_NULL", own), call("SAME", own, graph)]), plan)
        wanted = each_once([name] + names)
        return Project(tuple(graph if one == name else column(names, one) for one in wanted), plan)


def value_constant(term):
    """The constant of a value of a table; UNDEF is NULL."""
    return null("term") if term is None else term_constant(term)


def merged(names, others, mode):
    """What gives the expression of a variable in the pairs of two algebras: the left one's value, or else the right one's."""
    first = len(names) + (mode == EACH)

    def at(name):
        found = [column(names, name)] if name in names else []
        found += [column(others, name, first)] if name in others else []
        if len(found) > 1:
            return plan_nodes.Call("COALESCE", tuple(found))
        return found[0] if found else null("term")

    return at


def start_plan(query, tables, rules):
    """The plan of a query over the rules of a mapping: its algebra, the selected variables and the keys, and DISTINCT (18.2.4, 18.2.5)."""
    algebra = algebra_of(query.group)
    names = visible(algebra)
    columns = [column_or_null(names, name) for name in query.header()]
    columns += [as_term(key.expression, lambda name: column_or_null(names, name)) for key in query.modifiers.keys]
    plan = Project(tuple(columns), Unfolder(tables, rules).plan(algebra, DEFAULT))
    return Distinct(plan) if query.is_distinct else plan
