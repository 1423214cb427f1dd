"""Random typed plans over tables, as values of `reference/plan_nodes.py`, in which rewrite rules find something to change."""
from math import prod

from random_inputs.tables import VALUES
from reference.plan_nodes import (FALSE, TRUE, Anti, Call, Column, Constant, Distinct, Empty, Join, Left, Project, Scan, Select, Unit,
                                  UnionAll, call, conjunction, kinds_of, null, subplans, term_constant, text_constant)
from reference.rdf import iri, literal
from reference.tables import family

TERMS = [iri("http://e/1"), iri("http://e/a"), literal("a"), literal("1")]


def most_rows(plan, tables):
    """A bound on the rows of a plan and of all plans in it."""
    counts = [most_rows(one, tables) for one in subplans(plan)]
    match plan:
        case Scan(table):
            return max(1, len(tables[table].rows))
        case UnionAll(_):
            return sum(counts)
    return prod(counts)


class PlanMaker:
    """Makes plans over tables."""

    def __init__(self, chance, tables):
        self.chance, self.tables = chance, tables

    # ---- expressions ----

    def constant(self, kind):
        """A constant of a kind, NULL at times."""
        if self.chance.happens(0.2):
            return null(kind)
        if kind == "boolean":
            return self.chance.choice([TRUE, FALSE])
        return term_constant(self.chance.choice(TERMS)) if kind == "term" else Constant(kind, self.chance.choice(VALUES[kind]))

    def expression(self, kind, kinds):
        """An expression of a kind over columns of these kinds, at times the first that is known of some."""
        if self.chance.happens(0.1):
            return Call("COALESCE", tuple(self.expression(kind, kinds) for _ in range(self.chance.randint(1, 3))))
        columns = [Column(place) for place, one in enumerate(kinds) if one == kind]
        if columns and self.chance.happens(0.8):
            return self.chance.choice(columns)
        forms = [call("LEX", Column(place)) for place, one in enumerate(kinds) if one != "term"]
        if kind == "term" and forms and self.chance.happens(0.8):
            return self.made_term(forms)
        return self.condition(kinds, 1) if kind == "boolean" else self.constant(kind)

    def made_term(self, forms):
        """A term made of some of these forms."""
        one, other = self.chance.choice(forms), self.chance.choice(forms)
        front = text_constant("http://e/")
        return self.chance.choice([
            call("IRI", call("CONCAT", front, call("SAFE", one))),
            call("IRI", call("CONCAT", front, call("SAFE", one), text_constant("/"), call("SAFE", other))),
            call("IRI", call("IRI_OF", front, one)),
            call("LIT", one),
            call("LIT", call("CONCAT", one, text_constant("-"), other)),
            call("BLANK", one),
        ])

    def condition(self, kinds, depth=2):
        """A condition; constants are frequent, and so are tests of one column, which more rows meet than equalities."""
        roll, place = self.chance.random(), self.chance.randrange(len(kinds)) if kinds else None
        if roll < 0.25 or place is None:
            return self.chance.choice([TRUE, TRUE, TRUE, FALSE, null("boolean")])
        if roll < 0.4:
            others = [other for other, kind in enumerate(kinds) if family(kind) == family(kinds[place])]
            terms = [self.expression("term", kinds) for _ in range(2)]
            columns = [Column(place), Column(self.chance.choice(others))]
            return call("SAME", *self.chance.choice([columns, terms]))
        if roll < 0.8 or depth == 0:
            test = call("IS_NULL", Column(place))
            return self.chance.choice([test, call("NOT", test), call("SAME", Column(place), Column(place))])
        found = [self.condition(kinds, depth - 1) for _ in range(self.chance.choice([2, 2, 3]))]
        return self.chance.choice([conjunction(found), Call("OR", tuple(found))])

    # ---- plans ----

    def leaf(self):
        """A plan without others in it."""
        kinds = tuple(self.chance.choice(["integer", "string", "term"]) for _ in range(self.chance.randint(0, 2)))
        return self.chance.choice(8 * [Scan(self.chance.randrange(len(self.tables)))] + 2 * [Unit()] + [Empty(kinds)])

    def over_keys(self):
        """Some columns of a join, or left join, of two tables by a key or a foreign key."""
        ties = [(place, key, place, key) for place, table in enumerate(self.tables) for key in table.keys]
        ties += [(place, key.columns, key.table, key.target) for place, table in enumerate(self.tables) for key in table.foreign_keys]
        if not ties:
            return self.leaf()
        one, columns, other, targets = self.chance.choice(ties)
        if self.chance.happens(0.5):
            one, columns, other, targets = other, targets, one, columns
        count = len(self.tables[one].columns)
        pairs = [(Column(place), Column(count + target)) for place, target in zip(columns, targets)]
        condition = conjunction([call("SAME", *self.chance.sample(pair, 2)) for pair in pairs])
        joined = self.chance.choice([Join((Scan(one), Scan(other)), condition), Left(Scan(one), Scan(other), condition)])
        named = [Column(place) for place in range(count)] + [target for _, target in pairs]
        return Project(tuple(self.chance.sample(named, self.chance.randint(1, min(3, len(named))))), joined)

    def projection(self, kinds, depth):
        """A plan whose columns are of these kinds."""
        if self.chance.happens(0.15):
            return Empty(kinds)
        if self.chance.happens(0.2) and depth > 0:
            return UnionAll(tuple(self.projection(kinds, depth - 1) for _ in range(self.chance.choice([1, 1, 2]))))
        inner = self.plan(depth)
        own = kinds_of(inner, self.tables)
        return Project(tuple(self.expression(kind, own) for kind in kinds), inner)

    def plan(self, depth):
        """A plan of at most so many nodes one in the other."""
        if depth == 0:
            return self.over_keys() if self.chance.happens(0.25) else self.leaf()
        inner = self.plan(depth - 1)
        kinds = kinds_of(inner, self.tables)
        node = self.chance.choice([Select, Project, Join, Join, Join, Left, Anti, UnionAll, UnionAll, Distinct])
        if node is Select:
            return Select(self.condition(kinds), inner)
        if node is Project:
            wanted = [self.chance.choice([*kinds, "term", "boolean"]) for _ in range(self.chance.randint(0, 3))]
            return Project(tuple(self.expression(kind, kinds) for kind in wanted), inner)
        if node is Distinct:
            return Distinct(inner)
        if node is UnionAll:
            others = [self.projection(kinds, depth - 1) for _ in range(self.chance.choice([0, 1, 1, 2]))]
            again = [inner] if self.chance.happens(0.3) else []
            return UnionAll(tuple(self.chance.sample([inner, *others, *again], 1 + len(others + again))))
        return self.pairs(node, inner, depth)

    def pairs(self, node, inner, depth):
        """A join, a left join or an anti join."""
        count = 1 if node in (Left, Anti) else self.chance.choice([0, 1, 1, 2])
        others = [self.plan(self.chance.randint(0, depth - 1)) for _ in range(count)]
        plans = self.chance.sample([inner, *others], 1 + len(others))
        condition = self.condition(sum((kinds_of(one, self.tables) for one in plans), ()))
        return node(*plans, condition) if node in (Left, Anti) else Join(tuple(plans), condition)
