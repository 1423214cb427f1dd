"""The algebra of SPARQL, and the algebra of a query (SPARQL 1.1 Query, 18.2.2)."""
from collections import namedtuple
from functools import reduce

from reference.queries import (BindElement, Call, FilterElement, GraphElement, MinusElement, OptionalElement, TriplesBlock, UnionElement,
                               ValuesElement)

# The symbols of 18.2. The condition of a left join is None where it is true.
BasicGraphPattern = namedtuple("BasicGraphPattern", "patterns")
Join = namedtuple("Join", "left right")
LeftJoin = namedtuple("LeftJoin", "left right condition")
Filter = namedtuple("Filter", "condition inner")
Union = namedtuple("Union", "left right")
Graph = namedtuple("Graph", "name inner")
Minus = namedtuple("Minus", "left right")
Table = namedtuple("Table", "names rows")
Extend = namedtuple("Extend", "inner name expression")

UNIT = BasicGraphPattern(())


def algebra_of(group):
    """The algebra of a group, simplified."""
    return simplified(translated(group))


def translated(group):
    """The algebra of a group (18.2.2.2, 18.2.2.5 to 18.2.2.7).

    FILTER is collected from the whole group and ends no basic graph pattern; each other element does.
    """
    found, patterns = UNIT, []
    for element in group:
        if isinstance(element, TriplesBlock):
            patterns += element.patterns
        elif not isinstance(element, FilterElement):
            found, patterns = extended(joined_block(found, patterns), element), []
    found = joined_block(found, patterns)
    filters = [element.condition for element in group if isinstance(element, FilterElement)]
    return Filter(reduce(lambda one, other: Call("&&", (one, other)), filters), found) if filters else found


def joined_block(found, patterns):
    """What was translated, and the basic graph pattern of the triple patterns behind it."""
    return Join(found, BasicGraphPattern(tuple(patterns))) if patterns else found


def extended(found, element):
    """What was translated, and an element behind it (18.2.2.6)."""
    match element:
        case OptionalElement(group):
            inner = translated(group)
            if isinstance(inner, Filter):
                return LeftJoin(found, inner.inner, inner.condition)
            return LeftJoin(found, inner, None)
        case GraphElement(name, group):
            return Join(found, Graph(name, translated(group)))
        case UnionElement(groups):
            return Join(found, reduce(Union, map(translated, groups)))
        case MinusElement(group):
            return Minus(found, translated(group))
        case ValuesElement(names, rows):
            return Join(found, Table(names, rows))
        case BindElement(expression, name):
            return Extend(found, name, expression)


def simplified(algebra):
    """An algebra without joins with the empty pattern (18.2.2.8)."""
    match algebra:
        case Join(left, right):
            left, right = simplified(left), simplified(right)
            if UNIT in (left, right):
                return right if left == UNIT else left
            return Join(left, right)
        case Union(left, right):
            return Union(simplified(left), simplified(right))
        case LeftJoin(left, right, condition):
            return LeftJoin(simplified(left), simplified(right), condition)
        case Filter(condition, inner):
            return Filter(condition, simplified(inner))
        case Graph(name, inner):
            return Graph(name, simplified(inner))
        case Minus(left, right):
            return Minus(simplified(left), simplified(right))
        case Extend(inner, name, expression):
            return Extend(simplified(inner), name, expression)
    return algebra
