"""Queries as they are written (SPARQL 1.1 Query, 19.8), in the profile of docs/DIAGNOSTICS.md (Q07)."""
from collections import namedtuple
from dataclasses import dataclass, field

# An expression is a variable, a term, or a call: `name` is `||`, `&&`, `!`, BOUND, SAMETERM or one of these, in capitals.
COMPARISONS = ("=", "!=", "<", ">", "<=", ">=")
TESTS = ("ISIRI", "ISURI", "ISBLANK", "ISLITERAL", "ISNUMERIC")
ACCESSORS = ("STR", "LANG", "DATATYPE", "STRLEN")
STRING_TESTS = ("STRSTARTS", "STRENDS", "CONTAINS")

Var = namedtuple("Var", "name")
Call = namedtuple("Call", "name arguments")

# A group is a list of elements (rules 53 to 68). A triple pattern is a tuple of three variables and terms, in which blank nodes
# stand for variables that are not seen (4.1.4).
TriplesBlock = namedtuple("TriplesBlock", "patterns")
OptionalElement = namedtuple("OptionalElement", "group")
GraphElement = namedtuple("GraphElement", "name group")
UnionElement = namedtuple("UnionElement", "groups")  # one group, or several with UNION between them
FilterElement = namedtuple("FilterElement", "condition")
MinusElement = namedtuple("MinusElement", "group")
ValuesElement = namedtuple("ValuesElement", "names rows")  # a value is a term, or None for UNDEF
BindElement = namedtuple("BindElement", "expression name")

# A key of ORDER BY, and whether it is asked for from the greatest on (rule 24).
Key = namedtuple("Key", "expression is_descending")


@dataclass
class Modifiers:
    """What stands behind the group (rule 18): the keys of the order, how many solutions at most, and how many are left out before these.

    The two numbers are None where they are not asked for.
    """

    keys: list[Key] = field(default_factory=list)
    limit: int | None = None
    offset: int | None = None


@dataclass
class Query:
    """A query: the selected variables (None for `*`), whether each solution comes once, the group, and its variables in order.

    A query of ASK selects none. One of CONSTRUCT selects `*`; `nodes` are its template's blank nodes by first appearance (16.2).
    """

    selected: list[str] | None
    is_distinct: bool
    group: list
    visible: list[str]
    form: str = "SELECT"
    template: list = field(default_factory=list)
    nodes: list = field(default_factory=list)
    modifiers: Modifiers = field(default_factory=Modifiers)

    def header(self):
        """The variables of the answer, each once: those selected, or all that are visible in the group (18.2.1)."""
        return self.visible if self.selected is None else list(dict.fromkeys(self.selected))


def visible_of(group):
    """The variables that are visible in a group (18.2.1): none of its filters, nor of what it takes away by MINUS."""
    found = set()
    for element in group:
        match element:
            case TriplesBlock(patterns):
                found |= {one.name for pattern in patterns for one in pattern if isinstance(one, Var)}
            case OptionalElement(inner):
                found |= visible_of(inner)
            case GraphElement(name, inner):
                found |= visible_of(inner) | ({name.name} if isinstance(name, Var) else set())
            case UnionElement(groups):
                found |= set().union(*map(visible_of, groups))
            case ValuesElement(names, _):
                found |= set(names)
            case BindElement(_, name):
                found.add(name)
    return found
