"""Plans as values, the kinds of their columns, and their text (docs/DEFINITIONS.md, `sql_text`).

The kinds are those of `datatypes.py`, and `term`. A table is known by its place, and so is a column.
"""
from dataclasses import dataclass

from reference.rdf import Term, term_text

KIND_NAMES = {"integer": "INT", "decimal": "DEC", "boolean": "BOOL", "string": "TEXT", "date": "DATE", "dateTime": "STAMP",
              "hexBinary": "BIN", "time": "TIME", "term": "TERM"}

# The functions that give terms, and those that give texts; COALESCE gives what its arguments are, every other one a boolean.
TERM_FUNCTIONS = ("IRI", "BLANK", "LIT", "STR", "LANG", "DATATYPE", "STRLEN")
TEXT_FUNCTIONS = ("IRI_OF", "LEX", "SAFE", "CONCAT")


# ---- expressions ----


@dataclass(frozen=True)
class Column:
    """A column of a row."""

    place: int


@dataclass(frozen=True)
class Constant:
    """A constant: a term, a truth, the lexical form of another kind, or None for NULL."""

    kind: str
    value: Term | bool | str | None


@dataclass(frozen=True)
class Call:
    """A function of `plan_values.py` by its name. What IRI_OF and LIT have beside an expression are constants of texts."""

    name: str
    arguments: tuple


TRUE, FALSE = Constant("boolean", True), Constant("boolean", False)


def call(name, *arguments):
    """A call."""
    return Call(name, arguments)


def text_constant(text):
    """The constant of a text."""
    return Constant("string", text)


def term_constant(term):
    """The constant of a term."""
    return Constant("term", term)


def null(kind):
    """NULL as a constant of a kind."""
    return Constant(kind, None)


def conjunction(conditions):
    """The And of some conditions: of one it is that one, of none it is true."""
    if len(conditions) > 1:
        return Call("AND", tuple(conditions))
    return conditions[0] if conditions else TRUE


def disjunction(conditions):
    """The Or of some conditions: of one it is that one, of none it is false."""
    if len(conditions) > 1:
        return Call("OR", tuple(conditions))
    return conditions[0] if conditions else FALSE


def conjuncts(condition):
    """The conditions that an And joins at the top of a condition, or the condition itself."""
    is_and = isinstance(condition, Call) and condition.name == "AND"
    return list(condition.arguments) if is_and else [condition]


def columns_in(expression):
    """The places of the columns in an expression, in the order of its text."""
    match expression:
        case Column(place):
            return [place]
        case Call(_, arguments):
            return [place for one in arguments for place in columns_in(one)]
    return []


def moved(expression, count):
    """An expression whose columns stand so many places further right."""
    match expression:
        case Column(place):
            return Column(place + count)
        case Call(name, arguments):
            return Call(name, tuple(moved(one, count) for one in arguments))
    return expression


def put_in(expression, others):
    """An expression with others in the place of its columns."""
    match expression:
        case Column(place):
            return others[place]
        case Call(name, arguments):
            return Call(name, tuple(put_in(one, others) for one in arguments))
    return expression


# ---- plans ----


@dataclass(frozen=True)
class Unit:
    """One row without columns."""


@dataclass(frozen=True)
class Empty:
    """No row of columns of these kinds."""

    kinds: tuple


@dataclass(frozen=True)
class Scan:
    """The rows of a table."""

    table: int


@dataclass(frozen=True)
class Select:
    """The rows on which a condition is true."""

    condition: object
    inner: object


@dataclass(frozen=True)
class Project:
    """The values of expressions on each row."""

    expressions: tuple
    inner: object


@dataclass(frozen=True)
class Join:
    """The rows of all members one behind the other, on which a condition is true."""

    members: tuple
    condition: object


@dataclass(frozen=True)
class Left:
    """The pairs of rows on which a condition is true, and each row of the left without one, with NULLs behind it."""

    left: object
    right: object
    condition: object


@dataclass(frozen=True)
class Anti:
    """The rows of the left for which no row of the right makes a condition true."""

    left: object
    right: object
    condition: object


@dataclass(frozen=True)
class UnionAll:
    """The rows of all members, which have columns of the same kinds."""

    members: tuple


@dataclass(frozen=True)
class Distinct:
    """Each row once."""

    inner: object


def subplans(plan):
    """The plans right below a node."""
    match plan:
        case Select(_, inner) | Project(_, inner) | Distinct(inner):
            return [inner]
        case Join(members, _) | UnionAll(members):
            return list(members)
        case Left(left, right, _) | Anti(left, right, _):
            return [left, right]
    return []


def with_subplans(plan, plans):
    """A node with other plans right below it."""
    match plan:
        case Select(condition, _):
            return Select(condition, *plans)
        case Project(expressions, _):
            return Project(expressions, *plans)
        case Distinct(_):
            return Distinct(*plans)
        case Join(_, condition):
            return Join(tuple(plans), condition)
        case UnionAll(_):
            return UnionAll(tuple(plans))
        case Left(_, _, condition):
            return Left(*plans, condition)
        case Anti(_, _, condition):
            return Anti(*plans, condition)
    return plan


def own_expressions(plan):
    """The expressions of a node itself: its condition, or what it projects."""
    match plan:
        case Select(condition, _) | Join(_, condition) | Left(_, _, condition) | Anti(_, _, condition):
            return [condition]
        case Project(expressions, _):
            return list(expressions)
    return []


def with_expressions(plan, expressions):
    """A node with other expressions of its own."""
    match plan:
        case Select(_, inner):
            return Select(*expressions, inner)
        case Join(members, _):
            return Join(members, *expressions)
        case Left(left, right, _):
            return Left(left, right, *expressions)
        case Anti(left, right, _):
            return Anti(left, right, *expressions)
        case Project(_, inner):
            return Project(tuple(expressions), inner)
    return plan


def first_changed(change, parts):
    """A list with its first part that a function changes as that function has it, or None where it changes none."""
    for place, part in enumerate(parts):
        found = change(part)
        if found is not None:
            return [*parts[:place], found, *parts[place + 1 :]]
    return None


def in_conjuncts(change, plan):
    """A node with the first conjunct of its condition changed that a function changes, or None."""
    if not isinstance(plan, (Select, Join, Left, Anti)):
        return None
    found = first_changed(change, conjuncts(plan.condition))
    return None if found is None else with_expressions(plan, [conjunction(found)])


# ---- kinds ----


def expression_kind(expression, kinds):
    """The kind of an expression over a row of columns of these kinds."""
    match expression:
        case Column(place):
            return kinds[place]
        case Constant(kind, _):
            return kind
        case Call("COALESCE", arguments):
            return expression_kind(arguments[0], kinds)
        case Call(name, _):
            return "term" if name in TERM_FUNCTIONS else "string" if name in TEXT_FUNCTIONS else "boolean"


def kinds_of(plan, tables):
    """The kinds of the columns of a plan over some tables."""
    match plan:
        case Unit():
            return ()
        case Empty(kinds):
            return kinds
        case Scan(table):
            return tuple(column.kind for column in tables[table].columns)
        case Project(expressions, inner):
            kinds = kinds_of(inner, tables)
            return tuple(expression_kind(one, kinds) for one in expressions)
        case UnionAll(members):
            return kinds_of(members[0], tables)
        case Anti(left, _, _):
            return kinds_of(left, tables)
    return sum((kinds_of(one, tables) for one in subplans(plan)), ())


def width(plans, tables):
    """The number of columns of some plans together."""
    return sum(len(kinds_of(plan, tables)) for plan in plans)


# ---- text ----


def quoted(text, sign):
    """A text in quotes of either sort, in which a quote is doubled (SQL-92, 5.2 and 5.3)."""
    return sign + text.replace(sign, 2 * sign) + sign


def constant_text(kind, value):
    """The text of a constant."""
    if value is None:
        return f"CAST(NULL AS {KIND_NAMES[kind]})"
    if kind == "boolean":
        return "TRUE" if value else "FALSE"
    text = quoted(term_text(value) if kind == "term" else value, "'")
    return text if kind == "string" else f"{KIND_NAMES[kind]} {text}"


def expression_text(expression):
    """The text of an expression; columns are counted from 1."""
    match expression:
        case Column(place):
            return f"c{place + 1}"
        case Constant(kind, value):
            return constant_text(kind, value)
        case Call(name, arguments):
            return f"{name}({', '.join(map(expression_text, arguments))})"


def named(texts, sign):
    """The texts of plans in brackets with the names t1, t2 and so on, and a sign between them."""
    return sign.join(f"({text}) AS t{number}" for number, text in enumerate(texts, 1))


def plan_text(plan, tables):
    """The text of a plan over some tables."""
    texts = [plan_text(one, tables) for one in subplans(plan)]
    match plan:
        case Unit():
            return "VALUES ()"
        case Empty(kinds):
            return f"EMPTY ({', '.join(KIND_NAMES[kind] for kind in kinds)})"
        case Scan(table):
            return "TABLE " + quoted(tables[table].name, '"')
        case Select(condition, _):
            return f"SELECT * FROM ({texts[0]}) AS t WHERE {expression_text(condition)}"
        case Project(expressions, _):
            outputs = [f"{expression_text(one)} AS c{number}" for number, one in enumerate(expressions, 1)]
            return f"SELECT {', '.join(outputs) or '()'} FROM ({texts[0]}) AS t"
        case Join(_, condition):
            return f"SELECT * FROM {named(texts, ' CROSS JOIN ')} WHERE {expression_text(condition)}"
        case Left(_, _, condition):
            return f"SELECT * FROM {named(texts, ' LEFT JOIN ')} ON {expression_text(condition)}"
        case Anti(_, _, condition):
            return f"SELECT * FROM {named(texts, ' ANTI JOIN ')} ON {expression_text(condition)}"
        case UnionAll(_):
            return " UNION ALL ".join(f"({text})" for text in texts)
        case Distinct(_):
            return f"SELECT DISTINCT * FROM ({texts[0]}) AS t"


def order_text(query):
    """What stands behind the text of a query's plan: the columns of the keys, which come behind those of its variables, and the slice. OFFSET 0 is no offset."""
    found, first = query.modifiers, len(query.header()) + 1
    keys = [f"c{number} {'DESC' if key.is_descending else 'ASC'}" for number, key in enumerate(found.keys, first)]
    text = f" ORDER BY {', '.join(keys)}" if keys else ""
    text += "" if found.limit is None else f" LIMIT {found.limit}"
    return text + (f" OFFSET {found.offset}" if found.offset else "")
