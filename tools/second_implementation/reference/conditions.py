"""The rules SimplifyCondition and SimplifyNull: what is constant, nested or said twice in a condition goes. And SureNull, FirstKnown and
KnownMember: what a node's rows say of NULL, or a condition, decides tests for NULL and shortens a COALESCE.

A case is a function that gives what an expression becomes, or None. Of a rule the first case that changes any of a node's own
expressions does, at the first place in the order of the text.
"""
from reference.plan_nodes import (FALSE, TRUE, Anti, Call, Column, Constant, Distinct, Empty, Join, Left, Project, Scan, Select, UnionAll,
                                  call, columns_in, conjunction, conjuncts, disjunction, first_changed, in_conjuncts, kinds_of, null,
                                  own_expressions, subplans, width, with_expressions)

# The functions that make texts and terms: NULL exactly where a part is.
MAKERS = ("IRI", "IRI_OF", "BLANK", "LIT", "LEX", "SAFE", "CONCAT")

# What decides an And and an Or, what adds nothing to them, and how one of some conditions is made (SQL-92, 8.12).
DECIDES = {"AND": FALSE, "OR": TRUE}
NEUTRAL = {"AND": TRUE, "OR": FALSE}
JOINED = {"AND": conjunction, "OR": disjunction}


def is_strict(expression):
    """Whether an expression is of columns, constants but NULL, and what makes texts and terms of them."""
    match expression:
        case Column(_):
            return True
        case Constant(_, value):
            return value is not None
        case Call(name, arguments):
            return name in MAKERS and all(map(is_strict, arguments))


# ---- at a place ----


def first_place(change, expression):
    """An expression changed at the first place at which a function changes it, itself before its parts, or None."""
    found = change(expression)
    if found is not None or not isinstance(expression, Call):
        return found
    arguments = first_changed(lambda one: first_place(change, one), expression.arguments)
    return None if arguments is None else Call(expression.name, tuple(arguments))


def by_cases(cases, plan):
    """A node changed by the first case that changes an expression of its own, or None."""
    for case in cases:
        found = first_changed(lambda one: first_place(case, one), own_expressions(plan))
        if found is not None:
            return with_expressions(plan, found)
    return None


def of_several(change):
    """A case that changes the members of an And or Or by a function of its name and them."""
    def case(expression):
        is_several = isinstance(expression, Call) and expression.name in JOINED
        found = change(expression.name, expression.arguments) if is_several else None
        return None if found is None else JOINED[expression.name](found)
    return case


def without(members, place):
    """Members without that at a place."""
    return members[:place] + members[place + 1 :]


# ---- the cases of SimplifyCondition ----


def deciding(expression):
    """False in an And, true in an Or."""
    if isinstance(expression, Call) and DECIDES.get(expression.name) in expression.arguments:
        return DECIDES[expression.name]
    return None


@of_several
def neutral(name, members):
    """True goes in an And, false in an Or."""
    return without(members, members.index(NEUTRAL[name])) if NEUTRAL[name] in members else None


def negated(expression):
    """Not of a constant."""
    match expression:
        case Call("NOT", (Constant("boolean", None),)):
            return null("boolean")
        case Call("NOT", (Constant("boolean", truth),)):
            return FALSE if truth else TRUE
    return None


@of_several
def flat(name, members):
    """An And or Or of none or one, or with another in it."""
    for place, one in enumerate(members):
        if len(members) > 1 and isinstance(one, Call) and one.name == name:
            return members[:place] + one.arguments + members[place + 1 :]
    return members if len(members) < 2 else None


def twice_negated(expression):
    """Not of Not."""
    match expression:
        case Call("NOT", (Call("NOT", (inner,)),)):
            return inner
    return None


@of_several
def repeated(_, members):
    """A member that stands there before."""
    place = next((place for place, one in enumerate(members) if one in members[:place]), None)
    return None if place is None else without(members, place)


def same_itself(condition):
    """What is strict is the same as itself where it is known (SQL-92, 8.2)."""
    match condition:
        case Call("SAME", (one, other)) if one == other and is_strict(one):
            return call("NOT", call("IS_NULL", one))
    return None


CASES = [deciding, neutral, negated, flat, twice_negated, repeated]


def simplify_condition(plan, tables):
    """SimplifyCondition: one step in a node's own expressions; an equality of one with itself goes as a conjunct alone."""
    found = by_cases(CASES, plan)
    return in_conjuncts(same_itself, plan) if found is None else found


# ---- SimplifyNull ----


def never_null(plan, tables):
    """Of each column of a plan whether it is a NOT NULL column of a table, scanned below selections and joins alone."""
    match plan:
        case Scan(table):
            return [column.not_null for column in tables[table].columns]
        case Select(_, inner):
            return never_null(inner, tables)
        case Join(members, _):
            return sum((never_null(one, tables) for one in members), [])
    return [False for _ in kinds_of(plan, tables)]


def is_null(expression):
    """What an IS_NULL tests, or None."""
    return expression.arguments[0] if isinstance(expression, Call) and expression.name == "IS_NULL" else None


def known_column(flags):
    """The case of a column that is never NULL."""
    def case(expression):
        tested = is_null(expression)
        return FALSE if isinstance(tested, Column) and flags[tested.place] else None
    return case


def of_constant(expression):
    """The test of a constant is a truth."""
    tested = is_null(expression)
    return (TRUE if tested.value is None else FALSE) if isinstance(tested, Constant) else None


def of_strict(expression):
    """What is strict is NULL where one of its columns is."""
    tested = is_null(expression)
    if not isinstance(tested, Call) or not is_strict(tested):
        return None
    return disjunction([call("IS_NULL", Column(place)) for place in dict.fromkeys(columns_in(tested))])


def simplify_null(plan, tables):
    """SimplifyNull: tests for NULL become those of single columns that may be NULL."""
    if not isinstance(plan, (Select, Project, Join, Left, Anti)):
        return None
    flags = sum((never_null(one, tables) for one in subplans(plan)), [])
    return by_cases([known_column(flags), of_constant, of_strict], plan)


# ---- SureNull ----


def with_told(flags, condition):
    """Flags with those of the columns set of which a condition says that they are not NULL: columns of a strict side of an equality, which is
    true of known values alone (SQL-92, 8.2), and of what is strict and tested not to be NULL."""
    told = set()
    for one in conjuncts(condition):
        match one:
            case Call("SAME", sides) | Call("NOT", (Call("IS_NULL", sides),)):
                told.update(place for side in sides if is_strict(side) for place in columns_in(side))
    return [flag or place in told for place, flag in enumerate(flags)]


def is_known(expression, flags):
    """Whether an expression is strict and over flagged columns alone, so that it is NULL in no row."""
    return is_strict(expression) and all(flags[place] for place in columns_in(expression))


def surely_known(plan, tables):
    """Of each column of a plan whether it is NULL in none of its rows, as far as each of its nodes tells."""
    match plan:
        case Empty(kinds):
            return [True for _ in kinds]
        case Scan(table):
            return [column.not_null for column in tables[table].columns]
        case Select(condition, inner):
            return with_told(surely_known(inner, tables), condition)
        case Project(expressions, inner):
            flags = surely_known(inner, tables)
            return [is_known(one, flags) for one in expressions]
        case Join(_, condition):
            return with_told(below(plan, tables), condition)
        case Left(left, right, _):
            return surely_known(left, tables) + [False] * width([right], tables)
        case Anti(left, _, _):
            return surely_known(left, tables)
        case UnionAll(members):
            return [all(each) for each in zip(*(surely_known(one, tables) for one in members))]
        case Distinct(inner):
            return surely_known(inner, tables)
    return []


def below(plan, tables):
    """So of each column over which a node's own expressions are."""
    return sum((surely_known(one, tables) for one in subplans(plan)), [])


def sure_null(plan, tables):
    """SureNull: the test for NULL of a column that is NULL in no row is false."""
    if not isinstance(plan, (Select, Project, Join, Left, Anti)):
        return None
    return by_cases([known_column(below(plan, tables))], plan)


# ---- KnownMember ----


def said_column(expression):
    """The place of the column of which an expression says that it is not NULL, or None (SQL-92, 8.6)."""
    match expression:
        case Call("NOT", (Call("IS_NULL", (Column(place),)),)):
            return place
    return None


@of_several
def told_member(name, members):
    """In an And the first member that says so of a column decides the first test of that column in another."""
    for place in filter(lambda one: one is not None, map(said_column, members if name == "AND" else ())):
        tested = call("IS_NULL", Column(place))
        found = first_changed(lambda one: None if said_column(one) == place
                              else first_place(lambda part: FALSE if part == tested else None, one), members)
        if found is not None:
            return tuple(found)
    return None


def known_member(plan, tables):
    """KnownMember: beside what says that a column is not NULL a test of it is false."""
    return by_cases([told_member], plan)


# ---- FirstKnown ----


def fewer_members(members, flags):
    """The members of a COALESCE without the first that is NULL itself or stands there before, or without all behind one that is never
    NULL, whichever stands first; or None."""
    for place, one in enumerate(members):
        if one in members[:place] or isinstance(one, Constant) and one.value is None:
            return without(members, place)
        if place + 1 < len(members) and is_known(one, flags):
            return members[: place + 1]
    return None


def first_value(expression, flags):
    """An expression that is never NULL, or what the first member of a COALESCE is; or None."""
    if isinstance(expression, Call) and expression.name == "COALESCE":
        return first_value(expression.arguments[0], flags) if expression.arguments else None
    return expression if is_known(expression, flags) else None


def shorter(members, flags):
    """The first value alone, where the first of several members has one, or else fewer members; or None."""
    first = first_value(members[0], flags)
    return fewer_members(members, flags) if first is None else (first,)


def makes_term(expression):
    """Whether an expression makes a term, of whatever: then each member beside it in a COALESCE is one."""
    return expression.kind == "term" if isinstance(expression, Constant) else getattr(expression, "name", None) in ("IRI", "BLANK", "LIT")


def first_known_member(flags):
    """The case of a COALESCE with a member that is never its value (SQL-92, 6.9), or with one alone. A column stays in it where it is not said
    to be a term, since a CONCAT has no columns as parts."""
    def case(expression):
        if not isinstance(expression, Call) or expression.name != "COALESCE":
            return None
        members = expression.arguments
        found = shorter(members, flags) if len(members) > 1 else members
        if found is None:
            return None
        if len(found) == 1 and (not isinstance(found[0], Column) or len(members) > 1 and any(map(makes_term, members))):
            return found[0]
        return None if found == members else Call("COALESCE", found)
    return case


def first_known(plan, tables):
    """FirstKnown: the members of a COALESCE that are never its value go."""
    if not isinstance(plan, (Select, Project, Join, Left, Anti)):
        return None
    return by_cases([first_known_member(below(plan, tables))], plan)
