"""Plans no two of whose rows are equal, over any database that meets the schema (docs/DEFINITIONS.md, `is_unique`)."""
from itertools import combinations

from reference.conditions import is_strict
from reference.plan_nodes import (FALSE, Anti, Call, Column, Distinct, Empty, Join, Project, Scan, Select, Unit, UnionAll, call, columns_in, conjuncts,
                                  kinds_of, moved, subplans)
from reference.term_equalities import Hole, cut, decided, recognised, table_columns


# ---- columns that are never NULL ----


def said_not_null(condition):
    """The columns of which a conjunct says that they are not NULL: those of what is strict and tested (SQL-92, 8.6)."""
    match condition:
        case Call("NOT", (Call("IS_NULL", (tested,)),)) if is_strict(tested):
            return columns_in(tested)
    return []


def with_condition(flags, condition):
    """Flags of columns that are never NULL, where a condition holds."""
    said = {place for one in conjuncts(condition) for place in said_not_null(one)}
    return [flag or place in said for place, flag in enumerate(flags)]


def sure_columns(plan, tables):
    """Of each column of a plan whether it is never NULL, as far as tables and conditions below selections and joins say."""
    match plan:
        case Scan(table):
            return [column.not_null for column in tables[table].columns]
        case Select(condition, inner):
            return with_condition(sure_columns(inner, tables), condition)
        case Join(members, condition):
            return with_condition(sum((sure_columns(one, tables) for one in members), []), condition)
    return [False for _ in kinds_of(plan, tables)]


# ---- columns that values give back (R2RML, 7.3) ----


def is_separable(pieces):
    """Whether in an IRI a break stands between any two holes."""
    segments, _ = cut("iri", pieces)
    return all(sum(isinstance(one, Hole) for one in segment) < 2 for segment in segments)


def given_back(expression, kinds, good):
    """The columns whose cells the value of an expression gives back: the one that it is, or the holes of a term."""
    if isinstance(expression, Column):
        return [expression.place]
    made = recognised(expression, kinds)
    pieces = made.pieces or [] if made is not None else []
    holes = [one.place for one in pieces if isinstance(one, Hole)]
    if not holes or not all(good[place] for place in holes):
        return []
    return holes if len(holes) == 1 or made.sort == "iri" and is_separable(pieces) else []


def full_keys(table):
    """The keys of a table without a column that may be NULL."""
    return [key for key in table.keys if all(table.columns[place].not_null for place in key)]


def scans_in(plan, tables, first=0):
    """The tables that are scanned below selections and joins, each with the place of its first column; None beside other plans."""
    match plan:
        case Scan(table):
            return [(first, tables[table])]
        case Select(_, inner):
            return scans_in(inner, tables, first)
        case Join(members, _):
            found = []
            for one in members:
                scans = scans_in(one, tables, first)
                if scans is None:
                    return None
                found += scans
                first += len(kinds_of(one, tables))
            return found
    return None


def is_recovered(expressions, inner, tables):
    """Whether the values of expressions give back a full key of each table."""
    scans = scans_in(inner, tables)
    if scans is None:
        return False
    kinds = kinds_of(inner, tables)
    good = [all(flags) for flags in zip(table_columns(inner, tables), sure_columns(inner, tables))]
    given = {place for one in expressions for place in given_back(one, kinds, good)}
    return all(any(all(first + place in given for place in key) for key in full_keys(table)) for first, table in scans)


# ---- plans without a row in common ----


def are_apart(one, other, tables):
    """Whether two plans are projections that make terms at one place that are never the same, and not both NULL."""
    if not isinstance(one, Project) or not isinstance(other, Project):
        return False
    inner = [one.inner, other.inner]
    kinds = sum((kinds_of(plan, tables) for plan in inner), ())
    flags, sure = (sum((of(plan, tables) for plan in inner), []) for of in (table_columns, sure_columns))
    count = len(kinds_of(one.inner, tables))
    for pair in zip(one.expressions, (moved(each, count) for each in other.expressions)):
        is_known = any(all(sure[place] for place in columns_in(each)) for each in pair)
        if is_known and decided(call("SAME", *pair), kinds, flags) == FALSE:
            return True
    return False


def is_unique(plan, tables):
    """Whether no two rows of a plan are equal."""
    match plan:
        case Unit() | Empty(_) | Distinct(_):
            return True
        case Scan(table):
            return bool(full_keys(tables[table]))
        case Project(expressions, inner):
            return is_recovered(expressions, inner, tables)
        case Anti(left, _, _):
            return is_unique(left, tables)
    if not all(is_unique(one, tables) for one in subplans(plan)):
        return False
    return not isinstance(plan, UnionAll) or all(are_apart(*pair, tables) for pair in combinations(plan.members, 2))
