"""The rules SelfLeft, SelfLeftMember, ParentLeft and ReferenceLeft: left joins that a key makes superfluous, or that a foreign key makes joins.

Rows of a table that agree on a key are one row, a row without NULL in a foreign key refers to exactly one row, and NULL is
equal to nothing (SQL-92, 4.10.2 and 8.2; SQL:1999, 11.8). A left join fills up its right columns alone with NULLs (SQL-92, 7.5).
"""
from reference.conditions import is_strict
from reference.key_joins import columns_from, tied
from reference.plan_nodes import TRUE, Call, Column, Join, Left, Project, Scan, Select, columns_in, conjunction, conjuncts, moved, null, put_in, width


def standing(plan, tables, first=0):
    """The scans whose columns stand in each row of a plan, none of them filled up: each by its first column and its table."""
    match plan:
        case Scan(table):
            return [(first, table)]
        case Select(_, inner):
            return standing(inner, tables, first)
        case Left(left, _, _):
            return standing(left, tables, first)
        case Join(members, _):
            return [one for place, member in enumerate(members) for one in standing(member, tables, first + width(members[:place], tables))]
    return []


def ties_key(condition, table, first, second, tables):
    """Whether a condition ties each column of a key of a table, behind some columns, to the same column behind others."""
    return any(all(tied(condition, first + column, second + column) for column in key) for key in tables[table].keys)


def is_full(table, column):
    """Whether a table has a column, and it is not NULL."""
    return 0 <= column < len(table.columns) and table.columns[column].not_null


# ---- a row that stands on the left already ----


def says_known(condition, is_known):
    """Whether a conjunct says no more than that known columns are not NULL."""
    match condition:
        case Call("SAME", (Column(one), Column(other))):
            return one == other and is_known(one)
        case Call("NOT", (Call("IS_NULL", (tested,)),)):
            return is_strict(tested) and all(map(is_known, columns_in(tested)))
    return False


def is_null_unless(condition, expression, first, table):
    """Whether an expression over the left is NULL on each row where the condition over the left is not true."""
    named = columns_in(expression)
    return is_strict(expression) and all(says_known(one, lambda place: place in named or is_full(table, place - first)) for one in conjuncts(condition))


def self_left(plan, tables):
    """SelfLeft: a left join to a table that stands on the left already, by a key, goes where it asks for columns that are not NULL alone."""
    if not isinstance(plan, Project) or not isinstance(plan.inner, Left) or not isinstance(plan.inner.right, Scan):
        return None
    left, right, condition = plan.inner.left, plan.inner.right, plan.inner.condition
    count = width([left], tables)
    for first, table in standing(left, tables):
        if table == right.table and ties_key(condition, table, first, count, tables):
            names = columns_from(0, count) + columns_from(first, len(tables[table].columns))
            over = put_in(condition, names)
            named = [put_in(one, names) for one in plan.expressions]
            if all(max(columns_in(one), default=-1) < count or is_null_unless(over, new, first, tables[table]) for one, new in zip(plan.expressions, named)):
                return Project(tuple(named), left)
    return None


def names_between(expression, first, count):
    """Whether an expression names one of so many columns from one on."""
    return any(first <= place < first + count for place in columns_in(expression))


def self_left_member(plan, tables):
    """SelfLeftMember: so of one scan among the members of a join on the right, where the others stay."""
    if not isinstance(plan, Project) or not isinstance(plan.inner, Left) or not isinstance(plan.inner.right, Join):
        return None
    left, right = plan.inner.left, plan.inner.right
    for place, member in enumerate(right.members):
        if isinstance(member, Scan) and len(right.members) > 1:
            for scan in standing(left, tables):
                found = without_member(plan, left, right, place, scan, tables) if scan[1] == member.table else None
                if found is not None:
                    return found
    return None


def without_member(plan, left, right, place, scan, tables):
    """The projection over the left join without a member of its right side, whose row stands on the left, or None."""
    first, table = scan
    count, own = width([left], tables), len(tables[table].columns)
    start = count + width(right.members[:place], tables)
    condition = conjunction(conjuncts(moved(right.condition, count)) + conjuncts(plan.inner.condition))
    if not ties_key(condition, table, first, start, tables):
        return None
    others = right.members[:place] + right.members[place + 1 :]
    names = columns_from(0, start) + columns_from(first, own) + columns_from(start, width(right.members[place + 1 :], tables))
    named = [put_in(one, names) for one in plan.expressions]
    for one, new in zip(plan.expressions, named):
        if names_between(one, start, own) and not (is_strict(new) and any(count <= column for column in columns_in(new))):
            return None
    return Project(tuple(named), Left(left, Join(others, TRUE), put_in(condition, names)))


# ---- a foreign key ----


def ties_pair(condition, first, second, key):
    """Whether a conjunct says that a column of a foreign key is equal to the one that it refers to."""
    return any(condition in (Call("SAME", (one, other)), Call("SAME", (other, one)))
               for one, other in [(Column(first + child), Column(second + parent)) for child, parent in zip(key.columns, key.target)])


def reference_left(plan, tables):
    """ReferenceLeft: a left join to a table by exactly a foreign key of its left side that has no NULL is a join."""
    if not isinstance(plan, Left) or not isinstance(plan.right, Scan):
        return None
    count = width([plan.left], tables)
    for first, table in standing(plan.left, tables):
        for key in tables[table].foreign_keys:
            if key.table == plan.right.table and all(is_full(tables[table], column) for column in key.columns):
                if all(ties_pair(one, first, count, key) for one in conjuncts(plan.condition)):
                    return Join((plan.left, plan.right), plan.condition)
    return None


def asks_no_more(condition, first, second, key):
    """Whether a conjunct says that the columns of a pair are equal, or no more than that columns of the foreign key are not NULL."""
    match condition:
        case Call("NOT", (Call("IS_NULL", (tested,)),)) if is_strict(tested):
            return all(place - first in key.columns for place in columns_in(tested))
    return ties_pair(condition, first, second, key)


def is_parent(condition, table, first, second, key, tables):
    """Whether all of a foreign key is tied, its columns of one kind each, and nothing else is asked for."""
    pairs = list(zip(key.columns, key.target))
    return (all(tied(condition, first + one, second + other) for one, other in pairs)
            and all(asks_no_more(one, first, second, key) for one in conjuncts(condition))
            and all(tables[table].columns[one].kind == tables[key.table].columns[other].kind for one, other in pairs))


def is_kept_without(expression, named, count, target, first, table, key):
    """Whether an expression names left columns alone, or those that the foreign key refers to, and is NULL, with these named, where the foreign key has NULL."""
    places = columns_in(expression)
    if max(places, default=-1) < count:
        return True
    if any(count <= place < count + target and place - count not in key.target for place in places) or not is_strict(named):
        return False
    return all(table.columns[one].not_null or first + one in columns_in(named) for one in key.columns)


def parent_left(plan, tables):
    """ParentLeft: a left join to a table by a foreign key of its left side goes, where nothing else is asked for, and nothing of the table is used but the
    columns that the foreign key refers to."""
    if not isinstance(plan, Project) or not isinstance(plan.inner, Left) or not isinstance(plan.inner.right, Scan):
        return None
    left, right, condition = plan.inner.left, plan.inner.right, plan.inner.condition
    count, target = width([left], tables), len(tables[right.table].columns)
    for first, table in standing(left, tables):
        for key in tables[table].foreign_keys:
            if key.table == right.table and is_parent(condition, table, first, count, key, tables):
                names_of = {}
                for one, other in zip(key.columns, key.target):
                    names_of.setdefault(other, Column(first + one))
                names = columns_from(0, count) + [names_of.get(column, null("string")) for column in range(target)]
                named = [put_in(one, names) for one in plan.expressions]
                if all(is_kept_without(one, new, count, target, first, tables[table], key) for one, new in zip(plan.expressions, named)):
                    return Project(tuple(named), left)
    return None
