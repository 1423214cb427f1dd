"""The rules SelfJoin and ParentJoin: scans in a join that a key or a foreign key makes superfluous.

Rows of a table that agree on a key are one row, a row without NULL in a foreign key refers to exactly one row, and NULL is
equal to nothing (SQL-92, 4.10.2 and 8.2; SQL:1999, 11.8).
"""
from reference.plan_nodes import Call, Column, Join, Project, Scan, columns_in, conjunction, conjuncts, put_in, width


def scan_pairs(join, tables):
    """Each two scans among the members of a join, each by its place, its first column and its table, in the order of the places."""
    scans = [(place, width(join.members[:place], tables), one.table) for place, one in enumerate(join.members) if isinstance(one, Scan)]
    return [(one, other) for one in scans for other in scans if one[0] != other[0]]


def tied(condition, one, other):
    """Whether a conjunct says that two columns are equal."""
    ways = [Call("SAME", (Column(one), Column(other))), Call("SAME", (Column(other), Column(one)))]
    return any(conjunct in ways for conjunct in conjuncts(condition))


def columns_from(first, count):
    """So many columns from one on."""
    return [Column(place) for place in range(first, first + count)]


def others_of(join, place, own, tables):
    """The members of a join but one, and what its columns become: those of that member are given."""
    others = join.members[:place] + join.members[place + 1 :]
    first = width(join.members[:place], tables)
    return others, columns_from(0, first) + own + columns_from(first, width(join.members[place + 1 :], tables))


def self_join(plan, tables):
    """SelfJoin: of two scans of a table whose rows are to agree on a key the later goes, and its columns are named in the first."""
    if not isinstance(plan, Join):
        return None
    for (place, first, table), (later, second, other) in scan_pairs(plan, tables):
        keys = tables[table].keys if place < later and table == other else []
        if any(all(tied(plan.condition, first + column, second + column) for column in key) for key in keys):
            others, names = others_of(plan, later, columns_from(first, len(tables[table].columns)), tables)
            return Project(tuple(names), Join(others, put_in(plan.condition, names)))
    return None


def parent_join(plan, tables):
    """ParentJoin: below a projection the table that a foreign key refers to goes, where nothing else of it is used."""
    if not isinstance(plan, Project) or not isinstance(plan.inner, Join):
        return None
    for child, parent in scan_pairs(plan.inner, tables):
        for key in tables[child[2]].foreign_keys:
            if key.table == parent[2] and is_unused(plan, child, parent, key, tables):
                return without_parent(plan, child, parent, key, tables)
    return None


def is_unused(plan, child, parent, key, tables):
    """Whether a foreign key is tied to the parent's columns, of one kind each, and no others of the parent are named."""
    (_, first, table), (_, second, target) = child, parent
    pairs = list(zip(key.columns, key.target))
    if not all(tied(plan.inner.condition, first + one, second + other) for one, other in pairs):
        return False
    if not all(tables[table].columns[one].kind == tables[target].columns[other].kind for one, other in pairs):
        return False
    own = set(range(second, second + len(tables[target].columns)))
    named = {place for one in (plan.inner.condition, *plan.expressions) for place in columns_in(one)}
    return named & own <= {second + other for _, other in pairs}


def without_parent(plan, child, parent, key, tables):
    """A projection over a join without the parent: its columns are named in the child, and the foreign key is not NULL."""
    (place, first, _), (gone, _, target) = child, parent
    count = len(tables[target].columns)
    start = first if place < gone else first - count
    names_of = {}
    for one, other in zip(key.columns, key.target):
        names_of.setdefault(other, Column(start + one))
    others, names = others_of(plan.inner, gone, [names_of.get(column) for column in range(count)], tables)
    known = [Call("NOT", (Call("IS_NULL", (Column(start + one),)),)) for one in key.columns]
    condition = conjunction(conjuncts(put_in(plan.inner.condition, names)) + known)
    return Project(tuple(put_in(one, names) for one in plan.expressions), Join(others, condition))
