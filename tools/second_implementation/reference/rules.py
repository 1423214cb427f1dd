"""Rewrite rules of plans, and the end of them (docs/DEFINITIONS.md, `normal_form`).

A rule takes a plan and its tables, and gives another plan with the same columns and the same bag of rows, or None where it
changes nothing at the root. A row is kept where a condition is true, not where it is false or unknown (SQL-92, 8.12).
"""
import math

from reference.conditions import MAKERS, first_known, is_strict, known_member, simplify_condition, simplify_null, sure_null
from reference.key_joins import parent_join, self_join
from reference.key_lefts import parent_left, reference_left, self_left, self_left_member
from reference.plan_nodes import (FALSE, TRUE, Anti, Call, Column, Distinct, Empty, Join, Left, Project, Scan, Select, Unit, UnionAll,
                                  columns_in, conjunction, conjuncts, first_changed, kinds_of, moved, null, put_in, subplans, width, with_subplans)
from reference.term_equalities import term_comparison, term_equality
from reference.uniqueness import is_unique

# What may be known over NULL: these are no operators that are an error over something unbound.
KNOWN_OVER_NULL = ("SAME", "IS_NULL", "AND", "OR", "COALESCE")


def empty(plan, tables):
    """No row, with the columns of a plan."""
    return Empty(kinds_of(plan, tables))


def with_nulls(left, right, tables):
    """The rows of a plan with NULL in each column of another behind them."""
    columns = [Column(place) for place in range(width([left], tables))]
    return Project(tuple(columns + [null(kind) for kind in kinds_of(right, tables)]), left)


def first_of(sort, plans):
    """The place of the first plan that is of a sort, or None."""
    return next((place for place, plan in enumerate(plans) if isinstance(plan, sort)), None)


def replaced(plans, place, others):
    """Plans with others in the place of one."""
    return plans[:place] + tuple(others) + plans[place + 1 :]


# ---- rules ----


def select_true(plan, tables):
    """SelectTrue: a selection by true is what it selects from."""
    return plan.inner if isinstance(plan, Select) and plan.condition == TRUE else None


def false_condition(plan, tables):
    """FalseCondition: where a condition is false or NULL no row, and no pair, passes."""
    if not isinstance(plan, (Select, Join, Left)) or plan.condition not in (FALSE, null("boolean")):
        return None
    return with_nulls(plan.left, plan.right, tables) if isinstance(plan, Left) else empty(plan, tables)


def both(inner, outer):
    """A condition that holds where both do: the inner one's conjuncts first."""
    return conjunction(conjuncts(inner) + conjuncts(outer))


def merge_selects(plan, tables):
    """MergeSelects: a condition over a node that has one, and one of a node's member, become one."""
    if isinstance(plan, Select):
        return condition_below(plan.condition, plan.inner, tables)
    if isinstance(plan, Left) and isinstance(plan.right, Select):
        condition = moved(plan.right.condition, width([plan.left], tables))
        return Left(plan.left, plan.right.inner, both(condition, plan.condition))
    place = first_of(Select, plan.members) if isinstance(plan, Join) else None
    if place is None:
        return None
    inner = plan.members[place]
    condition = moved(inner.condition, width(plan.members[:place], tables))
    return Join(replaced(plan.members, place, [inner.inner]), both(condition, plan.condition))


def condition_below(condition, inner, tables):
    """A selection over a selection or a join as one condition; over a left join, if it names left columns alone, on the left."""
    if isinstance(inner, Select):
        return Select(both(inner.condition, condition), inner.inner)
    if isinstance(inner, Join):
        return Join(inner.members, both(inner.condition, condition))
    if isinstance(inner, Left) and not names_behind(condition, width([inner.left], tables)):
        return Left(Select(condition, inner.left), inner.right, inner.condition)
    return None


def names_behind(expression, count):
    """Whether an expression names a column behind the first ones."""
    return any(count <= place for place in columns_in(expression))


def merge_projects(plan, tables):
    """MergeProjects: a projection of a projection is one; of all columns in place it is what it projects."""
    if not isinstance(plan, Project):
        return None
    if isinstance(plan.inner, Project):
        return Project(tuple(put_in(one, plan.inner.expressions) for one in plan.expressions), plan.inner.inner)
    columns = tuple(Column(place) for place in range(width([plan.inner], tables)))
    return plan.inner if plan.expressions == columns else None


def in_between(before, project, behind, tables):
    """What a projection gives with the columns of plans before it and behind it."""
    first, own, last = width(before, tables), width([project.inner], tables), width(behind, tables)
    others = [Column(place) for place in range(first)], [Column(first + own + place) for place in range(last)]
    return (*others[0], *(moved(one, first) for one in project.expressions), *others[1])


def keeps_nulls(plan):
    """Whether a plan is a projection each of whose expressions is NULL on a row of NULLs: it is strict and names a column."""
    return isinstance(plan, Project) and all(is_strict(one) and columns_in(one) for one in plan.expressions)


def lift_projects(plan, tables):
    """LiftProjects: a projection below a selection, a join or a left join comes above it, its expressions put into the condition."""
    match plan:
        case Select(condition, Project(expressions, inner)):
            return Project(expressions, Select(put_in(condition, expressions), inner))
        case Join(members, condition):
            place = first_of(Project, members)
            if place is None:
                return None
            given = in_between(members[:place], members[place], members[place + 1 :], tables)
            return Project(given, Join(replaced(members, place, [members[place].inner]), put_in(condition, given)))
        case Left(Project(_, inner) as left, right, condition):
            given = in_between([], left, [right], tables)
            return Project(given, Left(inner, right, put_in(condition, given)))
        case Left(left, Project(_, inner) as right, condition) if keeps_nulls(right):
            given = in_between([left], right, [], tables)
            return Project(given, Left(left, inner, put_in(condition, given)))
    return None


def propagate_empty(plan, tables):
    """PropagateEmpty: a plan without rows under a node."""
    place = first_of(Empty, subplans(plan))
    if place is None:
        return None
    if isinstance(plan, Anti):
        return None
    if isinstance(plan, Left) and place == 1:
        return with_nulls(plan.left, plan.right, tables)
    if isinstance(plan, UnionAll) and len(plan.members) > 1:
        return UnionAll(replaced(plan.members, place, []))
    return empty(plan, tables)


def flatten(plan, tables):
    """Flatten: joins and unions of one member, and those in another; a Unit in a join."""
    if isinstance(plan, Join):
        return flat_join(plan, tables)
    return flat_union(plan) if isinstance(plan, UnionAll) else None


def flat_join(plan, tables):
    """A join in a join is opened, a Unit beside other members dropped; a join of one member is a selection."""
    place = first_of(Join, plan.members)
    if place is not None:
        inner = plan.members[place]
        condition = moved(inner.condition, width(plan.members[:place], tables))
        return Join(replaced(plan.members, place, inner.members), conjunction(conjuncts(condition) + conjuncts(plan.condition)))
    place = first_of(Unit, plan.members)
    if place is not None and len(plan.members) > 1:
        return Join(replaced(plan.members, place, []), plan.condition)
    return Select(plan.condition, plan.members[0]) if len(plan.members) == 1 else None


def flat_union(plan):
    """A union in a union is opened; a union of one member is that member."""
    place = first_of(UnionAll, plan.members)
    if place is not None:
        return UnionAll(replaced(plan.members, place, plan.members[place].members))
    return plan.members[0] if len(plan.members) == 1 else None


def branches(plan):
    """How many plans come of one where each union in it gives way to one of its members; no member counts as one."""
    parts = [branches(part) for part in subplans(plan)]
    return max(1, sum(parts)) if isinstance(plan, UnionAll) else math.prod(parts)


def over_union(plan):
    """The place of the union over which a node is distributed, among the plans right below it, or None."""
    match plan:
        case Select(_, inner) | Project(_, inner):
            return first_of(UnionAll, [inner])
        case Join(members, _) if math.prod(map(branches, members)) <= 64:
            return first_of(UnionAll, members)
        case Left(UnionAll(members), _, _) if len(members) <= 64:
            return 0
    return None


def distribute_union(plan, tables):
    """DistributeUnion: a node over a union is the union of the node over each member."""
    place = over_union(plan)
    if place is None:
        return None
    plans = tuple(subplans(plan))
    return UnionAll(tuple(with_subplans(plan, replaced(plans, place, [one])) for one in plans[place].members))


def distinct_unique(plan, tables):
    """DistinctUnique: a distinct over a plan no two of whose rows are equal is that plan."""
    return plan.inner if isinstance(plan, Distinct) and is_unique(plan.inner, tables) else None


def without_distinct(plan):
    """A plan without its first Distinct, in preorder, or None."""
    if isinstance(plan, Distinct):
        return plan.inner
    found = first_changed(without_distinct, subplans(plan))
    return None if found is None else with_subplans(plan, found)


def distinct_distinct(plan, tables):
    """DistinctDistinct: under a Distinct another one is dropped, however deep."""
    inner = without_distinct(plan.inner) if isinstance(plan, Distinct) else None
    return None if inner is None else Distinct(inner)


def is_unknown(expression, count):
    """Whether an expression is NULL where the columns behind the first ones are: it is strict and names one, or an operator, an effective boolean
    value or a negation of such a one, which is an error over something unbound (SPARQL 1.1 Query, 17.2)."""
    if isinstance(expression, Call) and expression.name not in KNOWN_OVER_NULL and expression.name not in MAKERS:
        return any(is_unknown(part, count) for part in expression.arguments)
    return is_strict(expression) and names_behind(expression, count)


def fails_on_nulls(condition, count):
    """Whether a condition says that what is NULL if the columns behind the first ones are is not NULL, or is equal to something; or is NULL itself."""
    match condition:
        case Call("NOT", (Call("IS_NULL", (tested,)),)):
            asked = [tested]
        case Call("SAME", (one, other)):
            asked = [one, other]
        case _:
            return is_unknown(condition, count)
    return any(is_strict(one) and names_behind(one, count) for one in asked)


def left_to_join(plan, tables):
    """LeftToJoin: a left join below a condition that fails on NULLs for the right row is the join."""
    if not isinstance(plan, Select) or not isinstance(plan.inner, Left):
        return None
    left = plan.inner
    count = width([left.left], tables)
    if not any(fails_on_nulls(one, count) for one in conjuncts(plan.condition)):
        return None
    return Select(plan.condition, Join((left.left, left.right), left.condition))


def equal_members(plan, tables):
    """EqualMembers: under a Distinct the first member of a union goes that is equal to an earlier one."""
    if not isinstance(plan, Distinct) or not isinstance(plan.inner, UnionAll):
        return None
    members = plan.inner.members
    place = next((place for place, one in enumerate(members) if one in members[:place]), None)
    return None if place is None else Distinct(UnionAll(replaced(members, place, [])))


def ties_value(condition, place, count):
    """Whether a conjunct says that a column is equal to an expression over the first columns."""
    match condition:
        case Call("SAME", (one, other)):
            return any(tied == Column(place) and not names_behind(value, count) for tied, value in [(one, other), (other, one)])
    return False


def unused_left(plan, tables):
    """UnusedLeft: of a left join to a table, of which nothing is used, only the left side stays, where it has one partner at most."""
    left = plan.inner if isinstance(plan, Project) else None
    if not isinstance(left, Left) or not isinstance(left.right, Scan):
        return None
    count = width([left.left], tables)
    keys = [[count + place for place in key] for key in tables[left.right.table].keys]
    is_tied = any(all(any(ties_value(one, place, count) for one in conjuncts(left.condition)) for place in key) for key in keys)
    if not is_tied or any(names_behind(one, count) for one in plan.expressions):
        return None
    return Project(plan.expressions, left.left)


def anti_nothing(plan, tables):
    """AntiNothing: nothing is taken away where a condition is false or NULL, or by an empty side; an empty plan stays empty."""
    if not isinstance(plan, Anti):
        return None
    if plan.condition in (FALSE, null("boolean")) or isinstance(plan.right, Empty):
        return plan.left
    return empty(plan, tables) if isinstance(plan.left, Empty) else None


def anti_right(plan, tables):
    """AntiRight: a selection, a projection or a distinct on the right side of an anti join goes, into the condition what it says."""
    if not isinstance(plan, Anti):
        return None
    left, right, condition = plan.left, plan.right, plan.condition
    match right:
        case Select(own, inner):
            return Anti(left, inner, both(moved(own, width([left], tables)), condition))
        case Project(_, inner):
            return Anti(left, inner, put_in(condition, in_between([left], right, [], tables)))
        case Distinct(inner):
            return Anti(left, inner, condition)
    return None


# The program's rules: of two that change a plan the first one does. These are taken to their end first.
FIRST = [select_true, false_condition, merge_selects, merge_projects, lift_projects, propagate_empty, flatten, distribute_union,
         distinct_unique, distinct_distinct, self_join, parent_join, left_to_join, equal_members, unused_left, term_equality,
         simplify_condition, simplify_null, anti_nothing, anti_right]

# Rules of its own, behind these, once none of them changes anything.
OWN = [sure_null, first_known, known_member, term_comparison, self_left, self_left_member, parent_left, reference_left]

# What the program does not have yet, in the order in which it is to follow.
LATER = []


# ---- the end ----


def first_change(plan, tables, rules):
    """A plan with the first subplan changed, in preorder, that a rule changes, by the first such rule; None where none does."""
    for rule in rules:
        found = rule(plan, tables)
        if found is not None:
            return found
    found = first_changed(lambda one: first_change(one, tables, rules), subplans(plan))
    return None if found is None else with_subplans(plan, found)


def end_of(plan, tables, rules):
    """What a plan becomes by one change after the other, until no rule changes any of it."""
    while True:
        found = first_change(plan, tables, rules)
        if found is None:
            return plan
        plan = found


def normal_form(plan, tables, own):
    """The plan to which the rules lead: the first to their end, and from there all of them, with these of our own."""
    return end_of(end_of(plan, tables, FIRST), tables, FIRST + own)
