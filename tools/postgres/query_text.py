"""The text of a plan as one query of PostgreSQL: tables and columns by their names there.

Selections, joins, left joins and anti joins below one another become one SELECT. A plan whose values are no columns of tables stands within
another as a SELECT of its own in brackets.
"""
from typing import NamedTuple

from expression_text import MOMENTS, Value, constant, lex, quoted, value_of
from reference.plan_nodes import Anti, Distinct, Empty, Join, Left, Project, Scan, Select, Unit, UnionAll, conjuncts, kinds_of


class Block(NamedTuple):
    """What stands behind FROM, each part by itself, the conditions behind WHERE, and the values of the columns."""

    sources: list
    conditions: list
    row: list


def side_by_side(sources):
    """Sources as one source."""
    return sources[0] if len(sources) == 1 else f"({' CROSS JOIN '.join(sources)})"


def select_text(block, head):
    """The SELECT of a block; one without columns has a column of empty texts, since DISTINCT needs one."""
    values = [lex(value) if value.kind in MOMENTS else value for value in block.row]
    outputs = [f"{value.text} AS c{number}" for number, value in enumerate(values, 1)] or ["'' AS nothing"]
    parts = [f"{head} {', '.join(outputs)}"]
    if block.sources:
        parts.append("FROM " + ",\n     ".join(block.sources))
    if block.conditions:
        parts.append("WHERE " + "\n  AND ".join(block.conditions))
    return "\n".join(parts)


def ranked(column, descends):
    """A key of ORDER BY: a term's class, and then its number or its text (prelude.sql, vkg.rank)."""
    direction = " DESC" if descends else ""
    return [f"(vkg.rank({column})).{part}{direction}" for part in ("class", "number", 'form COLLATE "C"')]


def line_of(columns):
    """The line of some columns, by its bytes."""
    return "concat(" + ", E'\\t', ".join(columns or ["''"]) + ') COLLATE "C"'


class QueryWriter:
    """Writes plans over tables; `names` are the names that PostgreSQL has for the tables and their columns."""

    def __init__(self, tables, names):
        self.tables, self.names, self.count = tables, names, 0

    def alias(self):
        """A name that was not given before."""
        self.count += 1
        return f"t{self.count}"

    def whole(self, plan, order):
        """The SELECT of a plan in an order: the columns before those of its keys. Where nothing is asked of the order, there is none."""
        if order == ([], None, 0):
            return self.statement(plan)
        columns = [f"c{number}" for number in range(1, len(kinds_of(plan, self.tables)) + 1)]
        width = len(columns) - len(order.keys)
        line, keys = columns[:width], zip(columns[width:], order.keys)
        parts = [f"SELECT {', '.join(line) or quoted('') + ' AS nothing'}\nFROM (\n{self.statement(plan)}\n) AS asked"]
        parts.append("ORDER BY " + ", ".join(sum((ranked(*key) for key in keys), []) + [line_of(line)]))
        parts += [] if order.limit is None else [f"LIMIT {order.limit}"]
        parts += [f"OFFSET {order.offset}"] if order.offset else []
        return "\n".join(parts)

    def statement(self, plan):
        """The whole SELECT of a plan, whose columns are c1, c2 and so on."""
        match plan:
            case UnionAll(members):
                return "\nUNION ALL\n".join(f"({self.statement(one)})" for one in members)
            case Distinct(inner):
                return select_text(self.block(inner), "SELECT DISTINCT")
        return select_text(self.block(plan), "SELECT")

    def block(self, plan):
        """A plan as a block with any values."""
        match plan:
            case Project(expressions, inner):
                block = self.flat(inner)
                return block._replace(row=[value_of(one, block.row) for one in expressions])
            case Empty(kinds):
                return Block([], ["FALSE"], [constant(kind, None) for kind in kinds])
        return self.flat(plan)

    def flat(self, plan):
        """A plan as a block whose values are columns, so that more can be joined to it."""
        match plan:
            case Unit():
                return Block([], [], [])
            case Scan(table):
                return self.scan(table)
            case Select(condition, inner):
                return self.where(self.flat(inner), condition)
            case Join(members, condition):
                blocks = [self.flat(one) for one in members]
                return self.where(Block(*(sum(parts, []) for parts in zip(*blocks))), condition)
            case Left(left, right, condition):
                return self.left(left, right, condition)
            case Anti(left, right, condition):
                return self.anti(left, right, condition)
        return self.nested(plan)

    def scan(self, table):
        """A table under a name of its own."""
        alias = self.alias()
        name, columns = self.names[table]
        row = [Value(f"{alias}.{column}", one.kind) for column, one in zip(columns, self.tables[table].columns)]
        return Block([f"{name} AS {alias}"], [], row)

    def nested(self, plan):
        """A plan as a SELECT in brackets, in which moments are their forms."""
        alias = self.alias()
        row = [Value(f"{alias}.c{number}", kind, kind in MOMENTS)
               for number, kind in enumerate(kinds_of(plan, self.tables), 1)]
        return Block([f"(\n{self.statement(plan)}\n) AS {alias}"], [], row)

    def where(self, block, condition):
        """A block with the conjuncts of one more condition."""
        texts = [value_of(one, block.row).text for one in conjuncts(condition)]
        return block._replace(conditions=block.conditions + [text for text in texts if text != "TRUE"])

    def side(self, plan):
        """A plan as a block with a source, which a side of a left join, and the right one of an anti join, has to have."""
        block = self.flat(plan)
        return block if block.sources else self.nested(plan)

    def left(self, left, right, condition):
        """A left join. A condition of the right side is asked of pairs; one of the left side may be asked behind the join."""
        one, other = self.side(left), self.side(right)
        found = self.where(Block([], other.conditions, one.row + other.row), condition)
        on = " AND ".join(found.conditions) or "TRUE"
        source = f"({side_by_side(one.sources)}\n     LEFT JOIN {side_by_side(other.sources)}\n     ON {on})"
        return Block([source], one.conditions, found.row)

    def anti(self, left, right, condition):
        """An anti join: no right row passes its own conditions and this one."""
        one, other = self.flat(left), self.side(right)
        found = self.where(Block([], other.conditions, one.row + other.row), condition)
        test = " AND ".join(found.conditions) or "TRUE"
        return one._replace(conditions=[*one.conditions, f"NOT EXISTS (SELECT FROM {side_by_side(other.sources)}\n     WHERE {test})"])
