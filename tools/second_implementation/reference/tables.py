"""Tables of a database, with keys and foreign keys (SQL-92, 4.10.2), and when rows agree.

A column is known by its place, and so is a table. A row is a list of canonical lexical forms, None for NULL. Numbers have one
form for one value, so two cells that can be compared are equal exactly where their forms are.
"""
from dataclasses import dataclass, field

from reference.datatypes import NUMBERS


@dataclass
class Column:
    """A column, of one of the kinds of `datatypes.py`."""

    name: str
    kind: str
    not_null: bool = False


@dataclass
class ForeignKey:
    """Columns that refer to columns of a key of a table, the same one or another."""

    columns: list[int]
    table: int
    target: list[int]


@dataclass
class Table:
    """A table; `keys` holds all keys in the order of the schema's text, the primary one among them."""

    name: str
    columns: list[Column]
    primary_key: list[int] | None = None
    keys: list[list[int]] = field(default_factory=list)
    foreign_keys: list[ForeignKey] = field(default_factory=list)
    rows: list[list[str | None]] = field(default_factory=list)


def family(kind):
    """Kinds of one family can be compared: integers with decimals, and every other kind with itself."""
    return "number" if kind in NUMBERS else kind


def agree(row, other, pairs):
    """Whether two rows are equal on pairs of columns; NULL is equal to nothing (SQL-92, 8.2)."""
    return all(row[one] is not None and row[one] == other[another] for one, another in pairs)
