"""Random schemas: tables with keys of one to three columns, and references, before their columns have places."""
from dataclasses import dataclass, field

from reference.schemas import folded
from reference.tables import Column, ForeignKey, Table, family

PLAIN_NAMES = "id name dept T1 _x Code k2 INT value select x title BOSS End n_1".split()
STRANGE_NAMES = ["first name", "é", "Straße", 'a"b', "100%", "a/b", "x;y", "k=v", "#h", "a{b}", "back\\slash", "語", "😀",
                 "it's", "a.b", "a,b", "~", "..", "PRIMARY", "x<y>", "\u00a0", " lead", "e-mail", "{", '"q"', "?", "ref-x",
                 "%41", "É"]
KINDS = "string string integer integer decimal boolean date dateTime hexBinary time".split()


@dataclass
class Reference:
    """Columns that refer to columns of a key of the table with this number."""

    columns: list[Column]
    table: int
    target: list[Column]


@dataclass
class Draft:
    """A table that is being made; the first key is the primary one; a row maps names of columns to lexical forms."""

    name: str
    columns: list[Column] = field(default_factory=list)
    keys: list[list[Column]] = field(default_factory=list)
    references: list[Reference] = field(default_factory=list)
    rows: list[dict] = field(default_factory=list)
    taken: set = field(default_factory=set)

    def table(self, drafts):
        """The finished table."""
        def places(columns, owner):
            """The places of columns in a draft."""
            return [owner.columns.index(column) for column in columns]
        foreign_keys = [ForeignKey(places(one.columns, self), one.table, places(one.target, drafts[one.table]))
                        for one in self.references]
        keys = [places(key, self) for key in self.keys]
        rows = [[row[column.name] for column in self.columns] for row in self.rows]
        return Table(self.name, self.columns, keys[0], keys, foreign_keys, rows)


def pick_name(chance, taken, strange):
    """A name that is not taken, case aside; a strange one in a share of cases."""
    while True:
        name = chance.choice(STRANGE_NAMES if chance.happens(strange) else PLAIN_NAMES)
        if chance.happens(0.2):
            name += str(chance.randrange(10))
        if folded(name) not in taken:
            taken.add(folded(name))
            return name


def draft_table(chance, taken, strange):
    """A table with a primary key, further columns, and perhaps a unique key; without references."""
    draft = Draft(pick_name(chance, taken, strange))

    def column(not_null):
        """Adds a column of any kind."""
        draft.columns.append(Column(pick_name(chance, draft.taken, strange), chance.choice(KINDS), not_null))
        return draft.columns[-1]
    draft.keys.append([column(True) for _ in range(chance.choice([1, 1, 1, 2, 2, 3]))])
    for _ in range(chance.randrange(4)):
        column(chance.happens(0.3))
    if chance.happens(0.4):
        draft.keys.append(chance.sample(draft.columns, chance.choice([1, min(2, len(draft.columns))])))
    return draft


def draft_reference(chance, drafts, number):
    """Adds a reference with columns of its own to a table; its columns may be a key, or part of one.

    That is so only of references to earlier tables: the others get their values when all rows are there.
    """
    draft, target = drafts[number], chance.randrange(len(drafts))
    key = list(chance.choice(drafts[target].keys))
    chance.shuffle(key)
    is_in_key = target < number and chance.happens(0.3)
    columns = []
    for one in key:
        kind = chance.choice(["integer", "decimal"]) if family(one.kind) == "number" and chance.happens(0.4) else one.kind
        not_null = is_in_key or target < number and chance.happens(0.2)
        columns.append(Column(pick_name(chance, draft.taken, 0.1), kind, not_null))
    draft.columns += columns
    draft.references.append(Reference(columns, target, key))
    if is_in_key:
        is_target = any(one.table == number for other in drafts for one in other.references)
        if len(columns) + len(draft.keys[0]) <= 3 and not is_target and chance.happens(0.7):
            draft.keys[0] += columns
        else:
            draft.keys.append(list(columns))


def random_drafts(chance):
    """One to four tables without rows."""
    taken, strange = set(), chance.choice([0, 0.2, 0.5])
    drafts = [draft_table(chance, taken, strange) for _ in range(chance.choice([1, 1, 2, 2, 3, 4]))]
    for number in range(len(drafts)):
        for _ in range(chance.choice([0, 0, 1, 1, 2])):
            draft_reference(chance, drafts, number)
    for draft in drafts:
        chance.shuffle(draft.columns)
    return drafts
