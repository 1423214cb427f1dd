"""The tables that a schema's text declares, with every name resolved, or its first fault S01 to S15 (docs/DIAGNOSTICS.md)."""
from reference.refusal import refuse_first
from reference.schema_syntax import SchemaCursor
from reference.tables import Column, ForeignKey, Table, family
from reference.tokens import decoded

# The words of types for each kind (README.md).
TYPES = {
    "string": "CHAR CHARACTER VARCHAR TEXT",
    "integer": "SMALLINT INTEGER INT BIGINT",
    "decimal": "NUMERIC DECIMAL",
    "boolean": "BOOLEAN",
    "date": "DATE",
    "dateTime": "TIMESTAMP",
    "hexBinary": "BINARY VARBINARY BLOB",
    "time": "TIME",
}
KIND_OF = {word: kind for kind, words in TYPES.items() for word in words.split()}
LONGEST = 2147483647
MOST_TABLES, MOST_COLUMNS = 256, 128


# ---- names (SQL-92, 5.2) ----


def name_of(token):
    """The name that a token writes."""
    return token.text[1:-1].replace('""', '"') if token.kind == "DELIMITED" else token.text


def folded(name):
    """A name without regard to the case of its ASCII letters."""
    return "".join(char.lower() if char.isascii() else char for char in name)


def find(token, names):
    """The place of the first name that a token means, or None.

    A delimited name matches exactly, another one whatever its case; SQL-92 folds the latter to capitals (docs/DECISIONS.md).
    """
    for place, name in enumerate(names):
        if name == name_of(token) or token.kind != "DELIMITED" and folded(name) == folded(token.text):
            return place
    return None


def find_table(token, tables):
    """The place of the written table that a token means, or None."""
    return find(token, [name_of(table.name) for table in tables])


def find_columns(tokens, table):
    """The places of the columns of a written table that tokens mean, None for one that is not there."""
    names = [name_of(column.name) for column in table.columns]
    return [find(token, names) for token in tokens]


def kind_of(column):
    """The kind of a written column, None where its type is unknown."""
    return KIND_OF.get(column.word.text.upper())


def target_columns(constraint, target):
    """The columns that a foreign key refers to: those listed, or the primary key; None where there is neither."""
    if constraint.target is not None:
        return find_columns(constraint.target, target)
    return next((find_columns(key.columns, target) for key in target.of_sort("PRIMARY")), None)


# ---- faults, each a pair of a code and a place ----


def repeats(tokens):
    """The places of the tokens whose name stands before, case aside."""
    names = [folded(name_of(token)) for token in tokens]
    return [token.at for place, token in enumerate(tokens) if names[place] in names[:place]]


def takes_numbers(kind, numbers):
    """Whether a type of a kind takes these numbers in brackets."""
    if not numbers:
        return True
    if kind == "decimal":
        precision, *scale = numbers
        return 1 <= precision <= 38 and all(one <= precision for one in scale)
    ranges = {"string": (1, LONGEST), "hexBinary": (1, LONGEST), "dateTime": (0, 9), "time": (0, 9)}
    return kind in ranges and len(numbers) == 1 and ranges[kind][0] <= numbers[0] <= ranges[kind][1]


def column_faults(table):
    """The faults S04, S05, S06 and S14 of the columns of a table."""
    faults = [("S04", at) for at in repeats([column.name for column in table.columns])]
    for column in table.columns:
        if kind_of(column) is None:
            faults.append(("S05", column.word.at))
        elif not takes_numbers(kind_of(column), column.numbers):
            faults.append(("S06", column.word.at))
    return faults + [("S14", column.name.at) for column in table.columns[MOST_COLUMNS : MOST_COLUMNS + 1]]


def key_faults(table):
    """The faults S07, S08 and S09 of the constraints of a table."""
    faults = [("S09", key.sign.at) for key in table.of_sort("PRIMARY")[1:]]
    for constraint in table.constraints:
        places = find_columns(constraint.columns, table)
        for number, (token, place) in enumerate(zip(constraint.columns, places)):
            if place is None:
                faults.append(("S07", token.at))
            elif place in places[:number]:
                faults.append(("S08", token.at))
    return faults


def reference_fault(constraint, table, tables):
    """The first of S10, S11, S12 and S13 that holds of a foreign key, as a list of at most one."""
    number = find_table(constraint.table, tables)
    if number is None:
        return [("S10", constraint.table.at)]
    target, at = tables[number], constraint.sign.at
    columns = target_columns(constraint, target)
    if columns is None:
        return [("S12", at)]
    if len(columns) != len(constraint.columns) or None in columns or len(set(columns)) < len(columns):
        return [("S11", at)]
    if set(columns) not in [set(find_columns(key.columns, target)) for key in target.of_sort("PRIMARY", "UNIQUE")]:
        return [("S12", at)]
    pairs = [(one, other) for one, other in zip(find_columns(constraint.columns, table), columns) if one is not None]
    families = [(family(kind_of(table.columns[one])), family(kind_of(target.columns[other]))) for one, other in pairs]
    return [("S13", at)] if any(one != other for one, other in families) else []


def schema_faults(tables):
    """The faults S03 to S14 of written tables."""
    faults = [("S03", at) for at in repeats([table.name for table in tables])]
    faults += [("S14", table.name.at) for table in tables[MOST_TABLES : MOST_TABLES + 1]]
    for table in tables:
        faults += column_faults(table) + key_faults(table)
        for constraint in table.of_sort("REFERENCES"):
            faults += reference_fault(constraint, table, tables)
    return faults


# ---- the tables ----


def resolved(table, tables):
    """The table that a written one without faults declares, without rows; a primary key is NOT NULL (SQL-92, 11.7)."""
    primary = next((find_columns(key.columns, table) for key in table.of_sort("PRIMARY")), None)
    columns = [Column(name_of(column.name), kind_of(column), column.not_null or place in (primary or []))
               for place, column in enumerate(table.columns)]
    keys = [find_columns(key.columns, table) for key in table.of_sort("PRIMARY", "UNIQUE")]
    found = Table(name_of(table.name), columns, primary, keys)
    for key in table.of_sort("REFERENCES"):
        number = find_table(key.table, tables)
        found.foreign_keys.append(ForeignKey(find_columns(key.columns, table), number, target_columns(key, tables[number])))
    return found


def read_schema(data):
    """The tables of a schema's file, without rows; refused at its first fault: the least code, and of it the least place."""
    tables = SchemaCursor(decoded(data, "S15")).tables()
    refuse_first(schema_faults(tables))
    return [resolved(table, tables) for table in tables]
