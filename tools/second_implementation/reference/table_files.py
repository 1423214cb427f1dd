"""The files of tables: CSV (RFC 4180), rows, keys and references, with the faults T01 to T10 of docs/DIAGNOSTICS.md."""
from reference.datatypes import BadField, lexical_form
from reference.refusal import Refused
from reference.tables import agree
from reference.tokens import decoded


# ---- records; what RFC 4180 leaves open is as docs/DECISIONS.md has it ----


def quoted(text, place):
    """What stands in quotes up to the closing one or the end of the file, and the place behind it; `""` is a quote."""
    value = ""
    while True:
        end = text.find('"', place)
        if end < 0:
            return value + text[place:], len(text)
        value += text[place:end]
        if not text.startswith('""', end):
            return value, end + 1
        value, place = value + '"', end + 2


def record_at(text, place):
    """The fields of the record that begins at a place, and the place behind it; text behind a closing quote is kept."""
    record = []
    while True:
        value = ""
        if text.startswith('"', place):
            value, place = quoted(text, place + 1)
        start = place
        while place < len(text) and text[place] not in ",\r\n":
            place += 1
        record.append(value + text[start:place])
        if not text.startswith(",", place):
            return record, place
        place += 1


def records(text):
    """The records of a file; a line without characters is none, and a lone CR ends a record, too."""
    found, place = [], 0
    while place < len(text):
        if text[place] in "\r\n":
            place += 1
        else:
            record, place = record_at(text, place)
            found.append(record)
    return found


# ---- rows ----


def check_header(header, table, number):
    """Refuses a header that does not name each column once: its first unknown field, or the schema's first such column."""
    names = [column.name for column in table.columns]
    for place, name in enumerate(header, 1):
        if name not in names:
            raise Refused("T02", f"{number}:0:{place}")
    for place, name in enumerate(names, 1):
        if header.count(name) != 1:
            raise Refused("T03", f"{number}:0:{place}")


def cell(column, text):
    """The lexical form that a field of a column is, None for NULL; BadField where it is none."""
    if text == r"\N" or text == "" and column.kind != "string":
        if column.not_null:
            raise BadField("T07")
        return None
    return lexical_form(column.kind, text)


def row_of(record, header, table, place):
    """The row of a record, in the order of the schema; `place` is that of the row."""
    if len(record) != len(header):
        raise Refused("T04", f"{place}:0")
    row = []
    for number, column in enumerate(table.columns, 1):
        try:
            row.append(cell(column, record[header.index(column.name)]))
        except BadField as error:
            raise Refused(error.args[0], f"{place}:{number}") from None
    return row


def read_rows(data, table, number):
    """The rows of a table's file; refused at its first fault. `number` is the table's, from 1."""
    try:
        found = records(decoded(data, "T05"))
    except Refused:
        raise Refused("T05", f"{number}:0:0") from None
    if not found:
        raise Refused("T01", f"{number}:0:0")
    header, *rest = found
    check_header(header, table, number)
    return [row_of(record, header, table, f"{number}:{place}") for place, record in enumerate(rest, 1)]


# ---- keys and references (SQL-92, 4.10.2) ----


def check_keys(tables):
    """Refuses the first row that repeats a key: that agrees on the whole of it with an earlier row."""
    for number, table in enumerate(tables, 1):
        for place, row in enumerate(table.rows):
            for key_number, key in enumerate(table.keys, 1):
                pairs = [(column, column) for column in key]
                if any(agree(row, other, pairs) for other in table.rows[:place]):
                    raise Refused("T09", f"{number}:{place + 1}:{key_number}")


def check_references(tables):
    """Refuses the first row whose foreign key holds no NULL and refers to no row (SQL:1999, 11.8, MATCH SIMPLE)."""
    for number, table in enumerate(tables, 1):
        for place, row in enumerate(table.rows, 1):
            for key_number, key in enumerate(table.foreign_keys, 1):
                pairs = list(zip(key.columns, key.target))
                is_asked = None not in [row[column] for column in key.columns]
                if is_asked and not any(agree(row, other, pairs) for other in tables[key.table].rows):
                    raise Refused("T10", f"{number}:{place}:{key_number}")
