#!/usr/bin/env python3
"""Writes a script for `psql` that makes the tables of a schema and fills them from their CSV files, for trying.

usage: tools/postgres/load.py --schema FILE --data FOLDER

The files are read as `vkg` reads them (README.md, docs/GUIDE.md), and a fault of the schema or of a table is told as `vkg` tells it. Keys
and references are those of the schema, and PostgreSQL checks them. All is one transaction: what is cut off or refused leaves nothing.

A column's type is PostgreSQL's own, but where that does not hold every value: integers are bigint, or numeric where one has more than
64 bits or an integer and a decimal refer to each other; a TIMESTAMP or TIME is timestamp or time, or text where a fraction has more
than six digits. Texts are compared by their bytes. A text with the character U+0000, which PostgreSQL does not have, is refused.
"""
import argparse
import os
import shutil
import sys
import tempfile

from names import NO_CHARACTER, names_of
from reference.iris import iri_safe
from reference.refusal import Refused
from reference.schemas import read_schema
from reference.table_files import check_header, record_at, row_of
from reference.tokens import decoded

TYPES = {"string": 'text COLLATE "C"', "integer": "bigint", "decimal": "numeric", "boolean": "boolean", "date": "date",
         "dateTime": "timestamp", "hexBinary": "bytea", "time": "time"}
WIDER = {"integer": "numeric", "dateTime": 'text COLLATE "C"', "time": 'text COLLATE "C"'}
ESCAPES = str.maketrans({"\\": r"\\", "\t": r"\t", "\n": r"\n", "\r": r"\r"})
MOST_DIGITS = 6


# ---- rows ----


def records(text):
    """The records of a file, one at a time; a line without characters is none."""
    place = 0
    while place < len(text):
        if text[place] in "\r\n":
            place += 1
        else:
            record, place = record_at(text, place)
            yield record


def rows_of(data, table, number):
    """The rows of a table's file, one at a time; refused where it has a fault. `number` is the table's, from 1."""
    try:
        found = records(decoded(data, "T05"))
    except Refused:
        raise Refused("T05", f"{number}:0:0") from None
    header = next(found, None)
    if header is None:
        raise Refused("T01", f"{number}:0:0")
    check_header(header, table, number)
    for place, record in enumerate(found, 1):
        row = row_of(record, header, table, f"{number}:{place}")
        if any(form is not None and "\0" in form for form in row):
            raise Refused(NO_CHARACTER, f"{number}:{place}:0")
        yield row


def is_wide(kind, form):
    """Whether PostgreSQL's own type of a kind does not hold a value."""
    if kind == "integer":
        return not -2**63 <= int(form) < 2**63
    return kind in WIDER and len(form.partition(".")[2]) > MOST_DIGITS


def field(kind, form):
    """A field of COPY's text format."""
    if form is None:
        return r"\N"
    return r"\\x" + form if kind == "hexBinary" else form.translate(ESCAPES)


def copy_rows(table, rows, out, wide):
    """Writes rows as COPY reads them, and adds the kinds of which a value needs the wider type to a set."""
    kinds = [column.kind for column in table.columns]
    for row in rows:
        wide.update(kind for kind, form in zip(kinds, row) if kind in WIDER and form is not None and is_wide(kind, form))
        out.write("\t".join(map(field, kinds, row)) + "\n")


# ---- tables, keys and references ----


def mixed_references(tables):
    """The kinds of integers, where an integer and a decimal refer to each other."""
    return {"integer" for table in tables for key in table.foreign_keys for one, other in zip(key.columns, key.target)
            if table.columns[one].kind != tables[key.table].columns[other].kind}


def table_text(table, names, wide):
    """CREATE TABLE with the columns alone."""
    types = {**TYPES, **{kind: WIDER[kind] for kind in wide}}
    columns = [f"  {name} {types[column.kind]}{' NOT NULL' * column.not_null}" for name, column in zip(names[1], table.columns)]
    return f"CREATE TABLE {names[0]} (\n" + ",\n".join(columns) + "\n);\n"


def listed(names, places):
    """Some columns in brackets."""
    return f"({', '.join(names[1][place] for place in places)})"


def keys_text(table, names):
    """The primary key and the unique keys."""
    primary = table.keys.index(table.primary_key) if table.primary_key else None
    return "".join(f"ALTER TABLE {names[0]} ADD {'PRIMARY KEY' if place == primary else 'UNIQUE'} {listed(names, key)};\n"
                   for place, key in enumerate(table.keys))


def references_text(table, own, names):
    """The foreign keys."""
    return "".join(f"ALTER TABLE {own[0]} ADD FOREIGN KEY {listed(own, key.columns)} "
                   f"REFERENCES {names[key.table][0]} {listed(names[key.table], key.target)};\n" for key in table.foreign_keys)


def write_script(schema, folder, out):
    """Writes the script. The rows come first into a file of their own, since they tell the types of columns."""
    tables, names = read_schema(schema), names_of(schema)
    wide = mixed_references(tables)
    with tempfile.TemporaryFile("w+", encoding="utf-8", newline="") as rows:
        for number, (table, (name, columns)) in enumerate(zip(tables, names), 1):
            with open(os.path.join(folder, iri_safe(table.name) + ".csv"), "rb") as file:
                data = file.read()
            rows.write(f"COPY {name} ({', '.join(columns)}) FROM stdin;\n")
            copy_rows(table, rows_of(data, table, number), rows, wide)
            rows.write("\\.\n")
        rows.seek(0)
        out.write("SET client_encoding = 'UTF8';\nBEGIN;\n" + "".join(table_text(table, own, wide) for table, own in zip(tables, names)))
        shutil.copyfileobj(rows, out)
    out.write("".join(keys_text(table, own) for table, own in zip(tables, names)))
    out.write("".join(references_text(table, own, names) for table, own in zip(tables, names)))
    out.write("COMMIT;\n" + "".join(f"ANALYZE {name};\n" for name, _ in names))


def main():
    """Reads the words, and writes the script."""
    parser = argparse.ArgumentParser(description=__doc__, usage=argparse.SUPPRESS, formatter_class=argparse.RawDescriptionHelpFormatter)
    parser.add_argument("--schema", metavar="FILE", required=True)
    parser.add_argument("--data", metavar="FOLDER", required=True)
    options = parser.parse_args()
    try:
        with open(options.schema, "rb") as file:
            schema = file.read()
        with open(sys.stdout.fileno(), "w", encoding="utf-8", newline="", closefd=False) as out:
            write_script(schema, options.data, out)
    except OSError as error:
        sys.exit(f"load.py: {error}")
    except Refused as refused:
        if refused.code == NO_CHARACTER:
            sys.exit(f"load.py: {refused.code} at {refused.place}")
        print(refused.line.replace("vkg:", "load.py:", 1), end="", file=sys.stderr)
        sys.exit(refused.status)


if __name__ == "__main__":
    main()
