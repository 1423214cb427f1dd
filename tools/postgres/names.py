"""The names that PostgreSQL has for the tables and columns of a schema (PostgreSQL's documentation, 4.1.1), and what it lacks."""
import second_implementation  # noqa: F401  (the path of what follows)
from reference.schema_syntax import SchemaCursor
from reference.schemas import folded, name_of
from reference.tokens import decoded

NO_CHARACTER = "a character that PostgreSQL does not have"  # U+0000

def identifier(token):
    """A name in quotes. One that the schema writes without them is folded to small letters, as PostgreSQL does that reads this schema."""
    name = name_of(token)
    if token.kind != "DELIMITED":
        name = folded(name)
    return '"' + name.replace('"', '""') + '"'


def names_of(data):
    """For each table of a schema's text its name and the names of its columns."""
    tables = SchemaCursor(decoded(data, "S15")).tables()
    return [(identifier(table.name), [identifier(column.name) for column in table.columns]) for table in tables]
