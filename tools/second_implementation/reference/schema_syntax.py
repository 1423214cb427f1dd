"""The text of a schema: CREATE TABLE of SQL-92, 11.3 to 11.8, in the profile of README.md, as it is written."""
from dataclasses import dataclass, field

from reference.tokens import Cursor, Token, cut

KEYWORDS = "CREATE TABLE CONSTRAINT NOT NULL PRIMARY KEY UNIQUE REFERENCES FOREIGN".split()
CLASSES = [("WORD", "[A-Za-z_][A-Za-z0-9_]*"), ("DELIMITED", '"([^"]|"")+"'), ("INT", "[0-9]+"), ("SIGN", "[(),;]")]
SKIPPED = r"([ \t\r\n]|--[^\r\n]*)*"


@dataclass
class WrittenColumn:
    """A column as it is written: its name, the word of its type, and the numbers in brackets behind that."""

    name: Token
    word: Token
    numbers: list[int]
    not_null: bool = False


@dataclass
class Constraint:
    """A key or a foreign key as it is written: the token that tells its sort (PRIMARY, UNIQUE, REFERENCES), and its columns.

    A foreign key has the name of its target, and the list of columns there, None where the text has no list.
    """

    sign: Token
    columns: list[Token]
    table: Token | None = None
    target: list[Token] | None = None


@dataclass
class WrittenTable:
    """A table as it is written; its constraints stand in the order of the text, those of columns among them."""

    name: Token
    columns: list[WrittenColumn] = field(default_factory=list)
    constraints: list[Constraint] = field(default_factory=list)

    def of_sort(self, *signs):
        """The constraints of some sorts."""
        return [one for one in self.constraints if one.sign.text in signs]


class SchemaCursor(Cursor):
    """Reads the tables of a schema."""

    def __init__(self, text):
        tokens = [Token("KEYWORD", token.text.upper(), token.at)
                  if token.kind == "WORD" and token.text.upper() in KEYWORDS else token
                  for token in cut(text, CLASSES, SKIPPED, "S01")]
        super().__init__(tokens, "S02")

    def tables(self):
        """Reads the whole text."""
        found = []
        while not self.sees_kind("END"):
            found.append(self.table())
        return found

    def table(self):
        """Reads CREATE TABLE (11.3)."""
        self.expect("CREATE")
        self.expect("TABLE")
        table = WrittenTable(self.name())
        self.expect("(")
        self.element(table)
        while self.takes(","):
            self.element(table)
        self.expect(")")
        self.expect(";")
        return table

    def name(self):
        """Reads a name."""
        return self.take("WORD", "DELIMITED")

    def names(self):
        """Reads a list of names in brackets."""
        self.expect("(")
        found = [self.name()]
        while self.takes(","):
            found.append(self.name())
        self.expect(")")
        return found

    def element(self, table):
        """Reads a column or a table constraint (11.3, 11.6)."""
        is_named = self.takes("CONSTRAINT")
        if is_named:
            self.name()
        if self.takes("FOREIGN"):
            self.expect("KEY")
            table.constraints.append(self.references(self.names(), self.names))
        elif is_named or self.sees("PRIMARY", "UNIQUE"):
            sign = self.key_sign()
            table.constraints.append(Constraint(sign, self.names()))
        else:
            self.column(table)

    def column(self, table):
        """Reads a column with its type and its constraints (11.4)."""
        column = WrittenColumn(self.name(), self.take("WORD"), [])
        if self.takes("("):
            column.numbers.append(int(self.take("INT").text))
            if self.takes(","):
                column.numbers.append(int(self.take("INT").text))
            self.expect(")")
        table.columns.append(column)
        while self.sees("NOT", "PRIMARY", "UNIQUE", "REFERENCES"):
            if self.takes("NOT"):
                self.expect("NULL")
                column.not_null = True
            elif self.sees("REFERENCES"):
                table.constraints.append(self.references([column.name], self.single_name))
            else:
                table.constraints.append(Constraint(self.key_sign(), [column.name]))

    def key_sign(self):
        """Reads PRIMARY KEY or UNIQUE (11.7)."""
        sign = self.expect("PRIMARY", "UNIQUE")
        if sign.text == "PRIMARY":
            self.expect("KEY")
        return sign

    def single_name(self):
        """Reads a list of one name in brackets."""
        self.expect("(")
        found = self.name()
        self.expect(")")
        return [found]

    def references(self, columns, read_list):
        """Reads REFERENCES, its table, and the list of columns there, if there is one (11.8)."""
        constraint = Constraint(self.expect("REFERENCES"), columns, self.name())
        if self.sees("("):
            constraint.target = read_list()
        return constraint
