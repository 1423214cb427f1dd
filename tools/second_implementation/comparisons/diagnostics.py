"""The examples of docs/DIAGNOSTICS.md, asked of the program and of the second implementation."""
import os
import re

from random_inputs.cases import Case
from reference.calls import Ending, expected
from reference.refusal import DIAGNOSTICS, Refused

BASE = "http://e/"
SCHEMA = "CREATE TABLE t (a INT PRIMARY KEY, b VARCHAR(9), d DATE); CREATE TABLE u (a INT PRIMARY KEY);"
SCHEMA_OF_TABLES = "CREATE TABLE t (a INT PRIMARY KEY, b DATE NOT NULL, UNIQUE (b));"
SCHEMA_OF_REFERENCES = "CREATE TABLE u (id INT PRIMARY KEY); CREATE TABLE t (id INT PRIMARY KEY, u INT REFERENCES u);"
HEAD = "@prefix rr: <http://www.w3.org/ns/r2rml#> . @prefix xsd: <http://www.w3.org/2001/XMLSchema#> .\n"
FRAME = {
    "rr:logicalTable": '[ rr:tableName "t" ]',
    "rr:subjectMap": '[ rr:template "http://e/{a}" ]',
    "rr:predicateObjectMap": '[ rr:predicate <http://e/p> ; rr:objectMap [ rr:column "b" ] ]',
}
PARENT = '<#u> rr:logicalTable [ rr:tableName "u" ] ; rr:subjectMap [ rr:template "http://e/u/{a}" ] .\n'
# The part of the frame in whose place brackets stand that begin with a property.
PART_OF = {
    "rr:tableName": "rr:logicalTable",
    "rr:sqlQuery": "rr:logicalTable",
    "rr:template": "rr:subjectMap",
    "rr:column": "rr:objectMap",
    "rr:parentTriplesMap": "rr:objectMap",
}
NINES = 39 * "9"
TYPED = 'rr:objectMap [ rr:column "b" ; rr:datatype xsd:integer ]'
MANY_TABLES = "".join(f"CREATE TABLE t{number} (a INT); " for number in range(257))
COLUMNS = [f"c{number}" for number in range(103)]
WIDE_TABLE = f"({' INT, '.join(COLUMNS)} INT, PRIMARY KEY (c0));"
WIDE_FILES = {f"data/t{number}.csv": ",".join(COLUMNS) for number in range(40)}
WIDE_FILES["schema.sql"] = "".join(f"CREATE TABLE t{number} {WIDE_TABLE}" for number in range(40))


def mapping(part):
    """The mapping of docs/DIAGNOSTICS.md with a part in the place of the part that has its name, or without that part."""
    if part.startswith("["):
        part = f"{PART_OF[part.split()[1]]} {part}"
    name, _, value = part.partition(" ")
    parts = dict(FRAME)
    if name in ("rr:objectMap", "rr:object"):
        name, value = "rr:predicateObjectMap", f"[ rr:predicate <http://e/p> ; {part} ]"
    parts[name] = value
    properties = " ; ".join(" ".join(pair) for pair in parts.items() if pair[1])
    return f"{HEAD}<#m> {properties} .\n{PARENT}"


def with_rows(rows, schema=SCHEMA):
    """The files of a schema whose table `t` has a file of these lines; another table has no rows."""
    return {"schema.sql": schema, "data/t.csv": rows, "data/u.csv": "a\n"}


# What the document tells in words: the code, the place, and the files.
TOLD = [
    ("S14", MANY_TABLES.rindex("t256"), {"schema.sql": MANY_TABLES}),
    ("S15", 7, {"schema.sql": b"CREATE \xff"}),
    ("T01", "1:0:0", with_rows("", SCHEMA_OF_TABLES)),
    ("T05", "1:0:0", with_rows(b"a,b\n\xff,2024-01-01\n", SCHEMA_OF_TABLES)),
    ("T08", "1:1:1", with_rows(f"a,b\n{NINES},2024-01-01\n", SCHEMA_OF_TABLES)),
    ("T09", "1:3:1", with_rows("a,b\n7,2024-01-01\n8,2024-01-02\n7,2024-01-03\n", SCHEMA_OF_TABLES)),
    ("T10", "2:1:1", {"schema.sql": SCHEMA_OF_REFERENCES, "data/u.csv": "id\n1\n", "data/t.csv": "id,u\n7,5\n"}),
    ("M01", 2, {"mapping.ttl": b'a " \xff'}),
    ("M03", 74, {"mapping.ttl": "<#m> <#p> " + 65 * "["}),
    ("M10", 1, {"mapping.ttl": mapping("rr:subjectMap ")}),
    ("M19", 1, {"mapping.ttl": mapping("[ rr:parentTriplesMap <#u> ]")}),
    ("M20", 1, {"mapping.ttl": mapping('[ rr:parentTriplesMap <#u> ; rr:joinCondition [ rr:child "d" ; rr:parent "a" ] ]')}),
    ("M21", 0, {"mapping.ttl": ""}),
    ("M22", 0, WIDE_FILES),
    ("X01", "1:2:0", {**with_rows("a,b,d\n1,q,\n2,a b,\n"), "mapping.ttl": mapping('rr:subjectMap [ rr:column "b" ]')}),
    ("X02", "1:1:2", {**with_rows("a,b,d\n1,x,\n"), "mapping.ttl": mapping(TYPED)}),
    ("X03", "1:1:2", {**with_rows(f"a,b,d\n1,{NINES},\n"), "mapping.ttl": mapping(TYPED)}),
    ("Q01", 14, {"query.rq": b"SELECT * { ?s ~ ?o } # \xff"}),
    ("Q03", 73, {"query.rq": "SELECT * " + 65 * "{"}),
    ("Q08", 29, {"query.rq": f"SELECT * {{ ?s <http://e/p>   {NINES} }}"}),
]


def shown_in(code, cell):
    """The examples in a cell of the tables: pairs of a text and a place; the lines of a table's file are joined."""
    if code.startswith("T"):
        return [("\n".join(re.findall("`([^`]+)`", lines)), place)
                for lines, place in re.findall("((?:`[^`]+`(?: and )?)+): at ([0-9:]+)", cell)]
    return re.findall("`([^`]+)` at ([0-9]+)(?![0-9:])", cell)


def files_of(code, text):
    """The files of an example that the document shows, None where the text is not one but a word about it."""
    if code[0] in "SD":
        return {"schema.sql": text, "data/t.csv": "a\n"}
    if code[0] == "T":
        return with_rows(text, SCHEMA_OF_TABLES)
    if code[0] == "Q":
        return {"query.rq": text} if text.startswith(("SELECT", "ASK", "CONSTRUCT")) else None
    if text.startswith("<#m>"):
        return {"mapping.ttl": (HEAD if "rr:" in text else "") + text}
    return {"mapping.ttl": mapping(text)} if re.match(r"(rr:\w+ )?\[|rr:object ", text) else None


def examples():
    """All examples: the code, the place, and the files."""
    found = list(TOLD)
    with open(DIAGNOSTICS, encoding="utf-8") as file:
        for line in file:
            if re.match(r"\| [STMDXQ][0-9]{2} ", line):
                code, cell = line[2:5], line.split(" | ")[2]
                found += [(code, place, files_of(code, text)) for text, place in shown_in(code, cell)]
    return [example for example in found if example[2]]


def compare(comparison, _, folder):
    """Asks every example of both; a query's of `query` and of `sql`."""
    for number, (code, place, files) in enumerate(examples()):
        comparison.case = f"{number} {code}"
        case, own = Case(BASE, []), os.path.join(folder, str(number))
        case.files = {**with_rows("a,b,d\n"), **files}
        case.write(own)
        refused = Refused(code, place)
        theirs = Ending(refused.status, "", refused.line)
        for command in ["query", "sql"] if "query.rq" in files else ["dump"]:
            words = case.words(command)
            comparison.check("DIAGNOSTICS.md, by vkg", words, own, comparison.call(words, own), theirs)
            comparison.check("DIAGNOSTICS.md, by the second implementation", words, own, expected(words, own), theirs)
