"""The tables of docs/GUIDE.md, asked of the program and of the second implementation: what is refused with which code, and what is taken in its place."""
import os
import re

from comparisons.diagnostics import BASE, HEAD, SCHEMA, mapping
from random_inputs.cases import Case
from reference.calls import Ending, expected

GUIDE = os.path.join(os.path.dirname(__file__), "..", "..", "..", "docs", "GUIDE.md")
EMPTY = "SELECT * { }"


def schema_files(text):
    """The files of a statement, or of a part of one, for a call of `sql`."""
    is_whole = text.endswith(";") or text.startswith(("CREATE", "--", "/*", "#"))
    return {"schema.sql": text if is_whole else f"CREATE TABLE t (k INTEGER PRIMARY KEY, a INTEGER, {text});", "query.rq": EMPTY}


def mapping_files(text):
    """The files of a mapping, or of a part of one, for a call of `sql`."""
    return {"schema.sql": SCHEMA, "mapping.ttl": HEAD + text if text.startswith("<#m>") else mapping(text), "query.rq": EMPTY}


def query_files(text):
    """The files of a query, or of a part of its group, for a call of `sql`."""
    is_whole = re.match("(SELECT|PREFIX|ASK|CONSTRUCT|DESCRIBE|INSERT|DELETE)", text)
    return {"schema.sql": SCHEMA, "query.rq": text if is_whole else f"SELECT * {{ ?s ?p ?o . {text} }}"}


def field_files(kind, text):
    """The files of a field of a type, for a call of `dump`."""
    return {"schema.sql": f"CREATE TABLE t (a INTEGER PRIMARY KEY, b {kind});", "data/t.csv": f"a,b\n1,{text}\n"}


FILES = {"The schema": schema_files, "A mapping": mapping_files, "A query": query_files}


def texts_in(cell):
    """The texts in backticks of a cell, but for the words of a mapping that are no part of it by themselves."""
    found = [text for _, text in re.findall(r"(``?)(.+?)\1(?!`)", cell.replace("\\|", "|"))]
    return [text for text in found if not text.startswith("rr:datatype")]


def examples():
    """The examples of all rows: the code, None where the text is to be taken, and the files."""
    files = None
    with open(GUIDE, encoding="utf-8") as guide:
        for line in guide:
            if line.startswith("## "):
                files = FILES.get(line[3:].strip())
            row = re.fullmatch(r"\| (?:`(\w+)` \| )?(.+) \| ([A-Z][0-9]{2}) \| (.+) \|\n", line)
            if row:
                kind, brought, code, instead = row.groups()
                for text in texts_in(brought):
                    yield code, field_files(kind, text) if kind else files(text)
                for text in texts_in(instead):
                    yield None, field_files(kind, text) if kind else files(text)


def compare(comparison, _, folder):
    """Asks every example of both."""
    for number, (code, files) in enumerate(examples()):
        comparison.case = f"{number} {code}"
        case, own = Case(BASE, []), os.path.join(folder, f"guide{number}")
        case.files = files
        case.write(own)
        words = case.words("sql" if "query.rq" in files else "dump")
        ending = comparison.call(words, own)
        comparison.check("GUIDE.md, by the second implementation", words, own, ending, expected(words, own))
        is_shown = ending is None or (ending.line.startswith(f"vkg: {code} ") if code else ending.status == 0)
        shown = ending if is_shown else Ending(5 if code else 0, None, f"vkg: {code}\n" if code else "")
        comparison.check(f"GUIDE.md, {'refused' if code else 'taken'} as shown", words, own, ending, shown)
