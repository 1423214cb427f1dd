"""The calls that README.md and docs/GUIDE.md show, and the queries of examples/company, asked of the program and of the second implementation."""
import os
import re
import shutil

from reference.calls import Ending, expected

TOP = os.path.join(os.path.dirname(__file__), "..", "..", "..")
COMPANY = os.path.join("examples", "company")
CALL = ["--schema", f"{COMPANY}/schema.sql", "--base", "http://example.org/", "--mapping", f"{COMPANY}/mapping.ttl"]


def read(*path):
    """The text of a file of the repository."""
    with open(os.path.join(TOP, *path), encoding="utf-8", newline="") as file:
        return file.read()


def shown_in(text):
    """The commands of a document's fenced blocks, each with what it is shown to write: a command stands behind `$ `, and what it writes below it."""
    for block in re.findall(r"^```\w*\n(.*?)^```$", text, re.DOTALL | re.MULTILINE):
        for part in re.split(r"^\$ ", block, flags=re.MULTILINE)[1:]:
            command, _, output = part.partition("\n")
            yield command, output


def as_shown(output, shown):
    """Whether an output is what is shown, where a line `...` stands for any lines."""
    parts = re.split(r"^\.\.\.\n", shown, flags=re.MULTILINE)
    return re.fullmatch(r"(?:.*\n)*".join(re.escape(part) for part in parts), output) is not None


def check_call(comparison, document, command, folder, shown):
    """Asks whether a call writes what is shown, by the program and, of `dump` and `query`, by the second implementation."""
    words = command.split()[1:]
    endings = {"vkg": comparison.call(words, folder)}
    if words[0] in ("dump", "query"):
        endings["the second implementation"] = expected(words, folder)
    for name, ending in endings.items():
        is_so = ending is not None and as_shown(ending.output, shown)
        comparison.check(f"{document}, {words[0]} by {name}", words, folder, ending, Ending(0, ending.output if is_so else shown))


def check(comparison, words, folder, stored):
    """Asks whether a call of the program, and of the second implementation where it is a query, writes what is stored."""
    comparison.check(f"{words[-1]}, {words[0]} by vkg", words, folder, comparison.call(words, folder), Ending(0, stored))
    if words[0] == "query":
        comparison.check(f"{words[-1]}, by the second implementation", words, folder, expected(words, folder), Ending(0, stored))


def compare(comparison, _, folder):
    """The calls of the documents that ask nothing else of the shell, and the answers and plans of the example's queries."""
    shutil.copytree(os.path.join(TOP, "examples"), os.path.join(folder, "examples"))
    for document in ("README.md", "docs/GUIDE.md"):
        for command, shown in shown_in(read(document)):
            if command.startswith("./vkg ") and not re.search("[|;<]", command):
                check_call(comparison, document, command, folder, shown)
    for name in ("best_paid", "kinds", "members", "payroll"):
        query = ["--query", f"{COMPANY}/queries/{name}.rq"]
        check(comparison, ["query", "--data", f"{COMPANY}/data", *CALL, *query], folder, read(COMPANY, "queries", name + ".tsv"))
        check(comparison, ["sql", *CALL, *query], folder, read(COMPANY, "queries", name + ".sql"))
