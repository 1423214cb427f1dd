#!/usr/bin/env python3
"""Prints docs/STANDARDS.md: of each public standard, section by section, the definitions whose comment names it.

usage: tools/standards.py > docs/STANDARDS.md     (at any place)

Read are the comments directly above a definition in crates/*/specs/, the one at the head of a file, which counts for all of it, and the heads
of a file's parts (`-- ---- ..`). A standard counts where a section stands beside its name, as in `-- R2RML, 7.3: ..`; what A Direct Mapping
defines has names in the place of numbers.
"""
import re
from collections import defaultdict
from pathlib import Path

TOP = Path(__file__).resolve().parent.parent
HEAD = """# Standards

Which definitions follow which section of which public standard. This page is exactly what `tools/standards.py` prints: it reads the comments of
`crates/*/specs/`. "All" is a whole file, by the comment at its head, and words in quotes are a part of a file, by its head; "own" is a definition
of this project's own, after that section. What each definition is for stands in [DEFINITIONS.md](DEFINITIONS.md), and where the project departs
from a standard in [DECISIONS.md](DECISIONS.md).
"""
STANDARDS = [  # as a comment names it, as it is printed; the first that fits counts
    (r"SPARQL 1\.1 Query Results CSV and TSV Formats", "SPARQL 1.1 Query Results CSV and TSV Formats"),
    (r"SPARQL(?: 1\.1)?(?: Query)?(?: Language)?", "SPARQL 1.1 Query Language"),
    (r"R2RML", "R2RML: RDB to RDF Mapping Language"),
    (r"(?:A )?Direct Mapping(?: of Relational Data to RDF)?", "A Direct Mapping of Relational Data to RDF"),
    (r"RDF 1\.1 N-Quads", "RDF 1.1 N-Quads"),
    (r"RDF 1\.1 N-Triples", "RDF 1.1 N-Triples"),
    (r"(?:RDF 1\.1 )?Turtle", "RDF 1.1 Turtle"),
    (r"RDF 1\.1 Concepts", "RDF 1.1 Concepts and Abstract Syntax"),
    (r"XML Schema 1\.1 Part 2", "XML Schema 1.1 Part 2: Datatypes"),
    (r"SQL-92", "SQL-92"),
    (r"SQL:1999", "SQL:1999"),
    (r"RFC (\d+)", r"RFC \1"),
    (r"Unicode", "Unicode"),
    (r"ISO 8601", "ISO 8601"),
]
NAMED = r"(?:direct|row) graph|row node|(?:table|(?:literal|reference) property) IRI|(?:literal|reference) triple"  # of A Direct Mapping
NAME = "|".join(pattern.replace("(\\d+)", "\\d+") for pattern, _ in STANDARDS)
NUMBER = r"\d+(?:\.\d+)*(?: \(\d\))?(?![\w-])"
NUMBERS = rf"{NUMBER}(?: \([A-Za-z]+\))?(?:(?:, and |, | and | to ){NUMBER}(?: \([A-Za-z]+\))?)*"
CITED = re.compile(
    rf"(?P<before>{NUMBERS}) of (?P<of>{NAME})"  # 19.8 of SPARQL 1.1
    rf"|(?P<name>{NAME})(?:,? (?:section )?(?P<behind>{NUMBERS})|, \"?(?P<words>{NAMED}))?"  # R2RML, 7.3 and 8
    rf"|(?:; |\(|, and )(?P<further>\d+\.\d[\d.]*(?: and \d+\.[\d.]*\d)*)(?=[:,)])"  # a further section of the last standard
)
DEFINITION = re.compile(r" *(?:abbrev |unfoldable )?(?:pub )?(?:data |record )?(?!use |module |mutual)([^\s:({]+) *[:({]")


def standard_of(name):
    """The standard as it is printed."""
    return next(re.sub(pattern, printed, name) for pattern, printed in STANDARDS if re.fullmatch(pattern, name))


def sections_of(text):
    """The sections in a run of numbers; a range is one."""
    text = re.sub(r" \([A-Za-z]+\)", "", text)
    return re.split(r", and |, | and ", text)


def cited_in(comment):
    """The standards with their sections that a comment names."""
    last = None
    for found in CITED.finditer(comment):
        name = found["name"] or found["of"]
        if name:
            last = standard_of(name)
        numbers = found["before"] or found["behind"] or found["further"]
        if numbers and last:
            yield from ((last, section) for section in sections_of(numbers))
        elif found["words"]:
            yield last, found["words"]
        elif name and last.startswith(("ISO", "RFC")):
            yield last, "all of it"


def commented(path):
    """Each name that a comment stands above, with that comment; those at the head of the file and of its parts stand for all of these."""
    comment, is_head = [], True
    for line in path.read_text(encoding="utf-8").split("\n"):
        if line.startswith("-- ---- "):
            yield f'"{line.rpartition(": ")[2]}"', line
        elif line.lstrip().startswith("-- "):
            comment.append(line.lstrip()[3:])
            continue
        if comment:
            name = DEFINITION.match(line)
            if name:
                yield f"`{name[1]}`", " ".join(comment)
            elif is_head and (not line or line.startswith("use ")):
                yield "all", " ".join(comment)
        if not line.endswith("mutual"):  # a comment above `mutual` is that of the first definition within
            comment, is_head = [], is_head and not line


def order(section):
    """Sections by their numbers, and names behind them."""
    return [int(it) for it in re.findall(r"\d+", section)] or [10**6], section


def main():
    found = defaultdict(lambda: defaultdict(lambda: defaultdict(list)))
    for path in sorted(TOP.glob("crates/*/specs/**/*.antt")):
        for name, comment in commented(path):
            for standard, section in cited_in(comment):
                names = found[standard][section][path]
                shown = f"{name} (own)" if re.match("own", comment, re.IGNORECASE) else name
                if shown not in names:
                    names.append(shown)
    print(HEAD)
    for standard in sorted(found):
        print(f"## {standard}\n\n| section | crate | file | definitions |\n|---|---|---|---|")
        for section in sorted(found[standard], key=order):
            for path, names in found[standard][section].items():
                crate, inside = path.relative_to(TOP / "crates").parts[0], path.relative_to(TOP)
                print(f"| {section} | `{crate}` | [{path.stem}](../{inside}) | {', '.join(names)} |")
        print()


if __name__ == "__main__":
    main()
