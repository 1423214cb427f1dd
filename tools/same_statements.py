#!/usr/bin/env python3
"""Lists what stands twice under crates/: lemmas and definitions with one statement, and functions with one body.

usage: tools/same_statements.py [--all] [--clauses]

Two statements are one here if they differ in nothing but the names of what they bind, whether an argument is implicit, its place
among the arguments, and parentheses. A row is a place to look, no verdict: the same words can mean other things in two crates
(`IsNoText` of a schema and of a document). Types of definitions say little, so a definition is listed only where its body is the
same, too; --clauses lists those with the same clauses whatever their types, which one definition over any type could be. Fields,
constructors and laws, which have no body, are left out, and without --all pairs within one file. What is a case of a more general lemma,
or says the same in other words, is not found.
"""

import collections
import os
import re
import sys

WORD = re.compile(r"[^\s(){},.;\[\]]+|[(){},.;\[\]]")
HEAD = re.compile(r"(\s*)(?:(?:pub|abbrev|unfoldable|opaque)\s+)*([^\s:(){},]+)(?:\s*\{[^}]*\})*\s+:\s+(.*)$")
FUNCTION = re.compile(r"(\s*)(?:pub(?:\(\w+\))? )?(?:const )?fn (\w+)")
FACT = re.compile(r"≡|Contains|↔|AllBy|IsPerm|IsDistinct|≤|<")
VARIABLE = re.compile(r"(?!true$|false$|tt$|refl$)[a-z_]")
NO_NAMES = {"use", "module", "data", "record", "mutual"}


def files(ending):
    for at, folders, names in os.walk("crates"):
        folders[:] = sorted(it for it in folders if it != "out")
        yield from (f"{at}/{it}" for it in sorted(names) if it.endswith(ending))


def depth(line):
    return len(line) - len(line.lstrip())


def items(file):
    """The lemmas and definitions of a file: line, name, statement, body."""
    with open(file, encoding="utf-8") as it:
        lines = [re.sub(r"(^|\s)--.*$", "", line.rstrip("\n")) for line in it]
    at = 0
    while at < len(lines):
        head = HEAD.match(lines[at])
        start, at = at, at + 1
        if not head or head[2] in NO_NAMES:
            continue
        indent, name, statement, body = len(head[1]), head[2], [head[3]], []
        while at < len(lines) and lines[at].strip() and depth(lines[at]) > indent:
            statement.append(lines[at].strip())
            at += 1
        own = re.compile(r"\s*" + re.escape(name) + r"(\s|$)")
        while at < len(lines) and lines[at].strip() and depth(lines[at]) >= indent:
            if own.match(lines[at]):
                body.append(lines[at].strip())
            elif depth(lines[at]) == indent:
                break
            elif body:
                body[-1] += f" {lines[at].strip()}"
            at += 1
        yield start + 1, name, " ".join(statement), body


def renamed(text, names):
    return " ".join(names.get(it, it) for it in WORD.findall(text))


def shape(statement):
    """The statement without the names that it binds, and without the binders themselves."""
    bound = {it for group in re.findall(r"[({]([^(){}:]+?)\s+:\s|λ\s+([^.(]+)\.", statement) for it in " ".join(group).split()}
    text = re.sub(r"\{([^{}:]+?)\s+:\s([^{}]*)\}", r"(\1 : \2)", statement)
    text = renamed(text, dict.fromkeys(bound, "_"))
    text = re.sub(r"\( (?:_ )+: (?:[^()]|\([^()]*\))*\) (?:→ )?", "", text)
    return " ".join(re.sub(r"[()]", "", text).split())


def clauses(name, body):
    """The clauses of a definition without its name and the names that each binds, in an order of their own."""
    found = []
    for clause in body:
        words = [it for it in WORD.findall(clause) if it not in "(){},"]
        bound = [it for it in words[: words.index("=")] if VARIABLE.match(it)] if "=" in words else []
        bound += [it for part in re.findall(r"λ\s+([^.(]+)\.", clause) for it in part.split()]
        names = {it: str(at) for at, it in enumerate(dict.fromkeys(bound))}
        found.append(" ".join(names.get(it, it) for it in words if it != name))
    return " | ".join(sorted(found))


def functions(file):
    """The functions of a file: line, name, the body's text with the function's own name left out."""
    with open(file, encoding="utf-8") as it:
        lines = it.read().split("\n")
    for at, line in enumerate(lines):
        head = FUNCTION.match(line)
        if not head:
            continue
        end = next((k for k in range(at, len(lines)) if re.match(head[1] + r"\}", lines[k])), at)
        body = [re.sub(r"//.*", "", it).strip() for it in lines[at : end + 1]]
        body = " ".join(it for it in body if it and not it.startswith(("ensures", "requires")))
        yield at + 1, head[2], re.sub(rf"\b{head[2]}\b", "_", body)


def main():
    found = collections.defaultdict(list)
    for file in files(".antt"):
        for line, name, statement, body in items(file):
            if statement.startswith("goal.") or not body:
                continue
            kind = "statement" if FACT.search(statement) else "definition"
            key = shape(statement) if kind == "statement" else renamed(f"{statement} = {' '.join(body)}", {name: "_"})
            found[kind, key].append((file, line, name))
            if kind == "definition" and "--clauses" in sys.argv:
                found["clauses", clauses(name, body)].append((file, line, name))
    for file in files(".rt"):
        for line, name, body in functions(file):
            if "{" in body:
                found["function", body].append((file, line, name))
    rows = 0
    for (kind, key), places in sorted(found.items()):
        if len(places) > 1 and (len({it[0] for it in places}) > 1 or "--all" in sys.argv):
            rows += 1
            print(f"{kind}: {key[:160]}")
            print("".join(f"    {file}:{line} {name}\n" for file, line, name in places), end="")
    print(f"{rows} rows")


if __name__ == "__main__":
    main()
