#!/usr/bin/env python3
"""Lists definitions under crates/ that are one once the short ones that they cite are unfolded, and those that only rename another.

usage: tools/same_unfolded.py [--kit FOLDER]

A definition of one clause over variables is unfolded wherever it is cited; numbers are written in tens, and what a clause binds is
named by its order. Two definitions are one here if they then read alike, or read alike before. A name is what its file's `use` says of
it, but is compared without its module. With --kit, for example /opt/rattle/rattle, those of core and std are read, too. A row is a
place to look, no verdict: types are not looked at, and nor are definitions that the reader of cases_of.py cannot read (records, and
clauses with `let` or cases); same_statements.py --clauses reads them, by their words.
"""

import collections
import glob
import itertools
import re
import sys

from cases_of import Reader, children
from same_statements import FACT, files, items

sys.setrecursionlimit(50000)
NUMBER = re.compile(r"0x[0-9a-fA-F]+$")
VARIABLE = re.compile(r"(?!true$|false$|tt$|refl$|zero$|suc$|inl$|inr$)[a-z_]")
USE = re.compile(r"^use (\S+?)\.\{([^}]*)\}", re.MULTILINE)
FRESH = (f"v#{it}" for it in itertools.count())


def module_of(file):
    """The module of a file, as `use` names it."""
    return "Rattle." + file.partition("crates/")[2].removesuffix(".antt").replace("/", ".") if file.startswith("crates/") else file


def used(source):
    """The names that a file uses, each with the place where it stands."""
    found = {}
    for module, names in USE.findall(source):
        for it in names.split(","):
            name, _, other = it.strip().partition(" as ")
            found[other.strip() or name] = (module, name)
    return found


def read(text):
    reader = Reader(text)
    tree = reader.whole()
    if reader.at != len(reader.tokens):
        raise ValueError(text)
    return tree


def put(tree, values):
    """The tree with values for names, a name of its own for each that it binds, and numbers in tens."""
    if tree[0] == "name":
        if isinstance(tree[1], str) and NUMBER.match(tree[1]):
            return ("name", str(int(tree[1], 16)))
        return values.get(tree[1], tree)
    if tree[0] == "app":
        return applied(put(tree[1], values), [put(it, values) for it in tree[2:]])
    if tree[0] in ("op", "tuple"):
        kept = 2 if tree[0] == "op" else 1
        return (*tree[:kept], *(put(it, values) for it in tree[kept:]))
    bound = {it: ("name", next(FRESH)) for it in tree[1]}
    inner, names = {**values, **bound}, tuple(it for _, it in bound.values())
    if tree[0] == "λ":
        return function(names, put(tree[2], inner))
    return ("pi", names, tuple(put(it, inner) for it in tree[2]), put(tree[3], inner))


def applied(head, arguments):
    """A tree applied to arguments, with a function at the head carried out."""
    if not arguments:
        return head
    if head[0] == "λ":
        more = min(len(head[1]), len(arguments))
        body = put(head[2], dict(zip(head[1][:more], arguments)))
        return applied(function(head[1][more:], body), arguments[more:])
    return ("app", *(head[1:] if head[0] == "app" else (head,)), *arguments)


def function(names, body):
    """A function in its shortest form: nested ones as one, and without a last argument that is only handed on."""
    if body[0] == "λ":
        names, body = (*names, *body[1]), body[2]
    while names and body[0] == "app" and body[-1] == ("name", names[-1]) and not any(cites(it, names[-1]) for it in body[1:-1]):
        names, body = names[:-1], body[1] if len(body) == 3 else body[:-1]
    return ("λ", names, body) if names else body


def cites(tree, name):
    return tree[1] == name if tree[0] == "name" else any(cites(it, name) for it in children(tree))


def unfolded(tree, short, inside):
    """The tree with what is short written out, but for what is inside itself."""
    found = {it: unfolded(short[it], short, {*inside, it}) for it in names_of(tree) if it in short and it not in inside}
    return put(tree, found)


def names_of(tree):
    return {tree[1]} if tree[0] == "name" else set().union(*map(names_of, children(tree)))


def written(tree, names):
    """The tree as text, with the names that it binds by their order."""
    if tree[0] == "name":
        return names.get(tree[1]) or (tree[1][1] if isinstance(tree[1], tuple) else tree[1])
    if tree[0] in ("λ", "pi"):
        names = {**names, **{it: f"${len(names) + at}" for at, it in enumerate(tree[1])}}
    sign = tree[1] if tree[0] == "op" else tree[0]
    return f"({sign} {' '.join(written(it, names) for it in children(tree))})"


def variables(pattern):
    """What a pattern binds."""
    if pattern[0] == "name":
        return [pattern[1]] if isinstance(pattern[1], str) and VARIABLE.match(pattern[1]) else []
    parts = pattern[2:] if pattern[0] == "app" else children(pattern)
    return [name for it in parts for name in variables(it)]


def clause_of(name, text, means):
    """The patterns and the value of a clause, with the names that the file uses at their places."""
    left, _, right = text.partition(" = ")
    left = re.sub(r"\{[^{}]*\}", "", left.removeprefix(name)).strip()
    patterns = Reader(f"of {left}").application()[2:] if left else ()
    own = {it for pattern in patterns for it in variables(pattern) if it not in means}
    places = {it: ("name", place) for it, place in means.items() if it not in own}
    return [put(it, places) for it in patterns], put(read(right), places)


def definitions(file):
    """The definitions of a file that can be read: line, name, clauses."""
    with open(file, encoding="utf-8") as it:
        means = used(it.read())
    found = [it for it in items(file) if it[3] and not it[2].startswith("goal.") and ("Type" in it[2] or not FACT.search(it[2]))]
    means |= {name: (module_of(file), name) for _, name, _, _ in found}
    for line, name, _, body in found:
        try:
            yield line, name, [clause_of(name, it, means) for it in body]
        except (ValueError, IndexError, TypeError, KeyError, AttributeError):
            continue


def text_of(place, clauses, short):
    """A definition's clauses in an order of their own, without its name."""
    found = []
    for patterns, body in clauses:
        names = {it: f"${at}" for at, it in enumerate(dict.fromkeys(name for it in patterns for name in variables(it)))}
        if len(clauses) == 1 and place in short:
            found.append(written(unfolded(short[place], short, {place}), {place: "itself"}))
        else:
            sides = [*(written(it, names) for it in patterns), written(unfolded(body, short, {place}), {**names, place: "itself"})]
            found.append(" ".join(sides))
    return " | ".join(sorted(found))


def one_clause(clauses):
    """A definition of one clause over variables as a function."""
    patterns, body = clauses[0]
    names = [it[1] for it in patterns]
    is_one = len(clauses) == 1 and all(it[0] == "name" and variables(it) for it in patterns)
    return put(("λ", tuple(names), body), {}) if is_one and names else body if is_one else None


def is_renamed(place, tree, all_places):
    """Whether it is another definition, handed the variables."""
    head = tree[1] if tree[0] == "app" else tree
    return head[0] == "name" and head[1] in all_places and head[1] != place and (tree[0] == "name" or all(it[0] == "name" and isinstance(it[1], str) for it in tree[2:]))


def main():
    kit = sys.argv[sys.argv.index("--kit") + 1] if "--kit" in sys.argv else None
    others = [file for it in ("core", "std") for file in glob.glob(f"{kit}/{it}/specs/**/*.antt", recursive=True)] if kit else []
    read_from = {(module_of(file), name): (f"{file}:{line} {name}", clauses) for file in (*files(".antt"), *others) for line, name, clauses in definitions(file)}
    short = {place: it for place, (_, clauses) in read_from.items() if (it := one_clause(clauses)) and not cites(it, place)}
    found = collections.defaultdict(dict)
    for place, (shown, clauses) in read_from.items():
        for words in ({place: short[place]} if place in short else {}, short):
            found[text_of(place, clauses, words)][shown] = place
    rows = {tuple(sorted(it)): key for key, it in found.items() if len({shown.partition(":")[0] for shown in it}) > 1 and any(shown.startswith("crates/") for shown in it)}
    for shown, key in sorted(rows.items()):
        print(key[:160], *(f"    {it}" for it in shown), sep="\n")
    renamed = [f"    {read_from[place][0]}" for place, it in short.items() if read_from[place][0].startswith("crates/") and is_renamed(place, it, read_from)]
    print("another's name:", *sorted(renamed), sep="\n")
    print(f"{len(rows)} rows; {len(renamed)} names")


if __name__ == "__main__":
    main()
