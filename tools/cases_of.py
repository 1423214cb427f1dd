#!/usr/bin/env python3
"""Lists lemmas under crates/ that are a case of a more general lemma: of one in a crate below, or of the kit's.

usage: tools/cases_of.py [--kit FOLDER]

A lemma is a case of another where values for what the other binds turn its conclusion into this one's, or into this one with the two
sides of an equation turned, and each of its premises into one of this one's. Steps within a proof are left out. With --kit, for example /opt/rattle/rattle, the other
lemmas are those of std and of what std stands on, else those of the crate itself and of the crates that it stands on. A row is a place
to look, no verdict: types are not looked at, so a name may mean another thing there; what std does not hand on cannot be cited; and
where two words compute alike, or a definition has to be unfolded first, a case is not found.
"""

import collections
import glob
import re
import sys

sys.setrecursionlimit(20000)
DECLARATION = re.compile(r"^(\s*)(?:(?:pub|unfoldable|opaque) )*([^\s:(){},\"=|]+) (?:\{[^{}]*\} )*: (.*)$")
TOKEN = re.compile(r'"(?:[^"\\]|\\.)*"|[(){},;]|\.(?!\w)|[^\s(){},;"]+?(?=\.\s|[\s(){},;]|$)|\.')
# How tight an operator binds, and on which side it nests.
OPERATORS = {"→": (1, 1), "↔": (2, 0), "⊎": (3, 1), "×": (4, 1), "∙": (5, 1), "≡": (6, 0), "≢": (6, 0), "<": (6, 0), "≤": (6, 0), "||": (8, -1)}
OPERATORS |= {"&&": (9, -1), "==": (10, 0), "∷": (11, 1), "++": (11, 1), "+": (12, -1), "-": (12, -1), "*": (13, -1), "/": (13, -1), "%": (13, -1)}
ENDS = {")", "}", ",", ";", "then", "else", "in", "where", ".", ":", "=", None}
FACTS = {"≡", "≢", "<", "≤", "×", "⊎", "↔"}
FACT_WORD = re.compile(r"(Is|Has|Have|Are|All|Each|Contains|Decides|No)[A-Z_-]?\w*")
MOST = 40


class Reader:
    """Reads a type as a tree: a name, an application, an operator with two sides, a λ, or premises with a conclusion."""

    def __init__(self, text):
        self.tokens, self.at = [it for it in TOKEN.findall(text) if it], 0

    def peek(self):
        return self.tokens[self.at] if self.at < len(self.tokens) else None

    def next(self):
        self.at += 1
        return self.tokens[self.at - 1]

    def binds(self):
        """Whether names with their type stand here."""
        at = self.at + 1
        while at < len(self.tokens) and re.fullmatch(r"[^\s(){},;→≡:]+", self.tokens[at]):
            at += 1
        return self.peek() == "{" or at > self.at + 1 and self.tokens[at : at + 1] == [":"]

    def names(self):
        """The names that stand here, and their type."""
        close, found = {"(": ")", "{": "}"}[self.next()], []
        while self.peek() not in (":", close, None):
            found.append(self.next())
        kind = None
        if self.peek() == ":":
            self.next()
            kind = self.whole()
        while self.next() != close:
            pass
        return [(it, kind) for it in found]

    def type(self):
        """What is bound, the premises and the conclusion."""
        bound, premises = [], []
        while True:
            if self.peek() in ("(", "{") and self.binds():
                bound += self.names()
                if self.peek() == "→":
                    self.next()
                elif self.peek() == "×":
                    self.next()
                    return bound[:-1], premises, ("pi", (bound[-1][0],), (), self.operation(0))
                continue
            part = self.operation(2)
            if self.peek() != "→":
                return bound, premises, part
            self.next()
            premises.append(part)

    def whole(self):
        bound, premises, conclusion = self.type()
        return ("pi", tuple(it for it, _ in bound), tuple(premises), conclusion) if bound or premises else conclusion

    def operation(self, least):
        left = self.application()
        while OPERATORS.get(self.peek(), (-1, 0))[0] >= least:
            sign = self.next()
            tight, side = OPERATORS[sign]
            left = ("op", sign, left, self.operation(tight + (side < 1)))
        return left

    def application(self):
        parts = [self.atom()]
        while self.peek() not in ENDS and self.peek() not in OPERATORS:
            parts.append(self.atom())
        return parts[0] if len(parts) == 1 else ("app", *(parts[0][1:] if parts[0][0] == "app" else parts[:1]), *parts[1:])

    def atom(self):
        token = self.peek()
        if token == "{":
            while self.next() != "}":
                pass
            return self.atom()
        if token == "(":
            if self.binds():
                return self.whole_in_brackets()
            return self.brackets()
        if token in ENDS:
            raise ValueError(token)
        self.next()
        if token == "λ":
            bound = []
            while self.peek() != ".":
                bound += [it for it, _ in self.names()] if self.peek() == "(" else [self.next()]
            self.next()
            return ("λ", tuple(bound), self.whole())
        if token == "if":
            test, _, yes, _, no = self.whole(), self.next(), self.whole(), self.next(), self.whole()
            return ("app", ("name", "cond"), test, yes, no)
        return ("name", token.rpartition(".")[2] or token)

    def whole_in_brackets(self):
        at = self.at
        try:
            return self.whole()
        except (ValueError, IndexError):
            self.at = at
            return self.brackets()

    def brackets(self):
        self.next()
        parts = []
        while self.peek() != ")":
            parts.append(self.whole())
            if self.peek() == ",":
                self.next()
            elif self.peek() != ")":
                raise ValueError("bracket")
        self.next()
        return parts[0] if len(parts) == 1 else ("tuple", *parts)


def children(tree):
    if tree[0] in ("app", "tuple"):
        return tree[1:]
    return {"op": tree[2:], "λ": tree[2:], "pi": (*tree[2], tree[3]) if tree[0] == "pi" else ()}.get(tree[0], ())


def words(tree):
    own = {tree[1]} if tree[0] == "name" else {f"operator {tree[1]}"} if tree[0] == "op" else set()
    return own.union(*map(words, children(tree)))


def renamed(tree, names):
    if tree[0] == "name":
        return ("name", names.get(tree[1], tree[1]))
    if tree[0] in ("app", "tuple"):
        return (tree[0], *(renamed(it, names) for it in tree[1:]))
    if tree[0] == "op":
        return (*tree[:2], *(renamed(it, names) for it in tree[2:]))
    if tree[0] == "λ":
        return (*tree[:2], renamed(tree[2], names))
    return (*tree[:2], tuple(renamed(it, names) for it in tree[2]), renamed(tree[3], names))


def same(a, b):
    return fit(a, b, (), {}) is not None


def fit(pattern, tree, free, found, inner=(), outer=()):
    """The values of the free names under which the pattern is the tree, or None; inner and outer are what the two bind on the way."""
    if pattern[0] == "name":
        name = pattern[1]
        if name in inner:
            return found if tree[0] == "name" and tree[1] in outer and inner.index(name) == outer.index(tree[1]) else None
        if name not in free:
            return found if tree == pattern else None
        if name in found:
            return found if same(found[name], tree) else None
        return None if words(tree) & {*outer} else {**found, name: tree}
    if pattern[0] == "app" and pattern[1][0] == "name" and pattern[1][1] in free and pattern[1][1] not in inner:
        return fit_applied(pattern, tree, free, found, inner, outer)
    if pattern[0] == "λ":
        bound = tree[1] if tree[0] == "λ" else tuple(f"η{it}" for it in range(len(pattern[1])))
        body = tree[2] if tree[0] == "λ" else ("app", *(tree[1:] if tree[0] == "app" else (tree,)), *(("name", it) for it in bound))
        return fit(pattern[2], body, free, found, (*pattern[1], *inner), (*bound, *outer)) if len(bound) == len(pattern[1]) else None
    if pattern[0] != tree[0] or pattern[0] == "op" and pattern[1] != tree[1]:
        return None
    if pattern[0] == "pi":
        if len(pattern[1]) != len(tree[1]) or len(pattern[2]) != len(tree[2]):
            return None
        inner, outer = (*pattern[1], *inner), (*tree[1], *outer)
    ours, theirs = children(pattern), children(tree)
    if len(ours) != len(theirs):
        return None
    for one, other in zip(ours, theirs):
        if found is not None:
            found = fit(one, other, free, found, inner, outer)
    return found


def fit_applied(pattern, tree, free, found, inner, outer):
    """The same of a free name that is applied: to bound names it is the tree as a function of them, else the front of an application."""
    name, arguments = pattern[1][1], pattern[2:]
    if all(it[0] == "name" and it[1] in inner for it in arguments):
        places = [inner.index(it[1]) for it in arguments]
        kept = tuple(outer[it] for it in places if it < len(outer))
        value = ("λ", kept, tree)
        last = tuple(("name", it) for it in kept)
        if tree[0] == "app" and len(tree) - 1 > len(kept) and tree[-len(kept) :] == last:
            front = tree[1 : -len(kept)]
            value = front[0] if len(front) == 1 else ("app", *front)
        if words(value) & ({*outer} if value[0] != "λ" else {*outer} - {*kept}):
            return None
        if name in found:
            return found if same(found[name], value) else None
        return {**found, name: value}
    if tree[0] != "app" or len(tree) - 1 <= len(arguments):
        return None
    front, rest = tree[1 : -len(arguments)], tree[-len(arguments) :]
    found = fit(pattern[1], front[0] if len(front) == 1 else ("app", *front), free, found, inner, outer)
    for one, other in zip(arguments, rest):
        if found is not None:
            found = fit(one, other, free, found, inner, outer)
    return found


def turned(tree):
    return ("op", "≡", tree[3], tree[2]) if tree[:2] == ("op", "≡") else tree


def parts(tree):
    return [tree, *parts(tree[2]), *parts(tree[3])] if tree[:2] == ("op", "×") else [tree]


def is_fact(tree):
    return tree[0] == "op" and tree[1] in FACTS or tree[0] == "app" and tree[1][0] == "name" and bool(FACT_WORD.fullmatch(tree[1][1]))


class Lemma:
    def __init__(self, place, name, bound, premises, conclusion, text):
        self.place, self.name, self.conclusion, self.text = place, name, conclusion, text
        self.free = {it for it, _ in bound}
        self.premises = [*premises, *(kind for _, kind in bound if kind and is_fact(kind))]
        self.words = frozenset(words(conclusion) - self.free)

    def is_case_of(self, other):
        given = [it for premise in self.premises for it in parts(premise)]
        given += [turned(it) for it in given]

        def holds(premises, found):
            return not premises or any(holds(premises[1:], it) for it in (fit(premises[0], of, other.free, found) for of in given) if it is not None)

        ways = (fit(other.conclusion, it, other.free, {}) for it in {self.conclusion, turned(self.conclusion)})
        return any(holds(other.premises, it) for it in ways if it is not None)


def lemmas(file):
    """The lemmas of a file, with what the blocks around them bind; none of the steps within a proof, nor fields of records."""
    with open(file, encoding="utf-8") as it:
        lines = [re.sub(r"(^|\s)--(?=\s|$).*", "", line) for line in it.read().split("\n")]
    renames = dict(reversed(it.split(" as ")) for line in lines if line.startswith(("use ", "pub use ")) for it in re.findall(r"[^\s{},.]+ as [^\s{},]+", line))
    blocks, in_record = [], False
    for at, line in enumerate(lines):
        if not line.strip():
            continue
        depth = len(line) - len(line.lstrip())
        in_record = line.startswith(("pub record", "record", "pub data", "data")) or in_record and depth > 0
        blocks = [it for it in blocks if it[0] < depth]
        block, head = re.match(r"\s*module _ (.*) where", line), DECLARATION.match(line)
        if block:
            blocks.append((depth, block[1]))
        if in_record or not head or depth != (blocks[-1][0] + 2 if blocks else 0):
            continue
        text, more = head[3], at + 1
        while more < len(lines) and len(lines[more]) - len(lines[more].lstrip()) > depth and not re.match(r"\s*(where|unfolding)\b", lines[more]) and not DECLARATION.match(lines[more]):
            text, more = f"{text} {lines[more].strip()}", more + 1
        try:
            around = [it for _, block in blocks for it in Reader(f"{block} → x").type()[0]]
            bound, premises, conclusion = Reader(text).type()
        except (ValueError, IndexError, TypeError, KeyError):
            continue
        if is_fact(conclusion):
            yield Lemma(f"{file}:{at + 1}", head[2], [*around, *bound], [renamed(it, renames) for it in premises], renamed(conclusion, renames), text)


def main():
    kit = sys.argv[sys.argv.index("--kit") + 1] if "--kit" in sys.argv else None
    ours = [it for file in sorted(glob.glob("crates/*/proofs/**/*.antt", recursive=True)) if "/out/" not in file for it in lemmas(file)]
    others = ours
    if kit:
        folders = [f"{kit}/{it}/proofs" for it in ("std", "core", "std_alloc", "std_collections")] + [f"{kit}/antt/port/mathlib/src/Core", f"{kit}/antt/lib/native/src"]
        others = [it for folder in folders for file in sorted(glob.glob(f"{folder}/**/*.antt", recursive=True)) for it in lemmas(file)]
    with open("crates.txt", encoding="utf-8") as it:
        below = {line.partition(":")[0]: {*line.partition(":")[2].split()} for line in it if line.strip() and line[0] != "#"}
    common = collections.Counter(word for it in others for word in it.words)
    by_word = collections.defaultdict(list)
    for it in others:
        if it.words - {"true", "false", "operator ≡"}:
            by_word[min(it.words, key=lambda word: (common[word], word))].append(it)
    rows, times = [], collections.Counter()
    for it in ours:
        crate = it.place.split("/")[1]
        for other in (other for word in sorted(it.words | it.free) for other in by_word.get(word, ())):
            is_below = bool(kit) or other.place.split("/")[1] in {crate, *below.get(crate, ())}
            if other is not it and is_below and other.words <= it.words | it.free and it.is_case_of(other):
                rows.append((it, other))
                times[other.place] += 1
    shown = [(it, other) for it, other in rows if times[other.place] <= MOST]
    for it, other in shown:
        print(f"{it.place} {it.name} : {it.text[:200]}\n    {other.place} {other.name} : {other.text[:200]}")
    print(f"{len(shown)} rows; {len(rows) - len(shown)} more of lemmas that say so little that over {MOST} are their cases")


if __name__ == "__main__":
    main()
