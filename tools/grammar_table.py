#!/usr/bin/env python3
"""Print the kinds of tokens of a language, the symbols, rules and roles of its grammar, and what is claimed of them.

    grammar_table.py FILE kinds | symbols | rules | roles | claims

FILE has a line `kinds:` with the kinds of tokens in the order of their numbers, and a line `name = ..` for each production, the
first of which makes the texts. A production is written with `|`, `[ option ]`, `{ repetition }`, `( group )`, the names of
productions and the kinds of tokens, which may stand in quotes. `KIND@role` is a token with a role and a symbol of its own;
`name@role` is the production with this role at each `@*` in it. `#` begins a comment.

Kinds and symbols are printed as constants, and the rest names them: code, definitions and proofs cite the constants, so that no
number is written by hand. A production has its own name, a token's symbol begins with `TOKEN_`, the alternatives of a production
from the second on are `.._FROM_2` and so on, and another part has the name of the production where it is first met, and a count; each constant's line of doc says what it stands for.

That the printed claims hold together is proved where they are used (`IsCertified` of vkg_grammar). The printed rules and roles become part
of the language's definition: they are to be read.
"""
import re
import sys

WORD = re.compile(r'"[^"]*"(?:@[a-z_*]+)?|[A-Za-z_]+(?:@[a-z_*]+)?|[\[\]{}()|]')
ENDS = {"[": "]", "{": "}", "(": ")"}
SIGNS = {
    "{": "OPEN_BRACE", "}": "CLOSE_BRACE", "(": "OPEN", ")": "CLOSE", "[": "OPEN_BRACKET", "]": "CLOSE_BRACKET", ".": "DOT",
    ";": "SEMICOLON", ",": "COMMA", "=": "EQUAL", "!=": "NOT_EQUAL", "<": "LESS", ">": "GREATER", "<=": "LESS_EQUAL",
    ">=": "GREATER_EQUAL", "!": "NOT", "&&": "AND", "||": "OR", "*": "STAR", "/": "SLASH", "|": "BAR", "^": "CARET",
    "^^": "CARETS", "+": "PLUS_SIGN", "-": "MINUS_SIGN", "?": "QUESTION", "a": "IS_A",
}


def read(path):
    """The kinds by number, and the words of each production."""
    kinds, productions = {}, {}
    for line in open(path, encoding="utf-8"):
        line = line.strip()
        if line.startswith("kinds:"):
            kinds = {kind: number for number, kind in enumerate(line[6:].split())}
        elif line and not line.startswith("#"):
            name, words = line.split("=", 1)
            productions[name.strip()] = WORD.findall(words)
    return kinds, productions


class Table:
    """The rules of a grammar, numbered: the start first, then each part when it is first met."""

    def __init__(self, kinds, productions):
        self.kinds, self.productions = kinds, productions
        self.rules, self.roles = [], {}
        self.of_part, self.of_production = {}, {}
        self.names, self.texts, self.counts, self.choices = [], [], {}, {}
        self.number_of(next(iter(productions)), "")

    def number_of(self, name, role):
        if (name, role) not in self.of_production:
            number = len(self.rules)
            self.of_production[name, role] = number
            self.add(f"{name}_{role}".strip("_").upper(), None)
            part, end = self.choice(self.productions[name], 0)
            if end != len(self.productions[name]):
                sys.exit(f"{name}: {self.productions[name][end]} is not expected")
            part = placed(part, role)
            self.texts[number] = f"{name} = {text_of(part)}"
            self.name_choices(part, self.names[number])
            self.rules[number] = self.rule(part, name)
        return self.of_production[name, role]

    def name_choices(self, part, name):
        """The names of what is left of a choice behind its first, second .. alternative: one more at the end changes none of them."""
        behind = 2
        while part[0] == "Either":
            part = part[2]
            self.choices.setdefault(part, f"{name}_FROM_{behind}")
            behind += 1

    def add(self, name, text):
        """A symbol more, whose rule is still to come."""
        if name in self.names:
            sys.exit(f"two symbols have the name {name}")
        self.rules.append(None)
        self.names.append(name)
        self.texts.append(text)

    def choice(self, words, at):
        first, at = self.sequence(words, at)
        if at < len(words) and words[at] == "|":
            second, at = self.choice(words, at + 1)
            return ("Either", first, second), at
        return first, at

    def sequence(self, words, at):
        parts = []
        while at < len(words) and words[at] not in "|)]}":
            word = words[at]
            if word in ENDS:
                part, end = self.choice(words, at + 1)
                if end == len(words) or words[end] != ENDS[word]:
                    sys.exit(f"{word} is not closed")
                parts.append({"[": ("Optional", part), "{": ("Repeated", part), "(": part}[word])
                at = end + 1
            else:
                name, _, role = word.replace('"', "").partition("@")
                parts.append(("Production" if name in self.productions else "Token", name, role))
                at += 1
        if not parts:
            sys.exit("a sequence is empty")
        whole = parts.pop()
        while parts:
            whole = ("Then", parts.pop(), whole)
        return whole, at

    def symbol(self, part, within):
        if part[0] == "Production":
            return self.number_of(part[1], part[2])
        if part not in self.of_part:
            rule = self.rule(part, within)
            self.of_part[part] = len(self.rules)
            self.add(self.name_of(part, within), text_of(part))
            self.rules[-1] = rule
            if part[0] == "Token":
                self.roles[self.of_part[part]] = part[2]
        return self.of_part[part]

    def name_of(self, part, within):
        """The name of a part of this production."""
        if part[0] == "Token":
            return f"TOKEN_{kind_name(part[1])}_{part[2].upper()}".strip("_")
        if part[0] == "Either" and part in self.choices:
            return self.choices[part]
        self.counts[within] = self.counts.get(within, 0) + 1
        return f"{within.upper()}_{self.counts[within]}"

    def rule(self, part, within):
        if part[0] == "Token":
            return ("Token", self.kinds[part[1]])
        if part[0] == "Production":
            sys.exit(f"a production that is {part[1]} alone has no rule: name {part[1]} in its place")
        return (part[0],) + tuple(self.symbol(inner, within) for inner in part[1:])


def placed(part, role):
    """The part with the role at each `@*`."""
    if part[0] in ("Token", "Production"):
        return (part[0], part[1], role if part[2] == "*" else part[2])
    return (part[0],) + tuple(placed(inner, role) for inner in part[1:])


def kind_name(kind):
    """The name of the constant of a kind."""
    return SIGNS.get(kind) or kind.upper()


def text_of(part):
    """The part as it is written in the file."""
    form, *inner = part
    if form in ("Token", "Production"):
        text = inner[0] if form == "Production" or inner[0] not in SIGNS or inner[0] == "a" else f'"{inner[0]}"'
        return f"{text}@{inner[1]}" if inner[1] else text
    texts = [text_of(each) for each in inner]
    if form == "Then":
        return " ".join(f"( {text} )" if each[0] == "Either" else text for each, text in zip(inner, texts))
    return {"Either": "{} | {}", "Optional": "[ {} ]", "Repeated": "{{ {} }}"}[form].format(*texts)


def ways(number, rule):
    """The ways of a symbol: each a list of symbols."""
    form, *parts = rule
    return {
        "Then": lambda: [parts],
        "Either": lambda: [[part] for part in parts],
        "Optional": lambda: [parts, []],
        "Repeated": lambda: [[parts[0], number], []],
    }[form]()


def begins(begin, way):
    """The kinds that begin a way, and None where it may be empty."""
    found = set()
    for part in way:
        found |= begin[part] - {None}
        if None not in begin[part]:
            return found
    return found | {None}


def begin_sets(rules):
    begin = [set() for _ in rules]
    changed = True
    while changed:
        changed = False
        for number, rule in enumerate(rules):
            found = {rule[1]} if rule[0] == "Token" else set().union(*[begins(begin, way) for way in ways(number, rule)])
            changed |= found != begin[number]
            begin[number] = found
    return begin


def follow_sets(rules, begin):
    follow = [set() for _ in rules]
    changed = True
    while changed:
        changed = False
        for number, rule in enumerate(rules):
            for way in [] if rule[0] == "Token" else ways(number, rule):
                for at, part in enumerate(way):
                    behind = begins(begin, way[at + 1 :])
                    found = (behind - {None}) | (follow[number] if None in behind else set())
                    changed |= not found <= follow[part]
                    follow[part] |= found
    return follow


def levels(rules):
    """For each symbol one more than the levels of the symbols of some way of it."""
    level = [None] * len(rules)
    for depth in range(1, len(rules) + 1):
        known = [number for number in range(len(rules)) if level[number] is not None]
        for number, rule in enumerate(rules):
            done = rule[0] == "Token" or any(set(way) <= set(known) for way in ways(number, rule))
            if level[number] is None and done:
                level[number] = depth
    return level


def claims(rules, names):
    def listed(kinds):
        return " ∷ ".join([names[kind] for kind in sorted(kinds)] + ["[]"])

    begin = begin_sets(rules)
    follow, level = follow_sets(rules, begin), levels(rules)
    for number in range(len(rules)):
        empty = "true" if None in begin[number] else "false"
        first, behind = listed(begin[number] - {None}), listed(follow[number])
        yield f"record {{ empty = {empty}; begin = {first}; follow = {behind}; level = {level[number]} }}"


def constants(texts, names):
    for number, (text, name) in enumerate(zip(texts, names)):
        yield f"/// `{text}`\npub const {name}: usize = {number};\n"


def rule_text(table, rule):
    if rule[0] == "Token":
        return f"Rule::Token(kinds::{kind_name(list(table.kinds)[rule[1]])})"
    return f"Rule::{rule[0]}({', '.join('symbols::' + table.names[part] for part in rule[1:])})"


def main(path, what):
    table = Table(*read(path))
    kinds = [kind_name(kind) for kind in table.kinds]
    if what == "kinds":
        print("\n".join(constants(table.kinds, kinds)))
        print(f"/// How many kinds there are.\npub const KIND_COUNT: usize = {len(kinds)};")
    elif what == "symbols":
        print("\n".join(constants(table.texts, table.names)))
        print(f"/// How many symbols there are.\npub const SYMBOL_COUNT: usize = {len(table.rules)};")
    elif what == "rules":
        print("".join(f"    {rule_text(table, rule)},\n" for rule in table.rules), end="")
    elif what == "roles":
        for number, rule in enumerate(table.rules):
            role = "choice" if rule[0] != "Token" else table.roles.get(number) or "other"
            print(f"    Role::{''.join(word.capitalize() for word in role.split('_'))},")
    else:
        print("    " + "\n    ∷ ".join(claims(table.rules, kinds)) + "\n    ∷ []")


if __name__ == "__main__":
    if len(sys.argv) != 3 or sys.argv[2] not in ("kinds", "symbols", "rules", "roles", "claims"):
        sys.exit(__doc__)
    main(*sys.argv[1:])
