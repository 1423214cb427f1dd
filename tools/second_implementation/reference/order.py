"""The order of solutions, and a slice of them (SPARQL 1.1 Query, 15; the order of values is 15.1, completed as docs/DECISIONS.md has it)."""
from typing import NamedTuple

from reference.expressions import known_value
from reference.rdf import Term, term_text

# The sorts of literals, in their order; those of no known value are the last.
SORTS = ["number", "string", "boolean", "dateTime", "date"]


class Offer(NamedTuple):
    """A solution, its line, and the terms of its keys, None for those without a value."""

    keys: list[Term | None]
    line: str
    solution: dict[str, Term] | None = None


def rank(term):
    """What a term is sorted by: no term, blank nodes by label, IRIs, literals by their sort; texts by their characters."""
    if term is None:
        return (0,)
    if term.kind != "literal":
        return (1 if term.kind == "blank" else 2), term.text
    value = known_value(term)
    return (3, len(SORTS), term_text(term)) if value is None else (3, SORTS.index(value[0]), value[1])


def ordered(offers, keys):
    """The offers in the order of their keys; those that tie in all of them in that of their lines, also behind DESC."""
    found = sorted(offers, key=lambda offer: offer.line.encode())
    for place, key in reversed(list(enumerate(keys))):
        found.sort(key=lambda offer, place=place: rank(offer.keys[place]), reverse=key.is_descending)
    return found


def sliced(offers, modifiers, is_distinct):
    """The offers of the answer: in order, under DISTINCT each line at its first place alone, without the first OFFSET, at most LIMIT."""
    found = ordered(offers, modifiers.keys)
    if is_distinct:
        first = {}
        for offer in found:
            first.setdefault(offer.line, offer)
        found = list(first.values())
    rest = found[modifiers.offset or 0 :]
    return rest if modifiers.limit is None else rest[: modifiers.limit]
