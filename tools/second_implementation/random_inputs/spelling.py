"""Terms and tokens of Turtle and SPARQL in one of their spellings."""
import re

from reference.iris import resolve
from reference.rdf import XSD
from reference.triples_syntax import BASE_CHARS, ESCAPES, NAME_CHARS

NUMBERS = {
    "integer": "[+-]?[0-9]+",
    "decimal": r"[+-]?[0-9]*\.[0-9]+",
    "double": r"[+-]?([0-9]+\.[0-9]*|\.[0-9]+|[0-9]+)[eE][+-]?[0-9]+",
    "boolean": "true|false",
}
NAMED_ESCAPES = {char: "\\" + name for name, char in ESCAPES.items()}
SIGNS = "[ ] ; , { }".split()


def joined(chance, tokens, is_plain=False):
    """Tokens as a text, with white space and, unless it is to be plain, comments between them; signs need none."""
    gaps = [" ", "\n"] if is_plain else 20 * [" "] + ["\n", "\n  ", "\t", "\r\n", ' # "a <b> [\n', "  "]
    text, before = "", "["
    for token in tokens:
        is_free = before in SIGNS or token in SIGNS
        text += ("" if is_free and chance.happens(0.3) else chance.choice(gaps)) + token
        before = token
    return text + ("\n" if is_plain else chance.choice(["", "\n", " # end", " \n# end\r\n"]))


def numeric_escape(chance, char):
    """A character as `\\u` or `\\U` and its number."""
    is_short = ord(char) < 0x10000 and chance.happens(0.8)
    form = chance.choice("xX")
    return f"\\u{ord(char):04{form}}" if is_short else f"\\U{ord(char):08X}"


def string_text(chance, text, escapes):
    """A string in quotes of any sort, with escapes where they have to be and in a share of other characters."""
    quote = chance.choice(['"', '"', "'", '"""', "'''"])
    found = ""
    for place, char in enumerate(text):
        is_forbidden = char in "\\\r" or len(quote) == 1 and char in quote + "\n"
        if len(quote) == 3 and char == quote[0]:
            is_forbidden = place == len(text) - 1 or text[place + 1] == char or chance.happens(0.5)
        if char in NAMED_ESCAPES and (is_forbidden or chance.happens(escapes)):
            found += NAMED_ESCAPES[char]
        else:
            found += numeric_escape(chance, char) if chance.happens(escapes) else char
    return quote + found + quote


def local_name(chance, text):
    """The local part of a prefixed name that says a text, or None where there is none (Turtle, 6.5, PN_LOCAL)."""
    found = ""
    for place, char in enumerate(text):
        is_inside = 0 < place < len(text) - 1
        if char == "%" and re.fullmatch("%[0-9A-Fa-f]{2}", text[place : place + 3]) and chance.happens(0.7):
            found += char
        elif char == "." and is_inside:
            found += chance.choice([".", ".", "\\."])
        elif re.fullmatch(f"[{BASE_CHARS}_:0-9]", char) or place and re.fullmatch(f"[{NAME_CHARS}]", char):
            found += char
        elif char in "_~.-!$&'()*+,;=/?#@%":
            found += "\\" + char
        else:
            return None
    return found


class TermWriter:
    """Writes terms under prefixes and a base; plain ones without escapes and without references to the base.

    `numbers` are the datatypes whose literals may stand without quotes, `escapes` is the share of characters that are escaped.
    """

    def __init__(self, chance, prefixes, base, numbers, escapes):
        self.chance, self.prefixes, self.base, self.numbers, self.escapes = chance, prefixes, base, numbers, escapes

    @property
    def is_plain(self):
        """Whether terms are written plainly."""
        return self.escapes == 0

    def iri(self, text):
        """An IRI in angle brackets, relative to the base at random, or as a prefixed name."""
        for prefix, start in self.prefixes.items():
            if text.startswith(start) and self.chance.happens(0.75):
                local = local_name(self.chance, text[len(start) :])
                if local is not None and not (self.is_plain and re.search(r"[\\%]", local)):
                    return f"{prefix}:{local}"
        if not self.is_plain and self.chance.happens(0.4):
            relative = [text[place:] for place in range(1, len(text)) if resolve(self.base, text[place:]) == text]
            text = self.chance.choice(relative or [text])
        chars = [numeric_escape(self.chance, char) if self.chance.happens(self.escapes / 4) else char for char in text]
        return "<" + "".join(chars) + ">"

    def literal(self, term):
        """The tokens of a literal."""
        sort = term.datatype.removeprefix(XSD)
        if sort in (*self.numbers, "boolean") and re.fullmatch(NUMBERS[sort], term.text) and self.chance.happens(0.6):
            return [term.text]
        tokens = [string_text(self.chance, term.text, self.escapes)]
        if term.language:
            tokens += ["@" + self.chance.any_case(term.language)]
        elif term.datatype or self.chance.happens(0.05):
            tokens += ["^^", self.iri(term.datatype or XSD + "string")]
        is_apart = not self.is_plain and self.chance.happens(0.25)
        return tokens if is_apart else ["".join(tokens)]

    def term(self, term):
        """The tokens of a term."""
        if term.kind == "blank":
            return ["_:" + term.text]
        return [self.iri(term.text)] if term.kind == "iri" else self.literal(term)
