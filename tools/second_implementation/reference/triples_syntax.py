"""What Turtle and SPARQL have in common: tokens, terms and triples as they are written.

RDF 1.1 Turtle, 6.4 and 6.5; SPARQL 1.1 Query, 4 and 19.5 to 19.8. Both are read without collections, and an escape `\\u` is read
within its token, where SPARQL (19.2) replaces it before the grammar is looked at (docs/DECISIONS.md).
"""
import re

from reference.iris import is_absolute, resolve
from reference.rdf import XSD, Term, iri, literal
from reference.tokens import Cursor

# ---- tokens (Turtle, 6.5; SPARQL, 19.8) ----

BASE_CHARS = (
    "A-Za-z\u00c0-\u00d6\u00d8-\u00f6\u00f8-\u02ff\u0370-\u037d\u037f-\u1fff\u200c-\u200d\u2070-\u218f"
    "\u2c00-\u2fef\u3001-\ud7ff\uf900-\ufdcf\ufdf0-\ufffd\U00010000-\U000effff"
)
NAME_CHARS = BASE_CHARS + "_0-9\u00b7\u0300-\u036f\u203f-\u2040\\-"
PLX = r"(?:%[0-9A-Fa-f]{2}|\\[_~.\-!$&'()*+,;=/?#@%])"
# An escape for a character, and not for half of a surrogate pair nor for what is beyond Unicode.
UCHAR = (
    r"(?:\\u(?![dD][89a-fA-F])[0-9A-Fa-f]{4}"
    r"|\\U(?!0000[dD][89a-fA-F])00(?:0[0-9A-Fa-f]|10)[0-9A-Fa-f]{4})"
)
ECHAR = r"""(?:\\[tbnrf"'\\]|%s)""" % UCHAR
PREFIX = f"(?:[{BASE_CHARS}](?:[{NAME_CHARS}.]*[{NAME_CHARS}])?)?:"
LOCAL = f"(?:[{BASE_CHARS}_:0-9]|{PLX})(?:(?:[{NAME_CHARS}.:]|{PLX})*(?:[{NAME_CHARS}:]|{PLX}))?"


def short_string(quote):
    """The pattern of a string between two quotes."""
    return rf"{quote}(?:[^{quote}\\\n\r]|{ECHAR})*{quote}"


def long_string(quote):
    """The pattern of a string between three quotes at either side."""
    return rf"{3 * quote}(?:{quote}{{0,2}}(?:[^{quote}\\]|{ECHAR}))*{3 * quote}"


CLASSES = [
    ("IRIREF", r'<(?:[^\0-\x20<>"{}|^`\\]|%s)*>' % UCHAR),
    ("PNAME_NS", PREFIX),
    ("PNAME_LN", PREFIX + LOCAL),
    ("BLANK", f"_:[{BASE_CHARS}_0-9](?:[{NAME_CHARS}.]*[{NAME_CHARS}])?"),
    ("LANGTAG", "@[A-Za-z]+(?:-[A-Za-z0-9]+)*"),
    *[("STRING", pattern(quote)) for pattern in (long_string, short_string) for quote in "'\""],
    ("INTEGER", "[+-]?[0-9]+"),
    ("DECIMAL", r"[+-]?[0-9]*\.[0-9]+"),
    ("DOUBLE", r"[+-]?(?:[0-9]+\.[0-9]*|\.[0-9]+|[0-9]+)[eE][+-]?[0-9]+"),
    ("WORD", "[A-Za-z_]+"),
]
SKIPPED = r"(?:[ \t\r\n]|#[^\r\n]*)*"


# ---- what tokens mean (Turtle, 6.4; SPARQL, 19.7) ----

ESCAPES = {"t": "\t", "b": "\b", "n": "\n", "r": "\r", "f": "\f", '"': '"', "'": "'", "\\": "\\"}
NUMBERS = {"INTEGER": XSD + "integer", "DECIMAL": XSD + "decimal", "DOUBLE": XSD + "double"}


def unescaped(text):
    """A text with its escapes replaced by the characters that they stand for."""
    return re.sub(r"\\(?:u(.{4})|U(.{8})|(.))",
                  lambda found: ESCAPES[found[3]] if found[3] else chr(int(found[1] or found[2], 16)), text)


def string_content(text):
    """What a string in quotes says."""
    size = 3 if len(text) >= 6 and text.startswith(('"""', "'''")) else 1
    return unescaped(text[size:-size])


class TriplesCursor(Cursor):
    """Reads triples. `faults` gathers unknown prefixes, bad IRIs and whatever else is no fault of the grammar.

    Each language has its own `subject`, `verb`, `sees_verb`, `object` and classes of numbers. `triples` gathers pairs of a triple
    and the byte where its object begins. A bracket makes a blank node whose label no document can write.
    """

    NUMBER_KINDS = ()

    def __init__(self, tokens, letter, base):
        super().__init__(tokens, letter + "02")
        self.letter, self.base, self.prefixes, self.faults, self.triples = letter, base, {}, [], []

    # ---- IRIs and literals ----

    def sees_iri(self):
        """Whether an IRI comes next."""
        return self.sees_kind("IRIREF", "PNAME_NS", "PNAME_LN")

    def checked(self, text, at):
        """The text of an IRI; one that is not absolute is a fault."""
        if not is_absolute(text):
            self.faults.append((self.letter + "05", at))
        return text

    def iri_reference(self):
        """Reads an IRI in angle brackets, resolved against the base (Turtle, 6.3; SPARQL, 4.1.1.2)."""
        token = self.take("IRIREF")
        return self.checked(resolve(self.base, unescaped(token.text[1:-1])), token.at)

    def iri(self):
        """Reads an IRI or a prefixed name; one with an unknown prefix has that fault alone."""
        if self.sees_kind("IRIREF"):
            return iri(self.iri_reference())
        token = self.take("PNAME_NS", "PNAME_LN")
        prefix, _, local = token.text.partition(":")
        if prefix not in self.prefixes:
            self.faults.append((self.letter + "04", token.at))
            return iri("")
        return iri(self.checked(self.prefixes[prefix] + re.sub(r"\\(.)", r"\1", local), token.at))

    def declaration(self, is_prefix):
        """Reads what stands behind PREFIX or BASE."""
        if is_prefix:
            prefix = self.take("PNAME_NS").text[:-1]
            self.prefixes[prefix] = self.iri_reference()
        else:
            self.base = self.iri_reference()

    def literal(self):
        """Reads a literal."""
        if self.sees("true", "false"):
            return literal(self.expect("true", "false").text, datatype=XSD + "boolean")
        token = self.take("STRING", *self.NUMBER_KINDS)
        if token.kind != "STRING":
            return literal(token.text, datatype=NUMBERS[token.kind])
        text = string_content(token.text)
        if self.sees_kind("LANGTAG"):
            return literal(text, language=self.take("LANGTAG").text[1:])
        return literal(text, datatype=self.iri().text) if self.takes("^^") else literal(text)

    # ---- triples (Turtle, 6.5, rules 6 to 14; SPARQL, 19.8, rules 75 to 101) ----

    def triples_of_a_subject(self):
        """Reads the triples of one subject; brackets with triples in them may be all of it."""
        if not self.sees("["):
            self.property_list(self.subject())
            return
        subject = self.bracket()
        is_empty = self.takes("]")
        if not is_empty:
            self.property_list(subject)
            self.expect("]")
        if is_empty or self.sees_verb():
            self.property_list(subject)

    def bracket(self):
        """Reads an opening bracket; gives the blank node that it stands for."""
        return Term("blank", f"[{self.expect('[').at}")

    def property_list(self, subject):
        """Reads verbs with their objects."""
        while True:
            verb = self.verb()
            self.triple(subject, verb)
            while self.takes(","):
                self.triple(subject, verb)
            if not self.sees(";"):
                return
            while self.takes(";"):
                pass
            if not self.sees_verb():
                return

    def triple(self, subject, verb):
        """Reads an object, which ends a triple; triples within its brackets come behind that one."""
        at = self.next.at
        if not self.sees("["):
            self.triples.append(((subject, verb, self.object()), at))
            return
        node = self.bracket()
        self.triples.append(((subject, verb, node), at))
        if not self.sees("]"):
            self.property_list(node)
        self.expect("]")
