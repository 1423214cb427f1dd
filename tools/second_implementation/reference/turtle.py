"""The triples of a Turtle document (RDF 1.1 Turtle, 6 and 7), without collections, or its first fault M01 to M05."""
from reference.rdf import RDF_TYPE, Term
from reference.refusal import refuse_first
from reference.tokens import Token, check_depth, cut_bytes
from reference.triples_syntax import CLASSES, SKIPPED, TriplesCursor

SIGNS = [("SIGN", r"\^\^|[\[\]().;,]")]
KEYWORDS = [("LANGTAG", "@prefix"), ("LANGTAG", "@base"), ("WORD", "a"), ("WORD", "true"), ("WORD", "false")]


def with_keyword(token):
    """A token, as a keyword where it is a word of the grammar; PREFIX and BASE are in any case (Turtle, 6.5)."""
    if (token.kind, token.text) in KEYWORDS:
        return token._replace(kind="KEYWORD")
    if token.kind == "WORD" and token.text.upper() in ("PREFIX", "BASE"):
        return Token("KEYWORD", token.text.upper(), token.at)
    return token


class TurtleCursor(TriplesCursor):
    """Reads a document."""

    NUMBER_KINDS = ("INTEGER", "DECIMAL", "DOUBLE")

    def __init__(self, tokens, base):
        super().__init__(tokens, "M", base)

    def document(self):
        """Reads the whole document."""
        while not self.sees_kind("END"):
            if self.sees("PREFIX", "BASE"):
                self.declaration(self.expect("PREFIX", "BASE").text == "PREFIX")
                continue
            if self.sees("@prefix", "@base"):
                self.declaration(self.expect("@prefix", "@base").text == "@prefix")
            else:
                self.triples_of_a_subject()
            self.expect(".")

    def subject(self):
        """Reads an IRI or a blank node."""
        return Term("blank", self.take("BLANK").text) if self.sees_kind("BLANK") else self.iri()

    def sees_verb(self):
        """Whether a verb comes next."""
        return self.sees("a") or self.sees_iri()

    def verb(self):
        """Reads a verb."""
        return RDF_TYPE if self.takes("a") else self.iri()

    def object(self):
        """Reads an IRI, a blank node or a literal."""
        return self.subject() if self.sees_kind("BLANK") or self.sees_iri() else self.literal()


def read_placed(data, base):
    """The triples of a document, each with the byte at which its object begins, in the order of these; refused at its first fault."""
    tokens = [with_keyword(token) for token in cut_bytes(data, CLASSES + SIGNS, SKIPPED, "M01")]
    check_depth(tokens, "M03")
    cursor = TurtleCursor(tokens, base)
    cursor.document()
    refuse_first(cursor.faults)
    return sorted(cursor.triples, key=lambda pair: pair[1])


def read_turtle(data, base):
    """The triples of a document, each once, in the order of their objects' places; refused at its first fault."""
    return list(dict.fromkeys(triple for triple, _ in read_placed(data, base)))
