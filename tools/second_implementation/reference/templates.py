"""String templates and names of columns as a mapping has them (R2RML, 5.1 and 7.3)."""
import re

from reference.tokens import Token

CHAR = r"(?:[^\\{}]|\\[\\{}])"
HOLE = r"\{(%s*)\}" % CHAR


class BadTemplate(Exception):
    """A template has a lone brace, a wrong escape, or braces without a name."""


def name_token(text):
    """The name that a text is, as a token of the schema's language, or None (R2RML, 5.1; SQL-92, 5.2).

    What begins with `"` is a delimited name, and any other text but the empty one a name (docs/DECISIONS.md).
    """
    if text.startswith('"'):
        return Token("DELIMITED", text, 0) if re.fullmatch('"([^"]|"")+"', text) else None
    return Token("WORD", text, 0) if text else None


def pieces_of(template):
    """The pieces of a template in order: its fixed texts, and its holes as tokens of names (7.3)."""
    if not re.fullmatch(f"(?:{CHAR}|{HOLE})*", template):
        raise BadTemplate
    pieces = []
    for match in re.finditer(f"{CHAR}+|{HOLE}", template):
        hole = match[1]
        text = re.sub(r"\\(.)", r"\1", match[0] if hole is None else hole)
        pieces.append(text if hole is None else name_token(text))
    if None in pieces:
        raise BadTemplate
    return pieces


def is_doubtful(pieces):
    """Whether a hole of a template for IRIs could make its scheme, so that its text does not tell whether it is absolute.

    That is so where a hole stands before the first colon, and all fixed texts before that colon are of characters that a scheme
    may hold (RFC 3986, 3.1). It is vkg's own rule (docs/DIAGNOSTICS.md, M14).
    """
    had_hole = False
    for piece in pieces:
        if isinstance(piece, Token):
            had_hole = True
            continue
        stop = re.search("[^A-Za-z0-9+.-]", piece)
        if stop:
            return had_hole and stop[0] == ":"
    return False
