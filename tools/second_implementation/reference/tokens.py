"""Tokens with their places in bytes, and a cursor over them for parsers that look one token ahead."""
import re
from typing import NamedTuple

from reference.refusal import Refused

DEEPEST = 64


class Token(NamedTuple):
    """A token: its class, its text, and the byte at which it begins."""

    kind: str
    text: str
    at: int


def decoded(data, code):
    """The text of a file's bytes behind one byte order mark; refused at the first byte that is no UTF-8."""
    data = data.removeprefix(b"\xef\xbb\xbf")
    try:
        return data.decode()
    except UnicodeDecodeError as error:
        raise Refused(code, error.start) from None


def cut(text, classes, skipped, code):
    """The tokens of a text and a last one, END: at each place the longest match of all classes, of equal ones the first.

    `classes` is a list of pairs of a class and a pattern, `skipped` the pattern of what stands between tokens.
    """
    patterns = [(kind, re.compile(pattern)) for kind, pattern in classes]
    between, tokens, place, at = re.compile(skipped), [], 0, 0

    def move(end):
        """Moves on to a place of the text, and counts the bytes up to it."""
        nonlocal place, at
        at += len(text[place:end].encode())
        place = end

    move(between.match(text).end())
    while place < len(text):
        found = [(kind, match.end()) for kind, pattern in patterns if (match := pattern.match(text, place))]
        if not found:
            raise Refused(code, at)
        kind, end = max(found, key=lambda pair: pair[1])
        tokens.append(Token(kind, text[place:end], at))
        move(end)
        move(between.match(text, place).end())
    return tokens + [Token("END", "", at)]


def cut_bytes(data, classes, skipped, code):
    """The tokens of a file's bytes behind one byte order mark; refused at the least place at which no token begins or the bytes are no UTF-8."""
    data = data.removeprefix(b"\xef\xbb\xbf")
    try:
        return cut(data.decode(), classes, skipped, code)
    except UnicodeDecodeError as error:
        # No token holds a byte that is no UTF-8, so the front alone tells whether a place before that byte is at fault.
        cut(data[:error.start].decode(), classes, skipped, code)
        raise Refused(code, error.start) from None


def check_depth(tokens, code):
    """Refuses the first bracket that makes more open ones than are allowed; brackets of all kinds count alike."""
    depth = 0
    for token in tokens:
        if token.kind == "SIGN" and token.text in "{[(":
            depth += 1
            if depth > DEEPEST:
                raise Refused(code, token.at)
        elif token.kind == "SIGN" and token.text in "}])":
            depth = max(0, depth - 1)


class Cursor:
    """Reads tokens from the left; a token that no rule takes is refused with a code."""

    def __init__(self, tokens, code):
        self.tokens, self.code, self.place = tokens, code, 0

    @property
    def next(self):
        """The token that comes next."""
        return self.tokens[self.place]

    def sees(self, *texts):
        """Whether one of these signs and words of the grammar comes next."""
        return self.next.kind in ("SIGN", "KEYWORD") and self.next.text in texts

    def sees_kind(self, *kinds):
        """Whether a token of one of these classes comes next."""
        return self.next.kind in kinds

    def take(self, *kinds):
        """Takes the next token, which has to be of one of these classes."""
        if not self.sees_kind(*kinds):
            self.refuse()
        self.place += 1
        return self.tokens[self.place - 1]

    def takes(self, *texts):
        """Takes one of these signs and words where it comes next, and says whether."""
        is_there = self.sees(*texts)
        self.place += is_there
        return is_there

    def expect(self, *texts):
        """Takes one of these signs and words, which has to come next."""
        if not self.takes(*texts):
            self.refuse()
        return self.tokens[self.place - 1]

    def refuse(self):
        """Refuses the next token."""
        raise Refused(self.code, self.next.at)
