"""Refusals: the one line that `vkg` tells where it takes no input (docs/DIAGNOSTICS.md)."""
import os
import re

STATUSES = {"S": 3, "T": 4, "M": 5, "D": 5, "X": 6, "Q": 7}
DIAGNOSTICS = os.path.join(os.path.dirname(__file__), "..", "..", "..", "docs", "DIAGNOSTICS.md")


def read_words():
    """The words of each code, as the tables of docs/DIAGNOSTICS.md have them."""
    with open(DIAGNOSTICS, encoding="utf-8") as file:
        return dict(re.findall(r"^\| ([STMDXQ][0-9]{2}) ([^|]+?) \|", file.read(), re.MULTILINE))


WORDS = read_words()


class Refused(Exception):
    """An input is refused at its first fault: a code and a place, a byte or numbers with `:` between them."""

    def __init__(self, code, place):
        super().__init__(code, place)
        self.code, self.place = code, place

    @property
    def status(self):
        """The status of a call that is refused so."""
        return STATUSES[self.code[0]]

    @property
    def line(self):
        """The line that is told."""
        return f"vkg: {self.code} {WORDS[self.code]} at {self.place}\n"


def refuse_first(faults):
    """Refuses the least of some pairs of a code and a place, if there are any."""
    if faults:
        raise Refused(*min(faults))
