"""Calls of the program, and what agreed of them with the second implementation."""
import collections
import os
import re
import shutil
import subprocess

from reference.calls import Ending
from reference.refusal import STATUSES, WORDS

FIXED_LINES = {
    2: ["vkg: words not taken\n", "vkg: base is not an absolute IRI\n"],
    8: ["vkg: read fault\n"],
    9: ["vkg: write fault\n"],
    10: ["vkg: want of memory\n"],
}
REFUSAL = r"vkg: (([STMDXQ])[0-9]{2}) (.+) at ([0-9]+(:[0-9]+:[0-9]+)?)\n"


def is_lawful(ending):
    """Whether status, output and line go together as docs/DIAGNOSTICS.md says: a code has its status, words and form of place."""
    if ending.status == 0:
        return ending.line == ""
    if ending.output:
        return False
    if ending.status in FIXED_LINES:
        return ending.line in FIXED_LINES[ending.status]
    match = re.fullmatch(REFUSAL, ending.line)
    if not match:
        return False
    code, letter, words, place, _ = match.groups()
    return STATUSES[letter] == ending.status and WORDS.get(code) == words and (letter in "TX") == (":" in place)


def first_difference(ours, theirs):
    """A short word on where two endings differ."""
    if ours.status != theirs.status or ours.line != theirs.line:
        return f"vkg {ours.status} {ours.line!r}, the other {theirs.status} {theirs.line!r}"
    if ours.output.count("\n") == theirs.output.count("\n") == 1:
        same = len(os.path.commonprefix([ours.output, theirs.output]))
        return "behind {!r} vkg {!r}, the other {!r}".format(
            ours.output[max(0, same - 40) : same], *[ending.output[same : same + 80] for ending in (ours, theirs)])
    left, right = (collections.Counter(ending.output.split("\n")) for ending in (ours, theirs))
    alone = [sorted(lines.elements())[:2] for lines in (left - right, right - left)]
    return "vkg alone {!r}, the other alone {!r}".format(*alone) if alone != [[], []] else "the order of lines"


class Comparison:
    """Counts what agreed, and keeps the folders of the cases that did not.

    `options` are those of `compare.py`; `case` is the name of the case that is being compared.
    """

    def __init__(self, options):
        self.options, self.counts, self.is_same, self.case = options, collections.Counter(), True, ""

    def count(self, name):
        """Counts something that is worth a line of the report."""
        self.counts[name] += 1

    def call(self, words, folder):
        """How a call ends; None where it takes too long. What ends otherwise than the documents allow is a difference."""
        try:
            done = subprocess.run([os.path.abspath(self.options.vkg), *words], cwd=folder, capture_output=True,
                                  stdin=subprocess.DEVNULL, timeout=self.options.timeout, check=False)
        except subprocess.TimeoutExpired:
            self.count("calls that took too long")
            return None
        texts = [data.decode("utf-8", "surrogateescape") for data in (done.stdout, done.stderr)]
        ending = Ending(done.returncode, *texts)
        if not is_lawful(ending):
            self.differ("shape", words, folder, ending, Ending(0, "", "an ending as docs/DIAGNOSTICS.md has it"))
        return ending

    def check(self, name, words, folder, ours, theirs):
        """Compares two endings; an unknown output is that of the other, and a call that took too long is not compared."""
        if ours is None:
            return
        if theirs.output is None:
            theirs = theirs._replace(output=ours.output)
        if ours == theirs:
            self.count(name + ": the same")
        else:
            self.differ(name, words, folder, ours, theirs)

    def differ(self, name, words, folder, ours, theirs):
        """Keeps a case, and tells of it."""
        self.count(name + ": DIFFERENT")
        self.is_same = False
        place = os.path.join(self.options.found, re.sub(r"\W+", "-", f"{name} {self.case}"))
        shutil.rmtree(place, ignore_errors=True)
        shutil.copytree(folder, place)
        texts = {"words": "\n".join(words), "vkg.txt": "{}\n{}{}".format(*ours), "other.txt": "{}\n{}{}".format(*theirs)}
        for file, text in texts.items():
            with open(os.path.join(place, file), "w", encoding="utf-8", errors="surrogateescape", newline="") as out:
                out.write(text)
        print(f"{place}: {first_difference(ours, theirs)}", flush=True)

    def report(self):
        """Prints all counts."""
        for name, count in sorted(self.counts.items()):
            print(f"{count:7} {name}")
