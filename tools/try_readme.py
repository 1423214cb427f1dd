#!/usr/bin/env python3
"""Does what README.md and docs/ show, in a fresh clone, and compares what they show.

usage: tools/try_readme.py PROGRAM     (PROGRAM is the built `vkg`; needs git)

The last commit is cloned into a new folder. There the launcher is run with a stand-in for `rt` that fails, as a stranger's first call might:
it has to say so and end with 70. Then PROGRAM stands where `rt` puts what it builds, and each command of the documents is run by the launcher,
which must not ask for `rt` again. In a fenced block a line behind `$ ` is a command, and the lines up to the next one are what it writes; a line
`...` stands for any lines. Commands of Python, cat and tools/check_mapping.py are run, too, and those with psql beside a PostgreSQL of their own, which
tools/postgres/server.py starts; where it is not installed they are skipped, which is said. The stored answers and plans of examples/company/queries are
compared, docs/STANDARDS.md with what tools/standards.py prints, and, by tools/second_implementation, each example of docs/DIAGNOSTICS.md and of the tables of
docs/GUIDE.md.

Each difference is told. The last line is 'N passed, M failed', and the status 1 where something failed.
"""
import os
import shutil
import subprocess
import sys
import tempfile
from pathlib import Path

TOP = Path(__file__).resolve().parent.parent
sys.path[:0] = [str(TOP / "tools/second_implementation"), str(TOP / "tools/postgres")]
from comparisons.readme import as_shown, shown_in
from server import Server, folder_of_programs

DOCUMENTS = ["README.md", *sorted(str(path.relative_to(TOP)) for path in (TOP / "docs").glob("*.md"))]
TRIED = ("./vkg ", "cat ", "echo ", "python3 ", "tools/check_mapping.py ", "tools/postgres/")
IN_POSTGRES = "| psql "
NOT_BUILT = 70
COMPANY = "examples/company"
MAPPED = ["--schema", f"{COMPANY}/schema.sql", "--base", "http://example.org/", "--mapping", f"{COMPANY}/mapping.ttl"]


class Trial:
    """A clone, the path of its stand-in for `rt`, and what was seen there."""

    def __init__(self, room):
        self.clone, self.bin = room / "clone", room / "bin"
        self.passed = self.failed = 0
        subprocess.run(["git", "clone", "--quiet", str(TOP), str(self.clone)], check=True)
        self.bin.mkdir()
        stand_in = self.bin / "rt"
        stand_in.write_text("#!/bin/sh\necho 'rt: this is a stand-in, which builds nothing' >&2\nexit 1\n")
        stand_in.chmod(0o755)

    def run(self, words, environment=os.environ):
        """The status, output and errors of a call in the clone."""
        environment = {**environment, "PATH": f"{self.bin}:{os.environ['PATH']}"}
        ended = subprocess.run(words, cwd=self.clone, env=environment, stdin=subprocess.DEVNULL, capture_output=True, timeout=600)
        return ended.returncode, ended.stdout.decode(errors="replace"), ended.stderr.decode(errors="replace")

    def see(self, what, is_so, found):
        """Counts what was seen, and tells what is not as it is shown."""
        self.passed += is_so
        self.failed += not is_so
        if not is_so:
            print(f"DIFFERENT: {what}\n{found}")


def try_first_call(trial):
    """The first call where `rt` builds nothing: what it says and its status; what `rt` told is in the log that is named."""
    status, output, errors = trial.run(["./vkg", "--help"])
    log = trial.clone / "crates/vkg/out/build.log"
    is_told = str(log) in errors and log.is_file() and "stand-in" in log.read_text()
    trial.see("./vkg --help without a program", status == NOT_BUILT and output == "" and is_told, f"status {status}: {errors}")


def commands(trial, in_postgres):
    """The commands of the documents that are to be tried, those with psql or the others, each with its document and what it is shown to write."""
    for name in DOCUMENTS:
        for command, shown in shown_in((trial.clone / name).read_text(encoding="utf-8")):
            if command.startswith(TRIED) and (IN_POSTGRES in command) == in_postgres:
                yield name, command, shown


def try_documents(trial, in_postgres=False, environment=os.environ):
    """Each command of the documents that is one of those to try."""
    for name, command, shown in commands(trial, in_postgres):
        status, output, errors = trial.run(["bash", "-o", "pipefail", "-c", command], environment)
        trial.see(f"{name}: {command}", status == 0 and errors == "" and as_shown(output, shown), f"status {status}: {errors}\n{output}")


def try_postgres(trial):
    """The commands with psql, in the order of the documents, beside one server."""
    if folder_of_programs() is None:
        print(f"try_readme: skipped: {sum(1 for _ in commands(trial, True))} commands with psql, since PostgreSQL is not installed")
        return
    with Server() as server:
        try_documents(trial, True, server.environment)


def try_queries(trial):
    """The answers and plans of the company's queries, as they are stored."""
    for query in sorted((trial.clone / COMPANY / "queries").glob("*.rq")):
        words = [*MAPPED, "--query", str(query.relative_to(trial.clone))]
        for call, ending in (["query", "--data", f"{COMPANY}/data"], ".tsv"), (["sql"], ".sql"):
            stored = query.with_suffix(ending).read_text(encoding="utf-8")
            status, output, errors = trial.run(["./vkg", *call, *words])
            trial.see(f"{query.name}: {call[0]}", (status, output, errors) == (0, stored, ""), f"status {status}: {errors}\n{output}")


def try_standards(trial):
    """docs/STANDARDS.md is what tools/standards.py prints."""
    status, output, errors = trial.run([sys.executable, "tools/standards.py"])
    is_so = status == 0 and output == (trial.clone / "docs/STANDARDS.md").read_text(encoding="utf-8")
    trial.see("docs/STANDARDS.md", is_so, errors or "tools/standards.py prints something else")


def try_diagnostics(trial, room):
    """The examples of docs/DIAGNOSTICS.md, docs/GUIDE.md and README.md, asked of the program and of the second implementation."""
    compare = ["tools/second_implementation/compare.py", "documents", "--vkg", "crates/vkg/out/vkg", "--found", str(room / "found")]
    status, output, errors = trial.run([sys.executable, *compare])
    trial.see("tools/second_implementation/compare.py documents", status == 0, output + errors)


def main():
    """Does all of it in a new folder."""
    if len(sys.argv) != 2:
        sys.exit("usage: tools/try_readme.py PROGRAM")
    if not shutil.which("git"):
        print("try_readme: skipped: git is not here")
        return
    with tempfile.TemporaryDirectory() as name:
        room = Path(name)
        trial = Trial(room)
        try_first_call(trial)
        shutil.copy(sys.argv[1], trial.clone / "crates/vkg/out/vkg")
        try_documents(trial)
        try_postgres(trial)
        try_queries(trial)
        try_standards(trial)
        try_diagnostics(trial, room)
        print(f"readme: {trial.passed} passed, {trial.failed} failed")
        sys.exit(trial.failed > 0)


if __name__ == "__main__":
    main()
