"""Inputs that nobody meant: valid cases after several edits by bytes and tokens, files that are cut off, texts of few names by the grammars."""
import signal

from comparisons.changes import check, with_query
from random_inputs.cases import random_case
from random_inputs.chance import Chance
from random_inputs.edits import cut_off, edited
from random_inputs.grammar_text import SCHEMA, GrammarText

FILE_OF = {"ddl": "schema.sql", "turtle": "mapping.ttl", "sparql": "query.rq"}


class TooLong(Exception):
    """The second implementation took longer than a call may."""


def give_up(number, frame):
    """Ends what the second implementation is at."""
    raise TooLong


def check_in_time(comparison, name, words, folder):
    """Compares how a call ends with how it should, where the second implementation tells it in time; a changed query can be any product of triples."""
    signal.signal(signal.SIGALRM, give_up)
    signal.alarm(comparison.options.timeout)
    try:
        check(comparison, name, words, folder)
    except TooLong:
        comparison.count("cases that the second implementation gave up")
    finally:
        signal.alarm(0)


def commands_for(file, case):
    """The commands that read a file."""
    if file == "query.rq":
        return ["query", "sql"]
    return ["dump", "query"] if file.startswith("data/") else ["dump", "query", "sql"]


def compare_spoilt(comparison, seed, folder, name, spoil):
    """Some cases in which one or two files of one case are spoilt."""
    chance, case = Chance(f"{name} {seed}"), with_query(seed)
    files = dict(case.files)
    for number in range(comparison.options.queries):
        comparison.case = f"{seed}.{number}"
        spoilt = chance.sample(sorted(files), min(len(files), chance.choice([1, 1, 1, 2])))
        case.files = {**files, **{file: spoil(chance, files[file]) for file in spoilt}}
        case.write(folder)
        words = case.words(chance.choice(commands_for(spoilt[0], case)))
        check_in_time(comparison, f"{name} of " + spoilt[0].rpartition(".")[2], words, folder)


def compare_edits(comparison, seed, folder):
    """Files after several edits."""
    compare_spoilt(comparison, seed, folder, "edits", edited)


def compare_cuts(comparison, seed, folder):
    """Files that are cut off."""
    compare_spoilt(comparison, seed, folder, "cut", cut_off)


def compare_texts(comparison, seed, folder):
    """Schemas, mappings and queries of few names, by the grammars; `sql` reads all three, and no table."""
    chance, case = Chance(f"texts {seed}"), random_case(seed)
    case.files["query.rq"] = "SELECT * {}"
    files = dict(case.files)
    for number in range(comparison.options.queries):
        comparison.case = f"{seed}.{number}"
        language = chance.choice(sorted(FILE_OF))
        text = GrammarText(chance, language, chance.choice([5, 20, 20, 60])).text()
        case.files = {**files, FILE_OF[language]: text}
        if language == "ddl":
            case.files.pop("mapping.ttl", None)
        elif language == "turtle":
            case.files["schema.sql"] = SCHEMA
        case.write(folder)
        check_in_time(comparison, f"text by {language}.grammar", case.words("sql"), folder)
