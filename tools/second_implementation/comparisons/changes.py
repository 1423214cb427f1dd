"""Inputs that are refused as a rule: valid cases with one token changed, mappings with faults, and changed words of calls."""
from random_inputs.cases import add_query, random_case, reordered, spoil_mapping
from random_inputs.chance import Chance
from random_inputs.changes import changed, changed_words
from reference.calls import Ending, expected
from reference.refusal import Refused

QUERY_SIZE = 500
NEEDED = {
    "dump": {"--schema", "--data", "--base"},
    "query": {"--schema", "--data", "--base", "--query"},
    "sql": {"--schema", "--base", "--query"},
}


def check(comparison, name, words, folder):
    """Compares how a call ends with how it should, and counts what was told."""
    ours, theirs = comparison.call(words, folder), expected(words, folder)
    comparison.check(f"{name}, {'refused' if theirs.status else 'taken'}", words, folder, ours, theirs)
    if theirs.status:
        comparison.count(f"told: {theirs.line[5:].split(' at ')[0].strip()}")


def with_query(seed):
    """A case with a query over its quads, or with the empty one where it has a data error."""
    case = random_case(seed)
    try:
        add_query(case, seed, QUERY_SIZE)
    except Refused:
        case.files["query.rq"] = "SELECT * {}"
    return case


def compare_tokens(comparison, seed, folder):
    """Some changes to one case, each of one token in one file."""
    chance, case = Chance(f"change {seed}"), with_query(seed)
    files = dict(case.files)
    for number in range(comparison.options.queries):
        comparison.case = f"{seed}.{number}"
        file = chance.choice(sorted(files))
        case.files = {**files, file: changed(chance, files[file])}
        case.write(folder)
        commands = ["query", "sql"] if file == "query.rq" else ["dump", "dump", "query", "sql"]
        check(comparison, "change of " + file.rpartition(".")[2], case.words(chance.choice(commands)), folder)


def compare_faults(comparison, seed, folder):
    """Some mappings with faults in their graphs, over one database."""
    chance, case = Chance(f"faults {seed}"), random_case(seed)
    for number in range(comparison.options.queries):
        comparison.case = f"{seed}.{number}"
        spoil_mapping(case, chance)
        case.write(folder)
        check(comparison, "mapping with faults", case.words("dump"), folder)


def apart(words):
    """The words of a call with each option apart from its value; None where they are not taken (README.md)."""
    command, *rest = words
    found = [command]
    while rest:
        name, sign, value = rest.pop(0).partition("=")
        if not sign:
            if not rest or rest[0].startswith("-") and rest[0] != "-":
                return None
            value = rest.pop(0)
        found += [name, value]
    names = found[1::2]
    is_taken = len(set(names)) == len(names) and NEEDED[command] <= set(names) <= NEEDED[command] | {"--mapping"}
    return found if is_taken else None


def compare_words(comparison, seed, folder):
    """A call with up to two changes to its words; the documents leave open what becomes of empty values."""
    chance, case = Chance(f"words {seed}"), with_query(seed)
    case.write(folder)
    words = changed_words(chance, reordered(chance, case.words(chance.choice(sorted(NEEDED)))))
    ours, taken = comparison.call(words, folder), apart(words) if words[0] in NEEDED else None
    if words[0] in ("gen", "--help") or taken and "" in taken:
        comparison.count("words that the documents leave open")
    elif taken:
        comparison.check("words, taken", words, folder, ours, expected(taken, folder))
    else:
        comparison.check("words, refused", words, folder, ours, Ending(2, "", "vkg: words not taken\n"))
