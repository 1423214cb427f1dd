"""`vkg dump` on random databases, by the direct mapping and by random mappings."""
from random_inputs.cases import random_case, reordered
from random_inputs.chance import Chance
from reference.calls import Ending, expected, lines_text
from reference.rdf import dump_lines
from reference.refusal import Refused


def compare(comparison, seed, folder):
    """One dump, compared with that of the files and with that of the values of which the files were written.

    Where the values have a data error, they do not tell its place: it is that of the file.
    """
    case = random_case(seed)
    case.write(folder)
    words = reordered(Chance(f"words {seed}"), case.words("dump"))
    ours = comparison.call(words, folder)
    name = "direct mapping" if case.maps is None else "R2RML"
    comparison.check(f"{name}, by files", words, folder, ours, expected(case.words("dump"), folder))
    try:
        by_values = Ending(0, lines_text(dump_lines(case.quads())))
        comparison.check(f"{name}, by values", words, folder, ours, by_values)
    except Refused:
        comparison.count("cases with a data error")
