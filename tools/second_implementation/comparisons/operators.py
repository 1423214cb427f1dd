"""Every operator of the profile on every pair of the terms of `random_inputs/terms.py` and a blank node."""
from random_inputs.cases import Case
from random_inputs.terms import IRIS, LITERALS
from reference.calls import Ending, lines_text
from reference.expressions import truth_of
from reference.query_syntax import read_query
from reference.rdf import blank, in_byte_order, iri, term_text
from reference.tables import Column, Table

TERMS = LITERALS + IRIS
BLANK = "q"

OF_TWO = [f"?a {sign} ?b" for sign in ("=", "!=", "<", ">", "<=", ">=", "&&", "||")]
OF_TWO += [f"!(?a {sign} ?b)" for sign in ("=", "!=", "<", "&&", "||")]
OF_TWO += ["sameTerm(?a, ?b)", "STR(?a) = STR(?b)", "DATATYPE(?a) != DATATYPE(?b)", "LANG(?a) < LANG(?b)"]
OF_TWO += ["(?a < ?b) = (?b > ?a)", "(?a = ?b) < ?b", "STRLEN(?a) = ?b"]
OF_TWO += [f"{sign}{name}(?a, ?b)" for name in ("STRSTARTS", "STRENDS", "CONTAINS") for sign in ("", "!")]
OF_ONE = ["?a", "!?a"]
OF_ONE += [f"{name}(?a)" for name in "isIRI isURI isBlank isLiteral isNumeric STR LANG DATATYPE STRLEN".split()]
OF_ONE += ["!STRLEN(?a)", "STRLEN(?a) = 1"]


def the_case():
    """A case whose dataset has these terms, and a blank node, as the objects of one subject."""
    case = Case("http://e/", [Table("t", [Column("a", "string", True)], [0], [[0]], [], [[BLANK]])])
    case.files["schema.sql"] = "CREATE TABLE t (a VARCHAR(9) PRIMARY KEY);"
    case.files["data/t.csv"] = f"a\n{BLANK}\n"
    case.files["mapping.ttl"] = (
        '@prefix rr: <http://www.w3.org/ns/r2rml#> . <#m> rr:logicalTable [ rr:tableName "t" ] ; rr:subject <http://e/s> ; '
        "rr:predicateObjectMap [ rr:predicate <http://e/p> ; "
        f"rr:object {' , '.join(map(term_text, TERMS))} ; rr:objectMap [ rr:column \"a\" ; rr:termType rr:BlankNode ] ] ."
    )
    return case


def query_of(text):
    """The query for the terms of which a filter is true: pairs, or single terms."""
    names = ["?a", "?b"] if text in OF_TWO else ["?a"]
    patterns = " . ".join(f"?s <http://e/p> {name}" for name in names)
    return f"SELECT {' '.join(names)} {{ {patterns} FILTER({text}) }}"


def answer(query):
    """The lines of the answer to a query of one filter: the pairs of terms, or the terms, of which it is true."""
    terms, names, condition = [*TERMS, blank(BLANK)], query.header(), query.group[-1].condition
    solutions = [{"a": one, "b": other} for one in terms for other in (terms if "b" in names else terms[:1])]
    found = [solution for solution in solutions if truth_of(condition, solution)]
    lines = ("\t".join(term_text(solution[name]) for name in names) for solution in found)
    return ["\t".join("?" + name for name in names), *in_byte_order(lines)]


def sort_of(text):
    """The datatype or the sort of a term, by its text."""
    if "XMLSchema#" in text:
        return text.partition("XMLSchema#")[2][:-1]
    return "tag" if '"@' in text else {'"': "string", "<": "IRI", "_": "blank"}[text[0]]


def count_rdflib(comparison, query_text, lines):
    """Counts, by the sorts of terms, the pairs for which rdflib gives another truth; its profile is another one."""
    from comparisons.rdflib_answers import solution_lines  # only here: rdflib need not be installed

    quads = [(iri("http://e/s"), iri("http://e/p"), term, None) for term in [*TERMS, blank(BLANK)]]
    theirs = solution_lines(quads, query_text, "http://e/", lines[0])
    for line in sorted(set(lines[1:]) ^ set(theirs)):
        side = "vkg" if line in lines else "rdflib"
        pair = " and ".join(map(sort_of, line.split("\t")))
        comparison.count(f"{query_text.partition('FILTER')[2]} by {side} alone of {pair}")


def compare(comparison, _, folder):
    """All operators."""
    case = the_case()
    for text in OF_TWO + OF_ONE:
        comparison.case = text
        case.files["query.rq"] = query_of(text)
        case.write(folder)
        words, lines = case.words("query"), answer(read_query(case.files["query.rq"].encode(), case.base))
        comparison.check("operators", words, folder, comparison.call(words, folder), Ending(0, lines_text(lines)))
        if comparison.options.rdflib:
            count_rdflib(comparison, case.files["query.rq"], lines)
