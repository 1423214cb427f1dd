#!/usr/bin/env python3
"""Lists what a mapping says in R2RML's vocabulary and `vkg` would pass over or refuse.

usage: tools/check_mapping.py [--maps] MAPPING.ttl

A mapping may hold any other triples, so `vkg` passes over a property that it does not know: what is misspelt is left out without a word. Told are
terms that R2RML does not have; properties of R2RML where none is read, as rr:class on a triples map, or any on a node that no triples map leads to;
and those that `vkg` does not use. A row is the line of the file where the value begins, and what stands there. It is a spelling check: what `vkg`
refuses with a code it tells by itself. With --maps each triples map is listed, by the number that the places of M06 to M22 and X01 to X03 have.

The last row is 'findings: N'. The status is 1 where there are some, and 2 where the file is no Turtle that `vkg` takes.
"""
import argparse
import difflib
import sys
from pathlib import Path

sys.path.insert(0, str(Path(__file__).resolve().parent / "second_implementation"))
from reference.mapping_graph import MappingReader
from reference.rdf import RDF_TYPE, RR, iri, term_text
from reference.refusal import Refused
from reference.turtle import read_placed

BASE = "http://mapping/"
NAMESPACES = ("http://www.w3.org/ns/r2rml", "https://www.w3.org/ns/r2rml")
MARK = b"\xef\xbb\xbf"

# The properties that are read on a node in a role, each with the role of its value.
TERM_MAP = {"constant": None, "column": None, "template": None, "termType": None}
IN_GRAPHS = {"graph": None, "graphMap": "graph map"}
READ = {
    "triples map": {"logicalTable": "logical table", "subject": None, "subjectMap": "subject map", "predicateObjectMap": "predicate-object map"},
    "logical table": {"tableName": None},
    "subject map": {**TERM_MAP, **IN_GRAPHS, "class": None},
    "predicate-object map": {**IN_GRAPHS, "predicate": None, "predicateMap": "predicate map", "object": None, "objectMap": "object map"},
    "predicate map": TERM_MAP,
    "graph map": TERM_MAP,
    "object map": {**TERM_MAP, "language": None, "datatype": None},
    "referencing object map": {"parentTriplesMap": None, "joinCondition": "join condition"},
    "join condition": {"child": None, "parent": None},
}
NOT_USED = {
    "sqlQuery": "views are refused (M08)",
    "sqlVersion": "vkg does not use it",
    "inverseExpression": "vkg does not use it",
}
PROPERTIES = sorted({name for read in READ.values() for name in read} | NOT_USED.keys())
OTHERS = """TriplesMap LogicalTable BaseTableOrView R2RMLView TermMap SubjectMap PredicateMap ObjectMap GraphMap RefObjectMap PredicateObjectMap Join
    IRI BlankNode Literal defaultGraph SQL2008""".split()


def role_of(role, names):
    """The role of a node that has these properties: one with a parent is a referencing object map."""
    return "referencing object map" if role == "object map" and "parentTriplesMap" in names else role


def read_on(role, names):
    """The properties that are read on a node of a role that has these properties; a constant has its own term type, tag and datatype."""
    return {name: next_role for name, next_role in READ[role].items() if "constant" not in names or name not in ("termType", "language", "datatype")}


def roles_of(reader):
    """The roles of each node that a triples map leads to."""
    roles, waiting = {}, [(node, "triples map") for node in reader.nodes]
    while waiting:
        node, role = waiting.pop()
        names = {name for name, _ in reader.properties.get(node, ())}
        role = role_of(role, names)
        if role not in roles.setdefault(node, []):
            roles[node].append(role)
            read = read_on(role, names)
            waiting += [(value, read[name]) for name, value in reader.properties.get(node, ()) if read.get(name)]
    return roles


def spelling(term, known):
    """What is wrong with an IRI of R2RML's namespace that has to be one of these names; None where nothing is."""
    if term.kind != "iri" or not term.text.startswith(NAMESPACES):
        return None
    if not term.text.startswith(RR):
        return f"<{term.text}> is not in R2RML's namespace, <{RR}>"
    name = term.text.removeprefix(RR)
    near = difflib.get_close_matches(name, known, 1)
    return None if name in known else f"rr:{name} is no {'property' if known is PROPERTIES else 'term'} of R2RML" + (f"; rr:{near[0]}?" if near else "")


def place(reader, roles, subject, name):
    """What is wrong with a property of R2RML on this node; None where it is read there."""
    if name in NOT_USED:
        return f"rr:{name}: {NOT_USED[name]}"
    names = {other for other, _ in reader.properties[subject]}
    own = roles.get(subject, [])
    if any(name in read_on(role, names) for role in own):
        return None
    if own:
        beside = " that has rr:constant" if any(name in READ[role] for role in own) else ""
        return f"rr:{name} has no place on this node: {' and '.join(own)}{beside}"
    if name in READ["triples map"]:
        return f"rr:{name} stands on a node that is no triples map: it has no rr:logicalTable"
    return f"rr:{name} stands on a node that no triples map leads to"


def findings(placed):
    """Pairs of a byte and what is wrong there; of a node that is lost by a mistake that is told, its places are not told again."""
    reader = MappingReader([triple for triple, _ in placed], [])
    roles, lost = roles_of(reader), set()
    if not reader.nodes:
        yield 0, "no node has rr:logicalTable, so there is no triples map (M21)"
    for (subject, predicate, value), at in placed:
        wrong = [spelling(predicate, PROPERTIES), spelling(subject, PROPERTIES + OTHERS), spelling(value, PROPERTIES + OTHERS)]
        if not wrong[0] and predicate.text.startswith(RR) and subject not in lost:
            wrong[0] = place(reader, roles, subject, predicate.text.removeprefix(RR))
        if (wrong[0] or subject in lost) and value not in roles:
            lost.add(value)
        yield from ((at, what) for what in wrong if what)


def maps(placed):
    """Pairs of a byte and a triples map, in the order of their numbers."""
    for number, node in enumerate(MappingReader([triple for triple, _ in placed], []).nodes, 1):
        at = min(at for (subject, predicate, value), at in placed
                 if subject == node and (predicate.text == RR + "logicalTable" or (predicate, value) == (RDF_TYPE, iri(RR + "TriplesMap"))))
        yield at, f"triples map {number}: {term_text(node).replace(BASE, '') if node.kind == 'iri' else 'a blank node'}"


def main():
    """Reads the mapping, and prints the rows."""
    parser = argparse.ArgumentParser(description=__doc__, usage=argparse.SUPPRESS, formatter_class=argparse.RawDescriptionHelpFormatter)
    parser.add_argument("--maps", action="store_true", help="list the triples maps, too")
    parser.add_argument("mapping", metavar="MAPPING.ttl")
    options = parser.parse_args()
    try:
        data = Path(options.mapping).read_bytes()
    except OSError as error:
        parser.error(str(error))

    def tell(at, what):
        """Prints what stands at a byte of the file, which is counted behind the byte order mark."""
        print(f"{options.mapping}:{data.removeprefix(MARK)[:at].count(10) + 1}: {what}")

    try:
        placed = read_placed(data, BASE)
    except Refused as refused:
        tell(refused.place, refused.line.strip())
        sys.exit(2)
    for row in maps(placed) if options.maps else ():
        tell(*row)
    found = list(findings(placed))
    for row in found:
        tell(*row)
    print(f"findings: {len(found)}")
    sys.exit(len(found) > 0)


if __name__ == "__main__":
    main()
