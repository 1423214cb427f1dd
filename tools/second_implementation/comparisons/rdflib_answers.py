"""Answers by rdflib 6, another implementation of SPARQL 1.1, with blank nodes under their own labels."""
import rdflib

from reference.rdf import Term, iri, literal, term_text

rdflib.NORMALIZE_LITERALS = False


def to_rdflib(term):
    """A term as rdflib has it."""
    if term.kind == "iri":
        return rdflib.URIRef(term.text)
    if term.kind == "blank":
        return rdflib.BNode(term.text)
    datatype = rdflib.URIRef(term.datatype) if term.datatype else None
    return rdflib.Literal(term.text, lang=term.language or None, datatype=datatype, normalize=False)


def text_of(term):
    """The text of a term of rdflib; of an unbound variable it is empty."""
    if term is None:
        return ""
    if isinstance(term, rdflib.URIRef):
        return term_text(iri(str(term)))
    if isinstance(term, rdflib.BNode):
        return term_text(Term("blank", str(term)))
    return term_text(literal(str(term), term.language or "", str(term.datatype or "")))


def solution_lines(quads, text, base, header):
    """The lines of the solutions of a query over quads, in the columns of a header, in no order."""
    dataset = rdflib.Dataset(default_union=False)
    for *triple, graph in quads:
        target = dataset.default_context if graph is None else dataset.graph(to_rdflib(graph))
        target.add(tuple(map(to_rdflib, triple)))
    names = [rdflib.Variable(name[1:]) for name in header.split("\t") if name]
    result = dataset.query(text.removeprefix("\ufeff"), base=base)
    return ["\t".join(text_of(row.get(name)) for name in names) for row in result.bindings]
