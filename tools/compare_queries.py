#!/usr/bin/env python3
"""Asks each query of the worked cases, and more over the example company, of `vkg` and of rdflib over the quads that `vkg dump` writes.

usage: tools/compare_queries.py PROGRAM     (needs rdflib 6; PROGRAM is the built `vkg`)

rdflib is another implementation of SPARQL 1.1. Solutions are compared with their repeats, blank nodes taken as one. A line is printed for
each query on which the two differ, then a count. One difference is known: `GRAPH` with an IRI that names no graph has no solution (SPARQL 1.1
Query, 18.6), and one in rdflib. The gate does not run this.
"""
import collections
import os
import re
import subprocess
import sys
import tempfile

import rdflib

TOP = os.path.join(os.path.dirname(os.path.abspath(__file__)), '..')
CASES = os.path.join(TOP, 'crates', 'vkg_cases', 'data')
COMPANY = os.path.join(TOP, 'examples', 'company')

PREFIXES = ('PREFIX foaf: <http://xmlns.com/foaf/0.1/> PREFIX org: <http://www.w3.org/ns/org#> '
            'PREFIX ex: <http://example.org/ns#> PREFIX xsd: <http://www.w3.org/2001/XMLSchema#> ')

QUERIES = [
    '* { ?s ?p ?o }', '?g ?s { GRAPH ?g { ?s ?p ?o } }', '?p { ?s ?p ?o . GRAPH ?g { ?s ?q ?r } }',
    '?n { ?x foaf:name ?n OPTIONAL { ?x org:memberOf ?d OPTIONAL { ?d ex:title ?t } } FILTER(!BOUND(?t)) }',
    '?n ?t { { ?x foaf:name ?n } UNION { ?d ex:title ?t } }', 'DISTINCT ?p { { ?s ?p ?o } UNION { GRAPH ?g { ?s ?p ?o } } }',
    '?n { ?x foaf:name ?n FILTER(?n = "Ann" || ?n > "M") }', '?t { ?d ex:title ?t FILTER(LANG(?t) = "en-gb") }',
    '?s ?o { ?s ?p ?o FILTER(ISLITERAL(?o) && DATATYPE(?o) = xsd:string) }',
    '?x ?y { ?x a foaf:Person . ?y a foaf:Person FILTER(!SAMETERM(?x, ?y)) }',
    '?n ?v { ?x foaf:name ?n GRAPH <http://example.org/graph/payroll> { ?x ex:salary ?v FILTER(?v < 5000) } }',
    '?n ?v { ?x foaf:name ?n OPTIONAL { GRAPH ?g { ?x ex:salary ?v } FILTER(?v >= 5000 && ?n != "Bo") } }',
    '?m { ?m a org:Membership ; org:member [ foaf:name ?n ] FILTER(?n != "Ann") }', '?a ?b { ?a ex:leader ?l . ?b org:member ?l }',
    '?o { ?s ?p ?o FILTER(ISBLANK(?s)) }', '?s { ?s ?p ?o FILTER(STR(?o) = "Ann") }', '?x ?t { ?x foaf:name "Ann" , ?t }',
    '?d ?n { ?d ex:title ?t OPTIONAL { ?x org:memberOf ?d . ?x foaf:name ?n } }',
    '?n { ?x foaf:name ?n FILTER(?nope = 1 || ?n = "Ann") }', '?n { ?x foaf:name ?n FILTER(!(?nope = 1)) }', '* { ?x foaf:mbox ?m }',
    'DISTINCT ?k { ?x a ?k OPTIONAL { ?x foaf:name ?n } }', '?v { GRAPH ?g { ?x ex:salary ?v FILTER(?v = 5200.50) } }',
    '?p ?o { <http://example.org/employee/7> ?p ?o }', '?n ?g { ?x foaf:name ?n GRAPH ?g {} }',
    '?x { { ?x a foaf:Person } { ?x org:memberOf ?d } }', '?x ?g { OPTIONAL { GRAPH ?g { ?x ex:salary ?v } } ?x a foaf:Person }']

# The properties of the direct graph for those of the mapping.
DIRECT = [('ex:title', '<http://example.org/department#title>'), ('foaf:name', '<http://example.org/employee#name>'),
          ('org:memberOf', '<http://example.org/employee#ref-department>'), ('foaf:Person', '<http://example.org/employee>'),
          ('ex:salary', '<http://example.org/employee#salary>')]


def text(term):
    if term is None:
        return ''
    if isinstance(term, rdflib.URIRef):
        return '<%s>' % term
    if isinstance(term, rdflib.BNode):
        return '_:'
    form = '"%s"' % str(term).replace('\\', '\\\\').replace('"', '\\"').replace('\n', '\\n').replace('\r', '\\r')
    if term.language:
        return form + '@' + term.language
    return form if term.datatype in (None, rdflib.XSD.string) else '%s^^<%s>' % (form, term.datatype)


def dataset_of(lines):
    # rdflib reads the default graph's quads into a graph without a name
    read = rdflib.ConjunctiveGraph()
    read.parse(data=lines, format='nquads')
    dataset = rdflib.Dataset(default_union=False)
    for s, p, o, graph in read.quads((None, None, None, None)):
        name = getattr(graph, 'identifier', graph)
        (dataset.default_context if isinstance(name, rdflib.BNode) else dataset.graph(name)).add((s, p, o))
    return dataset


def run(program, words, folder):
    return subprocess.run([program] + words, cwd=folder, capture_output=True)


def difference(program, words, folder):
    """None where vkg refuses; else the solutions that the one has and the other has not."""
    given = dict(zip(words[1::2], words[2::2]))
    dump = [word for name in ('--schema', '--data', '--base', '--mapping') if name in given for word in (name, given[name])]
    answered, dumped = run(program, words, folder), run(program, ['dump'] + dump, folder)
    if answered.returncode != 0:
        return None
    header, *lines = answered.stdout.decode().split('\n')[:-1]
    with open(os.path.join(folder, given['--query']), encoding='utf-8-sig') as file:
        result = dataset_of(dumped.stdout.decode()).query(file.read(), base=given['--base'])
    names = header.split('\t') if header else []
    theirs = collections.Counter('\t'.join(text(row.get(name[1:])) for name in names) for row in result.bindings)
    ours = collections.Counter(re.sub(r'_:\w+', '_:', line) for line in lines)
    return sorted((ours - theirs).items()), sorted((theirs - ours).items())


def calls(folder):
    with open(os.path.join(CASES, 'cases')) as file:
        for name, *words in map(str.split, file):
            if words[0] == 'query':
                yield name, words, CASES
    for mapping in (['--mapping', COMPANY + '/mapping.ttl'], []):
        for number, query in enumerate(QUERIES):
            for old, new in [] if mapping else DIRECT:
                query = query.replace(old, new)
            with open(folder + '/query.rq', 'w') as file:
                file.write(PREFIXES + 'SELECT ' + query)
            yield ('company %d' % number, ['query', '--schema', COMPANY + '/schema.sql', '--data', COMPANY + '/data', '--base',
                                           'http://example.org/', '--query', folder + '/query.rq'] + mapping, folder)


def main():
    rdflib.NORMALIZE_LITERALS = False
    sys.setrecursionlimit(100000)
    program, same, asked = os.path.abspath(sys.argv[1]), 0, 0
    with tempfile.TemporaryDirectory() as folder:
        for name, words, place in calls(folder):
            found = difference(program, words, place)
            if found is None:
                continue
            asked += 1
            if found == ([], []):
                same += 1
            else:
                print(name, 'vkg alone:', found[0][:3], 'rdflib alone:', found[1][:3])
    print('%d of %d the same' % (same, asked))


if __name__ == '__main__':
    main()
