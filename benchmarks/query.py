#!/usr/bin/env python3
"""Times `vkg query` on the generated company of dump.py, by the direct mapping, and prints one line a query and size: lines (a header
and the solutions), processor seconds, peak memory.

usage: benchmarks/query.py [--against OTHER] [--only CASE] [N ..]     (default: 1000 10000 100000; build the program first, with ./vkg dump --help; VKG
names another program). With another program the two are run in turn over the same files, and the ratios of the first to the other are printed.

`load` asks for nothing: the tables are read, and their keys and references checked. `names` asks for the name of each employee: one pattern.
`departments` asks for the title of the department of each employee who has one: a join of three patterns. `optional` asks for that of all
employees, if they have one.

`gap` asks for the name of each employee, for the department, if there is one, and then for each title of it, or of any department where
there is none: of N employees one has no department; `no_gap` asks the same where all have one. `chain` asks for the title by a second
OPTIONAL, with the one that has none, and `whole_chain` where all have one. `value` asks which row has the number 7, over N rows whose mapping
also refers from each row to each (N * N + N quads), and `value_load` asks nothing of the same files.

`typed`, `twice`, `union` and `star` are an OPTIONAL with the department's class, two OPTIONALs on one subject, a UNION of two joins and ten
patterns on one subject.
"""
import os
import tempfile

import dump
import measuring

PAIRS = dump.PREFIX + '''
<#w> rr:logicalTable [ rr:tableName "w" ] ; rr:subjectMap [ rr:template "http://e/{k}" ] ;
  rr:predicateObjectMap [ rr:predicate <http://e/k> ; rr:objectMap [ rr:column "k" ] ] ;
  rr:predicateObjectMap [ rr:predicate <http://e/in> ; rr:objectMap [ rr:parentTriplesMap <#w> ;
    rr:joinCondition [ rr:child "g" ; rr:parent "g" ] ] ] .
'''


def write_company_of(folder, employees, first):
    dump.write_company(folder, employees)
    departments = employees // 10 + 1
    dump.write(folder, 'dept.csv', ['id,title'] + ['%d,D%d' % (k, k) for k in range(1, departments + 1)])
    dump.write(folder, 'emp.csv', ['id,name,dept', '1,N1,' + first] + ['%d,N%d,%d' % (i, i, i % departments + 1) for i in range(2, employees + 1)])


def write_company_with_a_gap(folder, employees):
    write_company_of(folder, employees, '\\N')


def write_company_without_a_gap(folder, employees):
    write_company_of(folder, employees, '1')


def write_pairs(folder, rows):
    dump.write(folder, 'schema.sql', ['CREATE TABLE w (k INTEGER, g INTEGER);'])
    dump.write(folder, 'w.csv', ['k,g'] + ['%d,1' % i for i in range(1, rows + 1)])
    dump.write(folder, 'mapping.ttl', [PAIRS])


COMPANY = 'PREFIX e: <http://e/emp#> PREFIX d: <http://e/dept#> SELECT '

QUERIES = [('load', dump.write_company, False, 'SELECT * {}'),
           ('names', dump.write_company, False, COMPANY + '?n { ?e e:name ?n }'),
           ('departments', dump.write_company, False, COMPANY + '?n ?t { ?e e:name ?n . ?e e:ref-dept ?d . ?d d:title ?t }'),
           ('optional', dump.write_company, False, COMPANY + '?n ?t { ?e e:name ?n OPTIONAL { ?e e:ref-dept ?d . ?d d:title ?t } }'),
           ('gap', write_company_with_a_gap, False, COMPANY + '?n ?t { ?e e:name ?n OPTIONAL { ?e e:ref-dept ?d } ?d d:title ?t }'),
           ('no_gap', write_company_without_a_gap, False, COMPANY + '?n ?t { ?e e:name ?n OPTIONAL { ?e e:ref-dept ?d } ?d d:title ?t }'),
           ('chain', write_company_with_a_gap, False, COMPANY + '?n ?t { ?e e:name ?n OPTIONAL { ?e e:ref-dept ?d } OPTIONAL { ?d d:title ?t } }'),
           ('whole_chain', write_company_without_a_gap, False,
            COMPANY + '?n ?t { ?e e:name ?n OPTIONAL { ?e e:ref-dept ?d } OPTIONAL { ?d d:title ?t } }'),
           ('value', write_pairs, True, 'SELECT ?s { ?s <http://e/k> 7 }'),
           ('value_load', write_pairs, True, 'SELECT * {}'),
           ('typed', dump.write_company, False, COMPANY + '?n ?t { ?e e:name ?n OPTIONAL { ?e e:ref-dept ?d . ?d a <http://e/dept> . ?d d:title ?t } }'),
           ('twice', dump.write_company, False, COMPANY + '?n ?d { ?e a <http://e/emp> OPTIONAL { ?e e:name ?n } OPTIONAL { ?e e:ref-dept ?d } }'),
           ('union', dump.write_company, False,
            COMPANY + '?n ?t { { ?e e:name ?n . ?e e:ref-dept ?t } UNION { ?e e:ref-dept ?d . ?d d:title ?n . ?e e:id ?t } }'),
           ('star', dump.write_company, False,
            COMPANY + '* { ?e a ?c ; e:id ?i ; e:name ?n ; e:dept ?d ; e:ref-dept ?r ; a ?c2 ; e:id ?i2 ; e:name ?n2 ; e:dept ?d2 ; e:ref-dept ?r2 }')]


def words_of(folder, mapping):
    words = ['query', '--schema', folder + '/schema.sql', '--data', folder, '--base', 'http://e/', '--query', folder + '/query.rq']
    return words + (['--mapping', folder + '/mapping.ttl'] if mapping else [])


def main():
    sizes, programs, only = measuring.options(__doc__, [1000, 10000, 100000])
    for name, write_case, mapping, query in QUERIES:
        for rows in sizes if only in (None, name) else []:
            with tempfile.TemporaryDirectory() as folder:
                write_case(folder, rows)
                dump.write(folder, 'query.rq', [query])
                measuring.tell('%s %d' % (name, rows), 'lines', programs, words_of(folder, mapping), os.path.join(folder, 'out.tsv'))


if __name__ == '__main__':
    main()
