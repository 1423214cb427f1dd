#!/usr/bin/env python3
"""Times `vkg dump` on generated tables, and prints one line a case and size: rows, quads, processor seconds, peak memory.

usage: benchmarks/dump.py [--against OTHER] [--only CASE] [N ..]     (default: 10000 100000; build the program first, with ./vkg dump --help; VKG
names another program). With another program the two are run in turn over the same files, and the ratios of the first to the other are printed.

`direct` and `mapping` dump a company of N employees, which has N / 10 + 1 departments, rounded down. Department k has the title
`D` and k, NULL where 5 divides k. Employee i has the name `N` and the remainder of i by 7, and the department of number 1 plus the
remainder of i by the number of departments, NULL where 4 divides i. The mapping has classes, templates, a graph and a join.
`join` dumps N children that refer to N parents, one to one, by a referencing object map. `triples` reads a mapping of N triples that
are no part of R2RML, over an empty table. Each size is run three times, and the least time is printed.
"""
import os
import tempfile

import measuring

COMPANY = ('CREATE TABLE dept (id INTEGER PRIMARY KEY, title VARCHAR(20)); '
           'CREATE TABLE emp (id INTEGER PRIMARY KEY, name VARCHAR(20), dept INTEGER REFERENCES dept);\n')

PREFIX = '@prefix rr: <http://www.w3.org/ns/r2rml#> .\n'

MAPPING = PREFIX + '''
<#emp> rr:logicalTable [ rr:tableName "emp" ] ; rr:subjectMap [ rr:template "emp/{id}" ; rr:class <http://e/Emp> ] ;
  rr:predicateObjectMap [ rr:predicate <http://e/name> ; rr:objectMap [ rr:column "name" ] ; rr:graph <http://e/g> ] ;
  rr:predicateObjectMap [ rr:predicate <http://e/in> ; rr:objectMap [ rr:parentTriplesMap <#dept> ;
    rr:joinCondition [ rr:child "dept" ; rr:parent "id" ] ] ] .
<#dept> rr:logicalTable [ rr:tableName "dept" ] ; rr:subjectMap [ rr:template "dept/{id}" ] ;
  rr:predicateObjectMap [ rr:predicate <http://e/title> ; rr:objectMap [ rr:column "title" ] ] .
'''

JOIN = PREFIX + '''
<#child> rr:logicalTable [ rr:tableName "child" ] ; rr:subjectMap [ rr:template "child/{id}" ] ;
  rr:predicateObjectMap [ rr:predicate <http://e/of> ; rr:objectMap [ rr:parentTriplesMap <#parent> ;
    rr:joinCondition [ rr:child "parent" ; rr:parent "code" ] ] ] .
<#parent> rr:logicalTable [ rr:tableName "parent" ] ; rr:subjectMap [ rr:template "parent/{id}" ] .
'''


def write(folder, name, lines):
    with open(os.path.join(folder, name), 'w') as file:
        file.writelines(line + '\n' for line in lines)


def write_company(folder, employees):
    departments = employees // 10 + 1
    write(folder, 'schema.sql', [COMPANY])
    write(folder, 'dept.csv', ['id,title'] + ['%d,%s' % (k, r'\N' if k % 5 == 0 else 'D%d' % k) for k in range(1, departments + 1)])
    write(folder, 'emp.csv', ['id,name,dept'] + ['%d,N%d,%s' % (i, i % 7, r'\N' if i % 4 == 0 else str(i % departments + 1))
                                                 for i in range(1, employees + 1)])
    write(folder, 'mapping.ttl', [MAPPING])


def write_join(folder, rows):
    write(folder, 'schema.sql', ['CREATE TABLE child (id INTEGER PRIMARY KEY, parent INTEGER); '
                                 'CREATE TABLE parent (id INTEGER PRIMARY KEY, code INTEGER);'])
    write(folder, 'child.csv', ['id,parent'] + ['%d,%d' % (i, rows - i) for i in range(rows)])
    write(folder, 'parent.csv', ['id,code'] + ['%d,%d' % (i, i + 1) for i in range(rows)])
    write(folder, 'mapping.ttl', [JOIN])


def write_triples(folder, triples):
    write(folder, 'schema.sql', ['CREATE TABLE t (id INTEGER PRIMARY KEY);'])
    write(folder, 't.csv', ['id'])
    write(folder, 'mapping.ttl', [PREFIX, '<#t> rr:logicalTable [ rr:tableName "t" ] ; rr:subject <http://e/t> .']
          + ['<#n%d> <http://e/p> "%d" .' % (i, i) for i in range(triples)])


def words_of(folder, mapping):
    words = ['dump', '--schema', folder + '/schema.sql', '--data', folder, '--base', 'http://e/']
    return words + (['--mapping', folder + '/mapping.ttl'] if mapping else [])


CASES = [('direct', write_company, False), ('mapping', write_company, True), ('join', write_join, True), ('triples', write_triples, True)]


def main():
    sizes, programs, only = measuring.options(__doc__, [10000, 100000])
    for name, write_case, mapping in CASES:
        for rows in sizes if only in (None, name) else []:
            with tempfile.TemporaryDirectory() as folder:
                write_case(folder, rows)
                measuring.tell('%s %d' % (name, rows), 'quads', programs, words_of(folder, mapping), os.path.join(folder, 'out.nq'))


if __name__ == '__main__':
    main()
