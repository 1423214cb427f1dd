#!/usr/bin/env python3
"""Times the plans of queries in PostgreSQL beside `vkg query`, over the generated company of dump.py by the direct mapping, and prints one
line for loading and one a query: rows, processor seconds of each.

usage: benchmarks/postgres.py [--explain] [N ..]     (default: 100000; build the program first; VKG names another program)

PostgreSQL is a server of its own (tools/postgres/server.py), with one process a query. Its seconds are those of that process, from the text of
the query to the last row sent; those of `vkg query` hold the reading and checking of the tables, which the query `load` does alone. `tables` tells
what copying and checking them once cost in PostgreSQL. The lines of both are compared once they are sorted. With `--explain` the plans that PostgreSQL chose are
printed, too. The queries are some of query.py's, and `point`, which asks for one employee's name by the employee's IRI.
"""
import argparse
import io
import os
import subprocess
import sys
import tempfile

import dump
import measuring
import query as queries

sys.path.insert(0, os.path.join(os.path.dirname(os.path.abspath(__file__)), '..', 'tools', 'postgres'))
from load import write_script
from plan import query_of
from server import Server, folder_of_programs

ASKED = ('load', 'names', 'departments', 'optional', 'union')
DISTINCT = queries.COMPANY + 'DISTINCT ?n { ?e e:name ?n }'
POINT = queries.COMPANY + '?n { <http://e/emp/id=%d> e:name ?n }'
PRELUDE = os.path.join(os.path.dirname(os.path.abspath(__file__)), '..', 'tools', 'postgres', 'prelude.sql')
# One processor a query, as `vkg` has it.
SETTINGS = {'max_parallel_workers_per_gather': '0', 'jit': 'off', 'client_min_messages': 'warning', 'shared_buffers': '512MB', 'work_mem': '128MB'}
# The clock ticks that the process of a session has used so far: the 14th and 15th field of its line in /proc.
TICKS = "SELECT f[12]::bigint + f[13]::bigint FROM regexp_split_to_array(regexp_replace(pg_read_file('/proc/self/stat', 0, 1000), '.*\\) ', ''), ' ') AS f;"


def psql(server, script):
    """Runs a script, and gives what it prints."""
    words = ['psql', '-X', '-q', '-At', '-F', '\t', '-v', 'ON_ERROR_STOP=1', '-f', '-']
    done = subprocess.run(words, input=script.encode(), env=server.environment, stdout=subprocess.PIPE, check=False)
    if done.returncode != 0:
        sys.exit('psql ended with status %d' % done.returncode)
    return done.stdout.decode()


def timed(server, script):
    """The processor seconds of a server's process for a script that prints nothing."""
    ticks = psql(server, '%s\n%s\n%s\n' % (TICKS, script, TICKS)).split()
    return (int(ticks[1]) - int(ticks[0])) / os.sysconf('SC_CLK_TCK')


def bytes_of(path):
    with open(path, 'rb') as file:
        return file.read()


def load(server, folder, employees):
    """Generates, copies and checks the tables, and tells what that cost."""
    dump.write_company(folder, employees)
    script = io.StringIO()
    write_script(bytes_of(folder + '/schema.sql'), folder, script)
    psql(server, 'DROP TABLE IF EXISTS emp, dept')
    seconds = timed(server, script.getvalue())
    size = psql(server, "SELECT pg_total_relation_size('emp') + pg_total_relation_size('dept')")
    print('tables %d: %.2f s, %d MiB of tables and indexes' % (employees, seconds, int(size) >> 20), flush=True)


def tell(server, folder, name, text, explain):
    """One query by both: what each cost, and whether they say the same."""
    dump.write(folder, 'query.rq', [text])
    words = queries.words_of(folder, False)
    ours, peak, lines = measuring.measured(measuring.PROGRAM, words, folder + '/vkg.tsv')
    place = words.index('--data')
    plan = subprocess.run([measuring.PROGRAM, 'sql', *words[1:place], *words[place + 2:]], capture_output=True, check=True).stdout
    query = query_of(bytes_of(folder + '/schema.sql'), plan)
    theirs = timed(server, "\\o '%s/postgres.tsv'\n%s\\o" % (folder, query))
    expected, found = (bytes_of('%s/%s.tsv' % (folder, one)).split(b'\n')[:-1] for one in ('vkg', 'postgres'))
    is_same = expected[1:] == sorted(found)
    print('%s: %d lines, %s; vkg query %.2f s, %.0f MiB; PostgreSQL %.2f s'
          % (name, lines - 1, 'the same' if is_same else 'DIFFERENT', ours, peak, theirs), flush=True)
    if explain:
        print(query + psql(server, 'EXPLAIN (COSTS OFF) ' + query), flush=True)
    return is_same


def main():
    parser = argparse.ArgumentParser(description=__doc__, formatter_class=argparse.RawDescriptionHelpFormatter)
    parser.add_argument('sizes', metavar='N', type=int, nargs='*', default=[100000])
    parser.add_argument('--explain', action='store_true', help='print the plans that PostgreSQL chose')
    options = parser.parse_args()
    if folder_of_programs() is None:
        sys.exit('postgres.py: PostgreSQL is not installed')
    texts = {name: text for name, _, _, text in queries.QUERIES if name in ASKED} | {'distinct': DISTINCT, 'point': POINT}
    is_same = True
    with Server(SETTINGS) as server:
        psql(server, bytes_of(PRELUDE).decode())
        for employees in options.sizes:
            with tempfile.TemporaryDirectory() as folder:
                load(server, folder, employees)
                for name, text in texts.items():
                    is_same &= tell(server, folder, name, text % (employees // 2 + 1) if name == 'point' else text, options.explain)
    sys.exit(not is_same)


if __name__ == '__main__':
    main()
