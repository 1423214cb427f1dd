#!/usr/bin/env python3
"""Measures what input costs that is made to be slow, beside input of the same form and size that is not.

usage: benchmarks/chosen.py [--vkg PROGRAM] [--only CASE] [--timeout SECONDS] [N..]

Texts of one hash are made for std's fast hasher, whose seed is fixed, and which the program had until its hashes had a seed of their own: it multiplies two numbers of 8 bytes, of which the
first is the state so far and 8 bytes of the text, joined by xor. Where these are equal the product is 0 whatever the other 8 bytes are. A line tells the case,
its size, the processor seconds of the call, its peak of memory, and how it ended.
"""
import argparse
import os
import resource
import signal
import subprocess
import sys
import tempfile
from pathlib import Path

from measuring import PROGRAM

MASK = 2**64 - 1
MULTIPLIER = 0x9E3779B97F4A7C15
FIRST_STATE = 0x243F6A8885A308D3
PLAIN = set(b"abcdefghijklmnopqrstuvwxyzABCDEFGHIJKLMNOPQRSTUVWXYZ0123456789_")
SIZES = [5000, 10000, 20000, 40000]


def mixed(left, right):
    """The two halves of a product, joined by xor."""
    product = left * right
    return product & MASK ^ product >> 64


IN_A_LIST = mixed(FIRST_STATE ^ 1, MULTIPLIER ^ 16)  # behind the length of a list of one text, which is how a key of one column is hashed


def number_of(text):
    """8 bytes as a number."""
    return int.from_bytes(text, "little")


def after(state, block):
    """The state behind a block of 16 bytes."""
    return mixed(number_of(block[:8]) ^ state, number_of(block[8:]) ^ MULTIPLIER)


def texts_of_one_hash(count, state=FIRST_STATE, letter="a"):
    """So many texts of 48 letters and digits, which begin with this letter and leave the hasher in one state, if it is in this one before them."""
    for number in range(10**9):
        block = b"%s%015d" % (letter.encode(), number)
        equal = after(state + 48 & MASK, block).to_bytes(8, "little")
        if PLAIN.issuperset(equal):
            return [(block + equal + b"%08d" % each + b"0123456789abcdef").decode() for each in range(count)]


def plain_texts(count):
    """So many texts of the same length and first letter."""
    return [f"a{each * 7919 % 10**8:047d}" for each in range(count)]


def rows(texts):
    """A file of a table: rows with a number and a text."""
    return "id,t\n" + "".join(f"{number},{text}\n" for number, text in enumerate(texts))


LOAD = "query --schema schema.sql --data . --base http://e/ --query query.rq"
PLAN = "sql --schema schema.sql --base http://e/ --query query.rq"
TABLE = "CREATE TABLE t (id INT PRIMARY KEY, t VARCHAR(99)%s);"
PREFIX = "@prefix rr: <http://www.w3.org/ns/r2rml#> . "
MAP = "<#m> rr:logicalTable [ rr:tableName 't' ] ; rr:subject <http://e/s> ."


def loaded(texts, key=""):
    """A call that loads a table of these texts."""
    return LOAD, {"schema.sql": TABLE % key, "t.csv": rows(texts)}


def planned(query):
    """A call that reads a query."""
    return PLAN, {"schema.sql": TABLE % "", "query.rq": query}


def mapped(mapping):
    """A call that reads a mapping."""
    return PLAN + " --mapping mapping.ttl", {"schema.sql": TABLE % "", "mapping.ttl": mapping}


def prefixes(texts):
    """A mapping that declares prefixes of these names."""
    return mapped(PREFIX + "".join(f"@prefix {text}: <http://e/> . " for text in texts) + MAP)


def literals(texts):
    """A mapping with a triple for each of these literals."""
    return mapped(PREFIX + MAP + " <#m> <http://e/p> " + ", ".join(texts) + " .")


def shared(classes, node):
    """1,024 maps, whose subject map is one node or a node each."""
    head = PREFIX + "@prefix : <http://e/> . "
    subject = "rr:template 'http://e/{id}' ; rr:class " + ", ".join(f":c{number}" for number in range(classes))
    maps = "".join(f"<#m{number}> rr:logicalTable [ rr:tableName 't' ] ; rr:subjectMap {node % number if '%' in node else node} . " for number in range(1024))
    return mapped(head + maps + f"_:s {subject} .")


def cases(size):
    """The name of each case, its words and its files."""
    yield "cells of one hash", *loaded(texts_of_one_hash(size))
    yield "other cells", *loaded(plain_texts(size))
    yield "keys of one hash", *loaded([text[1:] for text in texts_of_one_hash(size, IN_A_LIST, "1")], ", UNIQUE (t)")
    yield "other keys", *loaded([text[1:] for text in plain_texts(size)], ", UNIQUE (t)")
    yield "prefixes of one hash", *prefixes(texts_of_one_hash(size))
    yield "other prefixes", *prefixes(plain_texts(size))
    yield "literals of one text with so many language tags", *literals(f"'x'@a-{number}" for number in range(size))
    yield "other literals", *literals(f"'x-{number}'@a" for number in range(size))
    yield "BASE <a/>, so many times", *planned("BASE <a/> " * size + "SELECT * {}")
    yield "BASE <http://e/>, so many times", *planned("BASE <http://e/> " * size + "SELECT * {}")
    yield "BASE <#a>, so many times behind a long base", *planned(f"BASE <http://e/{'a' * 10 * size}> " + "BASE <#a> " * size + "SELECT * {}")
    yield "BASE <./a/>, so many times", *planned("BASE <./a/> " * size + "SELECT * {}")
    yield "@base <a/>, so many times", *mapped("@base <a/> . " * size + PREFIX + MAP)
    yield "@base <http://e/>, so many times", *mapped("@base <http://e/> . " * size + PREFIX + MAP)
    yield "1,024 maps with one subject map of so many classes", *shared(size, "_:s")
    yield "1,024 maps with a subject map each, and one of so many classes", *shared(size, "[ rr:template 'http://e/{id}' ]")


def measure(program, words, folder, timeout):
    """The processor seconds of a call, its peak in MiB, and how it ended."""
    with open(Path(folder, "err"), "w+b") as err:
        process = subprocess.Popen([program, *words.split()], cwd=folder, stdout=subprocess.DEVNULL, stderr=err,
                                   preexec_fn=lambda: resource.setrlimit(resource.RLIMIT_CPU, (timeout, timeout)))
        _, status, usage = os.wait4(process.pid, 0)
        err.seek(0)
        told = err.read().decode().strip()
    code = os.waitstatus_to_exitcode(status)
    ended = f"cut off after {timeout} s" if code in (-signal.SIGXCPU, -signal.SIGKILL) else f"status {code} {told}"
    return usage.ru_utime + usage.ru_stime, usage.ru_maxrss / 1024, ended.strip()


def main():
    """Measures each case at each size."""
    parser = argparse.ArgumentParser(description=__doc__, formatter_class=argparse.RawDescriptionHelpFormatter)
    parser.add_argument("sizes", metavar="N", type=int, nargs="*", default=SIZES)
    parser.add_argument("--vkg", metavar="PROGRAM", default=PROGRAM)
    parser.add_argument("--only", metavar="CASE", default="", help="cases with this in their name alone")
    parser.add_argument("--timeout", type=int, default=120, help="processor seconds that a call may take")
    options = parser.parse_args()
    for size in options.sizes:
        for name, words, files in cases(size):
            if options.only not in name:
                continue
            with tempfile.TemporaryDirectory() as folder:
                for file, text in {"query.rq": "SELECT * {}", **files}.items():
                    Path(folder, file).write_text(text, encoding="ascii")
                seconds, peak, ended = measure(os.path.abspath(options.vkg), words, folder, options.timeout)
            print(f"{name}, {size}: {seconds:.2f} s, {peak:.0f} MiB, {ended}", flush=True)


if __name__ == "__main__":
    main()
