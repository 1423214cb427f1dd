#!/usr/bin/env python3
"""Runs a call of the program again and again, the first time with its first growth of memory refused, then with its second, and so on.

usage: tools/refuse_each_growth.py --vkg PROGRAM [--from-then-on] [--first N] [--last N] [--step K] WORD..

WORD.. are the words of one call, without the program's name; files are named as seen from the folder that this is run in. A growth
is a call of malloc, calloc, realloc, aligned_alloc, memalign or posix_memalign: a small library in front of the C library, which gcc
compiles into a folder that is deleted in the end, counts them alike and answers the Nth as if there were no memory. It can do so where the program is linked
with the C library of the system (`crates/vkg/out/vkg` is). With --from-then-on all growths from the Nth on are refused.

Each run has to end with 10, nothing written and the line of want of memory, or with 0 and the whole text of a run in which none is refused. A run
that ends otherwise is told, and the status is then 1. The last lines are the counts.
"""
import argparse
import collections
import mmap
import os
import struct
import subprocess
import sys
import tempfile

LIBRARY = r"""
#include <errno.h>
#include <fcntl.h>
#include <stddef.h>
#include <stdlib.h>
#include <sys/mman.h>
#include <unistd.h>

void *__libc_malloc(size_t);
void *__libc_calloc(size_t, size_t);
void *__libc_realloc(void *, size_t);
void *__libc_memalign(size_t, size_t);

/* The number of growths so far, the number of the one to refuse, and whether all behind it are refused, too. */
struct state { long count, refused, all; };
static struct state *state;

__attribute__((constructor)) static void begin(void) {
    int file = open(getenv("GROWTHS"), O_RDWR);
    if (file < 0) _exit(99);
    struct state *found = mmap(NULL, sizeof *found, PROT_READ | PROT_WRITE, MAP_SHARED, file, 0);
    if (found == MAP_FAILED) _exit(99);
    close(file);
    alarm(600);
    state = found;
}

static int is_refused(void) {
    if (!state) return 0;
    state->count += 1;
    if (state->refused == 0 || state->count < state->refused) return 0;
    if (state->count > state->refused && !state->all) return 0;
    errno = ENOMEM;
    return 1;
}

void *malloc(size_t size) { return is_refused() ? NULL : __libc_malloc(size); }
void *calloc(size_t count, size_t size) { return is_refused() ? NULL : __libc_calloc(count, size); }
void *realloc(void *old, size_t size) { return is_refused() ? NULL : __libc_realloc(old, size); }
void *memalign(size_t align, size_t size) { return is_refused() ? NULL : __libc_memalign(align, size); }
void *aligned_alloc(size_t align, size_t size) { return is_refused() ? NULL : __libc_memalign(align, size); }

int posix_memalign(void **out, size_t align, size_t size) {
    if (is_refused()) return ENOMEM;
    *out = __libc_memalign(align, size);
    return *out ? 0 : ENOMEM;
}
"""
STATE = "@lll"
TOLD = b"vkg: want of memory\n"


class Growths:
    """The library, and the file by which it is told what to refuse and tells how many growths there were."""

    def __init__(self, folder, words):
        self.words = words
        self.streams = [open(os.memfd_create(name), "w+b", buffering=0) for name in ("out", "err")]
        library = os.path.join(folder, "growths.so")
        source = os.path.join(folder, "growths.c")
        with open(source, "w", encoding="ascii") as file:
            file.write(LIBRARY)
        subprocess.run(["gcc", "-O1", "-shared", "-fPIC", "-o", library, source], check=True)
        with open(os.path.join(folder, "state"), "w+b") as file:
            file.write(bytes(struct.calcsize(STATE)))
            file.flush()
            self.state = mmap.mmap(file.fileno(), 0)
            self.environment = {**os.environ, "LD_PRELOAD": library, "GROWTHS": file.name}

    def run(self, refused, is_all):
        """The status, output and line of a run, and how many growths it asked for; refused 0: none."""
        struct.pack_into(STATE, self.state, 0, 0, refused, is_all)
        for file in self.streams:
            file.seek(0)
            file.truncate()
        ended = subprocess.run(self.words, env=self.environment, stdin=subprocess.DEVNULL, stdout=self.streams[0], stderr=self.streams[1], check=False)
        texts = [os.pread(file.fileno(), os.fstat(file.fileno()).st_size, 0) for file in self.streams]
        return (ended.returncode, *texts), struct.unpack_from(STATE, self.state)[0]


def read_options():
    """The options of the call."""
    parser = argparse.ArgumentParser(description=__doc__, usage=argparse.SUPPRESS, formatter_class=argparse.RawDescriptionHelpFormatter)
    parser.add_argument("--vkg", metavar="PROGRAM", required=True, help="the built program")
    parser.add_argument("--from-then-on", action="store_true", help="refuse all growths from the Nth on")
    parser.add_argument("--first", type=int, default=1, metavar="N", help="the first growth that is refused (1)")
    parser.add_argument("--last", type=int, metavar="N", help="the last one (all that there are, and one more)")
    parser.add_argument("--step", type=int, default=1, metavar="K", help="only every Kth from the first on (1)")
    parser.add_argument("words", nargs=argparse.REMAINDER, metavar="WORD", help="the words of the call")
    options = parser.parse_args()
    if not options.words or options.first < 1 or options.step < 1:
        parser.error("the words of a call are needed")
    return options


def kind_of(ended, whole):
    """How a run ended, beside the one in which nothing is refused."""
    if ended == (10, b"", TOLD):
        return "ended with 10 and nothing written"
    return "ended with 0 and the whole text" if ended == whole else "FOUND"


def refuse_each(growths, options):
    """Runs the call until N passes the number of growths; the counts of how the runs ended."""
    whole, most = growths.run(0, False)
    if whole[0] != 0 or whole[2] or most == 0:
        sys.exit(f"refuse_each_growth: with nothing refused the call ends with {whole[0]} after {most} growths: {whole[2]!r}")
    last = most + 1 if options.last is None else options.last
    print(f"{most} growths in a run in which none is refused")
    counts = collections.Counter()
    for number in range(options.first, last + 1, options.step):
        ended, asked = growths.run(number, options.from_then_on)
        kind = kind_of(ended, whole)
        counts[kind] += 1
        if kind == "FOUND":
            print(f"growth {number}: status {ended[0]}, {len(ended[1])} bytes written, {ended[2][:200]!r}", flush=True)
        if number > most and (asked != most or ended != whole):
            counts["FOUND"] += 1
            print(f"growth {number}: {asked} growths where {most} were asked for before", flush=True)
    return counts


def main():
    """Refuses each growth of one call, and prints the counts."""
    options = read_options()
    with tempfile.TemporaryDirectory() as folder:
        counts = refuse_each(Growths(folder, [os.path.abspath(options.vkg), *options.words]), options)
    for kind, count in sorted(counts.items()):
        print(f"{count} runs {kind}")
    sys.exit(counts["FOUND"] > 0)


if __name__ == "__main__":
    main()
