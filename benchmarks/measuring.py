"""What the benchmarks share: a call of a program with what it cost, and two programs in turn over the same files."""
import argparse
import os
import subprocess
import sys

PROGRAM = os.environ.get('VKG') or os.path.join(os.path.dirname(os.path.abspath(__file__)), '..', 'crates', 'vkg', 'out', 'vkg')
RUNS = 3  # of each program; the least time and the greatest peak are told


def run(program, words, out):
    """The status of a call, its processor seconds, its peak memory in MiB, and how many lines it wrote to the file `out`."""
    with open(out, 'wb') as sink:
        process = subprocess.Popen([program] + words, stdout=sink)
        _, status, usage = os.wait4(process.pid, 0)
    with open(out, 'rb') as file:
        return os.waitstatus_to_exitcode(status), usage.ru_utime + usage.ru_stime, usage.ru_maxrss / 1024, sum(1 for _ in file)


def measured(program, words, out):
    """What a call cost that has to end with 0: processor seconds, peak memory in MiB, lines."""
    status, *cost = run(program, words, out)
    if status != 0:
        sys.exit('%s ended with status %d' % (program, status))
    return cost


def in_turn(programs, words, out):
    """Of each program the least processor seconds, the greatest peak, and the lines that it wrote, over runs in turn."""
    runs = [[measured(program, words, out) for program in programs] for _ in range(RUNS)]
    return [(min(r[0] for r in each), max(r[1] for r in each), each[0][2]) for each in zip(*runs)]


def tell(case, counted, programs, words, out):
    """Prints a line for each program, and behind them the ratios of the first to each other one."""
    found = in_turn(programs, words, out)
    for program, (seconds, peak, lines) in zip(programs, found):
        name = '' if len(programs) == 1 else os.path.basename(program) + ': '
        print('%s%s: %d %s, %.2f s, %.0f MiB' % (name, case, lines, counted, seconds, peak), flush=True)
    for other in found[1:]:
        print('%s: ratio of the seconds %.2f, of the peaks %.2f' % (case, found[0][0] / max(other[0], 0.001), found[0][1] / other[1]), flush=True)


def options(about, sizes):
    """The words of a benchmark: sizes, and a program to compare with."""
    parser = argparse.ArgumentParser(description=about, formatter_class=argparse.RawDescriptionHelpFormatter)
    parser.add_argument('sizes', metavar='N', type=int, nargs='*', default=sizes)
    parser.add_argument('--against', metavar='OTHER', help='another program, asked in turn over the same files')
    parser.add_argument('--only', metavar='CASE', help='this case alone')
    found = parser.parse_args()
    return found.sizes, [PROGRAM] + ([found.against] if found.against else []), found.only
