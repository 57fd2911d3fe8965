#!/usr/bin/env python3
"""Million asks a second of one thread: at a session, at a desk, and at a board, which is a desk behind a lock.

Usage: bench/asking.py [PROGRAM [RUNS]]

PROGRAM is the built program, crates/tools/out/tools if left out; 'rt run' in crates/tools makes it.

The only guest thread is in a loop without an end, with contexts 1000, calls 100000 and seed 42. A round opens a new
session, desk or board and fills a ring of 1,024 calls 97 times; the tap, on the same thread, empties it each time.
The time is that of the clock. Opening is not counted, and what the tap takes is counted apart; a session has no ring.
The program makes 100 rounds of each case. Each figure is the median of RUNS runs of the program, 5 if left out.
"""
import os
import statistics
import subprocess
import sys

TOP = os.path.dirname(os.path.dirname(os.path.abspath(__file__)))


def run(program):
    """Of each case how many asks there were, the seconds of asking, and the seconds of taking."""
    printed = subprocess.run([program, "times"], check=True, stdout=subprocess.PIPE).stdout.decode()
    rows = [line.split("\t") for line in printed.splitlines()]
    return {case: (int(asks), float(asking), float(taking)) for case, asks, asking, taking in rows}


def medians(results, case):
    """The million asks a second of a case, the least and the most, and those with what the tap takes."""
    rows = [result[case] for result in results]
    asked = [asks / asking / 1e6 for asks, asking, _ in rows]
    both = [asks / (asking + taking) / 1e6 for asks, asking, taking in rows]
    return statistics.median(asked), min(asked), max(asked), statistics.median(both)


def main():
    program = sys.argv[1] if len(sys.argv) > 1 else os.path.join(TOP, "crates/tools/out/tools")
    runs = int(sys.argv[2]) if len(sys.argv) > 2 else 5
    results = [run(program) for _ in range(runs)]
    print("%-16s %23s %7s %7s %15s" % ("", "million asks a second", "least", "most", "asked and taken"))
    for case in results[0]:
        print("%-16s %23.1f %7.1f %7.1f %15.1f" % (case, *medians(results, case)))


if __name__ == "__main__":
    main()
