#!/usr/bin/env python3
"""How many runs 'btrun test' makes until an assertion fails, and how long that takes.

Usage: bench/testing.py [PROGRAM [SEEDS]]

PROGRAM is the built program, crates/btrun/out/btrun if left out. Each row is a program and a number of contexts, tested
from SEEDS seeds (20 if left out) that lie a million apart, by at most 100,000 runs each: how many of these tests found a
failure, the mean number of runs up to the first one, its share of the runs in percent, and the mean milliseconds by the
clock with all that starting the program costs. The long program has two threads that each count to 15 before each access.
"""
import os
import subprocess
import sys
import tempfile
import time

RUNS = 100_000
CONTEXTS = (2, 3, 4, 5, 8, 16, 32)

COUNT = "while (!(a & b & c & d)) do a, b, c, d := !a, b ^ a, c ^ (a & b), d ^ (a & b & c); od a, b, c, d := 0, 0, 0, 0;\n"
LONG = (
    "decl x, y;\n"
    "first() begin decl a, b, c, d;\n" + COUNT + "x := 1;\n" + COUNT + "y := 1;\n" + COUNT + "x := 0;\nend\n"
    "second() begin decl a, b, c, d;\n" + COUNT + "assume (x);\n" + COUNT + "assert (!(x & y));\nend\n"
)

PROGRAMS = [
    ("race", "examples/race/race.bp", ["writer", "reader"]),
    ("bluetooth", "examples/bluetooth/bluetooth.bp", ["worker", "stopper", "--init", "00001"]),
    ("exchanged", "examples/peterson/exchanged.bp", ["first", "second"]),
    ("long", None, ["first", "second"]),
]


def runs_of(told):
    """How many runs a test made, and whether one failed."""
    lines = told.decode().splitlines()
    return int(lines[2].split()[1].rstrip(",")), lines[0].startswith("an assertion")


def row(program, name, file, words, contexts, seeds):
    """Prints a row of the table."""
    made, found, start = 0, 0, time.monotonic()
    for number in range(seeds):
        options = ["--contexts", str(contexts), "--seed", str(1_000_000 * number), "--runs", str(RUNS)]
        tested = subprocess.run([program, "test", file, *words, *options], capture_output=True)
        runs, has_failed = runs_of(tested.stderr)
        made, found = made + runs, found + has_failed
    passed = (time.monotonic() - start) * 1000 / seeds
    mean = "%10.0f %9.3f" % (made / found, 100 * found / made) if found else "%10s %9s" % ("-", "-")
    print("%-10s %8d %7d %s %9.1f" % (name, contexts, found, mean, passed), flush=True)


def main():
    program = os.path.abspath(sys.argv[1] if len(sys.argv) > 1 else "crates/btrun/out/btrun")
    seeds = int(sys.argv[2]) if len(sys.argv) > 2 else 20
    print("%-10s %8s %7s %10s %9s %9s" % ("program", "contexts", "found", "mean runs", "percent", "ms"))
    with tempfile.NamedTemporaryFile("w", suffix=".bp") as long:
        long.write(LONG)
        long.flush()
        for name, file, words in PROGRAMS:
            for contexts in CONTEXTS:
                row(program, name, file or long.name, words, contexts, seeds)


if __name__ == "__main__":
    main()
