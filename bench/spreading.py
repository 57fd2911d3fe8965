#!/usr/bin/env python3
"""How many different interleavings 200 runs of 'btrun run' have, without and with '--spread'.

Usage: bench/spreading.py [PROGRAM [RUNS]]

PROGRAM is the built program, crates/btrun/out/btrun if left out. Each thread makes 20 steps, by turns of one call, within
1,000 contexts; the runs have the seeds from 1 on. An interleaving is the order of the threads in the steps of a trace.
Also the milliseconds of a run, with all that starting the program costs.
"""
import os
import subprocess
import sys
import tempfile
import time

TEXT = b"main() begin " + b"skip; " * 19 + b"end\n"


def interleaving(trace):
    """The threads of the steps of a trace, in order."""
    lines = (line.split() for line in trace.splitlines())
    return tuple(int(fields[0]) for fields in lines if fields[2:] == [b"s"])


def row(program, threads, words, runs):
    """Prints how many interleavings some runs have, how often the most frequent one comes, and how long a run takes."""
    found = {}
    start = time.monotonic()
    for seed in range(1, runs + 1):
        command = [program, "run", "p.bp", *["main"] * threads, "--contexts", "1000", "--seed", str(seed), *words]
        order = interleaving(subprocess.run(command, check=True, stdout=subprocess.PIPE).stdout)
        assert len(order) == 20 * threads
        found[order] = found.get(order, 0) + 1
    passed = (time.monotonic() - start) * 1000 / runs
    name = "%d threads%s" % (threads, "".join(", " + word for word in words))
    print("%-22s %9d %14d %12.1f" % (name, len(found), max(found.values()), passed), flush=True)


def main():
    program = os.path.abspath(sys.argv[1] if len(sys.argv) > 1 else "crates/btrun/out/btrun")
    runs = int(sys.argv[2]) if len(sys.argv) > 2 else 200
    with tempfile.TemporaryDirectory() as folder:
        os.chdir(folder)
        with open("p.bp", "wb") as file:
            file.write(TEXT)
        print("%-22s %9s %14s %12s" % ("%d runs" % runs, "different", "most frequent", "ms a run"))
        for threads in (2, 4):
            for words in ([], ["--spread"]):
                row(program, threads, words, runs)


if __name__ == "__main__":
    main()
