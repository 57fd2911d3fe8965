#!/usr/bin/env python3
"""How 'btrun test --jobs' uses several processors, beside tests that share nothing.

Usage: bench/scaling.py [PROGRAM [TIMES]]

PROGRAM is the built program, crates/btrun/out/btrun if left out. A row is a program and a number of jobs: the seconds by
the clock of a test with as many jobs, and of as many tests with one job each, side by side, that make these runs
together. Each is the least of TIMES (5 if left out), and comes with how many times faster it is than one job. The tests
side by side share no memory, so what they gain is what the machine gives.
"""
import os
import subprocess
import sys
import time

JOBS = (1, 2, 4, 8)
PROGRAMS = [
    ("examples/peterson/peterson.bp", ["first", "second", "--contexts", "5"], 500_000),
    ("examples/bluetooth/mended.bp", ["worker", "stopper", "--init", "00001", "--contexts", "6"], 2_000_000),
]


def passed(commands):
    """The seconds until the last of these commands has ended, which run side by side."""
    start = time.monotonic()
    running = [subprocess.Popen(it, stdout=subprocess.DEVNULL, stderr=subprocess.DEVNULL) for it in commands]
    assert all(it.wait() == 0 for it in running)
    return time.monotonic() - start


def measured(program, kind, jobs, times):
    """The least seconds of a test with as many jobs, and of as many tests with one job each, side by side."""
    file, words, runs = kind
    share = runs // jobs
    test = lambda made, seed, jobs: [program, "test", file, *words, "--runs", str(made), "--seed", str(seed), "--jobs", str(jobs)]
    shared = min(passed([test(runs, 42, jobs)]) for _ in range(times))
    return shared, min(passed([test(share, 42 + share * n, 1) for n in range(jobs)]) for _ in range(times))


def main():
    program = os.path.abspath(sys.argv[1] if len(sys.argv) > 1 else "crates/btrun/out/btrun")
    times = int(sys.argv[2]) if len(sys.argv) > 2 else 5
    print("%-32s %5s %8s %7s %14s %7s" % ("program", "jobs", "seconds", "faster", "side by side", "faster"))
    for kind in PROGRAMS:
        file, alone = kind[0], None
        for jobs in JOBS:
            shared, apart = measured(program, kind, jobs, times)
            alone = alone or shared
            print("%-32s %5d %8.2f %7.2f %14.2f %7.2f" % (file, jobs, shared, alone / shared, apart, alone / apart), flush=True)


if __name__ == "__main__":
    main()
