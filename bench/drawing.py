#!/usr/bin/env python3
"""Processor seconds of 'btrun test' beside those of a plain Rust program that makes the same runs, draw for draw.

Usage: bench/drawing.py [PROGRAM [RUNS]]

PROGRAM is the built program, crates/btrun/out/btrun if left out. 500,000 short runs of examples/bluetooth/mended.bp are
made within 6 contexts, some 22 calls each. The yardstick is bench/plain/test.rs; for several seeds and numbers of
contexts the counts of its summary have to be the same. Each time is the least of RUNS runs (5 if left out). Where valgrind is, the
instructions of a call are counted too, over 2,000 runs less those of none.
"""
import os
import re
import shutil
import subprocess
import sys
import tempfile

from driving import worst

TOP = os.path.dirname(os.path.dirname(os.path.abspath(__file__)))
BOUND = 6
MADE = 500_000
COUNTED = 2_000
COMPARED = [(contexts, seed) for contexts in (2, 3, 6, 16) for seed in (42, 2**64 - 5000)]


def command(program, runs, contexts=BOUND, seed=42):
    if os.path.basename(program) == "plain":
        return [program, str(runs), str(contexts), "1000", str(seed)]
    words = ["test", os.path.join(TOP, "examples/bluetooth/mended.bp"), "worker", "stopper", "--init", "00001"]
    return [program, *words, "--contexts", str(contexts), "--runs", str(runs), "--seed", str(seed)]


def counts(program, runs, contexts=BOUND, seed=42):
    """The lines of the summary that count."""
    said = subprocess.run(command(program, runs, contexts, seed), capture_output=True, check=True).stderr.decode()
    return [line for line in said.splitlines() if re.match("runs|ended|contexts|reached|distinct", line)]


def calls_of(text):
    return int(re.search(r"^runs \d+, calls (\d+)", text, re.MULTILINE)[1])


def instructions(program):
    """The instructions of a call, by valgrind; nothing without it."""
    if not shutil.which("valgrind"):
        return None
    totals = []
    for runs in (1, COUNTED):
        words = ["valgrind", "--tool=callgrind", "--callgrind-out-file=/dev/null", *command(program, runs)]
        said = subprocess.run(words, capture_output=True, check=True).stderr.decode()
        totals.append((int(re.search(r"Collected : (\d+)", said)[1]), calls_of(said)))
    return (totals[1][0] - totals[0][0]) / (totals[1][1] - totals[0][1])


def main():
    program = os.path.abspath(sys.argv[1] if len(sys.argv) > 1 else os.path.join(TOP, "crates/btrun/out/btrun"))
    runs = int(sys.argv[2]) if len(sys.argv) > 2 else 5
    with tempfile.TemporaryDirectory() as folder:
        plain = os.path.join(folder, "plain")
        subprocess.run(["rustc", "--edition", "2021", "-O", "-o", plain, os.path.join(TOP, "bench/plain/test.rs")], check=True)
        for contexts, seed in COMPARED:
            assert counts(program, 10_000, contexts, seed) == counts(plain, 10_000, contexts, seed), (contexts, seed)
        calls = calls_of(counts(plain, MADE)[0])
        print("%d runs, %d calls" % (MADE, calls))
        print("              seconds  nanoseconds a call  instructions a call")
        for name, each in (("btrun test", program), ("plain Rust", plain)):
            spent, _ = worst(command(each, MADE), 0, runs)
            counted = instructions(each)
            print("%-10s %10.2f %19.1f %20s" % (name, spent, spent / calls * 1e9, "-" if counted is None else "%.0f" % counted))


if __name__ == "__main__":
    main()
