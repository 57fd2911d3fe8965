#!/usr/bin/env python3
"""Processor seconds and peak memory of 'btrun confirm' beside those of a 'btrun drive' of the same calls.

Usage: bench/confirming.py [PROGRAM [RUNS]]

PROGRAM is the built program, crates/btrun/out/btrun if left out. The calls are the 3,200,000 of bench/driving.py, and
the steps are those that `show --steps` tells of their trace. Both commands have the same bound of contexts; without
one, `confirm` first counts those that the steps use. The trace is written to a file, and to /dev/null. The commands are
run in turn, RUNS times (15 if left out). Each time is the least, each memory the most.
"""
import os
import subprocess
import sys
import tempfile

from driving import PROGRAM, THREADS, schedule, write

TOP = os.path.dirname(os.path.dirname(os.path.abspath(__file__)))
CALLS = ["--calls", "100000"]
BOUND = ["--contexts", "1000"]


def spent(command, target):
    """The processor seconds of a run that writes its output to this file, and its peak memory in megabytes."""
    with open(target, "wb") as output:
        running = subprocess.Popen(command, stdout=output, stderr=subprocess.DEVNULL)
        _, status, usage = os.wait4(running.pid, 0)
    running.returncode = os.waitstatus_to_exitcode(status)
    assert running.returncode == 0, command
    return usage.ru_utime + usage.ru_stime, usage.ru_maxrss / 1024


def save_inputs(program, words):
    write("p.bp", [PROGRAM])
    write("s.txt", schedule())
    with open("t.trace", "wb") as trace:
        subprocess.run([program, "drive", "p.bp", "s.txt", *words, *BOUND, *CALLS], check=True, stdout=trace)
    with open("t.steps", "wb") as steps:
        subprocess.run([program, "show", "p.bp", "t.trace", "--steps"], check=True, stdout=steps, stderr=subprocess.DEVNULL)


def main():
    program = os.path.abspath(sys.argv[1] if len(sys.argv) > 1 else os.path.join(TOP, "crates/btrun/out/btrun"))
    runs = int(sys.argv[2]) if len(sys.argv) > 2 else 15
    words = ["main"] * THREADS
    commands = {
        "drive": [program, "drive", "p.bp", "s.txt", *words, *BOUND, *CALLS],
        "confirm": [program, "confirm", "p.bp", "t.steps", *words, *BOUND, *CALLS],
        "confirm, no bound": [program, "confirm", "p.bp", "t.steps", *words, *CALLS],
    }
    print("output     command            seconds  ratio     MB")
    with tempfile.TemporaryDirectory() as folder:
        os.chdir(folder)
        save_inputs(program, words)
        for target in ("out.trace", "/dev/null"):
            results = {name: [] for name in commands}
            for _ in range(runs):
                for name, command in commands.items():
                    results[name].append(spent(command, target))
            least = {name: min(seconds for seconds, _ in each) for name, each in results.items()}
            for name, each in results.items():
                most = max(memory for _, memory in each)
                print("%-10s %-18s %7.3f %6.2f %6.0f" % (target, name, least[name], least[name] / least["drive"], most))


if __name__ == "__main__":
    main()
