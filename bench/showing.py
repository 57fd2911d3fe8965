#!/usr/bin/env python3
"""Processor seconds and peak memory of 'btrun show' beside those of 'btrun replay', over traces of 960,000 calls.

Usage: bench/showing.py [PROGRAM [RUNS]]

PROGRAM is the built program, crates/btrun/out/btrun if left out. 64 threads make 15,000 calls each, by a schedule
that takes each of them for 1,500 calls in turn. The view is shown whole, of its last 20 calls, and of one thread. The
commands are run in turn, RUNS times (25 if left out); each time is the middle one, each memory the most.
"""
import os
import statistics
import sys
import tempfile

from driving import THREADS, measured
from replaying import PROGRAM, save

CALLS = 15_000
PIECE = 1_500


def schedule():
    for _ in range(CALLS // PIECE):
        for thread in range(THREADS):
            yield b"%d 1\n" % thread * PIECE


def measured_commands(program, runs):
    """Of each command the middle time and the most megabytes."""
    with tempfile.TemporaryDirectory() as room:
        os.chdir(room)
        with open("p.bp", "wb") as file:
            file.write(PROGRAM)
        with open("s.txt", "wb") as file:
            file.writelines(schedule())
        options = ["--contexts", "1000", "--calls", "100000"]
        save("t.trace", [program, "drive", "p.bp", "s.txt", *["main"] * THREADS, *options])
        commands = {
            name: [program, name.split()[0], "p.bp", "t.trace", *name.split()[1:]]
            for name in ["replay", "show", "show --last 20", "show --thread 7"]
        }
        found = {name: [] for name in commands}
        for _ in range(runs):
            for name, command in commands.items():
                found[name].append(measured(command))
        for name, results in found.items():
            assert all(status == 0 for status, _, _ in results), (name, results)
            seconds = statistics.median(spent for _, spent, _ in results)
            yield name, seconds, max(used for _, _, used in results)


def main():
    here = os.path.dirname(os.path.abspath(__file__))
    words = sys.argv[1:] or [os.path.join(here, "../crates/btrun/out/btrun")]
    program, runs = os.path.abspath(words[0]), int(words[1]) if len(words) > 1 else 25
    replay = None
    for name, seconds, megabytes in measured_commands(program, runs):
        replay = replay or seconds
        print("%-16s %6.3f s %6.0f MB %6.1f times replay" % (name, seconds, megabytes, seconds / replay))


if __name__ == "__main__":
    main()
