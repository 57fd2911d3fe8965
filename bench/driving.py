#!/usr/bin/env python3
"""Processor seconds and peak memory of 'btrun drive' over a schedule of 3,200,000 lines, and of its parts.

Usage: bench/driving.py [PROGRAM [RUNS]]

PROGRAM is the built program, crates/btrun/out/btrun if left out. 64 threads make 50,000 calls each, in ten rounds
of 5,000 calls a thread. Three runs tell the parts apart: over a program that is refused once both files are read;
over a schedule whose last line is refused, so that all calls are played and nothing is printed; and the whole run,
printed to /dev/null. The yardstick is bench/plain/drive.rs, a plain Rust program without proofs, where rustc is there
to build it; its trace has to be the same. Each time is the least of RUNS runs, each memory the most of them.
"""
import filecmp
import itertools
import os
import shutil
import subprocess
import sys
import tempfile

THREADS = 64
ROUNDS = 10
CALLS = 5000

PROGRAM = b"decl x, y; main() begin decl a; while (?) do a, x := !a, y ^ a; y := x; od end\n"

BAD_LINE = b"64 0\n"


def write(name, pieces):
    """Writes a file piece by piece: what this process holds would count as memory of the runs."""
    with open(name, "wb") as file:
        for piece in pieces:
            file.write(piece)
    return os.path.getsize(name)


def schedule():
    for _ in range(ROUNDS):
        for thread in range(THREADS):
            yield b"%d 1\n" % thread * CALLS


def measured(command):
    """The exit status of a run, its processor seconds, and its peak memory in megabytes."""
    running = subprocess.Popen(command, stdout=subprocess.DEVNULL, stderr=subprocess.DEVNULL)
    _, status, usage = os.wait4(running.pid, 0)
    running.returncode = os.waitstatus_to_exitcode(status)
    return running.returncode, usage.ru_utime + usage.ru_stime, usage.ru_maxrss / 1024


def worst(command, wanted, runs):
    """The least seconds and the most megabytes of some runs."""
    results = [measured(command) for _ in range(runs)]
    assert all(status == wanted for status, _, _ in results), (command, results)
    return min(spent for _, spent, _ in results), max(memory for _, _, memory in results)


def yardstick(source, command, runs):
    """Seconds and megabytes of the plain program, which prints the same trace; nothing without rustc."""
    if not shutil.which("rustc"):
        return None
    subprocess.run(["rustc", "--edition", "2021", "-O", "-o", "plain", source], check=True)
    plain = ["./plain", "s.txt", str(THREADS), "1000", "100000"]
    with open("a.txt", "wb") as first, open("b.txt", "wb") as second:
        subprocess.run(command, check=True, stdout=first)
        subprocess.run(plain, check=True, stdout=second)
    assert filecmp.cmp("a.txt", "b.txt", shallow=False)
    return worst(plain, 0, runs)


def measured_parts(program, runs):
    """The bytes of the schedule; and seconds and megabytes of each part, and of the plain program if it is there."""
    source = os.path.join(os.path.dirname(os.path.abspath(__file__)), "plain", "drive.rs")
    with tempfile.TemporaryDirectory() as folder:
        os.chdir(folder)
        write("p.bp", [PROGRAM])
        write("bad.bp", [b"?\n"])
        size = write("s.txt", schedule())
        write("bad.txt", itertools.chain(schedule(), [BAD_LINE]))
        words = ["main"] * THREADS + ["--contexts", "1000", "--calls", "100000"]
        read = worst([program, "drive", "bad.bp", "s.txt", *words], 2, runs)
        played = worst([program, "drive", "p.bp", "bad.txt", *words], 2, runs)
        whole = worst([program, "drive", "p.bp", "s.txt", *words], 0, runs)
        plain = yardstick(source, [program, "drive", "p.bp", "s.txt", *words], runs)
    kinds = {
        "read": read,
        "read and played": played,
        "read, played, printed": whole,
    }
    if plain:
        kinds["plain Rust"] = plain
    return size, kinds


def main():
    program = os.path.abspath(sys.argv[1] if len(sys.argv) > 1 else "crates/btrun/out/btrun")
    runs = int(sys.argv[2]) if len(sys.argv) > 2 else 5
    size, kinds = measured_parts(program, runs)
    count = THREADS * ROUNDS * CALLS
    print("%d lines, %d bytes" % (count, size))
    print("%-22s %7s %7s %17s" % ("", "seconds", "MB", "nanoseconds/line"))
    for kind, (spent, memory) in kinds.items():
        print("%-22s %7.2f %7.0f %17.1f" % (kind, spent, memory, spent * 1e9 / count))


if __name__ == "__main__":
    main()
