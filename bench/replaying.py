#!/usr/bin/env python3
"""Processor seconds and peak memory of 'btrun replay' over traces of 3,200,000 calls, in both versions.

Usage: bench/replaying.py [PROGRAM [RUNS]]

PROGRAM is the built program, crates/btrun/out/btrun if left out. 64 threads make 50,000 calls each, in ten rounds
of 5,000 calls a thread, and each prints one row at its end. 'btrun drive' writes the trace, 'btrun migrate' writes it
in version 2. Two runs for each version tell the parts apart: over a program that is refused once both files are read,
and the whole run. The yardstick is bench/plain/replay.rs, a plain Rust program without proofs, where rustc is there to
build it; what it prints has to be the same. Each time is the least of RUNS runs, each memory the most of them.
"""
import os
import shutil
import subprocess
import sys
import tempfile

from driving import CALLS, ROUNDS, THREADS, worst, write

PROGRAM = b"""decl x, y; main() begin decl a; while (?) do a, x := !a, y ^ a; y := x; od print (x, y); skip; end
"""

# the test that leaves the loop, the row, the skip, the return, and the call of a thread that has ended
LAST_CALLS = 5


def schedule():
    """In the last round a thread leaves its loop, whose turns are three calls each, so that its last call is its end."""
    for number in range(ROUNDS):
        last = LAST_CALLS if number == ROUNDS - 1 else 0
        for thread in range(THREADS):
            yield b"%d 1\n" % thread * (CALLS - last) + b"%d 0\n" % thread * last


def printed(command):
    return subprocess.run(command, check=True, stdout=subprocess.PIPE).stdout


def save(name, command):
    """Writes what the command prints to a file, and answers how many bytes that is."""
    with open(name, "wb") as file:
        subprocess.run(command, check=True, stdout=file)
    return os.path.getsize(name)


def build_yardstick():
    """Whether the plain program is there: ./plain."""
    if not shutil.which("rustc"):
        return False
    source = os.path.join(os.path.dirname(os.path.abspath(__file__)), "plain", "replay.rs")
    subprocess.run(["rustc", "--edition", "2021", "-O", "-o", "plain", source], check=True)
    return True


def measured_version(program, trace, has_yardstick, runs):
    """Seconds and megabytes of each kind of run over a trace."""
    command = [program, "replay", "p.bp", trace]
    kinds = {
        "read": worst([program, "replay", "bad.bp", trace], 2, runs),
        "read and replayed": worst(command, 0, runs),
    }
    if has_yardstick:
        plain = ["./plain", "p.bp", trace]
        assert printed(plain) == printed(command)
        kinds["plain Rust"] = worst(plain, 0, runs)
    return kinds


def measured_versions(program, runs):
    """Of each version the bytes of its trace, and seconds and megabytes of each kind of run."""
    with tempfile.TemporaryDirectory() as folder:
        os.chdir(folder)
        write("p.bp", [PROGRAM])
        write("bad.bp", [b"?\n"])
        write("s.txt", schedule())
        words = ["main"] * THREADS + ["--contexts", "1000", "--calls", "100000"]
        sizes = {
            "1.txt": save("1.txt", [program, "drive", "p.bp", "s.txt", *words]),
            "2.txt": save("2.txt", [program, "migrate", "p.bp", "1.txt"]),
        }
        has_yardstick = build_yardstick()
        return [(size, measured_version(program, name, has_yardstick, runs)) for name, size in sizes.items()]


def main():
    program = os.path.abspath(sys.argv[1] if len(sys.argv) > 1 else "crates/btrun/out/btrun")
    runs = int(sys.argv[2]) if len(sys.argv) > 2 else 5
    count = THREADS * ROUNDS * CALLS
    for version, (size, kinds) in enumerate(measured_versions(program, runs), 1):
        print("version %d: %d calls, %d bytes" % (version, count, size))
        print("%-22s %7s %7s %17s" % ("", "seconds", "MB", "nanoseconds/call"))
        for kind, (spent, memory) in kinds.items():
            print("%-22s %7.2f %7.0f %17.1f" % (kind, spent, memory, spent * 1e9 / count))


if __name__ == "__main__":
    main()
