#!/usr/bin/env python3
"""How many states a second 'btrun explore' finds, and how many bytes it takes for each, beside a plain Rust program.

Usage: bench/exploring.py [PROGRAM [THREADS]]

PROGRAM is the built program, crates/btrun/out/btrun if left out. The first row is of one program with THREADS threads, 3
if left out; the plain program (bench/plain/explore.rs, built by rustc -O) looks through the same states, and has to count
as many. Where spin and cc are installed, SPIN searches the same model (bench/plain/counters.pml) whole, and by partial
order. It has a state once, and not once for each thread that made the last step, and knows no contexts. The other rows are
of the programs of examples/: the states at which all was seen, the number of contexts that brought the last one, and the
seconds. Seconds are of the processor, and include the start of the program.
"""
import json
import os
import re
import shutil
import subprocess
import sys
import tempfile
from pathlib import Path

TOP = Path(__file__).resolve().parent.parent
COUNTERS = """decl lock, shared;
counter() begin
  decl a, b, c;
  while (1) do
    a, b, c := !a, a ^ b, (a & b) ^ c;
    assume (!lock);
    lock := 1;
    shared := shared ^ a;
    assert (a = a);
    lock := 0;
  od
end
"""
SEARCHES = {"SPIN": "-DNOREDUCE", "SPIN, partial order": ""}
SETTINGS = re.compile(r"// btrun:(.*)")


def measured(words):
    """The processor seconds and the most megabytes of a command, and what it said on its two streams."""
    process = subprocess.Popen(words, stdout=subprocess.PIPE, stderr=subprocess.PIPE)
    output, errors = process.stdout.read(), process.stderr.read()
    _, _, used = os.wait4(process.pid, 0)
    return used.ru_utime + used.ru_stime, used.ru_maxrss / 1024, output.decode(), errors.decode()


def explored(program, file, words):
    """The same of an exploration, with its object."""
    seconds, megabytes, _, errors = measured([program, "explore", file, *words, "--json"])
    return seconds, megabytes, json.loads(errors)


def print_row(name, threads, seconds, megabytes, states, contexts):
    each, rate = megabytes * 1e6 / states, states / max(seconds, 1e-3)
    print("%-34s %7s %10d %8s %8.2f %10.0f %9.0f" % (name, threads, states, contexts, seconds, rate, each), flush=True)


def print_spin(room, threads):
    """Prints a row for each search of SPIN."""
    for name, option in SEARCHES.items():
        model = "spin -DTHREADS=%s -a %s && cc -O2 -DSAFETY %s -w -o pan pan.c"
        words = (threads, TOP / "bench/plain/counters.pml", option)
        subprocess.run(model % words, shell=True, cwd=room, check=True, stdout=subprocess.DEVNULL)
        seconds, megabytes, said, _ = measured([Path(room) / "pan", "-m1000000"])
        states = int(re.search(r"(\d+) states, stored", said)[1])
        print_row("counters, " + name, threads, seconds, megabytes, states, "-")


def words_of(file):
    """The threads and the initial bits of a program's first comment."""
    words, init = [], []
    for item in SETTINGS.match(file.read_text())[1].split(";"):
        name, *values = item.split()
        words = values if name == "threads" else words
        init = ["--init", *values] if name == "init" else init
    return words, init


def measured_counters(program, room, threads):
    """The seconds and megabytes of the plain program and of an exploration, the states and the contexts of both."""
    plain, file = Path(room) / "plain", Path(room) / "counters.bp"
    file.write_text(COUNTERS)
    subprocess.run(["rustc", "-O", "-o", plain, TOP / "bench/plain/explore.rs"], check=True, stderr=subprocess.DEVNULL)
    seconds, megabytes, said, _ = measured([plain, threads])
    states, contexts = map(int, re.findall(r"\d+", said))
    own, memory, found = explored(program, file, ["counter"] * int(threads))
    if (found["states"], found["contexts"]) != (states, contexts):
        sys.exit("the plain program counts otherwise: %d states, contexts %d" % (states, contexts))
    return (seconds, megabytes), (own, memory), states, contexts


def main():
    program = os.path.abspath(sys.argv[1] if len(sys.argv) > 1 else TOP / "crates/btrun/out/btrun")
    threads = sys.argv[2] if len(sys.argv) > 2 else "3"
    print("%-34s %7s %10s %8s %8s %10s %9s" % ("program", "threads", "states", "contexts", "seconds", "a second", "bytes"))
    with tempfile.TemporaryDirectory() as room:
        plain, own, states, contexts = measured_counters(program, room, threads)
        print_row("counters, plain Rust", threads, *plain, states, contexts)
        print_row("counters", threads, *own, states, contexts)
        if shutil.which("spin") and shutil.which("cc"):
            print_spin(room, threads)
    for file in sorted(TOP.glob("examples/*/*.bp")):
        words, init = words_of(file)
        seconds, megabytes, found = explored(program, file, [*words, *init])
        last = "%d%s" % (found["contexts"], "" if found["complete"] else " " + found["found"])
        print_row(str(file.relative_to(TOP / "examples")), len(words) or 1, seconds, megabytes, found["states"], last)


if __name__ == "__main__":
    main()
