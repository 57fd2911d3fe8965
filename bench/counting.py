#!/usr/bin/env python3
"""Instructions of a call, as valgrind's callgrind counts them: the same total twice, whatever else the machine does.

Usage: bench/counting.py [PROGRAM]

PROGRAM is the built program, crates/btrun/out/btrun if left out. 64 threads make 200 and then 1,100 calls each, in turns
of 100; a call takes the difference of the two totals, divided by the calls between them, so what starting costs is left
out. The yardsticks are the programs of bench/plain; for `show` a replay, and for `confirm` a drive of the same calls.
An aim is the most that the ratio may be. The row of `test` is that of bench/drawing.py. The last line says what a short
check takes in all, without the system's loader.
"""
import os
import re
import subprocess
import sys
import tempfile

import drawing
import driving
import replaying

TOP = os.path.dirname(os.path.dirname(os.path.abspath(__file__)))
THREADS = driving.THREADS
SIZES = (200, 1_100)
TURN = 100
WORDS = ["main"] * THREADS + ["--contexts", "1000", "--calls", "100000"]


def schedule(calls, last):
    """Each thread makes this many calls, in turns; the last few of its last turn have the other choice bit."""
    for number in range(calls // TURN):
        ends = last if (number + 1) * TURN == calls else 0
        for thread in range(THREADS):
            yield b"%d 1\n" % thread * (TURN - ends) + b"%d 0\n" % thread * ends


def total(command, *flags):
    """The instructions of a run."""
    words = ["valgrind", "--tool=callgrind", "--callgrind-out-file=/dev/null", *flags, *command]
    ran = subprocess.run(words, stdout=subprocess.DEVNULL, stderr=subprocess.PIPE)
    assert ran.returncode == 0, ran.stderr.decode()
    return int(re.search(r"Collected : (\d+)", ran.stderr.decode())[1])


def each(command_of):
    """The instructions of a call, of the command for each size."""
    first, second = (total(command_of(size)) for size in SIZES)
    return (second - first) / ((SIZES[1] - SIZES[0]) * THREADS)


def build(name):
    source = os.path.join(TOP, "bench/plain", name + ".rs")
    subprocess.run(["rustc", "--edition", "2021", "-O", "-o", "plain_" + name, source], check=True)


def save_inputs(program):
    driving.write("d.bp", [driving.PROGRAM])
    driving.write("r.bp", [replaying.PROGRAM])
    for size in SIZES:
        driving.write("d%d.txt" % size, schedule(size, 0))
        driving.write("r%d.txt" % size, schedule(size, replaying.LAST_CALLS))
        drive = [program, "drive", "r.bp", "r%d.txt" % size, *WORDS]
        replaying.save("one%d.trace" % size, drive)
        replaying.save("d%d.trace" % size, [program, "drive", "d.bp", "d%d.txt" % size, *WORDS])
        replaying.save("d%d.steps" % size, [program, "show", "d.bp", "d%d.trace" % size, "--steps"])
        replaying.save("two%d.trace" % size, [program, "migrate", "r.bp", "one%d.trace" % size])


def print_counts(program):
    """The table of this program."""
    with tempfile.TemporaryDirectory() as folder:
        os.chdir(folder)
        save_inputs(program)
        build("drive")
        build("replay")
        build("test")
        os.rename("plain_test", "plain")
        numbers = [str(THREADS), "1000", "100000"]
        drive = each(lambda size: [program, "drive", "d.bp", "d%d.txt" % size, *WORDS])
        rows = [("drive", drive, each(lambda size: ["./plain_drive", "d%d.txt" % size, *numbers]), "1.00")]
        confirm = each(lambda size: [program, "confirm", "d.bp", "d%d.steps" % size, *WORDS])
        rows.append(("confirm", confirm, drive, "1.50"))
        replays = []
        for version, name in ((1, "one"), (2, "two")):
            replay = each(lambda size: [program, "replay", "r.bp", "%s%d.trace" % (name, size)])
            plain = each(lambda size: ["./plain_replay", "r.bp", "%s%d.trace" % (name, size)])
            rows.append(("replay, version %d" % version, replay, plain, "1.05"))
            replays.append(replay)
        for words, aim in (([], "2.50"), (["--json"], "5.00"), (["--last", "20"], "1.30")):
            show = each(lambda size: [program, "show", "r.bp", "one%d.trace" % size, *words])
            rows.append((" ".join(["show", *words]), show, replays[0], aim))
        driving.write("s.bp", [b"decl x; main() begin while (1) do skip; od end\n"])
        start = total([program, "check", "s.bp"], "--toggle-collect=main")
        test = drawing.instructions(program)
        rows.append(("test, short runs", test, drawing.instructions(os.path.abspath("plain")), "1.10"))
    print("%-22s %9s %9s %6s %6s" % ("instructions a call", "btrun", "yardstick", "ratio", "aim"))
    for work, own, yardstick, aim in rows:
        print("%-22s %9.0f %9.0f %6.2f %6s" % (work, own, yardstick, own / yardstick, aim))
    print("start, a check of a short program: %d instructions after the loader" % start)


def main():
    print_counts(os.path.abspath(sys.argv[1] if len(sys.argv) > 1 else os.path.join(TOP, "crates/btrun/out/btrun")))


if __name__ == "__main__":
    main()
