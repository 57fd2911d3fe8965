#!/usr/bin/env python3
"""One table of what btrun costs beside the plain Rust programs of bench/plain, which have no proofs.

Usage: bench/all.py [PROGRAM [ASKING [RUNS]]]

PROGRAM and ASKING are the built programs, crates/btrun/out/btrun and crates/tools/out/tools if left out. Each bench
is run with few rounds, 5 if RUNS is left out: what it measures, and how, its own page says. Processor seconds, but for
'by the clock'. The ratio is that of the program to its yardstick: a plain program, a replay for 'show', a session for
a desk, a desk for a board, and four tests side by side for one with four jobs. An aim is the most that the ratio may be. The machine should have nothing else to do.
Then follows the table of bench/counting.py: instructions a call, which do not depend on the machine.
"""
import datetime
import os
import sys
import tempfile

import asking
import compiling
import counting
import driving
import exploring
import replaying
import running
import scaling
import showing

TOP = os.path.dirname(os.path.dirname(os.path.abspath(__file__)))
SHOW_AIMS = {"show": "2.5", "show --last 20": "1.3"}


def print_row(work, yardstick, own, aim, memory):
    ratio = "%.2f" % (own / yardstick) if yardstick else "-"
    plain = "%.3f" % yardstick if yardstick else "-"
    print("%-34s %9s %9.3f %6s %6s %6s" % (work, plain, own, ratio, aim, memory), flush=True)


def print_beside_plain(work, kinds, own, aim):
    """A row of one kind of run, in seconds and megabytes, beside the plain program."""
    seconds, megabytes = kinds[own]
    yardstick = kinds["plain Rust"][0] if "plain Rust" in kinds else None
    print_row(work, yardstick, seconds, aim, "%.0f" % megabytes)


def print_runs(program, runs):
    """Two rows for each kind of run: by the clock, and of the processors."""
    found = dict(running.measured_kinds(program, runs))
    for name, (passed, spent, memory, calls, each) in found.items():
        if not name.endswith(", btrun"):
            continue
        kind = name[: -len(", btrun")]
        plain = found.get(kind + ", plain Rust")
        aims = ("1.1", "1.0") if kind.startswith("waits") else ("1.05", "1.05")
        print_row("run, %s, by the clock, us a call" % kind, plain and plain[4] / 1e3, each / 1e3, aims[0], "%.0f" % memory)
        work = "run, %s, us a call" % kind
        print_row(work, plain and plain[1] / plain[3] * 1e6, spent / calls * 1e6, aims[1], "%.0f" % memory)


def print_shows(program, runs):
    replay = None
    for name, seconds, megabytes in showing.measured_commands(program, runs):
        if replay:
            print_row(name, replay, seconds, SHOW_AIMS.get(name, "-"), "%.0f" % megabytes)
        replay = replay or seconds


def print_asks(program, runs):
    """Microseconds of an ask by the clock."""
    results = [asking.run(program) for _ in range(runs)]
    each = {case: 1 / asking.medians(results, case)[0] for case in results[0]}
    session, desk = each["Session::ask"], each["Desk::ask"]
    print_row("Desk::ask, us by the clock", session, desk, "1.5", "-")
    print_row("Board::turn 64, us by the clock", desk, each["Board::turn 64"], "1.0", "-")


def print_explorations(program):
    with tempfile.TemporaryDirectory() as room:
        (plain, _), (own, memory), states, _ = exploring.measured_counters(program, room, "3")
    print_row("explore, %d states" % states, plain, own, "-", "%.0f" % memory)


def print_jobs(program, runs):
    shared, apart = scaling.measured(program, scaling.PROGRAMS[1], 4, runs)
    print_row("test, 4 jobs, by the clock", apart, shared, "1.05", "-")


def print_texts(program, runs):
    """Nanoseconds a byte of the longest text of the slowest kind."""
    for kind, checked, compiled in compiling.measured_kinds(program, ["long assignments"], runs):
        print_row("check, %s, ns a byte" % kind, None, checked[-1], "-", "-")
        print_row("compile, %s, ns a byte" % kind, None, compiled[-1], "-", "-")


def main():
    program = os.path.abspath(sys.argv[1] if len(sys.argv) > 1 else os.path.join(TOP, "crates/btrun/out/btrun"))
    asker = os.path.abspath(sys.argv[2] if len(sys.argv) > 2 else os.path.join(TOP, "crates/tools/out/tools"))
    runs = int(sys.argv[3]) if len(sys.argv) > 3 else 5
    print("%s, seconds where nothing else is said" % datetime.date.today())
    print("%-34s %9s %9s %6s %6s %6s" % ("work", "yardstick", "btrun", "ratio", "aim", "MB"))
    os.chdir(TOP)
    print_beside_plain("drive, 3,200,000 calls", driving.measured_parts(program, runs)[1], "read, played, printed", "1.05")
    os.chdir(TOP)
    for version, (_, kinds) in enumerate(replaying.measured_versions(program, runs), 1):
        print_beside_plain("replay, version %d, 3,200,000 calls" % version, kinds, "read and replayed", "1.05")
    os.chdir(TOP)
    print_shows(program, runs)
    os.chdir(TOP)
    print_runs(program, runs)
    os.chdir(TOP)
    print_asks(asker, runs)
    print_explorations(program)
    print_jobs(program, runs)
    print_texts(program, runs)
    print()
    counting.print_counts(program)


if __name__ == "__main__":
    main()
