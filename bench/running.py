#!/usr/bin/env python3
"""Seconds, processor seconds and peak memory of 'btrun run' with 16 workers, at turns of 1, 8 and 64.

Usage: bench/running.py [PROGRAM [RUNS]]

PROGRAM is the built program, crates/btrun/out/btrun if left out. Each thread may make 100,000 calls, within 1,000
contexts, through a ring of 1,024. Two programs: one steps without an end, so a line ends where no context is left for
it; one waits without an end, so each line has all its calls, and a turn is one call. Each is run with a tenth of the
calls too, since memory must not grow with them. The yardstick is bench/plain/run.rs, a plain Rust program with
threads, a mutex and a bounded channel, where rustc is there to build it. What each prints is replayed once. Each time is
the median of RUNS runs, printed to /dev/null; a call's is the time divided by the calls of that run.
"""
import os
import shutil
import statistics
import subprocess
import sys
import tempfile
import time

THREADS = 16
RING = 1024
PROGRAMS = {
    "steps": b"decl x; main() begin while (1) do skip; od end\n",
    "waits": b"decl x; main() begin assume (x); end\n",
}


def measured(command):
    """The seconds of a run, its processor seconds, its peak memory in megabytes, and how many calls it made."""
    with tempfile.TemporaryFile() as out:
        start = time.monotonic()
        running = subprocess.Popen(command, stdout=out, stderr=subprocess.DEVNULL)
        _, status, usage = os.wait4(running.pid, 0)
        passed = time.monotonic() - start
        running.returncode = os.waitstatus_to_exitcode(status)
        assert running.returncode == 0, command
        out.seek(-64, os.SEEK_END)
        last = out.read().splitlines()[-1].split()
    assert last[0] == b"end"
    return passed, usage.ru_utime + usage.ru_stime, usage.ru_maxrss / 1024, int(last[1])


def medians(command, runs):
    """The medians of some runs, and that of the nanoseconds of a call."""
    results = [measured(command) for _ in range(runs)]
    each = statistics.median(one[0] * 1e9 / one[3] for one in results)
    return *(statistics.median(column) for column in zip(*results)), each


def own(program, kind, calls, turn):
    words = ["--contexts", "1000", "--calls", str(calls), "--turn", str(turn), "--ring", str(RING)]
    return [program, "run", kind + ".bp", *["main"] * THREADS, *words]


def plain(kind, calls, turn):
    return ["./plain", kind, str(THREADS), str(calls), str(turn), str(RING)]


def check(program, kind, command):
    """Replays what a command prints."""
    with open("trace", "wb") as trace:
        subprocess.run(command, check=True, stdout=trace)
    subprocess.run([program, "replay", kind + ".bp", "trace"], check=True, stdout=subprocess.DEVNULL)


def measured_kinds(program, runs):
    """The name and the medians of each kind of run, as they come."""
    source = os.path.join(os.path.dirname(os.path.abspath(__file__)), "plain", "run.rs")
    has_plain = shutil.which("rustc") is not None
    with tempfile.TemporaryDirectory() as folder:
        os.chdir(folder)
        for kind, text in PROGRAMS.items():
            with open(kind + ".bp", "wb") as file:
                file.write(text)
        if has_plain:
            subprocess.run(["rustc", "--edition", "2021", "-O", "-o", "plain", source], check=True)
        for kind in PROGRAMS:
            for turn in (1, 8, 64) if kind == "steps" else (1,):
                commands = {"btrun": lambda calls: own(program, kind, calls, turn)}
                if has_plain:
                    commands["plain Rust"] = lambda calls: plain(kind, calls, turn)
                for name, command in commands.items():
                    check(program, kind, command(100_000))
                    yield "%s, turn %d, %s" % (kind, turn, name), medians(command(100_000), runs)
                yield "%s, turn %d, a tenth" % (kind, turn), medians(own(program, kind, 10_000, turn), runs)


def main():
    program = os.path.abspath(sys.argv[1] if len(sys.argv) > 1 else "crates/btrun/out/btrun")
    runs = int(sys.argv[2]) if len(sys.argv) > 2 else 5
    print("%-24s %8s %10s %6s %10s %9s" % ("", "seconds", "processor", "MB", "calls", "ns/call"))
    for name, figures in measured_kinds(program, runs):
        print("%-24s %8.2f %10.2f %6.1f %10d %9.0f" % (name, *figures), flush=True)


if __name__ == "__main__":
    main()
