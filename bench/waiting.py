#!/usr/bin/env python3
"""How long runs take whose threads wait for each other, alone and beside a process that is always busy.

Usage: bench/waiting.py [PROGRAM]

PROGRAM is the built program, crates/btrun/out/btrun if left out. Four kinds of run: 64 threads at the gate of --spread,
which end by --calls, and two such threads on one core; 32 threads with a ring of one on one core; and 64 threads whose
reader sleeps for two seconds. The busy process has a core that the run may use too. Each line has the seconds of a run,
and its processor seconds, both alone and beside the busy process. The last has the share of a core that the run takes
while its reader sleeps.
"""
import contextlib
import os
import subprocess
import sys
import tempfile
import time

ENDS = b"decl x; main() begin " + b"x := !x; " * 10 + b"end\n"
WAITS = b"decl g; main() begin assume (g); end\n"

ALL = sorted(os.sched_getaffinity(0))
CORE = ALL[-1]

# a name, how many threads, their program and options, and the cores that they may use
RUNS = [
    ("64 threads, --spread, 640 calls", 64, "ends.bp", ["--calls", "10", "--spread"], ALL),
    ("2 threads on a core, --spread, 20 calls", 2, "ends.bp", ["--calls", "10", "--spread"], [CORE]),
    ("32 threads on a core, ring of 1, 64,000 calls", 32, "waits.bp", ["--calls", "2000", "--ring", "1"], [CORE]),
]
SLEEP = 2


def words(program, threads, file, options):
    return [program, "run", file, *["main"] * threads, "--contexts", "1000", *options]


def spent(pid):
    """The processor seconds of a process that runs."""
    with open("/proc/%d/stat" % pid) as file:
        fields = file.read().rpartition(")")[2].split()
    return (int(fields[11]) + int(fields[12])) / os.sysconf("SC_CLK_TCK")


@contextlib.contextmanager
def busy_process():
    """A process that is always busy on one core."""
    process = subprocess.Popen([sys.executable, "-c", "while True: pass"], preexec_fn=lambda: os.sched_setaffinity(0, [CORE]))
    try:
        time.sleep(0.2)
        yield
    finally:
        process.kill()
        process.wait()


def measured(command, cores):
    """The seconds and the processor seconds of a run."""
    start = time.monotonic()
    running = subprocess.Popen(command, stdout=subprocess.DEVNULL, preexec_fn=lambda: os.sched_setaffinity(0, cores))
    _, status, usage = os.wait4(running.pid, 0)
    running.returncode = os.waitstatus_to_exitcode(status)
    assert running.returncode == 0, command
    return time.monotonic() - start, usage.ru_utime + usage.ru_stime


def share_while_unread(command):
    """The share of a core that a run takes while nobody reads what it prints."""
    with subprocess.Popen(command, stdout=subprocess.PIPE, stderr=subprocess.DEVNULL) as running:
        time.sleep(0.5)
        before = spent(running.pid)
        time.sleep(SLEEP)
        share = (spent(running.pid) - before) / SLEEP
        running.stdout.close()
    return share


def main():
    program = os.path.abspath(sys.argv[1] if len(sys.argv) > 1 else "crates/btrun/out/btrun")
    with tempfile.TemporaryDirectory() as folder:
        os.chdir(folder)
        for name, text in (("ends.bp", ENDS), ("waits.bp", WAITS)):
            with open(name, "wb") as file:
                file.write(text)
        print("%-46s %8s %10s %8s %10s" % ("", "alone", "processor", "busy", "processor"))
        for name, threads, file, options, cores in RUNS:
            command = words(program, threads, file, options)
            alone = measured(command, cores)
            with busy_process():
                beside = measured(command, cores)
            print("%-46s %8.2f %10.2f %8.2f %10.2f" % (name, *alone, *beside), flush=True)
        unread = words(program, 64, "waits.bp", ["--calls", "20000"])
        alone = share_while_unread(unread)
        with busy_process():
            beside = share_while_unread(unread)
        print("%-46s %8s %10.3f %8s %10.3f" % ("64 threads, reader asleep, share of a core", "", alone, "", beside))


if __name__ == "__main__":
    main()
