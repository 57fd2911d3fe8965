#!/usr/bin/env python3
"""The share of runs in which an assertion fails, in percent, by ways to draw a schedule.

Usage: bench/placing.py [RUNS [NAME..]]

Each program whose name begins with a NAME, or each, is run within several numbers K of contexts by each way of
bench/plain/ways.rs: RUNS runs, 100,000 if left out. The way `btrun` draws as `btrun test` does, and `btrun-whole` so
without a focus. Beside them are a random walk, one weighted by the visible steps that each thread has left, and
priorities with 1, 2 or 4 changes, over all steps and over visible ones.
"""
import os
import subprocess
import sys
import tempfile
from concurrent.futures import ThreadPoolExecutor

TOP = os.path.dirname(os.path.dirname(os.path.abspath(__file__)))
WAYS = ["btrun", "btrun-whole", "walk", "walk-visible", "weighted", "pct2", "pct3", "pct2-visible", "pct3-visible", "pct5-visible"]
KS = (2, 3, 4, 6, 8, 16, 32, 64)
CALLS = 1000


def example(path):
    with open(os.path.join(TOP, "examples", path)) as file:
        return file.read()


def proc(name, body, locals_=""):
    """The text of a procedure with these locals."""
    return "%s() begin %s %s end\n" % (name, "decl %s;" % locals_ if locals_ else "", body)


def work(steps):
    return "skip; " * steps


def race(steps):
    return "decl ready, data;\n" + proc("writer", work(steps) + "ready := 1; data := 1;") + proc("reader", work(steps) + "if (ready) then assert (data); else skip; fi")


def meet(steps):
    """The first thread's flag has to be seen twice, with work between."""
    first = work(steps) + "x := 1; " + work(steps) + "y := 1; " + work(steps) + "x := 0;"
    second = work(steps) + "assume (x); " + work(steps) + "assert (!(x & y));"
    return "decl x, y;\n" + proc("first", first) + proc("second", second)


def flag(steps):
    """A flag is up for one step of many."""
    return "decl up;\n" + proc("first", work(steps) + "up := 1; up := 0; " + work(steps)) + proc("second", work(steps) + "assert (!up);")


def polls(steps):
    """Accesses to a variable that does not matter."""
    return "c := !c; " * steps


def polled_race(steps):
    return "decl ready, data, c;\n" + proc("writer", polls(steps) + "ready := 1; data := 1;" + polls(steps)) + proc(
        "reader", polls(steps) + "if (ready) then assert (data); else skip; fi " + polls(steps))


def polled_meet(steps):
    first = polls(steps) + "x := 1; " + polls(steps) + "y := 1; " + polls(steps) + "x := 0;"
    second = polls(steps) + "assume (x); " + polls(steps) + "assert (!(x & y));"
    return "decl x, y, c;\n" + proc("first", first) + proc("second", second)


def polled_flag(steps):
    return "decl up, c;\n" + proc("first", polls(steps) + "up := 1; up := 0; " + polls(steps)) + proc("second", polls(steps) + "assert (!up);" + polls(steps))


def polled_reorder(steps):
    return "decl a, b, c;\n" + proc("setter", polls(steps) + "a := 1; b := 1;" + polls(steps)) + proc(
        "checker", polls(steps) + "x := a; y := b; assert (x = y);" + polls(steps), "x, y")


def alternating(count):
    """Each step of one thread falls between two of the other's."""
    bits = [(n + 1) % 2 for n in range(count)]
    first = " ".join("x := %d;" % bit for bit in bits)
    names = ["s%d" % n for n in range(count)]
    seen = " & ".join(("" if bit else "!") + name for bit, name in zip(bits, names))
    second = " ".join("%s := x;" % name for name in names) + " assert (!(%s));" % seen
    return "decl x;\n" + proc("first", first) + proc("second", second, ", ".join(names))


def late_writer(steps):
    """Only one thread polls, before it writes."""
    reader = "if (ready) then assert (data); else skip; fi c := !c;"
    return "decl ready, data, c;\n" + proc("writer", polls(steps) + "ready := 1; data := 1;") + proc("reader", reader)


def late_reader(steps):
    return "decl ready, data, c;\n" + proc("writer", "c := !c; ready := 1; data := 1;") + proc("reader", polls(steps) + "if (ready) then assert (data); else skip; fi")


def locked(rounds):
    """A lock around each of many updates, and one update without it."""
    update = "while (!g) do g, lock := !lock, 1; od x := n; n := !x; lock, g := 0, 0; "
    first, second = (update * rounds + each + update * rounds for each in ("up := 1; up := 0; ", "assert (!up); "))
    return "decl lock, n, up;\n" + proc("first", first, "g, x") + proc("second", second, "g, x")


def lost_update(rounds):
    """A counter of two bits, to which two threads add in rounds."""
    body = "x, y := n1, n0; n1, n0 := x ^ y, !y; " * rounds
    workers = "".join(proc("worker%d" % n, body + "d%d := 1;" % n, "x, y") for n in (1, 2))
    return "decl n1, n0, d1, d2;\n" + workers + proc("check", "assume (d1 & d2); assert (n1 | n0);")


REORDER = "decl a, b;\n" + proc("setter", "a := 1; b := 1;") + proc("checker", "x := a; y := b; assert (x = y);", "x, y")
REORDER_WORK = "decl a, b;\n" + proc("setter", work(20) + "a := 1; b := 1;") + proc("checker", work(20) + "x := a; y := b; assert (x = y);", "x, y")
ACCOUNT = "decl b1, b0, done1, done2;\n" + "".join(
    proc("add%d" % n, "x, y := b1, b0; x, y := x ^ y, !y; b1, b0 := x, y; done%d := 1;" % n, "x, y") for n in (1, 2)
) + proc("check", "assume (done1 & done2); assert (b1 & !b0);")
COUNTER = "decl c2, c1, c0, n1, n0;\n" + proc("worker", """
  x, y, z := c2, c1, c0; c2, c1, c0 := x ^ (y & z), y ^ z, !z;
  n1, n0 := n1 ^ n0, !n0;""", "x, y, z") + proc("check", "assume (n1 & n0); assert (!c2 & c1 & c0);")
NO_TURN = "decl a, b, busy;\n" + proc("first", "while (b) do skip; od a := 1; assert (!busy); busy := 1; busy := 0; a := 0;") + proc(
    "second", "while (a) do skip; od b := 1; assert (!busy); busy := 1; busy := 0; b := 0;")
DEKKER = "decl a, b, turn, busy;\n" + proc("first", """
  a := 1; while (b) do if (turn) then a := 0; while (turn) do skip; od a := 1; else skip; fi od
  assert (!busy); busy := 1; busy := 0; turn := 1; a := 0;""") + proc("second", """
  while (a) do if (!turn) then b := 0; while (!turn) do skip; od else skip; fi od b := 1;
  assert (!busy); busy := 1; busy := 0; turn := 0; b := 0;""")
DOUBLE_CHECKED = "decl lock, made, filled;\n" + proc("getter", """
  if (!made) then
    while (!got) do got, lock := !lock, 1; od
    if (!made) then made := 1; filled := 1; else skip; fi
    lock := 0;
  else skip; fi
  assert (filled);""", "got")
READERS = "decl writing, r1, r0, busy;\n" + proc("reader", """
  assume (!writing); r1, r0 := r1 ^ r0, !r0;
  assert (!busy); r1, r0 := r1 ^ !r0, !r0;""") + proc("writer", "assume (!r1 & !r0); writing := 1; busy := 1; busy := 0; writing := 0;")
TICKET = "decl t1, t0, s1, s0, busy;\n" + proc("worker", """
  x, y := t1, t0; t1, t0 := x ^ y, !y;
  assume (x = s1 & y = s0); assert (!busy); busy := 1; busy := 0; s1, s0 := s1 ^ s0, !s0;""", "x, y")
# a stack of two nodes: top and next by their bits; a pop that compares the top alone
ABA = "decl top1, top0, next1, next0, out1, out2;\n" + proc("popper", """
  x, y := top1, top0; u, v := next1, next0;
  if (top1 = x & top0 = y) then top1, top0 := u, v; else done := 1; fi
  if (!done & !u & v) then assert (!out1); else skip; fi""", "x, y, u, v, done") + proc("other", """
  top1, top0 := 0, 1; out2 := 1; top1, top0 := 0, 0; out1 := 1;
  next1, next0 := 0, 0; top1, top0 := 1, 0; out2 := 0;""")
QUEUE = "decl head, tail1, tail0, f1, f0;\n" + proc("enqueue", """
  x, y := tail1, tail0; if (!y) then assert (!f0); f0 := 1; else assert (!f1); f1 := 1; fi
  tail1, tail0 := x ^ y, !y;""", "x, y")
TWO_STAGE = "decl l1, l2, d1, d2;\n" + proc("first", """
  assume (!l1); l1 := 1; d1 := 1; l1 := 0;
  assume (!l2); l2 := 1; d2 := 1; l2 := 0;""") + proc("second", """
  assume (!l1); l1 := 1; x := d1; l1 := 0;
  if (x) then assume (!l2); l2 := 1; y := d2; l2 := 0; assert (y); else skip; fi""", "x, y")
WRONG_LOCK = "decl l1, l2, d;\n" + proc("first", "while (!g) do g, l1 := !l1, 1; od x := d; d := !d; assert (d != x); l1 := 0;", "g, x") + proc(
    "second", "while (!g) do g, l2 := !l2, 1; od d := !d; l2 := 0;", "g")
FOUR = "decl a, b, c, d;\n" + proc("first", "a := 1; b := 1; c := 1; d := 1;") + proc(
    "second", "w := a; x := b; if (w & !x) then y := c; z := d; assert (!y | z); else skip; fi", "w, x, y, z")
BARRIER = "decl n1, n0, passed, data;\n" + proc("worker", """
  x, y := n1, n0; n1, n0 := x ^ y, !y;
  if (n1 & n0) then passed := 1; else skip; fi
  data := 1;""", "x, y") + proc("last", """
  x, y := n1, n0; n1, n0 := x ^ y, !y; assume (n1 & n0 | passed); assert (data);""", "x, y")


def reorder(count, text=REORDER):
    return ("", text, ["setter"] * (count - 1) + ["checker"], "00")


PROGRAMS = [
    ("race", example("race/race.bp"), ["writer", "reader"], ""),
    ("bluetooth", example("bluetooth/bluetooth.bp"), ["worker", "stopper"], "00001"),
    ("exchanged", example("peterson/exchanged.bp"), ["first", "second"], ""),
    ("sender", example("from-spin/sender.bp"), ["sender", "receiver"], ""),
    ("torn 2", example("idioms/torn.bp"), ["worker"] * 2, ""),
    ("torn 4", example("idioms/torn.bp"), ["worker"] * 4, ""),
    ("semaphore 3", example("idioms/semaphore.bp"), ["worker"] * 3, "1100"),
    ("semaphore 5", example("idioms/semaphore.bp"), ["worker"] * 5, "1100"),
    ("no turn", NO_TURN, ["first", "second"], ""),
    ("dekker", DEKKER, ["first", "second"], ""),
    ("double-checked 2", DOUBLE_CHECKED, ["getter"] * 2, ""),
    ("double-checked 4", DOUBLE_CHECKED, ["getter"] * 4, ""),
    ("readers 3", READERS, ["reader", "reader", "writer"], ""),
    ("ticket 3", TICKET, ["worker"] * 3, ""),
    ("stack", ABA, ["popper", "other"], "100100"),
    ("queue 3", QUEUE, ["enqueue"] * 3, ""),
    ("two stages", TWO_STAGE, ["first", "second"], ""),
    ("wrong lock", WRONG_LOCK, ["first", "second"], ""),
    ("four flags", FOUR, ["first", "second"], ""),
    ("account", ACCOUNT, ["add1", "add2", "check"], ""),
    ("counter 3", COUNTER, ["worker"] * 3 + ["check"], ""),
    ("barrier", BARRIER, ["worker", "worker", "last"], ""),
    ("reorder 3", *reorder(3)[1:]),
    ("reorder 5", *reorder(5)[1:]),
    ("reorder 10", *reorder(10)[1:]),
    ("reorder 20", *reorder(20)[1:]),
    ("reorder 32", *reorder(32)[1:]),
    ("reorder 20, 20 steps", *reorder(20, REORDER_WORK)[1:]),
    ("race, 20 steps", race(20), ["writer", "reader"], ""),
    ("race, 100 steps", race(100), ["writer", "reader"], ""),
    ("race, 400 steps", race(400), ["writer", "reader"], ""),
    ("meet, 5 steps", meet(5), ["first", "second"], ""),
    ("meet, 50 steps", meet(50), ["first", "second"], ""),
    ("meet, 200 steps", meet(200), ["first", "second"], ""),
    ("flag, 10 steps", flag(10), ["first", "second"], ""),
    ("flag, 400 steps", flag(400), ["first", "second"], ""),
    ("polled race 100", polled_race(100), ["writer", "reader"], ""),
    ("polled race 300", polled_race(300), ["writer", "reader"], ""),
    ("polled meet 50", polled_meet(50), ["first", "second"], ""),
    ("polled flag 100", polled_flag(100), ["first", "second"], ""),
    ("polled flag 300", polled_flag(300), ["first", "second"], ""),
    ("polled reorder 3", polled_reorder(50), ["setter"] * 2 + ["checker"], ""),
    ("polled reorder 5", polled_reorder(50), ["setter"] * 4 + ["checker"], ""),
    ("late writer 100", late_writer(100), ["writer", "reader"], ""),
    ("late reader 100", late_reader(100), ["writer", "reader"], ""),
    ("locked 10", locked(10), ["first", "second"], ""),
    ("locked 20", locked(20), ["first", "second"], ""),
    ("alternating 4", alternating(4), ["first", "second"], ""),
    ("lost update 5", lost_update(5), ["worker1", "worker2", "check"], ""),
]


def shares(ways, folder, program, contexts, runs):
    """The share of each way."""
    name, text, entries, init = program
    file = os.path.join(folder, "%s-%d.bp" % (name, contexts))
    with open(file, "w") as out:
        out.write(text)
    words = [ways, file, ",".join(entries), init or "0", str(contexts), str(CALLS), "0", str(runs), *WAYS]
    told = subprocess.run(words, capture_output=True, check=True).stdout.decode()
    return [float(line.split()[1]) for line in told.splitlines()]


def main():
    runs = int(sys.argv[1]) if len(sys.argv) > 1 else 100_000
    names = tuple(sys.argv[2:]) or ("",)
    rows = [(program, contexts) for program in PROGRAMS if program[0].startswith(names) for contexts in KS]
    print("%-22s %3s" % ("program", "K") + "".join(" %12s" % way for way in WAYS))
    with tempfile.TemporaryDirectory() as folder, ThreadPoolExecutor(os.cpu_count()) as pool:
        ways = os.path.join(folder, "ways")
        subprocess.run(["rustc", "--edition", "2021", "-O", "-o", ways, os.path.join(TOP, "bench/plain/ways.rs")], check=True)
        found = pool.map(lambda row: shares(ways, folder, *row, runs), rows)
        for (program, contexts), each in zip(rows, found):
            print("%-22s %3d" % (program[0], contexts) + "".join(" %12.3f" % share for share in each), flush=True)


if __name__ == "__main__":
    main()
