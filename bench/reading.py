#!/usr/bin/env python3
"""Nanoseconds a byte that btrun takes to read texts of each kind, of half the longest length and of all of it.

Usage: bench/reading.py [PROGRAM [RUNS]]

PROGRAM is the built program, crates/btrun/out/btrun if left out. Each text is refused where it is read, so
nothing above the reader runs. The time is the processor time of a run less
that of a run on an empty program text, the least of RUNS runs.
"""
import resource
import subprocess
import sys

LIMIT = 65536


def filled(size, before, piece, after):
    """A text of so many bytes: pieces between a beginning and an end, filled with spaces."""
    count = (size - len(before) - len(after)) // len(piece)
    text = before + piece * count
    return text + b" " * (size - len(text) - len(after)) + after


KINDS = {
    "statements": (b"main() begin ", b"skip; ", b"end ?"),
    "assignments": (b"main() begin ", b"a, b := !a & (b | c), a => b; ", b"end ?"),
    "loops, 64 deep": (
        b"main() begin ", b"while (?) do " * 64 + b"skip; " + b"od " * 64, b"end ?"
    ),
    "one identifier": (b"decl ", b"a", b"; ?"),
    "names of three bytes": (b"", b"decl abc; ", b"?"),
    "one braced name": (b"decl {", b"{", b"}; ?"),
    "braced names": (b"", b"decl {x}; ", b"?"),
    "open braces": (b"", b"{", b""),
    "open braces, lines of 64": (b"", b"{" * 63 + b"\n", b""),
    "one comment": (b"//", b"x", b"\n?"),
    "comments": (b"", b"//\n", b"?"),
    "white": (b"", b" ", b"?"),
    "brackets, 500 deep": (
        b"main() begin ", b"a := " + b"(" * 500 + b"0" + b")" * 500 + b"; ", b"end ?"
    ),
    "chains of !": (b"main() begin ", b"a := " + b"!" * 1000 + b"0; ", b"end ?"),
    "chains of |": (b"main() begin ", b"a := 0" + b"|0" * 500 + b"; ", b"end ?"),
    "procedures": (b"", b"p(a, b) begin decl c; return; end ", b"?"),
}


def children():
    """The processor seconds of all runs so far."""
    usage = resource.getrusage(resource.RUSAGE_CHILDREN)
    return usage.ru_utime + usage.ru_stime


def seconds(program, text, runs):
    best = None
    for _ in range(runs):
        before = children()
        subprocess.run([program], input=text, stdout=subprocess.DEVNULL, stderr=subprocess.DEVNULL)
        spent = children() - before
        best = spent if best is None else min(best, spent)
    return best


def main():
    program = sys.argv[1] if len(sys.argv) > 1 else "crates/btrun/out/btrun"
    runs = int(sys.argv[2]) if len(sys.argv) > 2 else 20
    nothing = seconds(program, b"?", runs)
    print("%-28s %8s %8s" % ("kind", LIMIT // 2, LIMIT))
    for kind, parts in KINDS.items():
        figures = []
        for size in (LIMIT // 2, LIMIT):
            text = filled(size, *parts)
            spent = seconds(program, text, runs) - nothing
            figures.append(max(spent, 0.0) * 1e9 / size)
        print("%-28s %8.1f %8.1f" % (kind, *figures))


if __name__ == "__main__":
    main()
