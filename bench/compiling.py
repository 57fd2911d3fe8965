#!/usr/bin/env python3
"""Nanoseconds a byte that btrun takes to compile texts of each kind, of half the longest length and of all of it.

Usage: bench/compiling.py [PROGRAM [RUNS]]

PROGRAM is the built program, crates/btrun/out/btrun if left out. Each text is well-formed. It is read and checked by
'btrun check', and read, checked and compiled as a bundle with no line of a schedule; the difference is what the
code costs. Each time is the processor time of a run less that of the same run on a text of one statement, the
least of RUNS runs.
"""
import os
import resource
import subprocess
import sys
import tempfile

LIMIT = 65536

SIZES = (LIMIT // 2, LIMIT)


def repeated(before, piece, after):
    """Texts with as many pieces as fit, filled with spaces. A '#' in a piece is its number."""
    def text(size):
        middle, count = b"", 0
        while True:
            more = piece.replace(b"#", b"%d" % count)
            if len(before) + len(middle) + len(more) + len(after) >= size:
                break
            middle, count = middle + more, count + 1
        text = before + middle + after
        return text + b" " * (size - len(text) - 1) + b"\n"
    return text


LOOPS = b"while (?) do " * 64
BRANCHES = b"if (?) then " * 64

KINDS = {
    "jumps inside 64 loops": repeated(
        b"main() begin " + LOOPS, b"goto e; ", b"od " * 64 + b"e: skip; end"
    ),
    "jumps inside one loop": repeated(
        b"main() begin while (?) do ", b"goto e; ", b"od e: skip; end"
    ),
    "labels and jumps": repeated(b"main() begin while (?) do ", b"l#: goto l#; ", b"od end"),
    "procedures with calls": repeated(
        b"".join(b"p%d() begin p%d(); end " % (n, n) for n in range(255)) + b"main() begin ",
        b"p254(); ", b"end"
    ),
    "loops, 64 deep": repeated(b"main() begin ", LOOPS + b"skip; " + b"od " * 64, b"end"),
    "branches, 64 deep": repeated(
        b"main() begin ", BRANCHES + b"skip; " + b"else skip; fi " * 64, b"end"
    ),
    "assignments": repeated(
        b"decl a, b, c; main() begin ", b"a, b := !a & (b | c), a => b; ", b"end"
    ),
    "long assignments": repeated(
        b"decl a; main() begin ", b"a := 0" + b"|a" * 500 + b"; ", b"end"
    ),
    "128 locals": repeated(
        b"p(" + b",".join(b"v%d" % n for n in range(128)) + b") begin ",
        b"v127 := v63; ", b"end main() begin skip; end"
    ),
    "statements": repeated(b"main() begin ", b"skip; ", b"end"),
}


def children():
    """The processor seconds of all runs so far."""
    usage = resource.getrusage(resource.RUSAGE_CHILDREN)
    return usage.ru_utime + usage.ru_stime


def seconds(words, text):
    before = children()
    done = subprocess.run(words, input=text, stdout=subprocess.DEVNULL, stderr=subprocess.PIPE)
    assert done.returncode == 0, done.stderr
    return children() - before


def both(program, text, path):
    """The seconds of a run that reads and checks a text, and of one that compiles it as well."""
    with open(path, "wb") as file:
        file.write(text)
    return seconds([program, "check", path], b""), seconds([program], text + b"%\n")


def least(program, texts, runs):
    """Of each text the least of both over the runs. Each round measures all texts, so that a busy moment of the
    machine spoils one run of each, not all runs of one."""
    path = os.path.join(tempfile.mkdtemp(), "text.bp")
    best = [(float("inf"), float("inf"))] * len(texts)
    for _ in range(runs):
        for k, text in enumerate(texts):
            best[k] = tuple(map(min, best[k], both(program, text, path)))
    return best


def measured_kinds(program, kinds, runs):
    """Each kind of text with the nanoseconds a byte to read and check it, and those to compile it, for each size."""
    texts = [KINDS[kind](size) for kind in kinds for size in SIZES]
    nothing, *best = least(program, [b"main() begin skip; end\n"] + texts, runs)
    for kind in kinds:
        checked, compiled = [], []
        for size in SIZES:
            first, second = best.pop(0)
            spent = first - nothing[0]
            checked.append(max(spent, 0.0) * 1e9 / size)
            compiled.append(max(second - nothing[1] - spent, 0.0) * 1e9 / size)
        yield kind, checked, compiled


def main():
    program = sys.argv[1] if len(sys.argv) > 1 else "crates/btrun/out/btrun"
    runs = int(sys.argv[2]) if len(sys.argv) > 2 else 20
    print("%-24s %17s %17s" % ("", "read and checked", "compiled"))
    print("%-24s" % "kind" + " %8d" * 4 % (SIZES + SIZES))
    for kind, checked, compiled in measured_kinds(program, KINDS, runs):
        print("%-24s" % kind + " %8.1f" * 4 % tuple(checked + compiled))


if __name__ == "__main__":
    main()
