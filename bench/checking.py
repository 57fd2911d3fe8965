#!/usr/bin/env python3
"""Nanoseconds a byte that btrun takes to read, and to read and check, programs with many names.

Usage: bench/checking.py [PROGRAM [RUNS]]

PROGRAM is the built program, crates/btrun/out/btrun if left out. Each text has as many distinct names as fit in
65,536 bytes. It is refused by the check, so nothing above the check runs, and with one more token by the reader.
The time is the processor time of a run less that of a run on an empty program text, the least of RUNS runs.
"""
import sys

from reading import LIMIT, seconds


def numbered(pieces, count):
    """Each piece in turn, as often as the count says, with a number of its own each time."""
    return b"".join(piece.replace(b"#", b"%d" % n) for piece in pieces for n in range(count))


def filled(before, pieces, after):
    """A text of as many names as fit: each piece once for each name, between a beginning and an end."""
    few, many = 0, LIMIT
    while many - few > 1:
        count = (few + many) // 2
        size = len(before) + len(numbered(pieces, count)) + len(after)
        few, many = (count, many) if size <= LIMIT - 2 else (few, count)
    return before + numbered(pieces, few) + after


KINDS = {
    "globals": filled(b"", [b"decl a#;"], b"main() begin x := 0; end"),
    "locals": filled(b"main() begin ", [b"decl a#;"], b"x := 0; end"),
    "locals, each a target": filled(b"main() begin ", [b"decl a#;", b"a#:=1;"], b"x := 0; end"),
    "labels and jumps": filled(b"main() begin ", [b"l#: goto l#;"], b"x := 0; end"),
    "procedures and calls": filled(b"", [b"p#() begin p#(); end "], b"main() begin x := 0; end"),
    "unknown variables": filled(b"main() begin ", [b"a#:=1;"], b"end"),
}


def main():
    program = sys.argv[1] if len(sys.argv) > 1 else "crates/btrun/out/btrun"
    runs = int(sys.argv[2]) if len(sys.argv) > 2 else 20
    nothing = seconds(program, b"?", runs)
    print("%-24s %8s %8s" % ("kind", "read", "checked"))
    for kind, text in KINDS.items():
        assert len(text) + 2 <= LIMIT
        read = seconds(program, text + b" ?", runs) - nothing
        checked = seconds(program, text, runs) - nothing
        figures = [max(spent, 0.0) * 1e9 / len(text) for spent in (read, checked)]
        print("%-24s %8.1f %8.1f" % (kind, *figures))


if __name__ == "__main__":
    main()
