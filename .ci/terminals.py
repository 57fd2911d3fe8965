"""Runs the built program on a terminal and off it, and looks at colours, progress and explanations. It is a part of
.ci/cases.

The terminal is a pseudoterminal. A failure is red and a switch is yellow there, unless NO_COLOR is set to a text;
elsewhere nothing has a colour. Lines of calls have at most as many columns there as COLUMNS says, from 40 on; elsewhere
they have as many as they need. A line of progress is shown and cleared there, unless NO_PROGRESS is set to a text;
elsewhere there is none. An error is explained there, unless --no-explain is
given; elsewhere it is only with --explain, or if BTRUN_EXPLAIN is set to a text.
"""
import os
import pty
import re
import subprocess
import tempfile
from pathlib import Path

import harness

PROGRAM = "main() begin assert (?); end\n"
TRACE = "btrace 1\nentry main\nentry main\ninit -\ncontexts 2\ncalls 9\nseed none\n0 1 s\n1 0 f\nend 2 1\n"

# The trace's last call is both a switch and a failure, and that of the other trace a switch alone.
OTHER = TRACE.replace("1 0 f\nend 2 1", "1 1 s\nend 2 2")

CLEAN = "main() begin skip; end\n"

# A body has a statement at least.
EMPTY = "main() begin end\n"

# A statement of more than 60 bytes, and a note of more than 30.
WIDE = "decl left_of_the_bridge, right_of_the_bridge;\nmain() begin left_of_the_bridge, right_of_the_bridge := 1, !right_of_the_bridge; end\n"
WIDE_TRACE = "btrace 1\nentry main\ninit 00\ncontexts 2\ncalls 9\nseed none\n0 0 s\nend 1 1\n"

CLEARED = r"\r\x1b\[K"

# A test of 10,000 runs has a first block of 500 runs, and the next ones are as long or longer. Each of them ends with a
# line of progress.
PROGRESS = re.compile(
    CLEARED + r"500 of 10000 runs, \d+ a second, \d+ s left"
    + "(?:" + CLEARED + r"[1-9]\d{3} of 10000 runs, \d+ a second, \d+ s left)+"
    + CLEARED + r"10000 of 10000 runs, \d+ a second, 0 s left" + CLEARED
)

RED, YELLOW, PLAIN = "\x1b[31m", "\x1b[33m", "\x1b[0m"


def shown_on_terminal(words, env, typed=None):
    """What a command prints on a terminal of its own. What is typed there is its standard input, which is else empty."""
    own, other = pty.openpty()
    given = subprocess.DEVNULL if typed is None else other
    with subprocess.Popen(words, stdin=given, stdout=other, stderr=other, env=env) as process:
        os.close(other)
        os.write(own, typed or b"")
        printed = b""
        while True:
            try:
                more = os.read(own, 65536)
            except OSError:
                break
            if not more:
                break
            printed += more
        process.wait(harness.SECONDS)
    os.close(own)
    return printed.decode().replace("\r\n", "\n")


def shown(words, env):
    """What a command prints into a pipe."""
    return harness.run(words, env=env).stdout.decode()


def painted(text, colour):
    """The text with this colour on the line of the second call."""
    lines = text.split("\n")
    at = next(n for n, line in enumerate(lines) if line.startswith(">   2 "))
    lines[at] = colour + lines[at] + PLAIN
    return "\n".join(lines)


def test_progress(report, words, bare):
    """Looks at what a test says on standard error."""
    told = harness.run(words, env=bare).stderr.decode()
    report.tell("progress off a terminal", "" if told.startswith("no assertion failed") else "said %r" % told)
    for name, env, has_progress in (
        ("on a terminal", bare, True),
        ("with NO_PROGRESS", {**bare, "NO_PROGRESS": "1"}, False),
        ("with NO_PROGRESS empty", {**bare, "NO_PROGRESS": ""}, True),
    ):
        said = shown_on_terminal(words, env)
        shown = PROGRESS.match(said)
        is_fine = bool(shown) == has_progress and said[shown.end() if shown else 0 :] == told
        report.tell("progress " + name, "" if is_fine else "said %r" % said)
    for runs, of in ((["--runs", "1000000000000"], " of 1000000000000"), ([], "")):
        said = shown_on_terminal([*words, *runs, "--time", "1"], bare)
        left = [int(seconds) for seconds in re.findall(CLEARED + r"\d+%s runs, \d+ a second, (\d+) s left" % of, said)]
        report.tell("progress with --time" + of, "" if left and max(left) <= 1 else "said %r" % said[-200:])
    exploring = [words[0], "explore", *words[2:]]
    shown = re.compile("(?:%swithin [12] contexts: [13] states, \\d+ a second){2}%s" % (CLEARED, CLEARED))
    said, told = shown_on_terminal(exploring, bare), harness.run(exploring, env=bare).stderr.decode()
    found = shown.match(said)
    report.tell("progress of an exploration", "" if found and said[found.end() :] == told else "said %r" % said)


def test_explanations(report, words):
    """Looks at what is said of an error."""
    line = "btrun: 6 Syntax at 13\n"
    explained = harness.run([*words, "--explain"]).stderr.decode()
    asked, unset = {**os.environ, "BTRUN_EXPLAIN": "1"}, {**os.environ, "BTRUN_EXPLAIN": ""}
    for name, told, is_explained in (
        ("with BTRUN_EXPLAIN", harness.run(words, env=asked).stderr.decode(), True),
        ("with BTRUN_EXPLAIN empty", harness.run(words, env=unset).stderr.decode(), False),
        ("with BTRUN_EXPLAIN and --no-explain", harness.run([*words, "--no-explain"], env=asked).stderr.decode(), False),
        ("off a terminal", harness.run(words).stderr.decode(), False),
        ("on a terminal", shown_on_terminal(words, os.environ), True),
        ("with --no-explain", shown_on_terminal([*words, "--no-explain"], os.environ), False),
    ):
        report.tell("explanation " + name, "" if told == (explained if is_explained else line) else "said %r" % told)
    is_more = explained.startswith(line) and len(explained) > len(line)
    report.tell("explanation with --explain", "" if is_more else "said %r" % explained)


def test_waiting(report, program):
    """Looks at what is said where a terminal is to give a bundle. Control-D ends it, and an empty program has no `main`."""
    line = "btrun: waiting for a bundle on standard input; 'btrun --help' shows the commands\n"
    fault = "btrun: 32 UnknownEntry thread 0\n"
    reads = "without a command btrun reads a program, a line '%' and a schedule"
    explained = fault + "standard input has no program; %s ('btrun --help' shows the commands)\n" % reads
    said = shown_on_terminal([program], os.environ, b"\x04")
    is_told = line in said and said.endswith(explained)
    report.tell("waiting on a terminal", "" if is_told else "said %r" % said)
    told = harness.run([program]).stderr.decode()
    report.tell("waiting off a terminal", "" if told == fault else "said %r" % told)
    told = harness.run([program], env={**os.environ, "BTRUN_EXPLAIN": "1"}).stderr.decode()
    report.tell("nothing with BTRUN_EXPLAIN", "" if told == explained else "said %r" % told)


def wide_line(room):
    """The only call of the wide program, whose statement has this much room."""
    statement = "left_of_the_bridge, right_of_the_bridge := 1, !right_of_the_bridge"
    note = " left_of_the_bridge=1 right_of_the_bridge=1"
    return "    1      0       1 2:14   " + statement[: room - 2] + ".." + note


def narrow_line():
    """The same in 40 columns: the statement and the place are gone, and the note is cut."""
    return "    1      0       1 .. left_of_the_br.."


def test_columns(report, words, bare):
    """Looks at how wide the line of a call is."""
    def call(text):
        return next(line for line in text.split("\n") if line.startswith("    1 "))

    for told, text, wanted in (
        ("on a terminal", shown_on_terminal(words, bare), wide_line(60)),
        ("of 200 columns", shown_on_terminal(words, {**bare, "COLUMNS": "200"}), wide_line(60)),
        ("of 100 columns", shown_on_terminal(words, {**bare, "COLUMNS": "100"}), wide_line(29)),
        ("of 80 columns", shown_on_terminal(words, {**bare, "COLUMNS": "80"}), wide_line(9)),
        ("of 40 columns", shown_on_terminal(words, {**bare, "COLUMNS": "40"}), narrow_line()),
        ("of too few columns", shown_on_terminal(words, {**bare, "COLUMNS": "39"}), wide_line(60)),
        ("of a text", shown_on_terminal(words, {**bare, "COLUMNS": "8x"}), wide_line(60)),
        ("off a terminal of 80 columns", shown(words, {**bare, "COLUMNS": "80"}), wide_line(60)),
    ):
        report.tell("width " + told, "" if call(text) == wanted else "printed %r" % text)


def test_terminals(report, program):
    """Looks at what the program prints on a terminal and off it."""
    bare = {name: value for name, value in os.environ.items() if name not in ("COLUMNS", "NO_COLOR", "NO_PROGRESS")}
    with tempfile.TemporaryDirectory() as room:
        for name, text in (("p.bp", PROGRAM), ("clean.bp", CLEAN), ("empty.bp", EMPTY), ("failed", TRACE), ("clean", OTHER), ("wide.bp", WIDE), ("wide", WIDE_TRACE)):
            (Path(room) / name).write_text(text)
        test_progress(report, [program, "test", Path(room) / "clean.bp"], bare)
        test_explanations(report, [program, "check", Path(room) / "empty.bp"])
        test_waiting(report, program)
        test_columns(report, [program, "show", Path(room) / "wide.bp", Path(room) / "wide"], bare)
        for trace, colour in (("failed", RED), ("clean", YELLOW)):
            words = [program, "show", Path(room) / "p.bp", Path(room) / trace]
            plain = shown(words, bare)
            for told, printed, wanted in (
                ("off a terminal", plain, plain.replace("\x1b", "")),
                ("on a terminal", shown_on_terminal(words, bare), painted(plain, colour)),
                ("with NO_COLOR", shown_on_terminal(words, {**bare, "NO_COLOR": "1"}), plain),
                ("with NO_COLOR empty", shown_on_terminal(words, {**bare, "NO_COLOR": ""}), painted(plain, colour)),
            ):
                report.tell("terminal %s %s" % (trace, told), "" if printed == wanted else "printed %r" % printed)
