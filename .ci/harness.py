"""What the scripts of .ci/ share: the program under test, runs of it, the report of each test, and the closing count.
It is no test itself."""
import contextlib
import os
import re
import subprocess
import sys
import tempfile
from pathlib import Path

TOP = Path(__file__).resolve().parent.parent
SECONDS = 60
# A path of this repository, as pages name it, and one beside the page.
PATH = re.compile(
    r"`((?:docs|examples|bench|completions|editors|page|suite|\.ci)/[\w./-]*|HANDLES|CONTRIBUTING\.md)`|\]\(([\w./-]+)\)"
)


def program_under_test(default="crates/btrun/out/btrun", built_by="rt ci or rt run"):
    """The program that the first argument names, or the default below the top of the repository."""
    program = Path(sys.argv[1] if len(sys.argv) > 1 else TOP / default).resolve()
    if not program.exists():
        sys.exit("%s is not there: %s builds it" % (program, built_by))
    return program


def run(words, **how):
    """Runs a command for a minute at most. Its input is empty and both its streams are captured, unless `how` says
    otherwise."""
    if how.get("input") is None:
        how["stdin"] = subprocess.DEVNULL
    return subprocess.run(words, **{"stdout": subprocess.PIPE, "stderr": subprocess.PIPE, "timeout": SECONDS, **how})


@contextlib.contextmanager
def shell_with(program):
    """Yields the environment of a shell in which `btrun` is the program, `btrun-page` and `btrun-suite` are the scripts of
    these names in the archive of `dist/make`, and TOP is the top of the repository."""
    commands = {"btrun": program, "btrun-page": TOP / "page/make", "btrun-suite": TOP / "suite/run"}
    with tempfile.TemporaryDirectory() as binaries:
        for name, target in commands.items():
            (Path(binaries) / name).symlink_to(target)
        yield {**os.environ, "PATH": "%s:%s" % (binaries, os.environ["PATH"]), "TOP": str(TOP)}


def lost_paths(page, top=TOP):
    """The files that a page names and that are not there; the page is of a copy of the repository at the top."""
    for own, linked in PATH.findall(page.read_text()):
        path = top / own if own else page.parent / linked
        if not path.exists():
            yield own or linked


def section(text, heading):
    """The lines of a section of a help text: those after its heading, up to an empty one."""
    after = text.partition("\n%s:\n" % heading)[2]
    return after.partition("\n\n")[0].splitlines()


def options(text):
    """The long options that a help text lists."""
    lines = [*section(text, "Options"), *section(text, "Advanced")]
    return {name for line in lines for name in re.findall(r"^ +(?:-\w, )?--([\w-]+)", line)}


def helps(program):
    """The commands that the program's help lists, the options that the help of each lists, and its own options."""
    def said(*words):
        return run([program, *words], check=True).stdout.decode()

    commands = {line.split()[0] for line in section(said("--help"), "Commands")}
    found = {name: options(said(name, "--help")) for name in sorted(commands - {"help"})}
    return commands, found, options(said("--help"))


def refusing_library(folder):
    """Builds the library that refuses growths, reads and writes (.ci/refused.c) in this folder."""
    library = Path(folder) / "refused.so"
    subprocess.run(["cc", "-O1", "-shared", "-fPIC", "-o", library, TOP / ".ci/refused.c", "-ldl"], check=True)
    return library


def run_refused(words, library, settings, **how):
    """Runs a command while the library refuses what these settings name: how it ended, and how often it was refused."""
    with tempfile.NamedTemporaryFile() as refused:
        given = {"LD_PRELOAD": str(library), "REFUSED": refused.name, **settings}
        ended = run(words, env={**os.environ, **given}, **how)
        return ended, os.path.getsize(refused.name)


class Report:
    """Counts tests, and prints a line for each that is told."""

    def __init__(self):
        self.passed = self.failed = self.skipped = 0

    def count(self, is_passed):
        """Counts a test without a line."""
        if is_passed:
            self.passed += 1
        else:
            self.failed += 1

    def tell(self, name, wrong, told="ok"):
        """Prints a test and what is wrong with it, or what is told where nothing is."""
        print("%s ... %s" % (name, wrong or told))
        self.count(not wrong)

    def skip(self, name, tool):
        """Counts a test that is left out, since this machine does not have its tool."""
        print("skipped: %s wants %s" % (name, tool))
        self.skipped += 1

    def end(self):
        """Prints the closing count. The exit status is 0 if there were tests and none failed."""
        print("%d passed, %d failed, %d skipped" % (self.passed, self.failed, self.skipped))
        return 1 if self.failed or not self.passed else 0
