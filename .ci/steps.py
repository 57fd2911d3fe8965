"""Steps of runs of random programs, as `btrun confirm` and `btrun explore --through` read them."""
from collections import namedtuple

from programs import PROCEDURES, values

LONGEST = 20
# Each local after the name of its procedure.
OWN_NAMES = ["%s.%s" % (own, name) for own, names in PROCEDURES.items() for name in sum(names, [])]

# `place` is a line and a column, a line and None, or None at a procedure's end.
Step = namedtuple("Step", "thread place values")


def seen_by(program, state, thread):
    """What a thread sees by its names, the locals also after the name of their procedure."""
    seen, stack = values(state, thread), state.stacks[thread]
    if not stack:
        return seen
    own = max((at, name) for name, at in program.entries.items() if at <= stack[0].number)[1]
    return {**seen, **{"%s.%s" % (own, name): bit for name, bit in stack[0].locals}}


def random_run(draw, program, entries, bits):
    """The steps of a run, each with the values of some variables after it, its last state, and how
    many steps come up to each one at the `?` of a branch or a loop."""
    state, steps, thread, cuts = program.start(entries, bits), [], 0, []
    for _ in range(3 * LONGEST):
        thread = draw.choice([thread, thread, draw.randrange(len(entries))])
        at = program.next(state, thread)
        reply, state = program.step(state, thread, draw.randint(0, 1))
        if reply in "sf":
            seen = seen_by(program, state, thread)
            shown = draw.sample(list(seen), draw.randint(0, 2))
            steps.append(Step(thread, at.place, tuple((name, seen[name]) for name in shown)))
            cuts += [len(steps)] if at.kind == "branch" and at.reads is None else []
        if reply == "f" or len(steps) == LONGEST:
            break
    return steps, state, cuts


def line_of(step):
    place = "-" if step.place is None else ":".join(str(it) for it in step.place if it is not None)
    return " ".join([str(step.thread), place, *("%s=%d" % value for value in step.values)]) + "\n"


def is_at(place, start):
    """Whether a statement that begins there, or a procedure's end, is at the place of a step."""
    if place is None or start is None:
        return place is start
    return place == start or place == (start[0], None)


def stands_at(program, state, step):
    at = program.next(state, step.thread)
    return at is not None and is_at(step.place, at.place)


def first_unseen(program, state, step):
    """What the thread sees in place of the first value that it does not see, `-` for no variable of
    its name; or None where it sees each."""
    seen = seen_by(program, state, step.thread)
    other = [seen.get(name, "-") for name, bit in step.values if seen.get(name) != bit]
    return str(other[0]) if other else None
