"""Random concurrent Boolean programs, a machine that plays them, and a generator of choice bits. It is no test itself.

A program is a list of instructions beside its text. Both come from docs/language.md alone, so a
script can judge by them what `btrun` says."""
from collections import namedtuple

GLOBALS = ["go", "x", "{a = b}"]
# each procedure with its formals and locals; a statement may call the last one
PROCEDURES = {"one": ([], ["kept"]), "two": ([], ["x"]), "deep": (["on"], ["kept"])}
# the names of all variables
NAMES = ["go", "x", "{a = b}", "kept", "on"]
ENTRIES = ["one", "two"]
CALLEE = "deep"
DEEPEST = 2
WORD = 2**64
# the stream of the choice bits of thread 0
BITS_STREAM = 54
OPERATORS = {
    "&": lambda a, b: a & b,
    "|": lambda a, b: a | b,
    "^": lambda a, b: a ^ b,
    "=": lambda a, b: int(a == b),
    "=>": lambda a, b: int(a <= b),
}

# `place` is the line and the column of the statement, None at a procedure's end. `next` and `other`
# are numbers of instructions, `other` that for a condition of 0. `reads` has functions from the
# values of variables to those of the expressions, and is None for a `?`.
Instruction = namedtuple("Instruction", "kind place next other reads targets", defaults=(None, None, None, None, ()))

# A stack has its frames from the top. A frame has the number of the instruction at which it goes
# on, and the values of its locals. `failed` is the thread whose assertion failed, or None.
State = namedtuple("State", "globals stacks failed")
Frame = namedtuple("Frame", "number locals")


class Writer:
    """Writes a program at random: its text, and its instructions beside it. Each procedure begins with this number of polls."""

    def __init__(self, draw, polls):
        self.draw, self.text, self.code, self.entries = draw, "", [], {}
        self.polls = polls
        self.scope, self.labels = [], {}
        self.add("decl %s;\n" % ", ".join(GLOBALS))
        for name, (formals, declared) in PROCEDURES.items():
            self.procedure(name, formals, declared)

    def add(self, text):
        self.text += text

    def emit(self, kind, place, reads=None, targets=()):
        """The number of a new instruction, which the one after it follows."""
        self.code.append(Instruction(kind, place, len(self.code) + 1, None, reads, targets))
        return len(self.code) - 1

    def redirect(self, first, end, number):
        """The instructions from `first` on that go on at `end` go on at this number instead."""
        for at in range(first, end):
            it = self.code[at]
            ways = [number if way == end else way for way in (it.next, it.other)]
            self.code[at] = it._replace(next=ways[0], other=ways[1])

    def procedure(self, name, formals, declared):
        self.scope, self.labels = [*formals, *declared], {}
        self.entries[name] = len(self.code)
        self.add("%s(%s) begin decl %s;\n" % (name, ", ".join(formals), ", ".join(declared)))
        for _ in range(self.polls):
            self.poll()
        self.block(self.draw.randint(3, 6), 0)
        self.add("end\n")
        self.emit("return", None)

    def block(self, length, depth):
        """The number of the first instruction of a block, whose statements may share a line."""
        first = len(self.code)
        for _ in range(length):
            self.statement(depth)
            self.add(self.draw.choice(["\n", "\n", " "]))
        return first

    def statement(self, depth):
        kinds = [self.assign] * 4 + [self.test] * 3 + [self.call, self.jump, self.leave]
        kinds += [self.branch, self.loop] * 2 if depth < DEEPEST else []
        if not self.labels or self.draw.random() < 0.1:
            label = "label%d" % len(self.labels)
            self.labels[label] = len(self.code)
            self.add(label + ": ")
        self.draw.choice(kinds)(self.place(), depth)

    def place(self):
        """The line and the column of what is added next."""
        return self.text.count("\n") + 1, len(self.text) - self.text.rfind("\n")

    def poll(self):
        """Negates a global, mostly the first one."""
        name = self.draw.choice([GLOBALS[0]] * 20 + GLOBALS)
        self.emit("assign", self.place(), [lambda value: 1 - value[name]], [name])
        self.add("%s := !%s;\n" % (name, name))

    def expression(self, depth=0):
        """The text of an expression, and the function that gives its value."""
        kind = self.draw.random()
        if kind < 0.1:
            bit = self.draw.randint(0, 1)
            return str(bit), lambda value: bit
        if kind < 0.5 or depth == DEEPEST:
            name = self.draw.choice(GLOBALS + self.scope)
            return name, lambda value: value[name]
        if kind < 0.65:
            text, inner = self.expression(depth + 1)
            return "!(%s)" % text, lambda value: 1 - inner(value)
        sign = self.draw.choice(list(OPERATORS))
        (left, a), (right, b) = self.expression(depth + 1), self.expression(depth + 1)
        return "(%s %s %s)" % (left, sign, right), lambda value: OPERATORS[sign](a(value), b(value))

    def decider(self):
        """The text of a condition, and what it reads."""
        if self.draw.random() < 0.6:
            return "?", None
        text, value = self.expression()
        return text, [value]

    def assign(self, place, depth):
        targets = self.draw.sample(sorted({*GLOBALS, *self.scope}), self.draw.randint(1, 2))
        texts, reads = zip(*[self.expression() for _ in targets])
        self.emit("assign", place, reads, targets)
        self.add("%s := %s;" % (", ".join(targets), ", ".join(texts)))

    def test(self, place, depth):
        kind, (text, reads) = self.draw.choice(["assume", "assert"]), self.decider()
        self.emit(kind, place, reads)
        self.add("%s (%s);" % (kind, text))

    def call(self, place, depth):
        text, value = self.expression()
        self.emit("call", place, [value])
        self.add("%s(%s);" % (CALLEE, text))

    def jump(self, place, depth):
        label = self.draw.choice(list(self.labels))
        number = self.emit("skip", place)
        self.code[number] = self.code[number]._replace(next=self.labels[label])
        self.add("goto %s;" % label)

    def leave(self, place, depth):
        kind = self.draw.choice(["skip", "skip", "return"])
        self.emit(kind, place)
        self.add(kind + ";")

    def branch(self, place, depth):
        text, reads = self.decider()
        number = self.emit("branch", place, reads)
        self.add("if (%s) then " % text)
        taken = self.block(self.draw.randint(1, 2), depth + 1)
        self.add("else ")
        other = self.block(self.draw.randint(1, 2), depth + 1)
        self.add("fi")
        self.redirect(taken, other, len(self.code))
        self.code[number] = self.code[number]._replace(other=other)

    def loop(self, place, depth):
        text, reads = self.decider()
        number = self.emit("branch", place, reads)
        self.add("while (%s) do " % text)
        body = self.block(self.draw.randint(1, 2), depth + 1)
        self.add("od")
        self.redirect(body, len(self.code), number)
        self.code[number] = self.code[number]._replace(other=len(self.code))


class Program:
    """A program with its threads: its text, where they stand, and what a step of each does."""

    def __init__(self, text, code, entries, globals_, procedures):
        self.text, self.code, self.entries = text, code, entries
        self.globals, self.procedures = globals_, procedures

    def start(self, entries, bits):
        locals_ = {name: dict.fromkeys(self.procedures[name][1], 0) for name in entries}
        stacks = tuple((frame(self.entries[name], locals_[name]),) for name in entries)
        return State(tuple(zip(self.globals, bits)), stacks, None)

    def next(self, state, thread):
        """The instruction at which a thread stands, or None if it has ended."""
        stack = state.stacks[thread]
        return self.code[stack[0].number] if stack else None

    def step(self, state, thread, bit):
        """The letter of the machine's reply, and the state after it. Contexts are not counted."""
        if state.failed is not None:
            return "x", state
        it = self.next(state, thread)
        if it is None:
            return "e", state
        seen = values(state, thread)
        found = [bit] if it.reads is None else [read(seen) for read in it.reads]
        if it.kind == "assume" and not found[0]:
            return "b", state
        if it.kind == "assert" and not found[0]:
            return "f", state._replace(failed=thread)
        return "s", self.moved(state, thread, it, found)

    def moved(self, state, thread, it, found):
        """The state after a step of a thread, whose expressions have these values."""
        top, *below = state.stacks[thread]
        if it.kind == "return":
            return with_stack(state, thread, below)
        on = it.other if it.kind == "branch" and not found[0] else it.next
        kept, globals_ = dict(top.locals), dict(state.globals)
        for name, bit in zip(it.targets, found):
            (kept if name in kept else globals_)[name] = bit
        frames = [frame(on, kept), *below]
        if it.kind == "call":
            formals, declared = self.procedures[CALLEE]
            given = {**dict(zip(formals, found)), **dict.fromkeys(declared, 0)}
            frames.insert(0, frame(self.entries[CALLEE], given))
        return with_stack(state._replace(globals=tuple(globals_.items())), thread, frames)


def random_program(draw, polls=0):
    writer = Writer(draw, polls)
    return Program(writer.text, writer.code, writer.entries, GLOBALS, PROCEDURES)


def frame(number, locals_):
    return Frame(number, tuple(locals_.items()))


def with_stack(state, thread, frames):
    stacks = list(state.stacks)
    stacks[thread] = tuple(frames)
    return state._replace(stacks=tuple(stacks))


def values(state, thread):
    """The values of the variables that a thread sees: a local hides a global."""
    stack = state.stacks[thread]
    return {**dict(state.globals), **(dict(stack[0].locals) if stack else {})}


class Generator:
    """The numbers of PCG XSH RR 64/32 (O'Neill) for a seed and a stream."""

    def __init__(self, seed, stream):
        self.increment = 2 * stream + 1
        self.state = (seed + self.increment) % WORD
        self.step()

    def step(self):
        self.state = (self.state * 6364136223846793005 + self.increment) % WORD

    def word(self):
        state, turn = self.state, self.state >> 59
        self.step()
        word = (state >> 18 ^ state) >> 27 & 0xFFFFFFFF
        return (word >> turn | word << 32 - turn) & 0xFFFFFFFF

    def below(self, count):
        word = self.word()
        return word % count if count else 0

    def bits(self):
        """The bits of each word, from the lowest."""
        while True:
            word = self.word()
            yield from (word >> place & 1 for place in range(32))


def choice_bits(seed, thread):
    """The choice bits of a thread."""
    return Generator(seed, BITS_STREAM + thread).bits()
