"""Declarations, citations and imports in the text of an .antt file. It is no program."""
import re

WORD = re.compile(r'[^\s(){}.;,@"]+')
SIGNATURE = re.compile(r'^(\s*)((?:pub |abbrev |unfoldable |pattern )*)([^\s(){}.;,@"]+) : ')
NO_SIGNATURE = ("--", "let ", "use ", "pub use", "record ", "pub record", "module", "data", "pub data")
IMPORT = re.compile(r"^use ([^\s{]+)\.\{(.*)\}$")
MODULE_IMPORT = re.compile(r"^use ([^\s{]+?)(?: as (\S+))?$")


def indent(line):
    return len(line) - len(line.lstrip())


class Declaration:
    """A signature with its clauses, as numbers of lines: [first, end) of the whole, [start, end) of each clause."""

    def __init__(self, lines, first):
        found = SIGNATURE.match(lines[first])
        self.lines, self.first = lines, first
        self.indent, self.marks, self.name = len(found[1]), found[2], found[3]
        at = first + 1
        while at < len(lines) and lines[at].strip() and indent(lines[at]) > self.indent:
            at += 1
        self.after_signature = at
        self.unfolds = at < len(lines) and lines[at].strip().startswith("unfolding ")
        self.clauses, self.end = [], at + self.unfolds
        while self.end < len(lines) and self.takes(lines[self.end]):
            self.end += 1
        self.has_where = any(re.search(r"\bwhere\s*$", line) for line in lines[at : self.end])
        while self.has_where and self.goes_on():
            self.end += 1

    def goes_on(self):
        """Whether what follows belongs to a block of local functions."""
        later = [line for line in self.lines[self.end :] if line.strip()]
        return bool(later) and indent(later[0]) > self.indent

    def takes(self, line):
        """Whether the line belongs to a clause; one that begins a clause is noted."""
        begins = re.match(re.escape(self.name) + r"( |$)", line.strip()) and not SIGNATURE.match(line)
        if not line.strip() or indent(line) < self.indent:
            return False
        if indent(line) == self.indent and begins:
            self.clauses.append([self.end, self.end + 1])
            return True
        if indent(line) == self.indent and not re.match(r"^[\])}]", line.strip()):
            return False
        if self.clauses:
            self.clauses[-1][1] = self.end + 1
        return True

    def text(self):
        return "\n".join(self.lines[self.first : self.end])

    def body(self):
        return "\n".join("\n".join(self.lines[start:end]) for start, end in self.clauses)

    def signature(self):
        return " ".join(line.strip() for line in self.lines[self.first : self.after_signature])

    def type(self):
        return self.signature().split(" : ", 1)[1]

    def is_answer(self):
        return self.type().startswith("goal.")

    def is_lemma(self):
        """Whether another proof of the same statement may stand in its place: it is no definition of a value."""
        last = top_level_parts(self.type())[-1]
        is_value = re.search(r"\bType\b", last) or re.match(r"^(ℕ|Bool|List [^≡]*|Option [^≡]*)$", last)
        return not is_value and not re.search("abbrev|unfoldable", self.marks) and bool(self.clauses)


def declarations(lines):
    """The declarations of a file, in their order."""
    found, at = [], 0
    while at < len(lines):
        if SIGNATURE.match(lines[at]) and not lines[at].lstrip().startswith(NO_SIGNATURE):
            found.append(Declaration(lines, at))
            at = max(found[-1].end, at + 1)
        else:
            at += 1
    return found


def mutual_lines(lines):
    """The numbers of the lines in mutual blocks, whose lemmas need each other."""
    found, inside = set(), None
    for at, line in enumerate(lines):
        if inside is not None and line.strip() and indent(line) <= inside:
            inside = None
        if inside is not None:
            found.add(at)
        if re.match(r"^\s*(?:abbrev |pub )*mutual\b", line):
            inside = indent(line)
    return found


def top_level_parts(type_text):
    """The parts of a type between its arrows that stand in no brackets."""
    parts, depth = [""], 0
    for token in re.findall(r"[(){}]|→|[^\s(){}→]+|\s+", type_text):
        depth += (token in "({") - (token in ")}") if len(token) == 1 else 0
        if token == "→" and depth == 0:
            parts.append("")
        else:
            parts[-1] += token
    return [part.strip() for part in parts]


def sides(clause):
    """The left and the right side of a clause on one line, or None if it has none. A name may be given on the left: {x = y}."""
    depth = 0
    for at, sign in enumerate(clause):
        depth += (sign in "({[") - (sign in ")}]")
        if depth == 0 and clause.startswith(" = ", at):
            return clause[:at], clause[at + 3 :]
    return None


def arguments(declaration):
    """Names for the explicit arguments: those of the signature, and `given1` and so on for premises without one."""
    names, premises = [], 0
    for part in top_level_parts(declaration.type())[:-1]:
        groups = re.findall(r"[({][^:(){}]+ : ", part) if part.startswith(("(", "{")) else []
        if not groups:
            premises += 1
            names.append(f"given{premises}")
        for group in groups:
            names += group[1:-3].split() if group.startswith("(") else []
    return names


def names_in(braces):
    """The names that stand between the braces of an import."""
    return [name.strip() for name in braces.split(",") if name.strip()]


def is_used(name, text, words):
    """Whether a text uses a name; of an operator, whether it has one of its parts."""
    parts = [part for part in name.split("◌") if part]
    alone = r"(?<![^\s(){},;.◌])%s(?![^\s(){},;.◌])"
    return name in words or ("◌" in name and any(re.search(alone % re.escape(part), text) for part in parts))


def without_unused_imports(text):
    """The text with only those imports that it uses."""
    lines = text.split("\n")
    body = "\n".join(re.sub(r"--.*", "", line) for line in lines if not line.startswith("use "))
    words, kept = set(WORD.findall(body)), []
    for line in lines:
        items, module = IMPORT.match(line), MODULE_IMPORT.match(line)
        if items:
            names = [name for name in names_in(items[2]) if is_used(name.split(" as ")[-1].strip(), body, words)]
            kept += [f"use {items[1]}.{{{', '.join(names)}}}"] if names else []
        elif not module or (module[2] or module[1].split(".")[-1]) in words:
            kept.append(line)
    return "\n".join(kept)


def with_import(text, name, module):
    """The text with this name of the module, which it imports if it does not yet."""
    if re.search(r"^use .*[{ ]%s[,}]" % re.escape(name), text, re.M):
        return text
    line = re.search(r"^use %s\.\{.*\}$" % re.escape(module), text, re.M)
    if line:
        return text[: line.end() - 1] + f", {name}}}" + text[line.end() :]
    first = re.search(r"^use ", text, re.M)
    return text[: first.start()] + f"use {module}.{{{name}}}\n" + text[first.start() :]
