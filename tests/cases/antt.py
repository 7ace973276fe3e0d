"""Reads the part of antt that crates/cases/specs is written in: definitions by clauses over numbers, lists and records.

What it does not know it refuses, so that no line of a case is passed over."""
import operator
import re

TOKEN = re.compile(r"\s+|(0x[0-9A-Fa-f_]+|[0-9]+|[A-Za-z][A-Za-z0-9_]*|∷|\+\+|\[\]|[-()+*/%=;{}])")
CITED = re.compile(r"use Rattle\.cases\.specs\.(\w+)\.\{(.*)\}")
LEVELS = [("∷", "++"), ("+", "-"), ("*", "/", "%")]
OPERATORS = {
    "∷": lambda first, rest: [first] + rest,
    "++": operator.add,
    "+": operator.add,
    "-": lambda left, right: max(left - right, 0),
    "*": operator.mul,
    "/": operator.floordiv,
    "%": operator.mod,
}


class Unread(Exception):
    """The text is outside the part that is read here."""


def tokens_of(text):
    tokens, at = [], 0
    while at < len(text):
        found = TOKEN.match(text, at)
        if not found:
            raise Unread(text[at:at + 40])
        if found.group(1):
            tokens.append(found.group(1))
        at = found.end()
    return tokens


class Parser:
    """An expression is a number, a name, ("[]",), (operator, left, right), ("apply", parts) or ("record", fields)."""

    def __init__(self, tokens):
        self.tokens, self.at = tokens, 0

    def next(self):
        return self.tokens[self.at] if self.at < len(self.tokens) else None

    def take(self, *wanted):
        token = self.next()
        if token is None or (wanted and token not in wanted):
            raise Unread(f"{token} where {' or '.join(wanted) or 'more'} was to come")
        self.at += 1
        return token

    def expression(self, level=0):
        if level == len(LEVELS):
            return self.application()
        left = self.expression(level + 1)
        if level == 0 and self.next() in LEVELS[0]:
            return (self.take(), left, self.expression(0))
        while level > 0 and self.next() in LEVELS[level]:
            left = (self.take(), left, self.expression(level + 1))
        return left

    def application(self):
        parts = [self.atom()]
        while self.next() and (self.next() in ("(", "[]") or self.next()[0].isalnum()):
            parts.append(self.atom())
        return parts[0] if len(parts) == 1 else ("apply", parts)

    def atom(self):
        token = self.take()
        if token == "(":
            inside = self.expression()
            self.take(")")
            return inside
        if token == "[]":
            return ("[]",)
        if token == "record":
            return ("record", self.fields())
        if token[0].isdigit():
            return int(token.replace("_", ""), 0)
        if not token[0].isalpha():
            raise Unread(token)
        return token

    def fields(self):
        fields = {}
        self.take("{")
        while self.next() != "}":
            name = self.take()
            self.take("=")
            fields[name] = self.expression()
            if self.next() != "}":
                self.take(";")
        self.take("}")
        return fields


def clause_of(line):
    """The name, the patterns and the right-hand side of `name pattern .. = expression`."""
    parser = Parser(tokens_of(line))
    name, patterns = parser.take(), []
    while parser.next() != "=":
        patterns.append(parser.atom())
    parser.take("=")
    right = parser.expression()
    if parser.next() is not None:
        raise Unread(f"{name}: {parser.next()} after its end")
    return name, patterns, right


def lines_of(text):
    """The lines without comments, each with the indented ones that go on from it."""
    lines = []
    for line in text.splitlines():
        if not line.strip() or line.lstrip().startswith("--"):
            continue
        if line[0].isspace():
            lines[-1] += " " + line.strip()
        else:
            lines.append(line)
    return lines


def matched(pattern, value):
    """What the pattern binds in the value, or None."""
    if pattern == "zero":
        return {} if value == 0 else None
    if isinstance(pattern, str):
        return {pattern: value}
    if pattern == ("[]",):
        return {} if value == [] else None
    if pattern[0] == "∷":
        return {pattern[1]: value[0], pattern[2]: value[1:]} if value else None
    if pattern[0] == "apply" and pattern[1][0] == "suc":
        return {pattern[1][1]: value - 1} if value > 0 else None
    raise Unread(f"the pattern {pattern}")


class Library:
    """The files of a folder. `words` are the definitions that are given and not read; `label` is shown the name of each value."""

    def __init__(self, folder, words, label):
        self.folder, self.words, self.label, self.modules = folder, words, label, {}

    def value(self, module, name):
        if module not in self.modules:
            self.modules[module] = Module(self, (self.folder / f"{module}.antt").read_text(encoding="utf-8"))
        return self.modules[module].value(name)


class Module:
    """One file: its definitions, and what it cites of the others."""

    def __init__(self, library, text):
        self.library, self.clauses, self.cited, self.known = library, {}, {}, {}
        for line in lines_of(text):
            self.read(line)

    def read(self, line):
        if line.startswith("use "):
            cited = CITED.fullmatch(line)
            for name in cited.group(2).split(", ") if cited else []:
                self.cited[name] = cited.group(1)
        elif not line.startswith("abbrev "):
            name, patterns, right = clause_of(line)
            self.clauses.setdefault(name, []).append((patterns, right))

    def value(self, name):
        if name not in self.known:
            self.known[name] = self.found(name)
        return self.known[name]

    def found(self, name):
        if name in self.clauses:
            takes_some = self.clauses[name][0][0]
            return (lambda *given: self.called(name, given)) if takes_some else self.library.label(name, self.called(name, []))
        if name in self.library.words:
            return self.library.words[name]
        if name in self.cited:
            return self.library.value(self.cited[name], name)
        raise Unread(f"the name {name}")

    def called(self, name, given):
        for patterns, right in self.clauses[name]:
            bound = [matched(pattern, value) for pattern, value in zip(patterns, given, strict=True)]
            if None not in bound:
                return self.evaluated(right, {key: value for each in bound for key, value in each.items()})
        raise Unread(f"{name} has no clause for what it is given")

    def evaluated(self, term, bound):
        if isinstance(term, int):
            return term
        if isinstance(term, str):
            return bound[term] if term in bound else self.value(term)
        if term == ("[]",):
            return []
        if term[0] == "record":
            return self.library.words["record"](**{name: self.evaluated(part, bound) for name, part in term[1].items()})
        if term[0] == "apply":
            function, *given = [self.evaluated(part, bound) for part in term[1]]
            return function(*given)
        return OPERATORS[term[0]](self.evaluated(term[1], bound), self.evaluated(term[2], bound))
