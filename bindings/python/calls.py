#!/usr/bin/env python3
"""Calls of the builders as a text, so that those in C, Rust and Python are made the same calls (bindings/test compares what comes out).

    calls.py of FILE.hex         the calls that build a file
    calls.py random SEED         calls by chance, among them some that a limit stands against
    calls.py build < CALLS       makes them with the builder of sigla.py

A line is a call: `limits D C` first, `name X`, `type integer`, `type fact P`, `type record X:T ..`, `type union X:D:T ..`, `declare X`,
`define P T T?`, `predicate X T T?`, `query`, `node START END SHAPE ..`, `ask N STATEMENT..`, and last `file`. X is a name's text in hexadecimal
with an x before it, T and N are numbers as the file has them, P is such a number with p before it or any number with a before it; a statement is
its byte and its nodes, with colons. What is printed is a line for each call that fails, its line's number and the limit, and then the file or
the limit that stands against it."""

import pathlib
import random
import sys

import sigla

LEAVES = {0: "integer", 1: "string", 2: "bytes", 4: "wildcard", 5: "never", 15: "unread"}
STATEMENTS = (sigla.Binds, sigla.Holds, sigla.Denies, sigla.Differs, sigla.Compares)


def text_of(word):
    return bytes.fromhex(word[1:]).decode()


def word_of(text):
    return "x" + text.encode().hex()


class Builder:
    """Makes the calls, and keeps the handles by number."""

    def __init__(self, distance, characters):
        self.form = sigla.Form(int(distance), int(characters))
        self.types, self.predicates, self.nodes = [], [], []
        self.query = None

    def predicate(self, word):
        return sigla.Predicate.absent(int(word[1:])) if word[0] == "a" else self.predicates[int(word[1:])]

    def statements(self, words):
        numbers = [[int(part) for part in word.split(":")] for word in words]
        return [STATEMENTS[byte](*(self.nodes[n] for n in nodes)) for byte, *nodes in numbers]

    def make(self, word, *rest):
        form = self.form
        if word == "name":
            form.name(text_of(rest[0]))
        elif word == "type":
            self.types.append(self.type(*rest))
        elif word == "declare":
            self.predicates.append(form.declare(text_of(rest[0])))
        elif word == "define":
            form.define(self.predicate(rest[0]), *(self.types[int(t)] for t in rest[1:]))
        elif word == "predicate":
            self.predicates.append(form.predicate(text_of(rest[0]), *(self.types[int(t)] for t in rest[1:])))
        elif word == "query":
            self.nodes, self.query = [], None
            self.query = form.query()
        elif word == "ask":
            self.query.ask(self.nodes[int(rest[0])], self.statements(rest[1:]))
        else:
            span = (int(rest[0]), int(rest[1]))
            self.nodes.append(self.node(span, int(rest[2]), *rest[3:]))

    def type(self, shape, *rest):
        form = self.form
        if shape == "fact":
            return form.fact(self.predicate(rest[0]))
        if shape == "record":
            parts = [word.split(":") for word in rest]
            return form.record([(text_of(x), self.types[int(t)]) for x, t in parts])
        if shape == "union":
            parts = [word.split(":") for word in rest]
            return form.union([(text_of(x), int(d), self.types[int(t)]) for x, d, t in parts])
        return getattr(form, shape)()

    def node(self, span, shape, *rest):
        query = self.query
        if shape in LEAVES:
            return getattr(query, LEAVES[shape])(span)
        if shape == 3:
            return query.variable(span, text_of(rest[0]))
        if shape == 6:
            return query.prefix(span, text_of(rest[0]))
        if shape == 7:
            return query.fuzzy(span, text_of(rest[0]), int(rest[1]))
        if shape == 8:
            parts = [word.split(":") for word in rest]
            return query.record(span, [(text_of(x), self.nodes[int(n)]) for x, n in parts])
        if shape == 9:
            return query.field(span, text_of(rest[0]), self.nodes[int(rest[1])])
        if shape == 10:
            return query.value(span, self.nodes[int(rest[0])])
        if shape == 12:
            return query.subquery(span, self.nodes[int(rest[0])], self.statements(rest[1:]))
        if shape == 13:
            return query.fact(span, self.predicate(rest[0]), self.nodes[int(rest[1])])
        if shape == 16:
            return query.alternative(span, text_of(rest[0]), self.nodes[int(rest[1])])
        return getattr(query, {11: "either", 14: "arithmetic"}[shape])(span, [self.nodes[int(n)] for n in rest])


def build(calls):
    """What the builder of sigla.py makes of calls."""
    builder, out = None, []
    for number, line in enumerate(calls.splitlines(), 1):
        word, *rest = line.split()
        try:
            if word == "limits":
                builder = Builder(*rest)
            elif word == "file":
                out.append(builder.form.file().decode())
            else:
                builder.make(word, *rest)
        except sigla.Limit as limit:
            out.append(f"{number} {limit.kind}\n")
    return "".join(out)


# ---- Of a file


def number(digits):
    return int(digits, 16)


def cut(digits, *bytes_each):
    """The numbers of so many bytes each, again and again to the end."""
    found = []
    while digits:
        row = []
        for n in bytes_each:
            row.append(number(digits[:2 * n]))
            digits = digits[2 * n:]
        found.append(row)
    return found


def asked(digits):
    """A head, and statements as words."""
    head, digits = number(digits[:4]), digits[4:]
    words = [str(head)]
    while digits:
        byte, digits = number(digits[:2]), digits[2:]
        nodes = 1 if byte in (1, 2) else 2
        words.append(":".join(map(str, [byte, *(number(digits[4 * i:4 * i + 4]) for i in range(nodes))])))
        digits = digits[4 * nodes:]
    return words


def calls_of(file):
    """The calls that build a file which the check accepts. Its predicates are declared first, since any type may refer to any of them."""
    lines = file.split()
    names = [bytes.fromhex(line[2:]).decode() for line in lines if line[:2] == "02"]
    known = sum(line[:2] == "04" for line in lines)

    def predicate(n):
        return f"p{n}" if n < known else f"a{n}"

    def x(n):
        return word_of(names[n])

    calls = [f"limits {number(lines[0][2:4])} {number(lines[0][4:8])}", *(f"name {word_of(name)}" for name in names)]
    calls += [f"declare {x(number(line[2:6]))}" for line in lines if line[:2] == "04"]
    for line in lines:
        shape, rest = line[2:4], line[4:]
        if line[:2] != "03":
            continue
        if shape in ("00", "01", "02"):
            calls.append("type " + ("integer", "string", "bytes")[int(shape)])
        elif shape == "03":
            calls.append(f"type fact {predicate(number(rest))}")
        elif shape == "04":
            calls.append(" ".join(["type record", *(f"{x(n)}:{t}" for n, t in cut(rest, 2, 2))]))
        else:
            calls.append(" ".join(["type union", *(f"{x(n)}:{d}:{t}" for n, d, t in cut(rest, 2, 4, 2))]))
    for p, line in enumerate(line for line in lines if line[:2] == "04"):
        value = f" {number(line[12:16])}" if line[10:12] == "01" else ""
        calls.append(f"define p{p} {number(line[6:10])}{value}")
    begun = False
    for line in lines:
        if line[:2] not in ("05", "06"):
            continue
        if not begun:
            calls.append("query")
        begun = line[:2] == "05"
        if not begun:
            calls.append(" ".join(["ask", *asked(line[2:])]))
            continue
        shape, rest = number(line[18:20]), line[20:]
        if shape in (3, 6):
            words = [x(number(rest))]
        elif shape == 7:
            words = [x(number(rest[:4])), number(rest[4:])]
        elif shape == 8:
            words = [f"{x(n)}:{node}" for n, node in cut(rest, 2, 2)]
        elif shape in (9, 16):
            words = [x(number(rest[:4])), number(rest[4:])]
        elif shape == 12:
            words = asked(rest)
        elif shape == 13:
            words = [predicate(number(rest[:8])), number(rest[8:])]
        else:
            words = [row[0] for row in cut(rest, 2)]
        calls.append(" ".join(map(str, ["node", number(line[2:10]), number(line[10:18]), shape, *words])))
    return "\n".join([*calls, "file"]) + "\n"


# ---- By chance


class Chance:
    """Calls by chance. They are made here too, since what a call may name depends on what came before."""

    def __init__(self, seed):
        self.pick = random.Random(seed)
        self.calls = [f"limits {self.pick.randrange(256)} {self.pick.randrange(65536)}"]
        self.builder = Builder(*self.calls[0].split()[1:])
        self.free = []  # the nodes that nothing names yet
        self.texts = [f"n{i}" for i in range(self.pick.choice((5, 30, 300)))] + ["", "é€𝄞", "x" * 511, "x" * 512]

    def call(self, *words):
        """Makes a call; whether it was done."""
        line = " ".join(map(str, words))
        self.calls.append(line)
        try:
            self.builder.make(*line.split())
            return True
        except sigla.Limit:
            return False

    def x(self):
        return word_of(self.pick.choice(self.texts[:-2] if self.pick.random() < 0.99 else self.texts))

    def predicate(self):
        known = len(self.builder.predicates)
        return f"p{self.pick.randrange(known)}" if known and self.pick.random() < 0.7 else f"a{self.pick.randrange(1 << 32)}"

    def some(self):
        return self.pick.choice((0, 1, 1, 2, 2, 3, 4, 5, 130) if self.pick.random() < 0.05 else (0, 1, 1, 2, 2, 3, 4, 5))

    def type(self):
        types = len(self.builder.types)
        shape = self.pick.choice(("integer", "string", "bytes", "fact", "record", "union") if types else ("integer", "string", "bytes", "fact"))
        words = []
        if shape == "fact":
            words = [self.predicate()]
        elif shape == "record":
            words = [f"{self.x()}:{self.pick.randrange(types)}" for _ in range(self.some())]
        elif shape == "union":
            words = [f"{self.x()}:{self.pick.choice((0, 1, 2, 7, 1 << 31, (1 << 32) - 1, self.pick.randrange(1 << 32)))}:{self.pick.randrange(types)}"
                     for _ in range(self.some())]
        self.call("type", shape, *words)

    def schema(self):
        what, types = self.pick.random(), len(self.builder.types)
        if what < 0.15:
            self.call("name", self.x())
        elif what < 0.7 or not types:
            self.type()
        else:
            two = [self.pick.randrange(types) for _ in range(self.pick.choice((1, 2)))]
            if what < 0.9:
                self.call("predicate", self.x(), *two)
            elif self.call("declare", self.x()) and self.pick.random() < 0.95:
                self.call("define", f"p{len(self.builder.predicates) - 1}", *two)
            elif self.builder.predicates:
                self.call("define", self.predicate(), *two)

    def taken(self, most):
        """Some nodes that nothing names yet; a call that fails has used them up too."""
        nodes = []
        while self.free and len(nodes) < most:
            nodes.append(self.free.pop(self.pick.randrange(len(self.free))))
        return nodes

    def asked(self):
        words = self.taken(1)
        for _ in range(self.some()):
            byte = self.pick.randrange(5)
            nodes = self.taken(1 if byte in (1, 2) else 2)
            if len(nodes) == (1 if byte in (1, 2) else 2):
                words.append(":".join(map(str, [byte, *nodes])))
        return words

    def node(self):
        shape = self.pick.choice(range(17))
        words = []
        if shape in (3, 6):
            words = [self.x()]
        elif shape == 7:
            words = [self.x(), self.pick.randrange(256)]
        elif shape == 8:
            words = [f"{self.x()}:{n}" for n in self.taken(self.some())]
        elif shape in (11, 14):
            words = self.taken(self.some())
        elif shape in (9, 10, 12, 13, 16):
            if not self.free:
                return
            first = {9: [self.x()], 16: [self.x()], 13: [self.predicate()]}.get(shape, [])
            words = self.asked() if shape == 12 else first + self.taken(1)
        span = [self.pick.choice((0, 1, 77, 1 << 31, (1 << 32) - 1)) for _ in range(2)]
        if self.call("node", *span, shape, *words):
            self.free.append(len(self.builder.nodes) - 1)

    def run(self):
        for _ in range(self.pick.choice((3, 20, 60, 400, 800))):
            self.schema()
        most = self.pick.choice((3, 20, 20, 60, 900))
        for _ in range(self.pick.choice((0, 1, 2, 5, 5 if most > 60 else 90))):
            self.free = []
            if not self.call("query"):
                continue
            for _ in range(self.pick.randrange(1, most)):
                self.node()
            if self.free and self.pick.random() < 0.9:
                self.call("ask", *self.asked())
        return "\n".join([*self.calls, "file"]) + "\n"


def main(words):
    if words[:1] == ["of"] and len(words) == 2:
        sys.stdout.write(calls_of(pathlib.Path(words[1]).read_text()))
    elif words[:1] == ["random"] and len(words) == 2:
        sys.stdout.write(Chance(int(words[1])).run())
    elif words == ["build"]:
        sys.stdout.write(build(sys.stdin.read()))
    else:
        sys.exit("usage: calls.py of FILE.hex | random SEED | build < CALLS")


if __name__ == "__main__":
    main(sys.argv[1:])
