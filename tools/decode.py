#!/usr/bin/env python3
"""Prints a question, permits or a rewritten question as QUEL, or says at which byte and why it is refused.

    decode.py question|permits|rewritten FILE [--names FILE] [--catalogue FILE] [--decimal]

FILE holds the bytes, or is - for standard input; with --decimal it holds them as decimal numbers, as the program prints them.
--names: a line for each relation, its name and then those of its attributes. Without it they are R0, R1, .. and A0, A1, ..
--catalogue: the collection's catalogue; without it relations and attributes are not looked up.

The text is that of QUEL with a RANGE and a RETRIEVE; ^ is AND, V is OR, # is not equal. TRUE and FALSE stand where QUEL has no word for
them. A variable's symbol is a letter by its number, A for 0 (there is no V). Exits 0, or 1 if the bytes are refused, or 2.
The refusal is that of 20 to 32 which the engine would give; 33 and later need more than these bytes."""
import argparse
import sys
import threading

CONDITIONS = {16: "TRUE", 17: "FALSE", 18: "NOT", 19: "AND", 20: "OR", 21: "comparison", 22: "SOME"}
TERMS = {32: "constant", 33: "attribute", 34: "aggregate"}
BODY = {18: 0, 19: 0, 20: 0, 16: 0, 17: 0, 21: 1, 22: 2, 32: 4, 33: 2, 34: 4}
OPERATORS = {1: "=", 2: "#", 3: "<", 4: "<=", 5: ">", 6: ">="}
FUNCTIONS = {1: "COUNT", 2: "SUM", 3: "AVE", 4: "MAX", 5: "MIN"}
RESERVED = {"RANGE", "RETRIEVE", "NOT", "SOME", "IN", "V", "COUNT", "SUM", "AVE", "MAX", "MIN"}
# bytes, levels, binding records, variables below
LIMITS = {"question": (1024, 32, 8, 8), "rewritten": (17216, 64, 200, 200), "permits": (256, 16, 3, 4)}
LIST_BYTES, PERMITS, RANGES, TARGETS, ALL = 2048, 8, 4, 8, 65535


class Damaged(Exception):
    pass


class Node:
    """A record: its kind, where it stands, its level, the bytes of its body, its children."""

    def __init__(self, kind, at, level, body, children=()):
        self.kind, self.at, self.level, self.body, self.children = kind, at, level, body, list(children)

    def all(self):
        waiting = [self]
        while waiting:
            node = waiting.pop()
            yield node
            waiting += reversed(node.children)

    def binds(self):
        """The variable and the relation that the record binds, or None."""
        return {22: lambda b: (b[0], b[1]), 34: lambda b: (b[1], b[2])}.get(self.kind, lambda b: None)(self.body)


class Reader:
    def __init__(self, data):
        self.data, self.at, self.open = data, 0, []

    def wrong(self, why):
        inside = "".join(f", in the {name} at byte {at}" for name, at in reversed(self.open[-3:]))
        raise Damaged(f"byte {self.at}: {why}{inside}")

    def take(self, count, what):
        left = len(self.data) - self.at
        if left < count:
            self.wrong(f"cut short: {what} has {count} bytes, {left} are left")
        self.at += count
        return self.data[self.at - count:self.at]

    def kind(self):
        return self.data[self.at] if self.at < len(self.data) else None

    def record(self, level, names, expected):
        kind, at = self.kind(), self.at
        if kind is None:
            self.wrong(f"the end, where {expected} was expected")
        if kind not in names:
            self.wrong(f"{kind} where {expected} was expected (kinds {min(names)} to {max(names)})")
        self.at += 1
        body = self.take(BODY[kind], f"the body of {names[kind]}")
        for of, known, word in ((21, OPERATORS, "operator"), (34, FUNCTIONS, "function")):
            if kind == of and body[0] not in known:
                self.at = at + 1
                self.wrong(f"{word} {body[0]}, not 1 to {max(known)}")
        node = Node(kind, at, level, body)
        self.open.append((names[kind], at))
        for _ in range({18: 1, 19: 2, 20: 2, 22: 1, 34: 1}.get(kind, 0)):
            node.children.append(self.condition(level + 1))
        for _ in range(2 if kind == 21 else 0):
            node.children.append(self.record(level + 1, TERMS, "a term"))
        self.open.pop()
        return node

    def condition(self, level):
        return self.record(level, CONDITIONS, "a condition")

    def question(self):
        ranges, targets = [], []
        while self.kind() == 1:
            at = self.at
            body = self.take(3, "a RANGE record")
            ranges.append(Node(1, at, 0, body[1:]))
        while self.kind() in (33, 34):
            targets.append(self.record(1, TERMS, "a target"))
        if not targets:
            self.wrong("no target (kinds 33 and 34) before this")
        condition = self.condition(1)
        if self.at < len(self.data):
            self.wrong(f"the question has ended before this; bytes too many: {len(self.data) - self.at}")
        return ranges, targets, condition

    def permits(self):
        permits = []
        while self.at < len(self.data):
            at = self.at
            if self.data[at] != 64:
                self.wrong(f"{self.data[at]} where a permit (kind 64) was expected")
            head = self.take(4, "a permit's head")
            self.open.append(("permit", at))
            condition = self.condition(1)
            self.open.pop()
            permits.append((at, self.at, head[1], head[2] + 256 * head[3], condition))
        return permits


class Checks:
    """Refusals with their places: the lowest number counts."""

    def __init__(self, shape):
        self.shape, self.found = shape, []

    def no(self, number, at, why):
        self.found.append((number, f"byte {at}: {why}"))

    def sizes(self, number, trees, levels, most):
        nodes = [node for tree in trees for node in tree.all()]
        for node in nodes:
            if node.level == levels + 1:
                self.no(number, node.at, f"level {node.level}, where {levels} are the most")
                break
        bound = [node for node in nodes if node.kind == 1 or node.binds()]
        if len(bound) > most:
            self.no(number, bound[most].at, f"one more variable is bound than {most}, the most")

    def relation(self, number, at, relation):
        known = self.shape is None or relation < len(self.shape)
        if not known:
            self.no(number, at, f"relation {relation} is not in the catalogue")
        return known

    def attribute(self, number, at, relation, attribute):
        if self.shape is not None and relation < len(self.shape) and attribute >= self.shape[relation][1]:
            self.no(number, at, f"attribute {attribute}, and relation {relation} has {self.shape[relation][1]}")

    def bind(self, number, at, variable, relation, seen, below):
        if variable >= below:
            self.no(number, at, f"variable {variable}, where {below - 1} is the largest")
        if variable in seen:
            self.no(number, at, f"variable {variable} is bound a second time")
        seen.add(variable)
        self.relation(number, at, relation)

    def names(self, number, tree, scope, seen, below):
        waiting = [(tree, scope)]
        while waiting:
            node, scope = waiting.pop()
            if node.kind == 33:
                variable, attribute = node.body
                if variable not in scope:
                    self.no(number, node.at, f"variable {variable} is out of reach")
                else:
                    self.attribute(number, node.at, scope[variable], attribute)
            if node.binds():
                variable, relation = node.binds()
                self.bind(number, node.at, variable, relation, seen, below)
                if node.kind == 34:
                    self.attribute(number, node.at, relation, node.body[3])
                scope = {**(scope if node.kind == 22 else {}), variable: relation}
            waiting += [(child, scope) for child in reversed(node.children)]

    def question(self, parts, limits):
        ranges, targets, condition = parts
        _, levels, most, below = limits
        for word, records, limit in (("RANGE", ranges, RANGES), ("target", targets, TARGETS)):
            if len(records) > limit:
                self.no(31, records[limit].at, f"one more {word} than {limit}, the most")
        self.sizes(31, ranges + targets + [condition], levels, most)
        seen, scope = set(), {}
        for node in ranges:
            self.bind(32, node.at, node.body[0], node.body[1], seen, below)
            scope.setdefault(node.body[0], node.body[1])
        for tree in targets + [condition]:
            self.names(32, tree, scope, seen, below)

    def permits(self, permits, limits):
        most_bytes, levels, most, below = limits
        if len(permits) > PERMITS:
            self.no(21, permits[PERMITS][0], f"one more permit than {PERMITS}, the most")
        for at, end, relation, mask, condition in permits:
            if end - at > most_bytes:
                self.no(21, at, f"a permit of {end - at} bytes, where {most_bytes} are the most")
            self.sizes(21, [condition], levels, most)
            if self.relation(22, at, relation) and self.shape is not None and mask != ALL and mask >> self.shape[relation][1]:
                self.no(22, at + 2, f"mask {mask} names an attribute that relation {relation} has not")
            if mask == 0:
                self.no(22, at + 2, "mask 0")
            self.names(22, condition, {0: relation}, {0}, below)
            for where, over in [(at, relation)] + [(node.at, node.binds()[1]) for node in condition.all() if node.binds()]:
                if self.shape is not None and over < len(self.shape) and self.shape[over][0] == 49:
                    self.no(23, where, f"relation {over} is a workspace")


class Printer:
    def __init__(self, names):
        self.names = names

    def relation(self, number):
        return self.names[number][0] if number < len(self.names) else f"R{number}"

    def column(self, relation, number):
        known = relation < len(self.names) and number + 1 < len(self.names[relation])
        return self.names[relation][number + 1] if known else f"A{number}"

    def term(self, node, scope):
        if node.kind == 32:
            return str(int.from_bytes(node.body, "little", signed=True))
        if node.kind == 33:
            return f"{symbol(node.body[0])}.{self.column(scope[node.body[0]], node.body[1])}"
        function, variable, relation, attribute = node.body
        inner = node.children[0]
        where = "" if inner.kind == 16 else "; " + self.condition(inner, {**scope, variable: relation})
        return f"{FUNCTIONS[function]}({symbol(variable)}.{self.column(relation, attribute)}{where})"

    def condition(self, node, scope, around=None):
        """`around`: what the text stands in, and so which of it needs parentheses."""
        if node.kind in (16, 17):
            return CONDITIONS[node.kind]
        if node.kind == 21:
            return f" {OPERATORS[node.body[0]]} ".join(self.term(child, scope) for child in node.children)
        if node.kind == 22:
            inside = self.condition(node.children[0], {**scope, node.body[0]: node.body[1]})
            return f"SOME {symbol(node.body[0])} IN {self.relation(node.body[1])} ({inside})"
        if node.kind == 18:
            return "NOT " + self.condition(node.children[0], scope, "NOT")
        first, second = ("left of ^", "right of ^") if node.kind == 19 else ("left of V", "right of V")
        left, right = (self.condition(child, scope, place) for child, place in zip(node.children, (first, second)))
        text = f"{left} ^ {right}" if node.kind == 19 else f"{left} V {right}"
        bare = {19: (None, "left of ^", "left of V", "right of V"), 20: (None, "left of V")}[node.kind]
        return text if around in bare else f"({text})"

    def question(self, parts):
        """RANGE has the variables of RANGE records, then those that only aggregates bind: these give no record."""
        ranges, targets, condition = parts
        scope = {node.body[0]: node.body[1] for node in ranges}
        used = {node.body[0] for tree in targets + [condition] for node in tree.all() if node.kind == 33}
        heads = [node.binds() for tree in targets + [condition] for node in tree.all() if node.kind == 34]
        groups = []
        for variable, relation in [(node.body[0], node.body[1]) for node in ranges] + heads:
            if groups and groups[-1][0] == relation:
                groups[-1][1].append(symbol(variable))
            else:
                groups.append((relation, [symbol(variable)]))
        lines = ["RANGE " + ":".join(f"{self.relation(relation)}({','.join(symbols)})" for relation, symbols in groups)] if groups else []
        lines.append("RETRIEVE W: " + ", ".join(self.term(target, scope) for target in targets))
        if condition.kind != 16:
            lines[-1] += ":"
            lines.append("  " + self.condition(condition, scope))
        for node in ranges:
            if node.body[0] not in used:
                lines.append(f"(RANGE binds {symbol(node.body[0])}, which is used nowhere: QUEL as text has no such record)")
        return lines

    def permit(self, relation, mask, condition):
        columns = "ALL" if mask == ALL else ", ".join(f"A.{self.column(relation, n)}" for n in range(16) if mask >> n & 1)
        text = "NO ACCESS" if condition.kind == 17 else self.condition(condition, {0: relation})
        return [f"RANGE {self.relation(relation)}(A)", f"RETRIEVE {columns}:", "  " + text]


def symbol(number):
    """A to Z without V, then AA, AB, ..; no reserved word."""
    letters, at = "ABCDEFGHIJKLMNOPQRSTUWXYZ", -1
    count = -1
    while count < number:
        at += 1
        word, rest = letters[at % 25], at // 25
        if rest:
            word = letters[(rest - 1) % 25] + word
        count += word not in RESERVED
    return word


def decode(what, data, shape, names):
    """The lines to print, and the number of the refusal or 0."""
    limits, checks, reader = LIMITS[what], Checks(shape), Reader(data)
    form, most = (20, LIST_BYTES) if what == "permits" else (30, limits[0])
    if len(data) > most:
        return [f"refused {form}: byte {most}: {len(data)} bytes, where {most} are the most"], form
    try:
        parts = reader.permits() if what == "permits" else reader.question()
    except Damaged as why:
        return [f"refused {form}: {why}"], form
    (checks.permits if what == "permits" else checks.question)(parts, limits)
    if checks.found:
        number = min(found for found, _ in checks.found)
        return [f"refused {number}: {why}" for found, why in checks.found if found == number], number
    printer = Printer(names)
    if what != "permits":
        return printer.question(parts), 0
    lines = []
    for count, (at, end, relation, mask, condition) in enumerate(parts):
        lines += [f"permit {count}, bytes {at} to {end - 1}"] + printer.permit(relation, mask, condition)
    return lines or ["no permits"], 0


def read(name):
    if name == "-":
        return sys.stdin.buffer.read()
    with open(name, "rb") as file:
        return file.read()


def main():
    parser = argparse.ArgumentParser(usage=__doc__.split("\n\n")[1].strip())
    parser.add_argument("what", choices=sorted(LIMITS))
    parser.add_argument("file")
    parser.add_argument("--names")
    parser.add_argument("--catalogue")
    parser.add_argument("--decimal", action="store_true")
    words = parser.parse_args()
    shape, names = None, []
    try:
        data = read(words.file)
        if words.decimal:
            data = bytes(int(word) for word in data.split())
        if words.catalogue:
            records = read(words.catalogue)
            shape = [(records[at], records[at + 1]) for at in range(0, len(records) - 3, 4)]
        if words.names:
            names = [line.split() for line in read(words.names).decode().splitlines() if line.strip()]
    except (OSError, ValueError) as why:
        print(f"decode.py: {why}", file=sys.stderr)
        return 2
    lines, number = decode(words.what, data, shape, names)
    print("\n".join(lines))
    return 1 if number else 0


def deep(call):
    """Runs a call with room for bytes that are nested without end."""
    result = []
    sys.setrecursionlimit(200000)
    threading.stack_size(512 * 1024 * 1024)
    thread = threading.Thread(target=lambda: result.append(call()))
    thread.start()
    thread.join()
    return result[0] if result else 2


if __name__ == "__main__":
    sys.exit(deep(main))
