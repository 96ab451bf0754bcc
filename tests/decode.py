#!/usr/bin/env python3
"""The decoder against the kit: it gives the numbers 20 to 32 that the cases give, and its text, read again, is the same bytes."""
import glob
import os
import re
import sys

ROOT = os.path.dirname(os.path.dirname(os.path.abspath(__file__)))
sys.dont_write_bytecode = True
sys.path.insert(0, os.path.join(ROOT, "tools"))
import decode as tool  # noqa: E402

SIGNS = {sign: number for number, sign in tool.OPERATORS.items()}
NAMES = {name: number for number, name in tool.FUNCTIONS.items()}
SYMBOLS = {tool.symbol(number): number for number in range(200)}


class Text:
    """Reads the printed text back into bytes, variables by their symbols."""

    def __init__(self, text):
        self.words = re.findall(r"[A-Z]+\d*|-?\d+|<=|>=|[=#<>^;:,.()]", text)
        assert "".join(self.words) == re.sub(r"\s", "", text), "a sign that is none"
        self.at = 0
        self.relation_of, self.inside, self.used = {}, 0, []

    def next(self, expected=None):
        word = self.words[self.at]
        assert expected in (None, word), f"{word}, not {expected}"
        self.at += 1
        return word

    def look(self, *words):
        return self.at < len(self.words) and self.words[self.at] in words

    def question(self):
        listed = []
        if self.look("RANGE"):
            self.next()
            while True:
                relation = int(self.next()[1:])
                self.next("(")
                while True:
                    listed.append((self.next(), relation))
                    if self.next() == ")":
                        break
                if not self.look(":"):
                    break
                self.next()
        self.relation_of = dict(listed)
        for word in ("RETRIEVE", "W", ":"):
            self.next(word)
        rest = self.term()
        while self.look(","):
            self.next()
            rest += self.term()
        if self.look(":"):
            self.next()
            rest += self.condition()
        else:
            rest += bytes([16])
        assert self.at == len(self.words), "words after the end"
        return b"".join(bytes([1, SYMBOLS[name], relation]) for name, relation in listed if name in self.used) + rest

    def condition(self):
        left = self.conjunct()
        while self.look("V"):
            self.next()
            left = bytes([20]) + left + self.conjunct()
        return left

    def conjunct(self):
        left = self.factor()
        while self.look("^"):
            self.next()
            left = bytes([19]) + left + self.factor()
        return left

    def factor(self):
        if self.look("TRUE", "FALSE"):
            return bytes([16 if self.next() == "TRUE" else 17])
        if self.look("NOT"):
            self.next()
            return bytes([18]) + self.factor()
        if self.look("("):
            self.next()
            inner = self.condition()
            self.next(")")
            return inner
        if self.look("SOME"):
            self.next()
            name = self.next()
            self.next("IN")
            head = bytes([22, SYMBOLS[name], int(self.next()[1:])])
            self.next("(")
            inner = self.condition()
            self.next(")")
            return head + inner
        left = self.term()
        operator = SIGNS[self.next()]
        return bytes([21, operator]) + left + self.term()

    def term(self):
        word = self.next()
        if word in NAMES:
            self.next("(")
            name = self.next()
            self.next(".")
            head = bytes([34, NAMES[word], SYMBOLS[name], self.relation_of[name], int(self.next()[1:])])
            self.inside += 1
            inner = bytes([16])
            if self.look(";"):
                self.next()
                inner = self.condition()
            self.inside -= 1
            self.next(")")
            return head + inner
        if re.fullmatch(r"-?\d+", word):
            return b"\x20" + int(word).to_bytes(4, "little", signed=True)
        if not self.inside:
            self.used.append(word)
        self.next(".")
        return bytes([33, SYMBOLS[word], int(self.next()[1:])])


def back(data, what, shape, name):
    """1 if the text of well formed bytes was read again to the same bytes."""
    lines, number = tool.decode(what, data, shape, [])
    assert number == 0, (name, lines)
    if lines[-1].startswith("(RANGE binds"):
        return 0
    again = Text("\n".join(lines)).question()
    assert again == data, f"{name}: {list(data)} was printed as {lines} and read as {list(again)}"
    return 1


def main():
    counts, texts = {}, 0
    for path in sorted(glob.glob(os.path.join(ROOT, "conformance/cases/*"))):
        name = os.path.basename(path)
        with open(path) as file:
            files, printed = file.read().split("\n", 1)[1].split("prints\n")
        files = {line.split()[0]: bytes(map(int, line.split()[1:])) for line in files.splitlines()}
        said = int(printed.split()[1]) if printed.startswith("refused") else 0
        if said in (10, 11):
            continue
        catalogue = files["catalogue"]
        shape = [(catalogue[at], catalogue[at + 1]) for at in range(0, len(catalogue), 4)]
        permits, question = files.get("permits", b""), files.get("question", b"")
        numbers = [tool.decode("permits", permits, shape, [])[1], tool.decode("question", question, shape, [])[1]]
        mine = numbers[0] or numbers[1]
        assert mine == (said if 20 <= said <= 32 else 0), f"{name}: {mine}, and the kit says {said}"
        counts[mine] = counts.get(mine, 0) + 1
        if not mine:
            texts += back(question, "question", shape, name)
        if not said:
            texts += back(bytes(map(int, printed.splitlines()[3].split())), "rewritten", shape, name)
    assert all(counts.get(number, 0) > 5 for number in (0, 20, 21, 22, 23, 30, 31, 32)), counts
    assert texts > 200, texts
    print(f"decode: {sum(counts.values())} cases, {texts} texts read again")


if __name__ == "__main__":
    sys.exit(tool.deep(main) or 0)
