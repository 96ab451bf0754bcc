"""Records back to QUEL, in pieces: what the asker wrote, and what the permits added."""
from itertools import count, product
from typing import NamedTuple

from decode import FUNCTIONS, OPERATORS

from .names import RESERVED
from .records import AGGREGATE, AND, ATTRIBUTE, COMPARE, CONSTANT, FALSE, NOT, SOME, TRUE, trees, variables

LETTERS = "ABCDEFGHIJKLMNOPQRSTUWXYZ"
NUMBER_ONLY = ("COUNT", "SUM", "AVE")  # of names too these are numbers


class Piece(NamedTuple):
    text: str
    added: bool = False


class Printer:
    def __init__(self, shop, parts, marks, guards=()):
        """`marks`: the symbol of each variable. `guards`: the records that the permits added, each the second part of an AND."""
        self.shop, self.parts, self.marks = shop, parts, marks
        self.guards = {id(node) for node in guards}
        self.relations = {variable: relation for variable, relation, _ in variables(parts)}

    def column(self, variable, attribute):
        return self.shop.relations[self.relations[variable]].columns[attribute]

    def holds_names(self, node):
        """Are the values of a term names?"""
        if node.kind == ATTRIBUTE:
            return self.shop.relations[self.relations[node.body[0]]].text[node.body[1]]
        if node.kind == AGGREGATE and FUNCTIONS[node.body[0]] not in NUMBER_ONLY:
            return self.shop.relations[node.body[2]].text[node.body[3]]
        return False

    def head(self, node):
        """A target or term without the condition of an aggregate: X.PRICE, AVE(X.PRICE)."""
        if node.kind == ATTRIBUTE:
            return f"{self.marks[node.body[0]]}.{self.column(*node.body)}"
        function, variable, _, attribute = node.body
        return f"{FUNCTIONS[function]}({self.marks[variable]}.{self.column(variable, attribute)})"

    def term(self, node):
        if node.kind == CONSTANT:
            return [Piece(node.word)]
        inner = node.children[0] if node.kind == AGGREGATE else None
        if inner is None or inner.kind == TRUE:
            return [Piece(self.head(node))]
        return [Piece(self.head(node)[:-1] + "; "), *self.condition(inner), Piece(")")]

    def condition(self, node, around=None):
        """`around`: what the text stands in, and so which of it needs parentheses."""
        if node.kind in (TRUE, FALSE):
            return [Piece("TRUE" if node.kind == TRUE else "FALSE")]
        if node.kind == COMPARE:
            left, right = node.children
            return [*self.term(left), Piece(f" {OPERATORS[node.body[0]]} "), *self.term(right)]
        if node.kind == SOME:
            head = f"SOME {self.marks[node.body[0]]} IN {self.shop.relations[node.body[1]].name} ("
            return [Piece(head), *self.condition(node.children[0]), Piece(")")]
        if node.kind == NOT:
            return [Piece("NOT "), *self.condition(node.children[0], "NOT")]
        return self.joined(node, around)

    def joined(self, node, around):
        word, sign = ("and", "^") if node.kind == AND else ("or", "V")
        left = self.condition(node.children[0], f"left of {word}")
        right = [Piece(f" {sign} "), *self.condition(node.children[1], f"right of {word}")]
        if id(node.children[1]) in self.guards:
            right = [Piece(" "), Piece(text_of(right)[1:], True)]
        bare = (None, "left of and", "left of or", "right of or") if node.kind == AND else (None, "left of or")
        return left + right if around in bare else [Piece("("), *left, *right, Piece(")")]

    def question(self):
        """The whole question. Symbols that only aggregates use stand in RANGE too, and give no record."""
        ranges, targets, final = self.parts
        groups = []
        for relation, symbol in self.range_symbols():
            if groups and groups[-1][0] == relation:
                groups[-1][1].append(symbol)
            else:
                groups.append((relation, [symbol]))
        said = [Piece("RANGE " + ": ".join(f"{self.shop.relations[relation].name}({', '.join(found)})" for relation, found in groups))]
        said.append(Piece("\nRETRIEVE W: "))
        for number, target in enumerate(targets):
            said += [Piece(", ")] * (number > 0) + self.term(target)
        guards = []
        while final.kind == AND and id(final.children[1]) in self.guards:
            guards.insert(0, final.children[1])
            final = final.children[0]
        if guards or final.kind != TRUE:
            said += [Piece(":\n  "), *self.condition(final, "left of and" if guards else None)]
        for guard in guards:
            said += [Piece("\n  "), Piece("^ " + text_of(self.condition(guard, "right of and")), True)]
        return said

    def range_symbols(self):
        found = [(node.body[1], self.marks[node.body[0]]) for node in self.parts[0]]
        nodes = [node for tree in trees(self.parts) for node in tree.all()]
        bound = {symbol for _, symbol in found} | {self.marks[node.body[0]] for node in nodes if node.kind == SOME}
        for node in nodes:
            if node.kind == AGGREGATE and self.marks[node.body[1]] not in bound:
                bound.add(self.marks[node.body[1]])
                found.append((node.body[2], self.marks[node.body[1]]))
        return found


def text_of(pieces):
    return "".join(piece.text for piece in pieces)


def plain(pieces, before="{", after="}"):
    """One text; what permits added stands in braces."""
    return "".join(f"{before}{piece.text}{after}" if piece.added else piece.text for piece in pieces)


def free_symbol(wanted, taken):
    """A symbol like the wanted one that nobody has: S, SA, SB, .."""
    for length in count():
        for letters in product(LETTERS, repeat=length):
            word = wanted + "".join(letters)
            if word not in taken and word not in RESERVED:
                return word
