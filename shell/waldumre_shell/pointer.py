"""Where a text that the library refused with 50 goes wrong, and which name it refused with 51.

The library gives the number; the place is found here, by reading the text along the same grammar up to the first piece that cannot
stand there. The tests hold this reading to the library's: it finds a fault exactly in the texts that the library refuses."""
import difflib
from typing import NamedTuple

from .names import RESERVED
from .words import FUNCTIONS, pieces

TEXT_BYTES = 2000
SIGNS = ("=", "#", "<", "<=", ">", ">=")


class Fault(NamedTuple):
    at: int      # how many signs of the text stand before it
    why: str


class Stop(Exception):
    def __init__(self, at, why):
        super().__init__(why)
        self.fault = Fault(at, why)


def point(text, number, shop):
    """The fault of a refused text, or None if it cannot be found."""
    try:
        tree = Grammar(text).text()
        if number == 51:
            Names(shop).text(tree)
    except Stop as stop:
        return stop.fault
    return None


class Grammar:
    """One function for each line of the grammar; each returns what the check of names needs."""

    def __init__(self, text):
        if len(text.encode("utf-8", "replace")) > TEXT_BYTES:
            raise Stop(TEXT_BYTES, f"the text has over {TEXT_BYTES} bytes, the most that a question may have")
        self.length, self.pieces, self.here = len(text), pieces(text), 0

    def seen(self):
        return self.pieces[self.here] if self.here < len(self.pieces) else None

    def at(self):
        return self.seen().at if self.seen() else self.length

    def is_next(self, *texts):
        return self.seen() is not None and self.seen().text in texts

    def stop(self, expected):
        seen = self.seen()
        what = "the text ends" if seen is None else f"here stands {seen.text if seen.text.isalnum() else repr(seen.text)}"
        if seen is not None and seen.sort == "other":
            what = other(seen.text)
        raise Stop(self.at(), f"{expected} is expected, but {what}")

    def take(self, *texts):
        if not self.is_next(*texts):
            self.stop(" or ".join(text if text.isalpha() else f"'{text}'" for text in texts))
        self.here += 1
        return self.pieces[self.here - 1]

    def name(self, of):
        seen = self.seen()
        if seen is None or seen.sort != "word":
            self.stop(f"the name of {of}")
        if seen.text in RESERVED:
            raise Stop(seen.at, f"the name of {of} is expected, but {seen.text} is a word of QUEL itself")
        self.here += 1
        return seen

    def text(self):
        self.take("RANGE")
        ranges = [self.range()]
        while self.is_next(":"):
            self.here += 1
            ranges.append(self.range())
        self.take("RETRIEVE")
        self.name("a workspace (it is read and dropped)")
        self.take(":")
        targets = [self.target()]
        while self.is_next(","):
            self.here += 1
            targets.append(self.target())
        final = []
        if self.is_next(":"):
            self.here += 1
            final = self.condition()
        if self.seen():
            self.stop("',' or ':' or the end" if not final else "'^' or V or the end")
        return ranges, targets + final

    def range(self):
        relation = self.name("a relation")
        self.take("(")
        found = [self.name("a variable")]
        while self.is_next(","):
            self.here += 1
            found.append(self.name("a variable"))
        self.take(")")
        return relation, found

    def target(self):
        if self.is_next(*FUNCTIONS):
            return self.aggregate()
        if self.seen() and self.seen().sort == "number":
            raise Stop(self.at(), "a target is a column, as X.PRICE, or an aggregate; a number cannot be one")
        return self.attribute()

    def attribute(self):
        variable = self.name("a variable")
        self.take(".")
        return "attribute", variable, self.name("a column")

    def aggregate(self):
        self.here += 1
        self.take("(")
        head, inner = self.attribute(), []
        if self.is_next(";"):
            self.here += 1
            inner = self.condition()
        self.take(")")
        return "aggregate", head[1], head[2], inner

    def condition(self):
        found = self.conjunct()
        while self.is_next("V"):
            self.here += 1
            found += self.conjunct()
        return found

    def conjunct(self):
        found = self.factor()
        while self.is_next("^"):
            self.here += 1
            found += self.factor()
        return found

    def factor(self):
        if self.is_next("NOT"):
            self.here += 1
            return self.factor()
        if self.is_next("("):
            self.here += 1
            found = self.condition()
            self.take(")")
            return found
        if self.is_next("SOME"):
            self.here += 1
            variable = self.name("a variable")
            self.take("IN")
            relation = self.name("a relation")
            self.take("(")
            inner = self.condition()
            self.take(")")
            return [("some", variable, relation, inner)]
        left = self.term()
        self.take(*SIGNS)
        return left + self.term()

    def term(self):
        seen = self.seen()
        if self.is_next(*FUNCTIONS):
            return [self.aggregate()]
        if seen and seen.sort == "number":
            if not -2**31 <= int(seen.text) < 2**31:
                raise Stop(seen.at, f"the number {seen.text[:20]} does not fit 32 bits")
            self.here += 1
            return []
        word = self.name("a column, a value or an aggregate")
        if not self.is_next("."):
            return [("value", word)]
        self.here += 1
        return [("attribute", word, self.name("a column"))]


def other(sign):
    if sign.isalpha() and sign.upper() != sign:
        return f"here stands {sign}; QUEL is written in capitals"
    if sign == "\t":
        return "here stands a tab; use spaces"
    return f"here stands {sign if sign.isprintable() else 'a sign that cannot be shown'}, which QUEL does not have"


class Names:
    """Goes through the names of a text in its order, with what is in reach at each place."""

    def __init__(self, shop):
        self.relations = {each.name: each for each in shop.relations}
        self.values, self.bound, self.ranges = shop.values, {}, {}

    def unknown(self, piece, what, known):
        near = difflib.get_close_matches(piece.text, known, 1)
        raise Stop(piece.at, f"{what} {piece.text}{f'; did you mean {near[0]}?' if near else ''}")

    def relation(self, piece):
        if piece.text not in self.relations:
            self.unknown(piece, "no relation is called", self.relations)
        return self.relations[piece.text]

    def bind(self, piece):
        if piece.text in self.bound:
            raise Stop(piece.at, f"the variable {piece.text} is bound a second time; take another letter")
        self.bound[piece.text] = piece.at

    def text(self, tree):
        ranges, parts = tree
        for relation, found in ranges:
            for piece in found:
                self.bind(piece)
                self.ranges[piece.text] = self.relation(relation)
        self.parts(parts, self.ranges, self.ranges)

    def column(self, piece, relation):
        if piece.text not in relation.columns:
            self.unknown(piece, f"{relation.name} has no column", relation.columns)

    def parts(self, parts, reach, heads):
        for part in parts:
            getattr(self, part[0])(part, reach, heads)

    def attribute(self, part, reach, heads):
        _, variable, column = part
        if variable.text not in reach:
            if variable.text in heads:
                raise Stop(variable.at, f"the variable {variable.text} is out of reach here: inside an aggregate only the aggregate's own "
                                        f"variable, and those of SOMEs inside it, can be used")
            self.unknown(variable, "no variable is called", heads)
        self.column(column, reach[variable.text])

    def aggregate(self, part, reach, heads):
        _, variable, column, inner = part
        if variable.text not in heads:
            self.unknown(variable, "no variable is called", heads)
        relation = heads[variable.text]
        self.column(column, relation)
        self.parts(inner, {variable.text: relation}, heads)

    def some(self, part, reach, heads):
        _, variable, relation, inner = part
        self.bind(variable)
        found = {variable.text: self.relation(relation)}
        self.parts(inner, {**reach, **found}, {**heads, **found})

    def value(self, part, reach, heads):
        if part[1].text not in self.values:
            self.unknown(part[1], "no value is called", self.values)
