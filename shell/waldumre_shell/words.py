"""A text cut into words, numbers and signs, each with its place; only to point at things: the library does its own cutting."""
import re
from typing import NamedTuple

from .names import RESERVED

PIECE = re.compile(r"(?P<blank>[ \n\r]+)|(?P<word>[A-Z]+)|(?P<number>-?[0-9]+)|(?P<sign><=|>=|[(),:;.^=#<>])|(?P<other>.)", re.S)
FUNCTIONS = ("COUNT", "SUM", "AVE", "MAX", "MIN")


class Piece(NamedTuple):
    sort: str
    text: str
    at: int


def pieces(text):
    """All but the blanks."""
    return [Piece(found.lastgroup, found.group(), found.start()) for found in PIECE.finditer(text) if found.lastgroup != "blank"]


def line_and_column(text, at):
    return text.count("\n", 0, at) + 1, at - (text.rfind("\n", 0, at) + 1) + 1


def ends_at(text, depth=0):
    """Where a ';' outside all parentheses stands, or None, and how many parentheses are open at the end. Inside parentheses a ';'
    belongs to an aggregate."""
    for at, sign in enumerate(text):
        depth = max(0, depth + (sign == "(") - (sign == ")"))
        if sign == ";" and depth == 0:
            return at, 0
    return None, depth


def constants(text):
    """In the order of the text, its numbers and value names as they are written."""
    cut = pieces(text)
    begins = next((here for here, piece in enumerate(cut) if piece.text == "RETRIEVE"), 0) + 3
    found = []
    for here in range(begins, len(cut)):
        before, piece = cut[here - 1].text, cut[here]
        after = cut[here + 1].text if here + 1 < len(cut) else ""
        is_value = piece.sort == "word" and after != "." and before not in (".", "SOME", "IN") and piece.text not in RESERVED
        if piece.sort == "number" or is_value:
            found.append(piece.text)
    return found


def symbols(text):
    """In the order of the text, the symbol of every attribute, aggregate and SOME."""
    found, cut = [], pieces(text)
    for here, piece in enumerate(cut):
        after = cut[here + 1].text if here + 1 < len(cut) else ""
        if piece.sort == "word" and after == ".":
            found.append(piece.text)
        if piece.text == "SOME" and here + 1 < len(cut):
            found.append(after)
    return found
