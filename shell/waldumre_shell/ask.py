"""One question of one user, put to the library, and what came back."""
from typing import NamedTuple

from .aside import aside
from .engine import ANSWER_BUFFER
from .explain import asked, explain
from .refusals import refusal
from .show import cells, headings


class Answer(NamedTuple):
    shop: object
    user: object
    text: str
    number: int
    heads: list
    rows: list
    records: bytes
    rewritten: bytes
    seconds: float

    def is_answered(self):
        return self.number == 0

    def has_rows(self):
        """At 41 the first rows are there."""
        return self.number in (0, ANSWER_BUFFER)

    def refusal(self):
        return refusal(self.shop, self.user, self.text, self.number)

    def explanation(self):
        return explain(self.shop, self.user, self.text, self.records, self.rewritten)


def put(shop, user, text, seconds=None):
    data = text.encode("utf-8", "replace")
    reply = aside(lambda: shop.engine.ask_text(user.bytes(), data, shop.names), seconds)
    number, records = shop.engine.read(data, shop.names)
    heads, rows = [], []
    if reply.number in (0, ANSWER_BUFFER):
        _, printer = asked(shop, text, records)
        heads, rows = headings(printer), cells(printer, reply.rows)
    return Answer(shop, user, text, reply.number, heads, rows, b"" if number else records, reply.rewritten, reply.seconds)
