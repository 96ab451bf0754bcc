"""What the labels of a shelf show for a user: which labels hang there by a question, what they show by the label book."""
from typing import List, NamedTuple

from .aside import aside
from .ask import put
from .engine import LABELS, book_library
from .refusals import refusal


class Label(NamedTuple):
    number: int
    article: str
    price: str     # as displayed; blank if no offer is shown
    offer: int


class Shelf(NamedTuple):
    labels: List[Label]
    refused: str   # a sentence, or nothing


def draw(shop, user, seconds):
    """The shelf of shop.toml, under the permits of a user."""
    hanging = put(shop, user, shop.shelf["labels"], seconds)
    if not hanging.is_answered():
        return Shelf([], hanging.refusal()[0])
    if len(hanging.heads) != 2:
        return Shelf([], "the question for labels in shop.toml needs two targets, label and article")
    text, library = shop.shelf["offers"], book_library()
    number, records = shop.engine.read(text.encode(), shop.names)
    book = None if number else aside(lambda: shop.engine.label_book(library, user.bytes(), records), seconds)
    number = number or book.number
    labels = [(label, article) for label, article in hanging.rows if isinstance(label, int) and 0 <= label < LABELS]
    if number:
        return Shelf([Label(label, str(article), "", -1) for label, article in labels], refusal(shop, user, text, number)[0])
    return Shelf([Label(label, str(article), book.display[label].strip(), book.offers[label]) for label, article in labels], "")
