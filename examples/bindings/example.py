"""The question of docs/FORMAT.md from Python.

    example.py LIBRARY
"""
import sys

from waldumre import AVE, EQ, LE, LT, TRUE, Collection, Refused, aggregate, attribute, both, compare, constant, each, permit, some
from waldumre import name_attribute, name_relation, name_value

shop = Collection(sys.argv[1])
shop.stored(3, [(7, 1, 250), (7, 2, 900), (8, 1, 120), (8, 2, 120)])  # OFFER: article, brand, price
shop.stored(2, [(1, 30), (2, 31)])                                    # SUPPLY: brand, buyer
supplied = some(1, 1, both(compare(attribute(1, 0), EQ, attribute(0, 1)), compare(attribute(1, 1), EQ, constant(30))))
permits = permit(0, 7, supplied)
question = each(0, 0) + attribute(0, 0) + attribute(0, 2) + compare(attribute(0, 2), LE, aggregate(AVE, 1, 0, 2))

answer = shop.ask(permits, question)
print("buyer 30:", *answer.rows)
print("rewritten:", *answer.rewritten)
print("evaluated again:", *shop.evaluate(answer.rewritten).rows)
print("over all rows:", *shop.evaluate(question).rows)
print("no row:", *shop.ask(permits, each(0, 0) + attribute(0, 2) + compare(attribute(0, 2), LT, constant(0))).rows)
short = shop.ask(permits, each(0, 0) + attribute(0, 2) + TRUE, cells=1)
print("room for one row:", *short.rows, "complete" if short.complete else "and more")
board = Collection(sys.argv[1])
board.latest(2, [(7, 11), (7, 12)])                                   # article, offer: the last row is met first
print("latest first:", *board.ask(permit(0, 0xFFFF, TRUE), each(0, 0) + attribute(0, 1) + TRUE).rows)
names = name_relation(0, "OFFER") + name_attribute(0, 0, "ARTICLE") + name_attribute(0, 2, "PRICE") + name_value(0, "FREE")
text = "RANGE OFFER(X) RETRIEVE W:X.ARTICLE,X.PRICE:X.PRICE<=AVE(X.PRICE)"
print("typed:", *shop.ask_text(permits, text, names).rows)
print("the same bytes:", shop.read_query(text, names) == question)
print("free:", *shop.ask_text(permits, "RANGE OFFER(X) RETRIEVE W:X.ARTICLE:X.PRICE=FREE", names).rows)
try:
    shop.ask_text(permits, "RANGE OFFER(X) RETRIEVE W:X.BRAND", names)
except Refused as refused:
    print("a name that is not listed: refused", refused.number)
try:
    shop.ask(b"", question)
except Refused as refused:
    print("without permits:", refused)
