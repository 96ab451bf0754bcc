"""Drawn questions: what the shell prints reads back to the same question; its explanations fit the library's answers; and its pointing at
faults agrees with the library's refusals."""
import random
import re

from common import Copy, HARBOUR, HILL, ROOT, fail, same

from waldumre_shell.explain import asked, explain
from waldumre_shell.folder import open_shop
from waldumre_shell.pointer import point
from waldumre_shell.quel import plain, text_of
from waldumre_shell.records import AGGREGATE, ATTRIBUTE, RANGE, SOME, question, trees, variables

SEED, TEXTS, WRONG = 23, 700, 4000
FUNCTIONS, SIGNS = ("COUNT", "SUM", "AVE", "MAX", "MIN"), ("=", "#", "<", "<=", ">", ">=")


class Draw:
    """A text of the grammar, with its names in reach; `stray`: how often a variable is taken that may be out of reach."""

    def __init__(self, shop, luck, stray=0):
        self.shop, self.luck, self.stray, self.left = shop, luck, stray, 5
        self.free = list("ABCDEFGHIJKLMNOPQRSTUWXYZ")
        luck.shuffle(self.free)

    def text(self):
        luck, groups, reach = self.luck, [], {}
        for _ in range(luck.randint(1, 2)):
            relation = luck.choice(self.shop.relations)
            found = [self.free.pop() for _ in range(luck.randint(1, 2))]
            reach |= {symbol: relation for symbol in found}
            groups.append(f"{relation.name}({','.join(found)})")
        self.heads = dict(reach)
        targets = ", ".join(self.aggregate(1) if luck.random() < 0.2 else self.attribute(reach) for _ in range(luck.randint(1, 3)))
        final = ": " + self.condition(reach, 3) if luck.random() < 0.9 else ""
        return f"RANGE {':'.join(groups)} RETRIEVE W: {targets}{final}"

    def attribute(self, reach):
        known = self.heads if self.stray and self.luck.random() < self.stray else reach
        symbol = self.luck.choice(sorted(known))
        return f"{symbol}.{self.luck.choice(known[symbol].columns)}"

    def aggregate(self, depth):
        symbol = self.luck.choice(sorted(self.heads))
        head = f"{self.luck.choice(FUNCTIONS)}({symbol}.{self.luck.choice(self.heads[symbol].columns)}"
        if self.left <= 0 or self.luck.random() < 0.3:
            return head + ")"
        self.left -= 1
        return f"{head}; {self.condition({symbol: self.heads[symbol]}, depth - 1)})"

    def term(self, reach, depth):
        choice = self.luck.random()
        if choice < 0.5:
            return self.attribute(reach)
        if choice < 0.7:
            return str(self.luck.randint(-5, 400))
        return self.luck.choice(sorted(self.shop.values)) if choice < 0.85 or self.left <= 0 or depth < 1 else self.aggregate(depth)

    def condition(self, reach, depth):
        choice, luck = self.luck.random(), self.luck
        if depth < 1 or choice < 0.35:
            return f"{self.term(reach, depth)} {luck.choice(SIGNS)} {self.term(reach, depth)}"
        if choice < 0.5:
            return f"NOT ({self.condition(reach, depth - 1)})"
        if choice < 0.65 and self.left > 0:
            self.left -= 1
            symbol, relation, before = self.free.pop(), luck.choice(self.shop.relations), dict(self.heads)
            self.heads[symbol] = relation
            said = f"SOME {symbol} IN {relation.name} ({self.condition({**reach, symbol: relation}, depth - 1)})"
            self.heads = before
            return said
        parts = [self.condition(reach, depth - 1) for _ in range(luck.randint(2, 3))]
        parts = [f"({part})" if luck.random() < 0.3 else part for part in parts]
        return luck.choice((" ^ ", " V ")).join(parts)


def renumbered(data):
    """The records with the variables numbered in the order in which they are bound."""
    parts = question(data)
    number = {variable: count for count, (variable, _, _) in enumerate(variables(parts))}
    said = [(RANGE, number[node.body[0]], node.body[1]) for node in parts[0]]
    for tree in trees(parts):
        for node in tree.all():
            body = list(node.body)
            if node.kind in (ATTRIBUTE, SOME):
                body[0] = number[body[0]]
            if node.kind == AGGREGATE:
                body[1] = number[body[1]]
            said.append((node.kind, *body))
    return said


def reads_back(shop, text, data):
    number, records = shop.engine.read(text.encode(), shop.names)
    if number:
        fail(f"what was printed is refused with {number}:\n{text}")
    same(text, renumbered(records), renumbered(data))
    return records


def in_grammar(text):
    return not re.search(r"\b(TRUE|FALSE)\b", text) and len(text) <= 2000


def held(shop, user, text, counts):
    """One text under one user's permits."""
    number, records = shop.engine.read(text.encode(), shop.names)
    if number:
        fail(f"a drawn text is refused with {number}:\n{text}")
    parts, printer = asked(shop, text, records)
    reads_back(shop, text_of(printer.question()), records)
    counts["asked"] += 1
    reply = shop.engine.ask_text(user.bytes(), text.encode(), shop.names)
    if reply.number not in (0, 33, 41):
        return
    said = explain(shop, user, text, records, reply.rewritten)
    without = [each for each in said.variables if not each.relation.workspace and (each.barred() or not each.applying())]
    same(f"33 of {user.name} for {text}", reply.number == 33, bool(without))
    if reply.number == 33:
        counts["refused"] += 1
        return
    if said.question is None:
        fail(f"the guards were not found again in the question of {user.name}:\n{text}")
    counts["accepted"] += 1
    stripped = plain(said.question).replace("{", "").replace("}", "")
    if in_grammar(stripped):
        read = reads_back(shop, stripped, reply.rewritten)
        if reply.number == 0:
            same(stripped, shop.engine.evaluate(read, 131072).rows, reply.rows)
        counts["rewritten"] += 1


def damaged(text, luck):
    """The text with a few signs gone, doubled or changed."""
    for _ in range(luck.randint(1, 2)):
        at = luck.randrange(len(text))
        piece = luck.choice(["", "", text[at] * 2, luck.choice("AVX.,:;()^=#<>-19 \t$x"), luck.choice((" V ", " NOT ", " IN ", "ALPEN", " SOME ", "-"))])
        text = text[:at] + piece + text[at + luck.choice((0, 1, 1, 3)):]
    return text


def pointing(shop, luck):
    """A fault is found exactly where the library refuses with 50 or 51."""
    counts = {0: 0, 50: 0, 51: 0}
    for _ in range(WRONG):
        text = Draw(shop, luck, 0.1).text()
        text = damaged(text, luck) if luck.random() < 0.8 else text
        number, _ = shop.engine.read(text.encode(), shop.names)
        counts[number] += 1
        first, second = point(text, 50, shop), point(text, 51, shop)
        found = 50 if first else 51 if second else 0
        same(f"the fault of {text!r} ({first or second})", found, number)
    if min(counts.values()) < 100:
        fail(f"too few of a kind: {counts}")
    return counts


def kit(shop):
    """The kit's texts, where they are there: a fault exactly at those with 50. Names are another shop's, so 51 is not looked at."""
    count = 0
    for path in sorted((ROOT / "conformance" / "texts").glob("*")):
        lines = path.read_text().split("\n")
        text = next((line for line in lines if line.startswith("text ")), "text ")[5:]
        wanted = "refused 50" in lines
        same(f"the fault of {path.name}", point(bytes(map(int, text.split())).decode("latin-1"), 50, shop) is not None, wanted)
        count += 1
    return count


def permits_of_all_kinds(copy):
    """Users whose permits have aggregates and SOMEs of every kind, so that explanations have to print them."""
    more = '''
[users.odd]
[[users.odd.permits]]
relation = "OFFER"
columns = "ALL"
rows = "ROW.PRICE <= AVE(ROW.PRICE; ROW.RANK = 1) V SOME X IN SHELF (X.ARTICLE = ROW.ARTICLE ^ X.LABEL < MAX(X.LABEL))"
[[users.odd.permits]]
relation = "OFFER"
columns = ["ARTICLE", "PRICE", "RANK"]
rows = "ROW.PRICE > AVE(BUYING.CENTS; BUYING.BRAND = RIO ^ SOME Y IN PARTNER (NOT Y.BRAND = BUYING.BRAND))"
[[users.odd.permits]]
relation = "ARTICLE"
columns = "ALL"
rows = "NOT (ROW.NAME = TEA V ROW.SECTION = DAIRY ^ ROW.BRAND = ALPEN)"
[[users.odd.permits]]
relation = "SHELF"
columns = "ALL"
rows = "ROW.LABEL = MIN(OFFER.NUMBER) V ROW.AISLE # COUNT(ROW.LABEL)"
[[users.odd.permits]]
relation = "STAFF"
columns = ["NAME", "WAGE"]
rows = "SOME A IN STAFF (A.WAGE > ROW.WAGE)"
[[users.odd.permits]]
relation = "STAFF"
columns = "AISLE"
rows = "NO ACCESS"
[[users.odd.permits]]
relation = "BUYING"
columns = "ALL"
rows = "SOME A IN OFFER (A.BRAND = ROW.BRAND ^ SOME B IN OFFER (B.BRAND = ROW.BRAND ^ B.PRICE < A.PRICE))"
'''
    copy.change("shop.toml", "\n[shelf]", more + "\n[shelf]")


def main():
    luck, counts = random.Random(SEED), {"asked": 0, "refused": 0, "accepted": 0, "rewritten": 0}
    with Copy() as copy:
        permits_of_all_kinds(copy)
        shops = [open_shop(copy.folder), open_shop(HILL), open_shop(HARBOUR)]
        for number in range(TEXTS):
            shop = shops[0] if number % 2 else shops[number // 2 % 3]
            user = shop.users["odd"] if "odd" in shop.users and luck.random() < 0.8 else luck.choice(list(shop.users.values()))
            held(shop, user, Draw(shop, luck).text(), counts)
        if counts["rewritten"] < 80 or counts["refused"] < 50:
            fail(f"too few of a kind: {counts}")
        wrong = pointing(shops[2], luck)
        texts = kit(shops[2])
    print(f"readback: {counts['asked']} questions read back, and of {counts['accepted']} rewritten ones {counts['rewritten']} (the others have TRUE, "
          f"FALSE or over 2,000 bytes, outside the grammar); faults in {wrong[50]} texts with 50 and "
          f"{wrong[51]} with 51 found, in {wrong[0]} good ones none"
          + (f"; so for {texts} texts of the kit" if texts else ""))


main()
