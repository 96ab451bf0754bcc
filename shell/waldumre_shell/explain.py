"""Why an answer is as it is: the question that reached the relations, and for each variable which permits apply, with the reason.

What a question uses of a variable is read from its records. Whether a permit applies or bars is asked of the library: a question that
uses just these columns is put under just that permit, over relations without rows."""
from typing import Dict, List, NamedTuple

from waldumre import attribute, both, compare, each, permit as permit_bytes, EQ, TRUE

from .bad import listed
from .engine import probe
from .guards import Mismatch, find, is_stored, name_copies
from .quel import Printer
from .records import RANGE, SOME, marks, question, trees, used, variables, write_constants
from .words import constants, symbols


class Verdict(NamedTuple):
    permit: object
    applies: bool
    bars: bool
    reason: str


class Variable(NamedTuple):
    said: str                 # 'X', 'S in SOME S IN SUPPLY', 'X in AVE(X.PRICE)'
    relation: object
    uses: List[str]
    verdicts: List[Verdict]   # of the permits over its relation
    elsewhere: List[int]      # the numbers of the others

    def barred(self):
        return [verdict for verdict in self.verdicts if verdict.bars]

    def applying(self):
        return [verdict for verdict in self.verdicts if verdict.applies]


class Explanation(NamedTuple):
    variables: List[Variable]
    question: list            # pieces of the rewritten question, or None if it was refused


def asked(shop, text, records):
    """The question's parts and a printer for them."""
    parts = question(records)
    write_constants([node for tree in trees(parts) for node in tree.all()], constants(text))
    return parts, Printer(shop, parts, marks(symbols(text), records))


def explain(shop, user, text, records, rewritten):
    parts, printer = asked(shop, text, records)
    found, applying = [], {}
    for variable, relation, node in variables(parts):
        said = judged(shop, user, printer, (variable, relation, node), used(parts, variable))
        found.append(said)
        applying[variable] = [verdict.permit for verdict in said.applying()]
    return Explanation(found, sent(shop, parts, printer.marks, rewritten, applying) if rewritten else None)


def sent(shop, parts, given, rewritten, applying: Dict[int, list]):
    try:
        guards = find(shop, parts, rewritten)
        names = dict(given)
        name_copies(guards, applying, names)
    except Mismatch:
        return None
    return Printer(shop, guards.parts, names, guards.nodes.values()).question()


def judged(shop, user, printer, binding, uses):
    variable, number, node = binding
    relation, symbol = shop.relations[number], printer.marks[variable]
    said = {RANGE: symbol, SOME: f"{symbol} in SOME {symbol} IN {relation.name}"}.get(node.kind)
    said = said or f"{symbol} in {printer.head(node)}"
    columns = [relation.columns[each] for each in uses]
    if not is_stored(shop, number):
        return Variable(said, relation, columns, [], [])
    here = [permit for permit in user.permits if permit.relation == number]
    elsewhere = [permit.number for permit in user.permits if permit.relation != number]
    return Variable(said, relation, columns, [verdict(relation, permit, uses, columns) for permit in here], elsewhere)


def verdict(relation, permit, uses, columns):
    """The library's word on one permit, and the reason in words."""
    engine, asking = probe(len(relation.columns)), probing(uses)
    alone = permit_bytes(0, permit.mask, permit.condition[:1] if permit.no_access() else TRUE)
    shared = [name for name in columns if name in permit.columns]
    if permit.no_access():
        bars = engine.number_of(permit_bytes(0, 65535, TRUE) + alone, asking) != 0
        reason = (f"bars it, since the question uses {listed(shared)}" if bars
                  else f"does not bar it, since the question does not use {listed(permit.columns, 'or')}")
        return Verdict(permit, False, bars, reason)
    applies = engine.number_of(alone, asking) == 0
    missing = [name for name in columns if name not in permit.columns]
    reason = "applies" if applies else f"does not apply, since it does not open {listed(missing)}, which the question uses too"
    return Verdict(permit, applies, False, reason)


def probing(uses):
    """A question that uses just these attributes of variable 0; its target is of a workspace, which needs no permit."""
    wanted = TRUE
    for number in uses:
        wanted = both(compare(attribute(0, number), EQ, attribute(0, number)), wanted)
    return each(0, 0) + each(1, 1) + attribute(1, 0) + wanted


def permit_text(shop, permit):
    """'OFFER: ARTICLE and PRICE of rows with ROW.BRAND = ALPEN'."""
    relation = shop.relations[permit.relation]
    columns = "all columns" if permit.mask == 65535 else listed(permit.columns)
    if permit.no_access():
        return f"{relation.name}: NO ACCESS to {columns}"
    return f"{relation.name}: {columns} of {'all rows' if permit.rows == 'ALL' else 'rows with ' + permit.rows}"
