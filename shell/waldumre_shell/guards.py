"""Which part of a rewritten question came from which permit. The library wrote it; here it is only found again."""
from typing import Dict, NamedTuple

from .names import ROW
from .quel import free_symbol
from .records import AGGREGATE, AND, OR, SOME, condition, question, write_constants


class Mismatch(Exception):
    """The rewritten question is not the asked one with guards: never seen, and then nothing is shown as explained."""


class Guards(NamedTuple):
    parts: tuple               # of the rewritten question
    nodes: Dict[int, object]   # the guard of each variable over a stored relation


def is_stored(shop, relation):
    return not shop.relations[relation].workspace


def find(shop, asked, rewritten):
    """Walks the asked and the rewritten question side by side."""
    sent, found = question(rewritten), {}

    def wrapped(node, variable):
        if node.kind != AND:
            raise Mismatch()
        found[variable] = node.children[1]
        return node.children[0]

    def walk(before, after):
        if (before.kind, bytes(before.body), len(before.children)) != (after.kind, bytes(after.body), len(after.children)):
            raise Mismatch()
        after.word = getattr(before, "word", None)
        if before.binds() and is_stored(shop, before.binds()[1]):
            walk(before.children[0], wrapped(after.children[0], before.binds()[0]))
            return
        for one, other in zip(before.children, after.children):
            walk(one, other)

    final = sent[2]
    for node in reversed([node for node in asked[0] if is_stored(shop, node.body[1])]):
        final = wrapped(final, node.body[0])
    for one, other in zip([*asked[1], asked[2]], [*sent[1], final]):
        walk(one, other)
    return Guards(sent, found)


def conditions(guard, count):
    """The conditions that OR joins to the right."""
    found = []
    for _ in range(count - 1):
        if guard.kind != OR:
            raise Mismatch()
        found.append(guard.children[0])
        guard = guard.children[1]
    return found + [guard]


def name_copies(guards, applying, marks):
    """Gives the variables of the permits' copies symbols: those of the permits where they are free."""
    taken = set(marks.values())
    for variable, guard in sorted(guards.nodes.items(), key=lambda item: item[1].at):
        permits = applying[variable]
        if not permits:
            raise Mismatch()
        for permit, copy in zip(permits, conditions(guard, len(permits))):
            name_copy(permit, copy, variable, marks, taken)


def name_copy(permit, copy, variable, marks, taken):
    own, copied = list(condition(permit.condition).all()), list(copy.all())
    write_constants(copied, permit.constants)
    if [node.kind for node in own] != [node.kind for node in copied]:
        raise Mismatch()
    given = {ROW: marks[variable]}
    for before, after in zip(own, copied):
        if before.kind == SOME:
            wanted = permit.symbols[before.body[0]]
            given[wanted] = marks[after.body[0]] = free_symbol(wanted, taken)
            taken.add(given[wanted])
        if before.kind == AGGREGATE:
            wanted = permit.symbols[before.body[1]]
            if wanted not in given:  # the name of a relation: a symbol of RANGE, that gives no record
                given[wanted] = free_symbol(wanted, taken)
                taken.add(given[wanted])
            marks[after.body[1]] = given[wanted]
