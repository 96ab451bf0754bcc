"""A refusal as a sentence: its number, who can cause it, why, and where."""
from .bad import listed, printable
from .engine import ROOM
from .explain import explain
from .pointer import point
from .records import trees, question, variables
from .words import line_and_column

WHO = {10: "the keeper of the relations", 20: "the writer of the permits", 30: "the asker", 40: "this shell", 41: "this shell",
       50: "the asker", 51: "the asker", 52: "this shell", 53: "the writer of the shelf's question"}
LIMITS = (("RANGE variable", 4), ("target", 8), ("variable", 8), ("level", 32))


def who(number):
    return WHO.get(number) or WHO.get(number // 10 * 10, "this shell")


def refusal(shop, user, text, number):
    """The lines to show."""
    lines = [f"refused {number}: {because(shop, user, text, number)}"]
    fault = point(text, number, shop) if number in (50, 51) else None
    if fault:
        line, column = line_and_column(text, fault.at)
        lines += ["  " + printable(text.split("\n")[line - 1]), "  " + " " * (column - 1) + "^"]
    return lines + [f"{who(number)[:1].upper() + who(number)[1:]} can cause this{remedy(number)}."]


def remedy(number):
    return {33: ", by using columns together that no permit opens together, or one that NO ACCESS bars",
            50: ", by a text that is not QUEL", 51: ", by a name that is not there or out of reach"}.get(number, "")


def because(shop, user, text, number):
    if number in (50, 51):
        fault = point(text, number, shop)
        if not fault:
            return shop.engine.library.waldumre_refusal_text(number).decode()
        line, column = line_and_column(text, fault.at)
        return f"line {line}, column {column}: {fault.why}"
    if number == 33:
        return no_permit(shop, user, text)
    if number in (30, 31):
        return too_large(shop, text, number)
    if number == 41:
        return f"the answer has more rows than the {ROOM} cells that this shell lends; these are the first"
    return shop.engine.library.waldumre_refusal_text(number).decode()


def no_permit(shop, user, text):
    """The first variable that is barred or has no permit that applies."""
    _, records = shop.engine.read(text.encode(), shop.names)
    for variable in explain(shop, user, text, records, b"").variables:
        if variable.relation.workspace:
            continue
        uses = f"the question uses {listed(variable.uses) if variable.uses else 'no column'} of {variable.said}, a row of {variable.relation.name}"
        if variable.barred():
            return f"{uses}, and permit {variable.barred()[0].permit.number} of {user.name} gives NO ACCESS to " \
                   f"{listed(variable.barred()[0].permit.columns)}"
        if not variable.applying():
            count = sum(not verdict.permit.no_access() for verdict in variable.verdicts)
            if count == 0:
                return f"{uses}, and {user.name} has no permit over {variable.relation.name}"
            return f"{uses}, and no single permit of {user.name} opens all of that together"
    return shop.engine.library.waldumre_refusal_text(33).decode()


def too_large(shop, text, number):
    """What there is too much of: at 30 bytes, at 31 something else. A text that was read is well formed."""
    _, records = shop.engine.read(text.encode(), shop.names)
    if number == 30:
        return f"the question is {len(records)} bytes of records; 1024 are the most"
    parts = question(records)
    levels = max(node.level for tree in trees(parts) for node in tree.all())
    for (what, most), have in zip(LIMITS, (len(parts[0]), len(parts[1]), len(variables(parts)), levels)):
        if have > most:
            return f"the question has {have} {what}s; {most} are the most"
    return shop.engine.library.waldumre_refusal_text(number).decode()
