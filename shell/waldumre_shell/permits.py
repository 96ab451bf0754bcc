"""A user's permits: written as columns and a condition in QUEL, read by the library, kept as its bytes."""
import struct
from typing import Dict, List, NamedTuple

from .bad import Bad, listed, printable, shown
from .names import ROW
from .pointer import point
from .records import marks
from .words import constants, symbols

ALL, NO_ACCESS = "ALL", "NO ACCESS"
PERMITS, EVERY = 8, 65535
WHO = {20: "it is not well formed", 21: "it is too large: a permit has at most 256 bytes of records, 16 levels and 3 variables beside ROW",
       22: "it names something that is not there or out of reach", 23: "it stands over a workspace, or looks into one"}


class Permit(NamedTuple):
    number: int                # from 1, as shown
    relation: int
    mask: int
    columns: List[str]
    rows: str                  # as written
    condition: bytes
    symbols: Dict[int, str]    # of its variables; 0 is ROW
    constants: List[str]       # as written, in their order

    def bytes(self):
        return struct.pack("<BBH", 64, self.relation, self.mask) + self.condition

    def no_access(self):
        return self.rows == NO_ACCESS


class User(NamedTuple):
    name: str
    about: str
    permits: List[Permit]

    def bytes(self):
        return b"".join(permit.bytes() for permit in self.permits)


def read_user(shop, name, entry, places):
    about, given = entry.get("about", ""), entry.get("permits", [])
    start = places.table("users", name)
    if not isinstance(about, str):
        raise Bad(f"{places.sentence(places.key('about', start))}: about is no text in quotation marks")
    if not isinstance(given, list) or not all(isinstance(each, dict) for each in given):
        raise Bad(f"{places.sentence(places.key('permits', start))}: the permits of {name} are no list of tables, as [[users.{name}.permits]]")
    if len(given) > PERMITS:
        raise Bad(f"{places.sentence(places.permit(name, PERMITS))}: permit {PERMITS + 1} of {name}; a user has at most {PERMITS}")
    permits = [read_permit(shop, each, number, places, places.permit(name, number - 1)) for number, each in enumerate(given, 1)]
    user = User(name, printable(about), permits)
    refused = shop.engine.number_of(user.bytes(), b"")
    if refused != 30:  # the empty question: the list has passed
        raise Bad(f"{places.sentence(start)}: the library refuses the permits of {name} with {refused}")
    return user


def read_permit(shop, entry, number, places, start):
    for key in entry:
        if key not in ("relation", "columns", "rows"):
            raise Bad(f"{places.sentence(places.word(key, start))}: {shown(key)} is no key of a permit; known are relation, columns and rows")
    for key in ("relation", "columns", "rows"):
        if key not in entry:
            raise Bad(f"{places.sentence(start)}: the permit has no {key}; it needs relation, columns and rows")
    relation, here = relation_of(shop, entry["relation"], places, start), places.sentence(places.value(start, "columns"))
    columns, mask = columns_of(shop.relations[relation], entry["columns"], here)
    rows = entry["rows"]
    if not isinstance(rows, str) or not rows.strip():
        raise Bad(f"{places.sentence(places.value(start, 'rows'))}: rows is a condition in quotation marks, or \"{ALL}\", or \"{NO_ACCESS}\"")
    plain = " ".join(rows.split())
    condition, symbols_of, written = condition_of(shop, relation, plain, rows, places, start)
    permit = Permit(number, relation, mask, columns, plain, condition, symbols_of, written)
    refused = shop.engine.number_of(permit.bytes(), b"")
    if refused in WHO:
        raise Bad(f"{places.sentence(start)}: the permit is refused with {refused}: {WHO[refused]}")
    return permit


def relation_of(shop, name, places, start):
    for number, relation in enumerate(shop.relations):
        if relation.name == name:
            if relation.workspace:
                raise Bad(f"{places.sentence(places.value(start, 'relation'))}: {name} is a workspace; workspaces are the asker's own and need no permit")
            return number
    raise Bad(f"{places.sentence(places.value(start, 'relation'))}: no relation is called {shown(name)}; "
              f"relations are {listed(each.name for each in shop.relations)}")


def columns_of(relation, given, here):
    """A list of columns, or a text with commas, or ALL: names and mask."""
    if isinstance(given, str):
        given = [word.strip() for word in given.split(",")]
    if not isinstance(given, list) or not given or not all(isinstance(word, str) for word in given):
        raise Bad(f'{here}: columns is a list of columns, as ["PRICE"], or "{ALL}"')
    if given == [ALL]:
        return list(relation.columns), EVERY
    mask = 0
    for number, word in enumerate(given):
        if word not in relation.columns:
            raise Bad(f"{here}: {relation.name} has no column {shown(word)}; its columns are {listed(relation.columns)}")
        if word in given[:number]:
            raise Bad(f"{here}: the column {word} is named twice")
        mask |= 1 << relation.columns.index(word)
    return given, mask


def wrapping(shop, relation):
    """The question that a condition is read in: ROW runs over the permit's relation, and the name of a relation stands for it in
    aggregates, as AVE(OFFER.PRICE)."""
    others = "".join(f":{each.name}({each.name})" for each in shop.relations)
    return f"RANGE {shop.relations[relation].name}({ROW}){others} RETRIEVE W: {ROW}.{shop.relations[relation].columns[0]}: "


def condition_of(shop, relation, plain, rows, places, start):
    """The records of a condition, as the library reads them in a question of its own, its symbols, and its constants as written."""
    if plain in (ALL, NO_ACCESS):
        return bytes([16 if plain == ALL else 17]), {0: ROW}, []
    head = wrapping(shop, relation)
    number, records = shop.engine.read((head + rows).encode("utf-8", "replace"), shop.names)
    if number:
        fault = point(head + rows, number, shop)
        inner = max(0, fault.at - len(head)) if fault else 0
        raise Bad(f"{places.sentence(places.value(start, 'rows', inner))}: refused {number}: {fault.why if fault else 'no condition of QUEL'}")
    if records[6:7] == b"" or records[:6] != bytes([1, 0, relation, 33, 0, 0]):
        raise Bad(f"{places.sentence(places.value(start, 'rows'))}: the name of a relation stands for it in aggregates only; "
                  f"for another row write SOME X IN {shop.relations[relation].name} (..)")
    return records[6:], marks(symbols(head + rows), records), constants(head + rows)
