"""A folder: shop.toml names the relations, which of them are workspaces, and the permits of each user."""
import tomllib
from pathlib import Path
from typing import Dict, List, NamedTuple

from waldumre import LATEST, STORED, WORKSPACE

from .bad import Bad, at, listed, printable, shown
from .engine import Engine
from .names import ROW, fault, name_list, numbered
from .permits import User, read_user
from .places import FILE, Places
from .sheets import Relation, decoded, relation

RELATIONS = 16
KEYS = ("title", "names", "relations", "users", "shelf")


class Shop(NamedTuple):
    folder: Path
    title: str
    relations: List[Relation]
    users: Dict[str, User]
    values: Dict[str, int]     # value names
    words: Dict[int, str]      # and back
    names: bytes               # the list that the library is lent
    shelf: Dict[str, str]
    engine: Engine

    def user(self, name):
        """By name, in capitals or not."""
        for user in self.users.values():
            if user.name.casefold() == name.casefold():
                return user
        raise Bad(f"there is no user {shown(name)}; users are {listed(self.users)}")


def open_shop(folder):
    folder = Path(folder)
    if not folder.is_dir():
        raise Bad(f"{folder}: {'is no folder' if folder.exists() else 'there is no such folder'}")
    if not (folder / FILE).is_file():
        raise Bad(f"{folder}: has no {FILE}, which names its relations and users")
    text = decoded(folder / FILE, FILE).replace("\r\n", "\n")
    try:
        tree = tomllib.loads(text)
    except tomllib.TOMLDecodeError as why:
        said, _, place = str(why).partition(" (at ")
        line = place.rstrip(")") if place else "line 1"
        raise Bad(f"{FILE}, {line.replace('end of document', 'at its end')}: no good TOML: {said[:1].lower() + said[1:]}")
    return build(folder, tree, Places(text))


def build(folder, tree, places):
    known(tree, KEYS, places, 0, "the file")
    title = tree.get("title", folder.resolve().name)
    if not isinstance(title, str):
        raise Bad(f"{places.sentence(places.key('title'))}: the title is no text in quotation marks")
    relations = read_relations(folder, tree, places)
    values = vocabulary(tree, relations, places)
    engine = Engine()
    for each in relations:
        rows = [[values.get(cell, cell) for cell in row] for row in each.rows]
        engine.relation(each.kind, len(each.columns), rows)
    names = name_list(relations, values)
    hold(engine, relations, names)
    shop = Shop(folder, printable(title), relations, {}, values, {value: word for word, value in values.items()}, names, {}, engine)
    read_users(shop, tree, places)
    shop.shelf.update(read_shelf(tree, places))
    return shop


def known(table, keys, places, start, where):
    for key in table:
        if key not in keys:
            raise Bad(f"{places.sentence(places.key(key, start))}: {shown(key)} is no key of {where}; known are {listed(keys)}")


def table_of(tree, key, places):
    """A table with at least one entry."""
    if key not in tree:
        raise Bad(f"{FILE}: has no [{key}]; it needs one")
    if not isinstance(tree[key], dict) or not tree[key]:
        raise Bad(f"{places.sentence(places.key(key))}: {key} is no table with an entry, as [{key}] with lines below it")
    return tree[key]


def read_relations(folder, tree, places):
    found, start = [], places.table("relations")
    for name, entry in table_of(tree, "relations", places).items():
        here = places.sentence(places.key(name, start))
        if len(found) == RELATIONS:
            raise Bad(f"{here}: relation {RELATIONS + 1}; a folder has at most {RELATIONS}")
        if fault(name):
            raise Bad(f"{here}: {shown(name)} {fault(name)}")
        if name == ROW:
            raise Bad(f"{here}: {ROW} cannot be a relation: in permits it is the row that the permit speaks of")
        if isinstance(entry, str):
            entry = {"file": entry}
        if not isinstance(entry, dict) or not isinstance(entry.get("file"), str):
            raise Bad(f'{here}: {name} names no file, as {name} = "{name.lower()}.csv"')
        known(entry, ("file", "workspace", "latest"), places, places.key(name, start), f"relation {name}")
        found.append(relation(inside(folder, entry["file"], here), entry["file"], name, kind_of(entry, here)))
    return found


def kind_of(entry, here):
    for key in ("workspace", "latest"):
        if not isinstance(entry.get(key, False), bool):
            raise Bad(f"{here}: {key} is true or false, without quotation marks")
    if entry.get("workspace") and entry.get("latest"):
        raise Bad(f"{here}: a workspace is walked as it stands; latest is for stored relations")
    return WORKSPACE if entry.get("workspace") else LATEST if entry.get("latest") else STORED


def inside(folder, file, here):
    """A file of the folder itself: nothing outside it is read."""
    path = folder / file
    if not file or Path(file).is_absolute() or ".." in Path(file).parts:
        raise Bad(f"{here}: {shown(file)} lies outside the folder")
    if not path.is_file():
        raise Bad(f"{here}: {shown(file)} {'is no file' if path.exists() else 'is not in the folder'}")
    return path


def vocabulary(tree, relations, places):
    """Value names: those of the list `names`, or else of all cells."""
    cells = {cell for each in relations for row in each.rows for cell in row if isinstance(cell, str)}
    if "names" not in tree:
        return numbered(cells)
    start, words = places.key("names"), tree["names"]
    if not isinstance(words, list) or not all(isinstance(word, str) for word in words):
        raise Bad(f'{places.sentence(start)}: names is no list of names, as names = ["MILK", "TEA"]')
    for number, word in enumerate(words):
        here = places.sentence(places.word(word, start))
        if fault(word):
            raise Bad(f"{here}: {shown(word)} {fault(word)}")
        if word in words[:number]:
            raise Bad(f"{here}: {word} is listed twice in names")
    unlisted(relations, set(words))
    return numbered(words)


def unlisted(relations, words):
    for each in relations:
        for line, row in zip(each.lines, each.rows):
            for number, cell in enumerate(row):
                if isinstance(cell, str) and cell not in words:
                    place = at(each.file, line, number + 1, each.columns[number])
                    raise Bad(f"{place}: {cell} is not among the names of {FILE}; add it there")


def hold(engine, relations, names):
    """The library's own word on relations and names; the sentences above come before it, so this is for what they missed."""
    number = engine.number_of(b"", b"")
    if number in (10, 11):
        raise Bad(f"the library refuses the relations with {number}")
    first = relations[0]
    number, _ = engine.read(f"RANGE {first.name}(X) RETRIEVE W: X.{first.columns[0]}".encode(), names)
    if number:
        raise Bad(f"the library refuses the names with {number}")


def read_users(shop, tree, places):
    for name, entry in table_of(tree, "users", places).items():
        start = places.table("users", name)
        here = places.sentence(start)
        if not name.isidentifier():
            raise Bad(f"{here}: {shown(name)} is no name of a user: letters, digits and _, a letter first")
        if name.casefold() in (other.casefold() for other in shop.users):
            raise Bad(f"{here}: the user {name} is there already; capitals make no difference")
        if not isinstance(entry, dict):
            raise Bad(f"{here}: the user {name} is no table, as [users.{name}] with lines below it")
        known(entry, ("about", "permits"), places, start, f"user {name}")
        shop.users[name] = read_user(shop, name, entry, places)


def read_shelf(tree, places):
    """Two questions for the page: which labels hang there, and which offer each shows."""
    shelf, start = tree.get("shelf", {}), places.table("shelf")
    if not isinstance(shelf, dict):
        raise Bad(f"{places.sentence(start)}: shelf is no table, as [shelf] with lines below it")
    known(shelf, ("labels", "offers"), places, start, "shelf")
    for key in ("labels", "offers") if shelf else ():
        if not isinstance(shelf.get(key), str):
            raise Bad(f"{places.sentence(start)}: shelf has no question called {key}, in quotation marks")
    return shelf
