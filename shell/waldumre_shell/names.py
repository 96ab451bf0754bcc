"""Names: what may be one, and the list of them that the library is lent."""
import re
import struct

RESERVED = ("RANGE", "RETRIEVE", "NOT", "SOME", "IN", "V", "COUNT", "SUM", "AVE", "MAX", "MIN")
MOST = 12
ROW = "ROW"  # in a permit: the row that the permit speaks of


def fault(word):
    """Why a word is no name, or None."""
    if word in RESERVED:
        return f"is a word of QUEL itself ({', '.join(RESERVED)}) and cannot be a name"
    if re.fullmatch("[A-Z]+", word):
        return None if len(word) <= MOST else f"has {len(word)} letters; a name has at most {MOST}"
    capitals = "".join(re.findall("[A-Z]", word.upper()))
    hint = f"; write {capitals}" if capitals and len(capitals) <= MOST and capitals not in RESERVED else ""
    return f"is no name: a name is 1 to {MOST} capital letters A to Z, no spaces, digits or signs{hint}"


def padded(word):
    return word.encode("ascii").ljust(MOST)


def name_list(relations, values):
    """The bytes of the list: relations and their columns by number, value names with their values."""
    parts = []
    for number, relation in enumerate(relations):
        parts.append(bytes([80, number]) + padded(relation.name))
        parts += [bytes([81, number, column]) + padded(name) for column, name in enumerate(relation.columns)]
    parts += [b"\x52" + struct.pack("<i", value) + padded(word) for word, value in values.items()]
    return b"".join(parts)


def numbered(words):
    """Value names get 1, 2, .. by the alphabet, so that < compares two of them as a dictionary does. 0 stays free: an aggregate over
    no rows is 0."""
    return {word: number for number, word in enumerate(sorted(set(words)), 1)}
