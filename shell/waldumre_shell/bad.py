"""What is wrong with what was given, as a sentence with its place."""


class Bad(Exception):
    """A sentence for whoever wrote the folder or the command line; never shown with a traceback."""


def at(file, line=None, column=None, name=None):
    """'offers.csv, line 4, column 3 (PRICE)'."""
    place = str(file)
    if line is not None:
        place += f", line {line}"
    if column is not None:
        place += f", column {column}"
    return place + (f" ({name})" if name else "")


def printable(text):
    """On one line, and with no sign that would steer a terminal."""
    return "".join(sign if sign.isprintable() else "?" for sign in text)


def shown(text, most=40):
    """A word from a file, in quotation marks."""
    plain = printable(str(text))
    return f"'{plain}'" if len(plain) <= most else f"'{plain[:most]}..'"


def listed(words, last="and"):
    words = list(words)
    return words[0] if len(words) == 1 else f"{', '.join(words[:-1])} {last} {words[-1]}" if words else "none"
