"""Answers as tables, CSV or JSON, and two answers beside each other."""
import csv
import difflib
import io
import json
from itertools import zip_longest

ALIGNED = 2000  # rows; longer answers are set side by side as they come


def headings(printer):
    """A column's name; with its variable, where the name alone would stand twice."""
    targets = printer.parts[1]
    short = [printer.head(node).split(".")[-1] if "(" not in printer.head(node) else printer.head(node) for node in targets]
    return [name if short.count(name) == 1 else printer.head(node) for name, node in zip(short, targets)]


def cells(printer, rows):
    """Rows with the names put back."""
    names = [printer.holds_names(node) for node in printer.parts[1]]
    words = printer.shop.words
    return [[words.get(cell, cell) if is_name else cell for cell, is_name in zip(row, names)] for row in rows]


def count(rows):
    return f"({len(rows)} row{'' if len(rows) == 1 else 's'})"


def columns_of(heads, rows):
    """Widths, and which columns stand to the right: those of numbers."""
    widths = [max([len(head)] + [len(str(row[at])) for row in rows]) for at, head in enumerate(heads)]
    right = [all(not isinstance(row[at], str) for row in rows) for at in range(len(heads))]
    return widths, right


def one_line(row, widths, right):
    said = [str(cell).rjust(width) if is_right else str(cell).ljust(width) for cell, width, is_right in zip(row, widths, right)]
    return " " + " | ".join(said) + " "


def table(heads, rows):
    widths, right = columns_of(heads, rows)
    lines = [" " + " | ".join(head.center(width) for head, width in zip(heads, widths)) + " ", "+".join("-" * (width + 2) for width in widths)]
    lines += [one_line(row, widths, right) for row in rows]
    return [line.rstrip() for line in lines] + [count(rows)]


def as_csv(heads, rows):
    written = io.StringIO()
    csv.writer(written, lineterminator="\n").writerows([heads, *rows])
    return written.getvalue().splitlines()


def as_json(**parts):
    return [json.dumps(parts, ensure_ascii=False)]


def aligned(left, right):
    """Pairs of rows, equal ones on one line; None where a side has no row there. And whether the pair is equal."""
    left, right = [tuple(row) for row in left], [tuple(row) for row in right]
    if max(len(left), len(right)) > ALIGNED:
        steps = [("replace", 0, len(left), 0, len(right))]
    else:
        steps = difflib.SequenceMatcher(None, left, right, autojunk=False).get_opcodes()
    pairs = []
    for step, a, b, c, d in steps:
        if step == "equal":
            pairs += [(row, row, True) for row in left[a:b]]
        else:
            pairs += [(one, other, False) for one, other in zip_longest(left[a:b], right[c:d])]
    return pairs


def beside(sides, colour):
    """Two answers, each (title, heads, rows): rows that only one side has are set apart by a star, and by colour where there is one."""
    shapes = [columns_of(heads, rows) for _, heads, rows in sides]
    wide = max(len(sides[0][0]), len(count(sides[0][2])), sum(shapes[0][0]) + 3 * len(shapes[0][0]) - 1)

    def across(left, right, marks=("  ", "  "), paint=None):
        parts = [marks[0] + left.ljust(wide), marks[1] + right]
        if paint:
            parts = [paint(part) if part.strip() else part for part in parts]
        return " || ".join(parts).rstrip()
    lines = [across(*(title for title, _, _ in sides))]
    lines.append(across(*(" " + " | ".join(head.center(width) for head, width in zip(heads, widths))
                          for (_, heads, _), (widths, _) in zip(sides, shapes))))
    lines.append(across("-" * wide, "-" * (sum(shapes[1][0]) + 3 * len(shapes[1][0]) - 1)).replace("||", "++"))
    for left, right, equal in aligned(sides[0][2], sides[1][2]):
        said = ["" if row is None else one_line(row, *shape) for row, shape in zip((left, right), shapes)]
        lines.append(across(*said, ["  " if equal or row is None else "* " for row in (left, right)], None if equal else colour))
    return lines + [across(*(count(rows) for _, _, rows in sides))]
