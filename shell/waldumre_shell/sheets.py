"""A relation from a CSV file: a header of column names, then rows of whole numbers and names."""
import csv
import io
import re
from typing import List, NamedTuple

from waldumre import WORKSPACE

from .bad import Bad, at, shown
from .names import RESERVED, fault

COLUMNS, ROWS = 16, 1024
LEAST, MOST = -2**31, 2**31 - 1
NUMBER, FRACTION, NAME = re.compile("[+-]?[0-9]+"), re.compile("[+-]?[0-9][0-9.,]*"), re.compile("[A-Z]{1,12}")


class Relation(NamedTuple):
    name: str
    file: str
    kind: int           # stored, workspace, or stored and walked from the last row
    columns: List[str]
    rows: list          # of cells: numbers and names
    lines: List[int]    # where each row stands in the file
    text: List[bool]    # for each column: does it hold names?

    @property
    def workspace(self):
        return self.kind == WORKSPACE


def decoded(path, name):
    try:
        data = path.read_bytes()
    except OSError as why:
        raise Bad(f"{name}: cannot be read: {(why.strerror or str(why)).lower()}")
    try:
        return data.decode("utf-8-sig")
    except UnicodeDecodeError as why:
        line = data.count(b"\n", 0, why.start) + 1
        column = why.start - (data.rfind(b"\n", 0, why.start) + 1) + 1
        raise Bad(f"{at(name, line, column)}: byte {data[why.start]} is not UTF-8; save the file as UTF-8 text")


def lines(path, name):
    """Rows of cells with the number of their line; blank lines are passed over."""
    reader = csv.reader(io.StringIO(decoded(path, name), newline=""), strict=True)
    try:
        for cells in reader:
            if cells:
                yield reader.line_num, [cell.strip() for cell in cells]
    except csv.Error as why:
        raise Bad(f"{at(name, reader.line_num)}: {why}; a cell with a quotation mark is written in quotation marks, the mark twice")


def header(name, line, cells):
    if len(cells) == 1 and re.search("[;\t|]", cells[0]):
        raise Bad(f"{at(name, line)}: the columns are parted by another sign; part them by commas")
    if len(cells) > COLUMNS:
        raise Bad(f"{at(name, line, COLUMNS + 1)}: {len(cells)} columns; a relation has at most {COLUMNS}")
    for number, cell in enumerate(cells, 1):
        if not cell:
            raise Bad(f"{at(name, line, number)}: the column has no name")
        if fault(cell):
            raise Bad(f"{at(name, line, number)}: {shown(cell)} {fault(cell)}")
        if cell in cells[:number - 1]:
            raise Bad(f"{at(name, line, number)}: the column {cell} is there already, as column {cells.index(cell) + 1}")
    return cells


def value(cell):
    """A number of 32 bits, or a name, or None."""
    if NUMBER.fullmatch(cell):
        return int(cell) if len(cell) <= 40 and LEAST <= int(cell) <= MOST else None
    return cell if NAME.fullmatch(cell) and cell not in RESERVED else None


def why_not(cell):
    if not cell:
        return "the cell is empty; every cell holds a whole number or a name"
    if NUMBER.fullmatch(cell):
        return f"{shown(cell)} does not fit 32 bits; numbers go from {LEAST} to {MOST}"
    if FRACTION.fullmatch(cell):
        return f"{shown(cell)} is no whole number; write prices in cents, as 1250 for 12.50"
    return f"{shown(cell)} {fault(cell)}"


def row_of(place, columns, cells, first):
    """The values of a row. `first`: for each column whether it holds names, and the line that said so."""
    row, line = [], place[1]
    for number, cell in enumerate(cells):
        found = value(cell)
        if found is None:
            raise Bad(f"{at(*place, number + 1, columns[number])}: {why_not(cell)}")
        kind, before = first.setdefault(number, (isinstance(found, str), line))
        if kind != isinstance(found, str):
            raise Bad(f"{at(*place, number + 1, columns[number])}: {shown(cell)} is a {'number' if kind else 'name'}, but the column "
                      f"holds {'names' if kind else 'numbers'} (line {before}); a column holds the one or the other")
        row.append(found)
    return row


def relation(path, file, name, kind):
    """The relation of a file, or Bad with file, line and column."""
    rows, places, columns, first = [], [], None, {}
    for line, cells in lines(path, file):
        if columns is None:
            columns = header(file, line, cells)
            continue
        if len(cells) != len(columns):
            raise Bad(f"{at(file, line, min(len(cells), len(columns)) + 1)}: the row has {len(cells)} cells, the header {len(columns)}")
        if len(rows) == ROWS:
            raise Bad(f"{at(file, line)}: row {ROWS + 1}; a relation has at most {ROWS} rows")
        rows.append(row_of((file, line), columns, cells, first))
        places.append(line)
    if columns is None:
        raise Bad(f"{at(file, 1)}: the file is empty; its first line names the columns")
    return Relation(name, file, kind, columns, rows, places, [first.get(number, (False, 0))[0] for number in range(len(columns))])
