"""Questions to guarded relations from Python: ctypes over the shared library, nothing but the standard library.

    shop = Collection()                                        # or Collection("/somewhere/libwaldumre.so")
    shop.stored(3, [(7, 1, 250), (8, 1, 120)])                 # relation 0, of 3 attributes: a list of rows
    answer = shop.ask(permits, question)                       # bytes, as docs/FORMAT.md says
    answer.rows                                                # [(7, 250), (8, 120)]

A refusal raises Refused. If the answer has more cells than are lent, `complete` is False and the first rows are there.
The functions at the end write records: attribute(0, 2) is bytes([33, 0, 2]).
Questions can be typed as QUEL, with a list of names: shop.ask_text(permits, "RANGE OFFER(X) RETRIEVE W:X.PRICE", names).
"""
import ctypes
import struct
from typing import List, NamedTuple, Tuple

STORED, WORKSPACE, LATEST, ANSWER_BUFFER = 48, 49, 50, 41
REWRITTEN_BYTES, RECORDS_BYTES, NAME_BYTES = 17216, 6427, 12


class Outcome(ctypes.Structure):
    _fields_ = [(name, ctypes.c_uint64) for name in ("number", "rows", "columns", "length")]


class Reading(ctypes.Structure):
    _fields_ = [(name, ctypes.c_uint64) for name in ("number", "length")]


class Answer(NamedTuple):
    rows: List[Tuple[int, ...]]
    complete: bool
    rewritten: bytes  # for the host's log, not for the asker


class Refused(Exception):
    def __init__(self, number, text):
        super().__init__(f"refused {number}: {text}")
        self.number = number


class Collection:
    def __init__(self, library="libwaldumre.so.0.2"):
        self.library = ctypes.CDLL(library)
        lent = [kind for of in (ctypes.c_uint8, ctypes.c_int32, ctypes.c_uint8, ctypes.c_uint8, ctypes.c_uint8, ctypes.c_int64)
                for kind in (ctypes.POINTER(of), ctypes.c_size_t)]
        self.library.waldumre_ask.argtypes = lent
        self.library.waldumre_ask.restype = Outcome
        self.library.waldumre_evaluate.argtypes = lent[:4] + lent[6:8] + lent[10:]
        self.library.waldumre_evaluate.restype = Outcome
        self.library.waldumre_read_query.argtypes = lent[6:8] * 3
        self.library.waldumre_read_query.restype = Reading
        self.library.waldumre_ask_text.argtypes = lent[:6] + lent[6:8] * 2 + lent[6:]
        self.library.waldumre_ask_text.restype = Outcome
        self.library.waldumre_refusal_text.argtypes = [ctypes.c_uint64]
        self.library.waldumre_refusal_text.restype = ctypes.c_char_p
        self.catalogue = b""
        self.values = b""

    def relation(self, kind, columns, rows):
        """Adds a relation; its number is how many there were before."""
        if any(len(row) != columns for row in rows):
            raise ValueError(f"a row has not {columns} values")
        # struct says so if a value has more than 32 bits; ctypes would cut it
        values = b"".join(struct.pack(f"<{columns}i", *row) for row in rows)
        self.catalogue += struct.pack("<BBH", kind, columns, len(rows))
        self.values += values

    def stored(self, columns, rows):
        self.relation(STORED, columns, rows)

    def latest(self, columns, rows):
        """Stored, and its last row is met first."""
        self.relation(LATEST, columns, rows)

    def workspace(self, columns, rows):
        self.relation(WORKSPACE, columns, rows)

    def ask(self, permits, question, cells=4096):
        """The guarded call, for questions from outside. The permits are the host's choice, never the asker's."""
        rewritten = (ctypes.c_uint8 * REWRITTEN_BYTES)()
        answer = (ctypes.c_int64 * cells)()
        outcome = self.library.waldumre_ask(*self._collection(), *_bytes(permits), *_bytes(question),
                                            rewritten, REWRITTEN_BYTES, answer, cells)
        return self._answer(outcome, answer, rewritten)

    def ask_text(self, permits, text, names, cells=4096):
        """The guarded call for a question typed as QUEL."""
        records = (ctypes.c_uint8 * RECORDS_BYTES)()
        rewritten = (ctypes.c_uint8 * REWRITTEN_BYTES)()
        answer = (ctypes.c_int64 * cells)()
        outcome = self.library.waldumre_ask_text(*self._collection(), *_bytes(permits), *_bytes(_text(text)), *_bytes(names),
                                                 records, RECORDS_BYTES, rewritten, REWRITTEN_BYTES, answer, cells)
        return self._answer(outcome, answer, rewritten)

    def read_query(self, text, names):
        """The bytes of a question typed as QUEL; no relation is looked at."""
        records = (ctypes.c_uint8 * RECORDS_BYTES)()
        reading = self.library.waldumre_read_query(*_bytes(_text(text)), *_bytes(names), records, RECORDS_BYTES)
        if reading.number != 0:
            raise Refused(reading.number, self.library.waldumre_refusal_text(reading.number).decode())
        return bytes(records[:reading.length])

    def evaluate(self, question, cells=4096):
        """Answers over all rows and guards nothing: for questions of your own."""
        answer = (ctypes.c_int64 * cells)()
        return self._answer(self.library.waldumre_evaluate(*self._collection(), *_bytes(question), answer, cells), answer, b"")

    def _collection(self):
        count = len(self.values) // 4
        return (*_bytes(self.catalogue), (ctypes.c_int32 * count).from_buffer_copy(self.values), count)

    def _answer(self, outcome, answer, rewritten):
        if outcome.number not in (0, ANSWER_BUFFER):
            raise Refused(outcome.number, self.library.waldumre_refusal_text(outcome.number).decode())
        width = outcome.columns
        rows = [tuple(answer[row * width:(row + 1) * width]) for row in range(outcome.rows)]
        return Answer(rows, outcome.number == 0, bytes(rewritten[:outcome.length]))


def _text(text):
    return text if isinstance(text, bytes) else text.encode()


def _bytes(data):
    return (ctypes.c_uint8 * len(data)).from_buffer_copy(bytes(data)), len(data)


# Records. Conditions and terms are bytes; a question is its ranges, targets and condition, one after the other.
EQ, NE, LT, LE, GT, GE = range(1, 7)
COUNT, SUM, AVE, MAX, MIN = range(1, 6)
TRUE, FALSE = bytes([16]), bytes([17])


def each(variable, relation): return bytes([1, variable, relation])
def negated(c): return bytes([18]) + c
def both(c, d): return bytes([19]) + c + d
def either(c, d): return bytes([20]) + c + d
def compare(s, operator, t): return bytes([21, operator]) + s + t
def some(variable, relation, c): return bytes([22, variable, relation]) + c
def constant(value): return b"\x20" + struct.pack("<i", value)
def attribute(variable, number): return bytes([33, variable, number])
def aggregate(function, variable, relation, number, c=TRUE): return bytes([34, function, variable, relation, number]) + c
def permit(relation, mask, c): return struct.pack("<BBH", 64, relation, mask) + c


# Records of a name list; a list is its records, one after the other.
def name_relation(relation, name): return bytes([80, relation]) + _name(name)
def name_attribute(relation, number, name): return bytes([81, relation, number]) + _name(name)
def name_value(value, name): return b"\x52" + struct.pack("<i", value) + _name(name)


def _name(name):
    if len(name) > NAME_BYTES:
        raise ValueError(f"a name of over {NAME_BYTES} letters")
    return name.ljust(NAME_BYTES).encode()
