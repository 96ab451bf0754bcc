"""The proved library from Python: the binding's calls, those by text, and the label book.

Every decision on a question is taken in here, that is, in the library: what it means, what is permitted, what the answer is."""
import ctypes
import functools
import os
import re
import time
from pathlib import Path
from typing import List, NamedTuple, Tuple

from waldumre import Collection, Outcome, REWRITTEN_BYTES

from .bad import Bad

ROOM = 131072          # cells lent for an answer
RECORDS_BYTES = 6427   # no text makes more
LABELS, DISPLAY = 500, 7
ANSWER_BUFFER = 41


class Reading(ctypes.Structure):
    _fields_ = [(name, ctypes.c_uint64) for name in ("number", "length")]


class Reply(NamedTuple):
    """What a call left. At 41 the first rows are there."""
    number: int
    rows: List[Tuple[int, ...]]
    rewritten: bytes
    seconds: float = 0.0


class Book(NamedTuple):
    number: int
    offers: List[int]
    display: List[str]


def places(name):
    """Where a library may lie: where WALDUMRE_LIBRARY says, installed beside the shell, built in the repository, or known to the system."""
    named = os.environ.get("WALDUMRE_LIBRARY")
    if named:
        yield named if name == "waldumre" else str(Path(named).with_name(Path(named).name.replace("libwaldumre", "lib" + name)))
        return
    above = Path(__file__).resolve().parents[2]  # PREFIX/lib as installed, or the repository
    for pattern in (f"lib{name}.so.*", f"target/package/lib{name}.so.*"):
        yield from map(str, sorted(above.glob(pattern), key=version_of, reverse=True))
    yield f"lib{name}.so"


def version_of(path):
    """libwaldumre.so.0.2.0 is older than libwaldumre.so.0.10."""
    return [int(part) for part in re.findall("[0-9]+", path.name.partition(".so.")[2])]


def load(name):
    tried = []
    for place in places(name):
        try:
            return place, ctypes.CDLL(place)
        except OSError as why:
            tried.append(f"{place} ({why})")
    raise Bad(f"the library lib{name}.so cannot be loaded: build it with 'make', or name it in WALDUMRE_LIBRARY; tried {'; '.join(tried)}")


def lent(*kinds):
    """Slices are passed as pointer and length."""
    return [part for kind in kinds for part in (ctypes.POINTER(kind), ctypes.c_size_t)]


def given(data):
    """Bytes as a slice."""
    return (BYTE * len(data)).from_buffer_copy(data), len(data)


BYTE, VALUE, CELL = ctypes.c_uint8, ctypes.c_int32, ctypes.c_int64


class Engine(Collection):
    """A collection with the calls that the shell makes."""

    def __init__(self):
        place, library = load("waldumre")
        if not hasattr(library, "waldumre_ask_text"):
            raise Bad(f"the library {place} has no reader of QUEL (waldumre_ask_text): it is older than this shell")
        super().__init__(place)
        self.library.waldumre_read_query.argtypes = lent(BYTE, BYTE, BYTE)
        self.library.waldumre_read_query.restype = Reading
        self.library.waldumre_ask_text.argtypes = lent(BYTE, VALUE, BYTE, BYTE, BYTE, BYTE, BYTE, CELL)
        self.library.waldumre_ask_text.restype = Outcome
        self.library.waldumre_version.restype = ctypes.c_char_p

    def version(self):
        return self.library.waldumre_version().decode()

    def read(self, text, names):
        """The records of a text: the number of the refusal or 0, and the bytes."""
        records = (BYTE * RECORDS_BYTES)()
        reading = self.library.waldumre_read_query(*given(text), *given(names), records, RECORDS_BYTES)
        return reading.number, bytes(records[:reading.length])

    def ask_text(self, permits, text, names, cells=ROOM):
        """Reads, guards and answers, in one call."""
        records, rewritten, answer = (BYTE * RECORDS_BYTES)(), (BYTE * REWRITTEN_BYTES)(), (CELL * cells)()
        inputs = (*self._collection(), *given(permits), *given(text), *given(names))
        begun = time.perf_counter()
        outcome = self.library.waldumre_ask_text(*inputs, records, RECORDS_BYTES, rewritten, REWRITTEN_BYTES, answer, cells)
        return self._reply(outcome, answer, rewritten, time.perf_counter() - begun)

    def number_of(self, permits, question):
        """The number that ask gives, and nothing else."""
        rewritten, answer = (BYTE * REWRITTEN_BYTES)(), (CELL * 0)()
        return self.library.waldumre_ask(*self._collection(), *given(permits), *given(question),
                                         rewritten, REWRITTEN_BYTES, answer, 0).number

    def _reply(self, outcome, answer, rewritten, seconds):
        width = outcome.columns
        cells = answer[:outcome.rows * width]
        rows = [tuple(cells[at:at + width]) for at in range(0, len(cells), width)] if width else []
        return Reply(outcome.number, rows, bytes(rewritten[:outcome.length]), seconds)

    def label_book(self, library, permits, question, cells=ROOM):
        """What 500 labels show, by the library above the engine."""
        rewritten, answer = (BYTE * REWRITTEN_BYTES)(), (CELL * cells)()
        offers, display = (CELL * LABELS)(), (BYTE * (LABELS * DISPLAY))()
        outcome = library.waldumre_label_book(*self._collection(), *given(permits), *given(question), rewritten, REWRITTEN_BYTES,
                                              answer, cells, offers, LABELS, display, LABELS * DISPLAY)
        text = bytes(display).decode("ascii")
        return Book(outcome.number, list(offers), [text[at:at + DISPLAY] for at in range(0, len(text), DISPLAY)])


def book_library():
    _, library = load("waldumre_book")
    library.waldumre_label_book.argtypes = lent(BYTE, VALUE, BYTE, BYTE, BYTE, CELL, CELL, BYTE)
    library.waldumre_label_book.restype = Outcome
    return library


@functools.cache
def probe(stored_attributes):
    """An engine over one stored relation and one workspace, both without rows: to ask which permits apply."""
    engine = Engine()
    engine.stored(stored_attributes, [])
    engine.workspace(1, [])
    return engine
