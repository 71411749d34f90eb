"""Refusals, and what the library says in words."""
from __future__ import annotations

import ctypes
import enum
import operator

from . import _library
from ._library import GIVEN, REPORT_BYTES, WORDS_BYTES, held, library

FIELDS = ("delivery year", "cost of new entry", "revenue offset", "forced outage rate", "reliability requirement",
          "reserve margin")


class Fault(enum.IntEnum):
    """The refusal numbers by name."""
    WRONG_LENGTH = 1
    WRONG_CHECK = 2
    WRONG_LAYOUT = 3
    MISSING_PARAMETER = 4
    PARAMETER_OUT_OF_RANGE = 5
    UNPRICED_OFFER = 6
    OFFER_OUT_OF_RANGE = 7
    REPEATED_RESOURCE = 8
    SHORT_BUFFER = 9
    BROKEN_STEPS = 10
    LATER_STEP = 11
    TOO_MANY_ROWS = 19
    SHORT_ROOM = 20


class Refusal(Exception):
    """A book, parameters or rows are refused: `number` says why, `place` at which block, row or field (year, C, E, F, R, margin
    from 1)."""
    def __init__(self, number: int, place: int) -> None:
        super().__init__(number, place)
        self.number, self.place = number, place

    def __str__(self) -> str:
        return f"refused {self.number} at {self.where}: {self.when}"

    @property
    def when(self) -> str:
        """When a book is refused by this number."""
        return words(self.number).rpartition("; ")[0]

    @property
    def where(self) -> str:
        """The place in words: a block, a row or a field by name."""
        counted = words(self.number).rpartition("; ")[2]
        if counted == "the field" and 0 < self.place <= len(FIELDS):
            return f"field {self.place} ({FIELDS[self.place - 1]})"
        return f"{counted[4:]} {self.place}" if counted.startswith("the ") else str(self.place)


def words(number: int) -> str:
    """The words of a refusal number: when it is given and, after a semicolon, what its place is."""
    at = operator.index(number)
    room = ctypes.create_string_buffer(WORDS_BYTES)
    text = library.ozp_words(at if 0 <= at < 2**32 else 0, room, WORDS_BYTES)
    if text.kind != GIVEN:
        raise ValueError(f"no refusal has number {number}")
    return room.raw[:text.bytes].decode("ascii")


def report(book: bytes) -> str:
    """The text that the program `clear` prints for these bytes; a refusal is a text too."""
    data, room = held(book), ctypes.create_string_buffer(REPORT_BYTES)
    text = library.ozp_report(data, len(data), room, REPORT_BYTES)
    return room.raw[:text.bytes].decode("ascii")


def version() -> str:
    """The version of the library that is loaded."""
    return "{}.{}.{}".format(*_library.numbered(library.ozp_version()))
