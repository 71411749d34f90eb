"""Whether losers matter between two books."""
from __future__ import annotations

from dataclasses import dataclass
from typing import Optional

from ._clearing import Quote, quote
from ._library import GIVEN, NO_VALUE, REFUSED, held, library
from ._refusal import Refusal


class RefusedBook(Refusal):
    """One of two books is refused: `book` says which, 1 or 2."""
    def __init__(self, book: int, number: int, place: int) -> None:
        super().__init__(number, place)
        self.args = (book, number, place)
        self.book = book

    def __str__(self) -> str:
        return f"book {self.book} is {super().__str__()}"


@dataclass(frozen=True)
class Comparison:
    """Two accepted books, and what each clears in all.

    Where `applies` is true, losers don't matter between them: their parameters are the same, and so are their offers at or
    below the first's price, `shared` of them, in the same order among themselves; every other offer is above it. It is proved
    that both then have the same answer, and each shared offer the same amounts, wherever its row stands.

    Else the first thing that differs is told: the `field` of the parameters, or the `row` of the first book and the `other` of
    the second, of which one is None where that book has no offer at or below the price more. Where nothing clears in the first
    book there is no price to compare to, and nothing is told.
    """
    applies: bool
    shared: Optional[int]
    field: Optional[int]
    row: Optional[int]
    other: Optional[int]
    first: Quote
    second: Quote


def _told(number: int) -> Optional[int]:
    return None if number == NO_VALUE else number


def compare(first: bytes, second: bytes) -> Comparison:
    """Compares two books, or raises RefusedBook."""
    one, two = held(first), held(second)
    c = library.ozp_compare(one, len(one), two, len(two))
    if c.kind == REFUSED:
        raise RefusedBook(c.book, c.number, c.place)
    return Comparison(c.kind == GIVEN, _told(c.shared), _told(c.field), _told(c.row), _told(c.other), quote(one), quote(two))
