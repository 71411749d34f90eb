"""What a book clears."""
from __future__ import annotations

from array import array
from dataclasses import dataclass
from functools import partial
from itertools import repeat
from operator import mul, sub
from typing import Any, NamedTuple, Optional

from ._book import resources_and_steps
from ._library import GIVEN, NONE, REFUSED, held, library, most_rows
from ._refusal import Refusal


class Row(NamedTuple):
    """What one offer gets: cleared and committed tenths, and make-whole in mills a day. `step` is the offer's own."""
    resource: int
    cleared: int
    committed: int
    make_whole: int
    step: int = 1


@dataclass(frozen=True)
class Quote:
    """What an accepted book clears in all. `price` is None when nothing cleared; a price of 0 is a price."""
    total: int
    price: Optional[int]
    make_whole: int
    daily: int
    year: int


@dataclass(frozen=True)
class Clearing(Quote):
    """The same with what each row gets."""
    rows: list[Row]


@dataclass(frozen=True)
class Columns(Quote):
    """The same with the cleared and the committed tenths of each row, as arrays of 32-bit numbers that other programs, NumPy
    among them, take without a copy: numpy.frombuffer(columns.cleared, numpy.uint32)."""
    cleared: array[int]
    committed: array[int]


def _held(answer: Any) -> tuple[int, Optional[int], int, int, int]:
    """The values of an answer, or raises its refusal."""
    if answer.kind == REFUSED:
        raise Refusal(answer.number, answer.place)
    price = {GIVEN: answer.price, NONE: None}[answer.kind]
    return answer.total, price, answer.make_whole, answer.daily, answer.year


def clear_columns(book: bytes) -> Columns:
    """Clears a book with no object for a row, or raises Refusal."""
    data = held(book)
    most = most_rows(data)
    cleared, committed = array("I", bytes(4 * most)), array("I", bytes(4 * most))
    answer = library.ozp_clear(data, len(data), cleared.buffer_info()[0], most, committed.buffer_info()[0], most)
    values = _held(answer)
    del cleared[answer.rows:], committed[answer.rows:]
    return Columns(*values, cleared, committed)


def clear(book: bytes) -> Clearing:
    """Clears a book, or raises Refusal."""
    data = held(book)
    c = clear_columns(data)
    # With no price every row commits what it clears, which is nothing.
    make_whole = map(mul, repeat(c.price or 0), map(sub, c.committed, c.cleared))
    resources, steps = resources_and_steps(data)
    rows = map(partial(tuple.__new__, Row), zip(resources, c.cleared, c.committed, make_whole, steps))
    return Clearing(c.total, c.price, c.make_whole, c.daily, c.year, list(rows))


def quote(book: bytes) -> Quote:
    """What a book clears, without the amounts by row, or raises Refusal."""
    data = held(book)
    return Quote(*_held(library.ozp_quote(data, len(data))))
