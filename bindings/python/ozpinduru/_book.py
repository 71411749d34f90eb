"""What a book says."""
from __future__ import annotations

import struct
from array import array
from dataclasses import dataclass
from operator import index
from typing import Any, Optional

from . import _library
from ._library import GIVEN, MISSING, NO_VALUE, REFUSED, held, library, most_rows
from ._refusal import Refusal


@dataclass(frozen=True)
class Parameters:
    """The parameters of a region: dollars per MW-year, hundredths of a percent and tenths of a megawatt. None is missing. A year
    from 2022 to 2025 needs a reserve margin, and no other year has one."""
    year: int
    cost: Optional[int]
    offset: Optional[int]
    outage: Optional[int]
    requirement: Optional[int]
    margin: Optional[int] = None


@dataclass(frozen=True)
class Offer:
    """A row of a book. `price` is None where it is missing, `block` where the offer is flexible. A book of edition 1 has step 1
    throughout. In one of edition 2 a resource may have up to ten steps, in neighbouring rows counted up from 1: prices never
    fall from one to the next, and only step 1 may have a block."""
    resource: int
    seller: int
    price: Optional[int]
    quantity: int
    block: Optional[int]
    stamp: int
    step: int = 1


@dataclass(frozen=True)
class Book:
    """The parameters of a book, its offers, row by row, and its edition, 1 or 2."""
    parameters: Parameters
    offers: list[Offer]
    edition: int = 1


# stamp, resource, seller, quantity, kind and number of the price, kind and number of the block, step
ROW = struct.Struct("<Q3I2I2II")
_ROW_WORDS, _RESOURCE, _STEP = ROW.size // 4, _library.Row.resource.offset // 4, _library.Row.step.offset // 4


def rows_read(data: bytes) -> tuple[Any, array[int]]:
    """What the library reads of a book, with as many rows as its blocks could have; raises Refusal."""
    most = most_rows(data)
    rows = array("I", bytes(ROW.size * most))
    contents = library.ozp_read(data, len(data), rows.buffer_info()[0], most)
    if contents.kind == REFUSED:
        raise Refusal(contents.number, contents.place)
    del rows[_ROW_WORDS * contents.rows:]
    return contents, rows


def resources_and_steps(data: bytes) -> tuple[array[int], array[int]]:
    """The resource and the step of each row of a book that is not refused by 1 to 3."""
    rows = rows_read(data)[1]
    return rows[_RESOURCE::_ROW_WORDS], rows[_STEP::_ROW_WORDS]


def _offer(stamp: int, resource: int, seller: int, quantity: int, priced: int, price: int, whole: int, block: int,
           step: int) -> Offer:
    return Offer(resource, seller, price if priced == GIVEN else None, quantity, block if whole == GIVEN else None, stamp, step)


def _given(value: Any) -> Optional[int]:
    return value.number if value.kind == GIVEN else None


def _lent(number: Optional[int]) -> Any:
    """A value on its way in. A number that 32 bits do not hold goes in with no kind, which is out of range, as it is."""
    if number is None:
        return _library.Value(MISSING, NO_VALUE)
    return _library.Value(GIVEN, number) if 0 <= index(number) <= NO_VALUE else _library.Value(0, NO_VALUE)


def whole(number: int) -> int:
    """A year or an edition on its way in. One that 32 bits do not hold is none, as the largest number is."""
    return number if 0 <= index(number) <= NO_VALUE else NO_VALUE


def lent(p: Parameters) -> Any:
    """Parameters on their way in."""
    return _library.Parameters(whole(p.year), *map(_lent, (p.cost, p.offset, p.outage, p.requirement, p.margin)))


def read(book: bytes) -> Book:
    """What a book says, for every book that passes 1 to 3, with its values in range or not; else raises Refusal."""
    contents, rows = rows_read(held(book))
    p = contents.parameters
    parameters = Parameters(p.year, *map(_given, (p.cost, p.offset, p.outage, p.requirement, p.margin)))
    return Book(parameters, [_offer(*row) for row in ROW.iter_unpack(rows)], contents.edition)
