"""Writing books."""
from __future__ import annotations

import ctypes
import struct
from array import array
from itertools import islice
from operator import index
from typing import Iterable

from ._book import ROW, Offer, Parameters, lent, whole
from ._library import BOOK_BYTES, GIVEN, MISSING, NO_VALUE, REFUSED, ROWS, library
from ._refusal import Refusal

_MISSING = (MISSING, NO_VALUE)
# resource, seller and step 1, quantity 0
_OUT_OF_RANGE = ROW.pack(0, 1, 1, 0, *_MISSING, *_MISSING, 1)


def _row(offer: Offer) -> bytes:
    """A row on its way in. One with a number that its bytes do not hold is out of range, and another that is so goes in for it."""
    price, block = offer.price, offer.block
    try:
        return ROW.pack(offer.stamp, offer.resource, offer.seller, offer.quantity,
                        *(_MISSING if price is None else (GIVEN, price)), *(_MISSING if block is None else (GIVEN, block)),
                        offer.step)
    except struct.error:
        given = [number for number in (price, block) if number is not None]
        for number in (offer.resource, offer.seller, offer.quantity, offer.stamp, offer.step, *given):
            index(number)
        return _OUT_OF_RANGE


def write(parameters: Parameters, offers: Iterable[Offer], edition: int = 1) -> bytes:
    """The book of an edition that says these parameters and offers, in their order, or raises Refusal. What is None is written as
    missing. Steps past 1 are for edition 2."""
    # One row more than a book may have: however many there are, they are refused by so many.
    rows = [_row(offer) for offer in islice(offers, ROWS + 1)]
    lent_rows, room = array("Q", b"".join(rows)), ctypes.create_string_buffer(BOOK_BYTES)
    text = library.ozp_write(whole(edition), lent(parameters), lent_rows.buffer_info()[0], len(rows), room, BOOK_BYTES)
    if text.kind == REFUSED:
        raise Refusal(text.number, text.place)
    return room.raw[:text.bytes]
