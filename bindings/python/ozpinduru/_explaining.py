"""The page of a book, for a person."""
from __future__ import annotations

import ctypes
import operator
from typing import Any, Optional

from ._library import GIVEN, PAGE_BYTES, ROWS, held, library


def _page(call: Any, data: bytes, *row: int) -> Optional[str]:
    """The page that a call writes, if there is one."""
    room = ctypes.create_string_buffer(PAGE_BYTES)
    text = call(data, len(data), *row, room, PAGE_BYTES)
    return room.raw[:text.bytes].decode("ascii") if text.kind == GIVEN else None


def explain(book: bytes, row: Optional[int] = None) -> str:
    """The page of a book: what it states, its answer, the curve, where the total stops and why, what sets the price, the price
    levels around it, how the level that is divided is divided, and its rows, up to 15 of them each in full, more of them each
    in a line; or why it is refused, and what it lacks. A refused book has a page too. No line has more than 80 letters.

    With a row, counted from 0, the page of that row alone, in full whatever the number of rows; of a book that is refused by 4 to
    10 its offer, and its values with their ranges. Raises IndexError where the book has no such row, or is refused by 1 to 3.
    """
    data = held(book)
    if row is None:
        page = _page(library.ozp_explain, data)
    else:
        at = operator.index(row)
        page = _page(library.ozp_explain_row, data, at) if 0 <= at < ROWS else None
    if page is None:
        raise IndexError(f"the book has no row {row}")
    return page


def explain_head(book: bytes) -> str:
    """The head of a book's page: all of it but the rows. Of a refused book it is the whole page."""
    return _page(library.ozp_explain_head, held(book)) or ""
