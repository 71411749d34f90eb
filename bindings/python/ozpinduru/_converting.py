"""Between editions."""
from __future__ import annotations

import ctypes

from ._library import BOOK_BYTES, REFUSED, held, library
from ._refusal import Refusal


def convert(book: bytes) -> bytes:
    """A sound book in the other edition, or raises Refusal. From edition 1 it goes up to edition 2, with step 1 in every row, and
    from edition 2 down to edition 1, unless a row has a later step. All else that it says, and what it clears, stays as it is;
    there and back the bytes are the same."""
    data = held(book)
    room = ctypes.create_string_buffer(min(len(data), BOOK_BYTES) or 1)
    text = library.ozp_convert(data, len(data), room, len(room))
    if text.kind == REFUSED:
        raise Refusal(text.number, text.place)
    return room.raw[:text.bytes]
