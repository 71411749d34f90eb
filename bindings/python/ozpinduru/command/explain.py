"""How a book clears, for a person, or why it is refused: every number of the answer with where it comes from.

    ozp explain BOOK                  the page of the book; of more than 15 rows each has a line there
    ozp explain BOOK --row N          that row in full; rows count from 0
    ozp explain BOOK --resource N     every row of that resource in full

A refused book has a page too, which says what is wrong at which place and what else is missing; its rows have one where it can be
read. Of a book that cannot be read, refused by 1, 2 or 3, the page is all there is, whatever row is asked for. Where the book has
no such row or resource, one line on standard error says so, and the exit status is 2.
"""
import argparse
from typing import Optional

from .. import Refusal, explain, quote, read
from ._books import ANSWERED, REFUSED, UNREADABLE, opened, shown
from ._streams import complain, say


def arguments(parser: argparse.ArgumentParser) -> None:
    parser.add_argument("book", metavar="BOOK", help="a file, or - for standard input")
    which = parser.add_mutually_exclusive_group()
    which.add_argument("--row", type=number, metavar="N", help="one row, counted from 0")
    which.add_argument("--resource", type=number, metavar="N", help="the rows of one resource")


def number(text: str) -> int:
    """A number from 0 on."""
    n = int(text)
    if n < 0:
        raise ValueError(text)
    return n


def _status(book: bytes) -> int:
    try:
        quote(book)
        return ANSWERED
    except Refusal:
        return REFUSED


def _rows(asked: argparse.Namespace, book: bytes) -> Optional[list[int]]:
    """The rows that are asked for, of those that the book has; None where the page of the book is, or is all there is."""
    if asked.row is None and asked.resource is None:
        return None
    try:
        offers = read(book).offers
    except Refusal:
        return None
    return [at for at, offer in enumerate(offers) if asked.row == at or asked.resource == offer.resource]


def run(asked: argparse.Namespace) -> int:
    book = opened(asked.book)
    if book is None:
        return UNREADABLE
    rows = _rows(asked, book)
    if rows == []:
        missed = f"there is no row {asked.row}" if asked.resource is None else f"no row has resource {asked.resource}"
        complain(f"{shown(asked.book)}: {missed}")
        return UNREADABLE
    say(explain(book) if rows is None else "".join(explain(book, row) for row in rows))
    return _status(book)
