"""Writes a sound book in the other edition: one of edition 1 goes up to edition 2, one of edition 2 down to edition 1.

    ozp convert BOOK -o BOOK             the book in the other edition, into another file
    ozp convert BOOK -o BOOK --force     into its own place, if both are one file

A book goes down where no row has a step of 2 or more. What it says stays as it is, missing values too, and so does what it
clears; there and back it has the same bytes. The book is written whole and then moved into its place; where it is refused or
cannot be written, a file that stands there is left as it is. With --json: book (the one that is written), edition, offers and
bytes; a refused book has "refused": number, place, where and when.
"""
import argparse

from .. import convert as convert_book
from .. import read as read_book
from ._books import UNREADABLE, Answer, answered, as_json, opened
from ._files import Unstored, put, same
from ._streams import complain


def arguments(parser: argparse.ArgumentParser) -> None:
    parser.add_argument("book", metavar="BOOK", help="a file, or - for standard input")
    parser.add_argument("-o", "--output", metavar="BOOK", required=True, help="the book that is written")
    parser.add_argument("--force", action="store_true", help="let the book that is written take the place of the one that is read")
    as_json(parser)


def _answer(book: bytes, name: str) -> Answer:
    data = convert_book(book)
    said = read_book(data)
    put({name: data})
    values = {"edition": said.edition, "offers": len(said.offers), "bytes": len(data)}
    return f"written in edition {said.edition}, {len(said.offers)} offers in {len(data):,} bytes", values


def run(asked: argparse.Namespace) -> int:
    if asked.output == "-":
        complain("the book that is written is a file; see ozp convert --help", "ozp convert")
        return UNREADABLE
    if asked.book != "-" and same(asked.book, asked.output) and not asked.force:
        complain("the book would take its own place: --force lets it; see ozp convert --help", "ozp convert")
        return UNREADABLE
    book = opened(asked.book)
    if book is None:
        return UNREADABLE
    try:
        return answered(asked, asked.output, lambda: _answer(book, asked.output))
    except Unstored as error:
        complain(str(error))
        return UNREADABLE
