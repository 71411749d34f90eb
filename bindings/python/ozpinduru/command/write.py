"""Writes the book that says given parameters and offers, which are JSON as `ozp read` gives them.

    ozp write FILE -o BOOK                         one document: edition, parameters and offers
    ozp write --parameters FILE FILE -o BOOK       the edition and the parameters, and the list of offers apart

Every name stands in every object, with null for what is missing: `ozp read --help` has the names. Where no step stands, it is 1;
where no edition stands, it is that of --edition, else 1. The book is written whole and then moved into its place; where it is
refused or cannot be written, a file that stands there is left as it is. With --json: book, edition, offers and bytes; refused
contents have "refused": number, place, where and when.
"""
import argparse
from typing import Any, Callable, TypeVar

from .. import Book
from .. import write as write_book
from ._books import UNREADABLE, Answer, answered, as_json, read, shown
from ._contents import Unusable, document_of, offers_of, parameters_of, parsed
from ._files import Unstored, put, same
from ._streams import complain

Made = TypeVar("Made")


def arguments(parser: argparse.ArgumentParser) -> None:
    parser.add_argument("offers", metavar="FILE",
                        help="parameters and offers, or with --parameters the list of offers; - for standard input")
    parser.add_argument("--parameters", metavar="FILE", help="the parameters alone")
    parser.add_argument("--edition", type=int, choices=(1, 2), help="the edition, where the JSON does not say one; else 1")
    parser.add_argument("-o", "--output", metavar="BOOK", required=True, help="the book that is written")
    as_json(parser)


def _taken(name: str, made: Callable[[Any], Made]) -> Made:
    """What is made of a file's value."""
    try:
        return made(parsed(read(name, most=-1)))
    except OSError as error:
        raise Unusable(f"{shown(name)}: {error.strerror}") from error
    except Unusable as error:
        raise Unusable(f"{shown(name)}: {error}") from error


def _contents(asked: argparse.Namespace) -> Book:
    if asked.parameters is None:
        parameters, offers, said = _taken(asked.offers, document_of)
    else:
        (parameters, said), offers = _taken(asked.parameters, parameters_of), _taken(asked.offers, offers_of)
    if said is not None and asked.edition is not None:
        raise Unusable(f"the JSON says edition {said} itself: leave --edition out")
    return Book(parameters, offers, said if said is not None else asked.edition or 1)


def _answer(book: Book, name: str) -> Answer:
    data = write_book(book.parameters, book.offers, book.edition)
    put({name: data})
    values = {"edition": book.edition, "offers": len(book.offers), "bytes": len(data)}
    edition = "" if book.edition == 1 else f"edition {book.edition}, "
    return f"written, {edition}{len(book.offers)} offers in {len(data):,} bytes", values


def run(asked: argparse.Namespace) -> int:
    sources = [name for name in (asked.parameters, asked.offers) if name is not None]
    if asked.output == "-" or sources.count("-") > 1 or any(same(name, asked.output) for name in sources):
        complain("the book and what it is written of are a file each; see ozp write --help", "ozp write")
        return UNREADABLE
    try:
        book = _contents(asked)
        return answered(asked, asked.output, lambda: _answer(book, asked.output))
    except (Unusable, Unstored) as error:
        complain(str(error))
        return UNREADABLE
