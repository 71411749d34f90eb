"""What a book states, as JSON that `ozp write` takes; null is what is missing.

    ozp read BOOK                                  one document: edition, parameters and offers
    ozp read BOOK -o FILE                          the same into a file
    ozp read BOOK --parameters FILE -o FILE        the edition and the parameters, and the list of offers apart

Of the parameters: year, cost and offset (dollars per MW-year), outage (hundredths of a percent), requirement (tenths of a
megawatt) and margin (hundredths of a percent). Of an offer: resource, seller, price (cents per MW-day), quantity, block (tenths
of a megawatt), stamp and step, which is 1 throughout in edition 1. Values are read whether they are in range or not. Of a book
that cannot be read, refused by 1, 2 or 3, the document is book and "refused": number, place, where and when; no file is then
touched.
"""
import argparse
import json

from .. import Refusal
from .. import read as read_book
from ._books import ANSWERED, REFUSED, UNREADABLE, opened, refused
from ._contents import document_text, offers_text, parameters_text
from ._files import Unstored, put, same
from ._streams import complain, say


def arguments(parser: argparse.ArgumentParser) -> None:
    parser.add_argument("book", metavar="BOOK", help="a file, or - for standard input")
    parser.add_argument("--parameters", metavar="FILE", help="a file for the parameters alone")
    parser.add_argument("-o", "--output", metavar="FILE", help="a file for the rest; else it goes to standard output")


def run(asked: argparse.Namespace) -> int:
    files = [name for name in (asked.parameters, asked.output) if name is not None]
    if "-" in files or any(same(name, asked.book) for name in files) or (len(files) == 2 and same(*files)):
        complain("the book, --parameters and -o are a file each; see ozp read --help", "ozp read")
        return UNREADABLE
    data = opened(asked.book)
    if data is None:
        return UNREADABLE
    try:
        book = read_book(data)
    except Refusal as refusal:
        say(json.dumps({"book": asked.book, "refused": refused(refusal)}) + "\n")
        return REFUSED
    made = {} if asked.parameters is None else {asked.parameters: parameters_text(book)}
    rest = document_text(book) if asked.parameters is None else offers_text(book)
    if asked.output is not None:
        made[asked.output] = rest
    try:
        put({name: text.encode() for name, text in made.items()})
    except Unstored as error:
        complain(str(error))
        return UNREADABLE
    if asked.output is None:
        say(rest)
    return ANSWERED
