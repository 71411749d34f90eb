"""Draws the supply stack of a book against the requirement curve: a picture in SVG, which a browser shows.

The picture takes its place whole. Where the book is refused, nothing is drawn and a file that was there stays as it was. With
-o - standard output has the picture alone, and a refusal goes to standard error.

With --json: book, picture (the file), total (tenths of a megawatt) and price (cents per MW-day, null where nothing cleared); a
refused book has "refused": number, place, where and when.
"""
import argparse
import os
import shutil
from functools import partial

from .. import Refusal, chart, quote
from .._units import sold
from ._books import ANSWERED, REFUSED, UNREADABLE, Answer, answered, as_json, opened, shown
from ._streams import complain, say


def arguments(parser: argparse.ArgumentParser) -> None:
    parser.add_argument("book", metavar="BOOK", help="a file, or - for standard input")
    parser.add_argument("-o", "--output", metavar="FILE", required=True, help="the picture's file, or - for standard output")
    as_json(parser)


def _put(picture: str, place: str) -> None:
    """Puts a picture in its place at once: it is written beside it and then moved. What is no plain file is written to."""
    if os.path.exists(place) and not os.path.isfile(place):
        with open(place, "w", encoding="utf-8") as stream:
            stream.write(picture)
        return
    place = os.path.realpath(place)
    part = f"{place}.{os.getpid()}.part"
    try:
        with open(part, "x", encoding="utf-8") as file:
            file.write(picture)
        if os.path.exists(place):
            shutil.copymode(place, part)
        os.replace(part, place)
    except BaseException:
        if os.path.exists(part):
            os.unlink(part)
        raise


def _answer(book: bytes, place: str) -> Answer:
    picture, q = chart(book), quote(book)
    _put(picture, place)
    return f"{sold(q.total, q.price)}; drawn in {shown(place)}", {"picture": place, "total": q.total, "price": q.price}


def _streamed(name: str, book: bytes) -> int:
    """The picture on standard output, or else the refusal where it cannot be taken for one."""
    try:
        say(chart(book))
        return ANSWERED
    except Refusal as refusal:
        complain(f"{shown(name)}: {refusal}")
        return REFUSED


def run(asked: argparse.Namespace) -> int:
    name, place = asked.book, asked.output
    if place == "-" and asked.json:
        complain("with -o - standard output has the picture alone: give a file with --json; see ozp chart --help", "ozp chart")
        return UNREADABLE
    book = opened(name)
    if book is None:
        return UNREADABLE
    if place == "-":
        return _streamed(name, book)
    try:
        if name != "-" and os.path.exists(place) and os.path.samefile(name, place):
            raise OSError(0, "the picture would take the book's place")
        return answered(asked, name, partial(_answer, book, place))
    except OSError as error:
        complain(f"{shown(place)}: {error.strerror}")
        return UNREADABLE
