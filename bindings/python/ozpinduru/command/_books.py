"""Books as a word takes them: files, or standard input, each answered by a text or by a line of JSON."""
import argparse
import json
import sys
from typing import Any, Callable, Optional

from .. import Refusal
from .._library import BOOK_BYTES
from ._progress import Bar
from ._streams import complain, say, settle

ANSWERED, REFUSED, UNREADABLE = 0, 1, 2

# what a word says of a book: a text, and the values for JSON
Answer = tuple[str, dict[str, Any]]


def arguments(parser: argparse.ArgumentParser) -> None:
    """What every word takes that reads books."""
    parser.add_argument("books", nargs="+", metavar="BOOK", help="a file, or - for standard input")
    as_json(parser)


def as_json(parser: argparse.ArgumentParser) -> None:
    parser.add_argument("--json", action="store_true", help="one line of JSON for each answer, in the library's own units")


def shown(name: str) -> str:
    """A book's name on one line."""
    return name if name.isprintable() else ascii(name)


def read(name: str, most: int = BOOK_BYTES + 1) -> bytes:
    """The bytes of a book, and of a longer file one byte more than any book has; or so many as are asked for, -1 for all."""
    if name != "-":
        with open(name, "rb") as file:
            return file.read(most)
    if sys.stdin is None:
        raise OSError(0, "standard input is shut")
    return sys.stdin.buffer.read(most)


def opened(name: str) -> Optional[bytes]:
    """The bytes of a book, or None once it is said that they cannot be read."""
    try:
        return read(name)
    except OSError as error:
        complain(f"{shown(name)}: {error.strerror}")
        return None


def refused(refusal: Refusal) -> dict[str, Any]:
    """The values of a refusal."""
    return {"number": refusal.number, "place": refusal.place, "where": refusal.where, "when": refusal.when}


def answered(asked: argparse.Namespace, name: Optional[str], answer: Callable[[], Answer]) -> int:
    """Says an answer, or the refusal in its place, and returns the status."""
    values: dict[str, Any] = {} if name is None else {"book": name}
    lead = "" if name is None else f"{shown(name)}: "
    try:
        text, found = answer()
        status = ANSWERED
    except Refusal as refusal:
        text, status = str(refusal), REFUSED
        found = {"refused": refused(refusal)}
    say(json.dumps({**values, **found}) + "\n" if asked.json else f"{lead}{text}\n")
    return status


def each(asked: argparse.Namespace, answer: Callable[[bytes], Answer]) -> int:
    """Answers book after book; one that cannot be read is passed over. The status is the gravest."""
    if asked.books.count("-") > 1:
        complain("standard input has one book: give - once")
        return UNREADABLE
    bar, status = Bar(len(asked.books)), ANSWERED
    for name in asked.books:
        bar.hide()
        data = opened(name)
        status = max(status, UNREADABLE if data is None else answered(asked, name, lambda: answer(data)))
        settle()
        bar.step()
    bar.hide()
    return status
