"""Whether losers matter between two books: whether a rival's unsold offer can have moved the answer.

They don't where both books have the same parameters, and the same offers at or below the first's price in the same order
among themselves: then both answers are the same, and so is what each of these offers gets. Else the first thing that differs
is told, and the answers, which are shown side by side, may differ too.

With --json: books, applies, shared (how many offers), field, row and other (what differs, else null), above (how many offers
of each book are above the price, null where there is none), and first and second, each with what `ozp clear --json` has; a
refused book has "refused": book (1 or 2), number, place, where and when.
"""
import argparse
import json
from dataclasses import asdict
from typing import Any, Optional

from .. import Comparison, Offer, Parameters, Quote, RefusedBook, compare, read
from .._refusal import FIELDS
from ._books import ANSWERED, REFUSED, UNREADABLE, as_json, opened, refused, shown
from ._streams import complain, say
from .._units import dollars, money, named, sold

_FIELDS = ("year", "cost", "offset", "outage", "requirement", "margin")


def arguments(parser: argparse.ArgumentParser) -> None:
    parser.add_argument("books", nargs=2, metavar="BOOK", help="a file, or - for standard input")
    as_json(parser)


def _offers(many: int) -> str:
    return f"{many:,} offer{'' if many == 1 else 's'}"


def _values(number: Optional[int]) -> str:
    return "none" if number is None else f"{number:,}"


def _apart(o: Offer, other: Offer) -> str:
    """The values in which two offers differ, in the library's own units."""
    one, two = asdict(o), asdict(other)
    return ", ".join(f"{name} {_values(one[name])} and {_values(two[name])}" for name in one if one[name] != two[name])


def _alone(book: str, row: int, o: Offer, price: int, absent: str) -> str:
    return (f"row {row} of {book}, {named(o.resource, o.step)} at {dollars(o.price or 0)}, is at or below {dollars(price)}, "
            f"and {absent} has no such offer more")


def _why(c: Comparison, parameters: tuple[Parameters, Parameters], offers: tuple[list[Offer], list[Offer]]) -> str:
    """What comes first that keeps the theorem from applying, in words."""
    if c.first.price is None:
        return "nothing clears in the first book, so there is no price to compare to"
    if c.field is not None:
        one, two = (getattr(p, _FIELDS[c.field - 1]) for p in parameters)
        field = f"field {c.field} ({FIELDS[c.field - 1]})"
        return f"{field} differs, {_values(one)} and {_values(two)}, and the curve or the year with it"
    if c.row is None and c.other is not None:
        return _alone("the second book", c.other, offers[1][c.other], c.first.price, "the first")
    if c.other is None and c.row is not None:
        return _alone("the first book", c.row, offers[0][c.row], c.first.price, "the second")
    row, other = c.row or 0, c.other or 0
    return f"row {row} of the first book and row {other} of the second differ: {_apart(offers[0][row], offers[1][other])}"


def _side(name: str, q: Quote, above: Optional[int]) -> str:
    over = "" if above is None else f"; {_offers(above)} above the first's price"
    return f"  {name:<7}{sold(q.total, q.price)}; paid {money(q.daily)} a day, {money(q.year)} a year{over}"


def _text(c: Comparison, first: bytes, second: bytes, above: list[Optional[int]]) -> str:
    if c.applies and c.first.price is not None and c.shared is not None:
        head = f"losers don't matter: the parameters and {_offers(c.shared)} at or below {dollars(c.first.price)} are the same"
    else:
        one, two = read(first), read(second)
        head = f"losers may matter: {_why(c, (one.parameters, two.parameters), (one.offers, two.offers))}"
    return "\n".join([head, _side("first", c.first, above[0]), _side("second", c.second, above[1])])


def _above(price: Optional[int], book: bytes) -> Optional[int]:
    """How many offers of an accepted book are above a price."""
    return None if price is None else sum((o.price or 0) > price for o in read(book).offers)


def _values_of(c: Comparison, above: list[Optional[int]]) -> dict[str, Any]:
    return {**{name: getattr(c, name) for name in ("applies", "shared", "field", "row", "other")}, "above": above,
            "first": asdict(c.first), "second": asdict(c.second)}


def run(asked: argparse.Namespace) -> int:
    if asked.books == ["-", "-"]:
        complain("standard input has one book: give - once")
        return UNREADABLE
    read_in = [opened(name) for name in asked.books]
    if read_in[0] is None or read_in[1] is None:
        return UNREADABLE
    first, second = read_in[0], read_in[1]
    try:
        c = compare(first, second)
        above = [_above(c.first.price, book) for book in (first, second)]
        text, found, status = _text(c, first, second, above), _values_of(c, above), ANSWERED
    except RefusedBook as refusal:
        text, status = f"{shown(asked.books[refusal.book - 1])}: {refusal}", REFUSED
        found = {"refused": {"book": refusal.book, **refused(refusal)}}
    say(json.dumps({"books": asked.books, **found}) + "\n" if asked.json else f"{text}\n")
    return status
