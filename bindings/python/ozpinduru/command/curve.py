"""The three points of the requirement curve, of a book's parameters or of those given, and its price at a quantity.

With --json: p1, p2, p3 (cents per MW-day), q1, q2, q3 (tenths of a megawatt) and, with --at, at and price_at: its cents and the
remainder and divisor of what lies between cents (null past the last point); refused parameters have "refused": number, place,
where and when.
"""
import argparse
from dataclasses import asdict, fields
from typing import Optional

from .. import ExactPrice, Parameters, curve, price_at, read
from ._books import Answer, answered, as_json, each
from ._streams import complain
from .._units import dollars, megawatts

_PARAMETERS = {
    "year": "delivery year: its first calendar year",
    "cost": "cost of new entry, dollars per MW-year",
    "offset": "revenue offset, dollars per MW-year",
    "outage": "forced outage rate, hundredths of a percent",
    "requirement": "reliability requirement, tenths of a megawatt",
    "margin": "reserve margin, hundredths of a percent: for 2022 to 2025 only",
}


def arguments(parser: argparse.ArgumentParser) -> None:
    parser.add_argument("books", nargs="*", metavar="BOOK", help="a file, or - for standard input; else --year and the others")
    for name, about in _PARAMETERS.items():
        parser.add_argument(f"--{name}", type=int, metavar="N", help=about)
    parser.add_argument("--at", type=quantity, metavar="K", help="a quantity, in tenths of a megawatt")
    as_json(parser)


def quantity(text: str) -> int:
    """A number from 0 on."""
    k = int(text)
    if k < 0:
        raise ValueError(text)
    return k


def _exactly(price: Optional[ExactPrice]) -> str:
    """A price and what lies between its cents."""
    if price is None:
        return "past the last point, where nothing is bought"
    return dollars(price.cents) + (f" and {price.remainder}/{price.divisor} of a cent" if price.remainder else "")


def _answer(parameters: Parameters, at: Optional[int]) -> Answer:
    c = curve(parameters)
    points = [(c.q1, c.p1), (c.q2, c.p2), (c.q3, c.p3)]
    text, values = "; ".join(f"{megawatts(q)} at {dollars(p)}" for q, p in points), asdict(c)
    if at is not None:
        price = price_at(parameters, at)
        text = f"{text}; at {megawatts(at)}: {_exactly(price)}"
        values = {**values, "at": at, "price_at": None if price is None else asdict(price)}
    return text, values


def run(asked: argparse.Namespace) -> int:
    given = {field.name: getattr(asked, field.name) for field in fields(Parameters)}
    if bool(asked.books) == any(value is not None for value in given.values()) or (not asked.books and asked.year is None):
        complain("give books, or --year with the other parameters; see ozp curve --help", "ozp curve")
        return 2
    if asked.books:
        return each(asked, lambda book: _answer(read(book).parameters, asked.at))
    return answered(asked, None, lambda: _answer(Parameters(**given), asked.at))
