"""What each book clears in all, a line for each book.

With --json: book, total (tenths of a megawatt), price (cents per MW-day, null where nothing cleared), make_whole, daily and
year (mills); a refused book has "refused": number, place, where and when.
"""
import argparse
from dataclasses import asdict

from .. import quote
from ._books import Answer, arguments, each
from .._units import money, sold

__all__ = ["arguments", "run"]


def _answer(book: bytes) -> Answer:
    q = quote(book)
    paid = f"make-whole {money(q.make_whole)} a day, paid {money(q.daily)} a day, {money(q.year)} a year"
    return f"{sold(q.total, q.price)}; {paid}", asdict(q)


def run(asked: argparse.Namespace) -> int:
    return each(asked, _answer)
