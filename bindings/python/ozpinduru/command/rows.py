"""What each row of a book clears, commits and is paid to be made whole; in edition 2 with its step.

With --json: what `ozp clear --json` has, and the list rows, each with resource, cleared and committed (tenths of a megawatt),
make_whole (mills a day) and step.
"""
import argparse

from .. import Row, clear, read
from ._books import Answer, arguments, each
from .._units import megawatts, money, sold

__all__ = ["arguments", "run"]

_FORM = "  {:>4} {:>12}{} {:>14} {:>14} {:>20}"


def _line(at: int, row: Row, stepped: bool) -> str:
    step = f" {row.step:>4}" if stepped else ""
    return _FORM.format(at, row.resource, step, megawatts(row.cleared), megawatts(row.committed), money(row.make_whole))


def _answer(book: bytes) -> Answer:
    c, stepped = clear(book), read(book).edition == 2
    head = _FORM.format("row", "resource", " step" if stepped else "", "cleared", "committed", "make-whole a day")
    lines = [sold(c.total, c.price), head, *(_line(at, row, stepped) for at, row in enumerate(c.rows))]
    return "\n".join(lines), {**vars(c), "rows": [row._asdict() for row in c.rows]}


def run(asked: argparse.Namespace) -> int:
    return each(asked, _answer)
