"""Clears a capacity auction: a book of bytes goes in; cleared amounts, the price and the payments come out; such books
are written, and how one clears is explained to a person.

Quantities are tenths of a megawatt, prices cents per MW-day, amounts of money mills (tenths of a cent). What is not
there is None, never 0: a clearing with no price cleared nothing, and an offer whose price is missing is unpriced.
"""
from ._book import Book, Offer, Parameters, read
from ._calendar import days
from ._clearing import Clearing, Columns, Quote, Row, clear, clear_columns, quote
from ._comparison import Comparison, RefusedBook, compare
from ._converting import convert
from ._curve import Curve, ExactPrice, curve, price_at
from ._explaining import explain, explain_head
from ._refusal import Fault, Refusal, report, version, words
from ._writing import write
from .picture import chart

__version__ = "0.9.0"
__all__ = [
    "Book", "Clearing", "Columns", "Comparison", "Curve", "ExactPrice", "Fault", "Offer", "Parameters", "Quote", "Refusal",
    "RefusedBook", "Row",
    "chart", "clear", "clear_columns", "compare", "convert", "curve", "days", "explain", "explain_head", "price_at", "quote", "read",
    "report", "version", "words", "write",
]
