"""The page that the program `explain` writes for a book, a second time: from the outline, apart from the library.

    page(data)             the text for a book of bytes
    head(data)             the page up to the rows
    row_page(data, row)    what there is to say of one row; nothing where the book has no such row or cannot be read
"""
import accepted
import levels
import outline
import refusals
import rows
from words import megawatts, offer_lines, percent


def stated(book):
    """What the book states, each parameter given or missing."""
    def said(value, text):
        return "missing, which is not zero" if value is None else text(value) + (", entered as zero" if value == 0 else "")

    def yearly(value):
        return f"{value:,} dollar{'' if value == 1 else 's'} per MW-year"
    c, e, f, r, margin = book.values
    with_margin = said(margin, percent) if margin is not None or outline.by_margin(book.year) else \
        "none, and the year's curve goes without one"
    yield "The book states\n"
    if book.edition == 2:
        yield "  edition                2, in which an offer is a step of its resource\n"
    yield f"""  delivery year          {book.year}
  C, cost of new entry   {said(c, yearly)}
  E, revenue offset      {said(e, yearly)}
  F, outage rate EFORd   {said(f, percent)}
  R, requirement         {said(r, megawatts)}
  reserve margin         {with_margin}
  offers                 {len(book.offers):,}
"""


def head_lines(book):
    if not book.readable:
        yield from refusals.of_form(*book.fault, book.length)
        return
    yield from stated(book)
    if book.fault:
        yield from refusals.of_values(book)
        return
    market = book.market
    yield from accepted.answer(market)
    yield from accepted.of_year(market, book.year)
    yield from accepted.curve(market, book.values[2])
    yield from accepted.total(market)
    yield from accepted.set_price(market)
    yield from levels.ladder(market)
    yield from levels.division(market, book.edition)


def head(data):
    return "".join(head_lines(outline.Book(data)))


def page(data):
    book = outline.Book(data)
    return "".join([*head_lines(book), *(rows.rows(book.market, book.edition) if book.market else [])])


def row_page(data, row):
    book = outline.Book(data)
    if not book.readable or row >= len(book.offers):
        return ""
    o = book.offers[row]
    return "".join(rows.row_lines(book.market, book.edition, o) if book.market else
                   [*offer_lines(book.edition, o), *refusals.value_lines(book.edition, o)])
