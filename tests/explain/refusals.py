"""Refusals as the page says them: number, place, what is wrong there, and what else is missing."""
from limits import broken_rule, by_margin, wrong_values
from words import megawatts, offer_lines, percent, price

FIELDS = ["the delivery year", "C, the cost of new entry", "E, the revenue offset", "F, the outage rate", "R, the requirement",
          "the reserve margin"]


def of_form(number, place, cause, length):
    """1 to 3: nothing of the book is read."""
    if number == 1:
        said = "over 20,992 bytes" if length > 20992 else "1 byte" if length == 1 else f"{length:,} bytes"
        yield f"refused 1 at 0\n  the length is {said}\n  it has to be a multiple of 512, from 512 to 20,992\n"
    elif number == 2:
        yield f"refused 2 at block {place}\n  the check of block {place} is wrong, so nothing of the book is read\n"
    else:
        byte, wrong = cause
        yield f"refused 3 at block {place}\n  block {place}, byte {byte}: {wrong}\n  so nothing of the book is read\n"


def yearly(n):
    return f"{n:,} dollars per MW-year"


def of_parameter(number, field, year, values):
    """4 and 5: a parameter is missing, or out of its range."""
    said = [str, yearly, yearly, percent, megawatts, percent][field - 1]
    value = [year, *values][field - 1]
    ranges = ["2022 to 2099", "1 to 1,000,000 dollars per MW-year", f"0 to C, which is {values[0] or 0:,}", "0.00 to 50.00 percent",
              "100.0 to 200,000.0 MW", "0.00 to 50.00 percent in 2022 to 2025; later years have none"]
    wrong = "missing; a missing value is not zero" if number == 4 else f"{said(value)}, out of range"
    name = FIELDS[field - 1] + ("," if 2 <= field <= 5 else "")
    yield f"\nrefused {number} at field {field}\n  {name} is {wrong}\n  its range is {ranges[field - 1]}\n"


def value_lines(edition, o):
    """Every value of a row, its range, and whether it is out of it."""
    wrong = wrong_values(edition, o)

    def line(name, text):
        return f"    {text}{' <- out of range' if name in wrong else ''}\n"
    yield line("resource", f"resource {o.resource}, from 1")
    yield line("seller", f"seller {o.seller}, from 1")
    yield line("price", "price not entered" if o.price is None else f"price {price(o.price)} dollars, from 0.00 to 10,000.00")
    yield line("quantity", f"quantity {megawatts(o.quantity)}, from 0.1 to 20,000.0 MW")
    yield line("block", "minimum block not given" if o.block is None else
               f"minimum block {megawatts(o.block)}, from 0.1 MW to the quantity")
    if edition == 2:
        yield line("step", f"step {o.step}, from 1 to 10")


def of_row(number, row, edition, offers):
    """6, 7, 8 and 10: an offer."""
    o = offers[row]
    before = offers[row - 1] if row else None
    first = next(other for other in offers if other.resource == o.resource)
    wrong = {6: "no price; a missing price is not zero", 7: "a value out of range",
             8: f"the resource number of the earlier row {first.row}", 10: "a step that breaks the rules of steps"}
    yield f"\nrefused {number} at row {row}\n  row {row} (resource {o.resource}) has {wrong[number]}\n"
    if number == 7:
        yield from value_lines(edition, o)
        return
    if number == 8:
        yield from offer_lines(edition, first)
    if number == 10:
        yield f"    {broken_rule(before, o)}\n"
        if before:
            yield from offer_lines(edition, before)
    yield from offer_lines(edition, o)


def missing(edition, year, values, offers):
    """All that is missing, so that it can be entered at once."""
    for field, value in zip(FIELDS[1:5], values):
        if value is None:
            yield f"missing: {field}\n"
    if values[4] is None and by_margin(year):
        yield "missing: the reserve margin, which the year's curve needs\n"
    for o in offers:
        if o.price is None:
            step = f", step {o.step}" if edition == 2 else ""
            yield f"missing: the price of row {o.row}, resource {o.resource}{step}\n"


def of_values(book):
    """4 to 8 and 10: what the book states is read, and refused."""
    number, place = book.fault
    if number < 6:
        yield from of_parameter(number, place, book.year, book.values)
    else:
        yield from of_row(number, place, book.edition, book.offers)
    yield from missing(book.edition, book.year, book.values, book.offers)
