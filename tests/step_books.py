"""Books of edition 2 that the program `verdicts` is run on: each one's name, its bytes, the fault when clearing, the fault of
soundness, and how many rows are read."""
from write_book import book as first_edition
from write_book import offer, steps

FOUR = steps(5, 10, 20, 30, 40)


def book(offers, **parameters):
    return first_edition(offers, edition=2, **parameters)


def runs(count, length, price=0):
    """So many resources of as many steps each, all at one price."""
    return [row for at in range(count) for row in steps(at + 1, *[price] * length)]


def accepted():
    for name, rows in [
        ("edition-2-no-offers", []),
        ("edition-2-step-1-throughout", [offer(row + 1, step=1) for row in range(16)]),
        ("steps-1-to-10-of-one-resource", steps(5, *range(10))),
        ("steps-across-blocks", runs(13, 1) + steps(50, *range(10))),
        ("steps-600-in-60-runs-of-ten", runs(60, 10)),
        ("steps-at-one-price", steps(5, 10, 10, 10)),
        ("steps-sellers-and-stamps-may-differ", [offer(5, 10, stamp=9, step=1), offer(5, 10, stamp=3, seller=8, step=2)]),
        ("steps-block-on-step-1", [offer(5, 10, block=50, step=1), offer(5, 10, step=2)]),
    ]:
        yield name, book(rows), None, None, len(rows)


def out_of_range():
    """Byte 29 says 1 to 10."""
    for step in (0, 11, 255):
        yield f"step-{step}", book([offer(1, step=1), offer(5, step=step)]), (7, 1), (7, 1), 2
    yield "step-11-behind-step-10", book(steps(5, *range(11))), (7, 10), (7, 10), 11


def broken():
    """By 10, at the row."""
    a, b, c, d = FOUR
    other = offer(6, 10, step=1)
    for name, rows, row in [
        ("step-2-in-row-0", [b], 0),
        ("step-2-behind-another-resource", [other, b], 1),
        ("step-2-not-beside-step-1", [a, other, b], 2),
        ("step-3-behind-step-1", [a, c], 1),
        ("step-2-twice", [a, b, b], 2),
        ("steps-counted-down", [d, c, b, a], 0),
        ("steps-2-and-3-exchanged", [a, c, b, d], 1),
        ("steps-of-two-resources-mixed", [a, other, b, offer(6, 10, step=2)], 2),
        ("step-across-blocks-left-out", runs(1, 10) + steps(50, *range(5)) + steps(50, *range(7))[6:], 15),
        ("step-price-falls-by-one", steps(5, 10, 9), 1),
        ("step-price-falls-late", steps(5, 10, 20, 20, 19), 3),
        ("step-block-on-step-2", [a, offer(5, 20, block=50, step=2)], 1),
        ("step-broken-before-a-later-repeat", [a, c, a], 1),
        ("step-broken-in-the-last-of-600", runs(60, 10)[:599] + [offer(60, 0, block=1, step=10)], 599),
    ]:
        yield name, book(rows), (10, row), (10, row), len(rows)


def repeated():
    """Only step 1 is looked up in all earlier rows."""
    for name, rows, row in [
        ("step-1-twice", [FOUR[0], FOUR[0]], 1),
        ("step-1-behind-step-4-of-its-resource", [*FOUR, FOUR[0]], 4),
        ("step-1-repeats-a-run-further-up", [*FOUR, *steps(6, 1, 2), *FOUR], 6),
        ("step-1-repeat-before-a-later-broken-step", [FOUR[0], FOUR[0], FOUR[2]], 1),
    ]:
        yield name, book(rows), (8, row), (8, row), len(rows)


def without_prices():
    """Neighbouring prices are compared only if both are given."""
    yield "step-prices-5-missing-3", book(steps(5, 5, None, 3)), (6, 1), None, 3
    yield "step-price-missing-on-step-1", book(steps(5, None, 3)), (6, 0), None, 2
    yield "no-price-and-a-broken-step-in-one-row", book([offer(5, None, step=2)]), (6, 0), (10, 0), 1
    yield "out-of-range-before-a-broken-step-in-one-row", book([offer(5, quantity=0, step=2)]), (7, 0), (7, 0), 1
    yield "step-prices-9-missing-5-3", book(steps(5, 9, None, 5, 3)), (6, 1), (10, 3), 4


def step_books():
    for part in (accepted, out_of_range, broken, repeated, without_prices):
        yield from part()
