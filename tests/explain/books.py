"""The books that the page is written for here: every kind of zero, tie, block and refusal that it tells apart.

    books()    each book's name and its bytes
"""
from write_book import book, changed, damaged, many, offer, one, steps

# Two units at zero, and two that tie at the curve price: a spare tenth, and a minimum block of which a part cleared.
FOUR = [
    offer(21, 0, 6_000, stamp=4),
    offer(22, 0, 3_900, stamp=3),
    offer(23, 37_500, 200, stamp=2),
    offer(24, 37_500, 100, block=50, stamp=1),
]
# Two units in steps: the three of one that tie have equal remainders and one stamp, so the spare tenth goes to the lowest.
STEPS = [
    offer(81, 0, 6_000, block=4_000, stamp=5, step=1),
    offer(81, 20_000, 3_900, stamp=6, step=2),
    *steps(82, 37_500, 37_500, 37_500, 49_000, stamp=9),
]
BASE = offer(11, 10_000, 9_900, stamp=1)


def tied(*quantities, **values):
    """Offers with falling resource numbers at the curve price of the 10.0 MW that it buys past 990.0."""
    return [offer(60 - at, 37_500, quantity, stamp=5, **values) for at, quantity in enumerate(quantities)]


def zeros():
    """Prices and totals that are zero, or none, and what sets a price."""
    yield "no-offers", book([])
    yield "no-price", book(one(100, 50_001, block=100))
    yield "price-zero", book([offer(31, 0, 10_000, stamp=1), offer(32, 0, 1_000, block=1_000, stamp=2)])
    yield "offer-sets-the-price", book([offer(61, 10_000, 10_000), offer(62, 37_450, 500)])
    yield "curve-sets-the-price-under-an-offer", book([offer(61, 10_000, 10_000), offer(62, 40_000, 500)])
    yield "curve-sets-the-price", book(one(9_000), offset=0, outage=0)
    yield "costs-of-one-dollar", book(one(9_000), cost=1, offset=1)
    yield "year-of-366-days", book(FOUR, year=2027)
    yield "margin-of-15-percent-in-2024", book(FOUR, year=2024, margin=1_500)
    yield "margin-of-zero-in-2022", book(FOUR, year=2022, offset=0, margin=0)


def ties():
    """Who gets the spare tenths of a level, and what decides it."""
    every = [offer(1, 10_000, 9_990, stamp=1), offer(22, 37_500, 7, stamp=5), offer(21, 37_500, 7, block=6, stamp=5),
             offer(23, 37_500, 7, block=2, stamp=9), offer(24, 37_500, 8, stamp=9), offer(25, 37_500, 1, block=1, stamp=5)]
    yield "tie-of-every-kind", book(every)
    yield "tie-between-stamps", book([BASE, *(offer(41 + at, 37_500, 100, stamp=stamp) for at, stamp in enumerate((3, 0, 3)))])
    yield "tie-between-steps", book(STEPS, edition=2)
    yield "tie-with-no-spare-tenth", book([BASE, *tied(100, 100)])
    yield "tie-for-six-spare-tenths", book([BASE, *tied(*range(30, 44))])
    yield "tie-for-seven-spare-tenths", book([BASE, *tied(*range(20, 33))])
    yield "edition-2-of-one-step-each", book([*steps(21, 0, stamp=4), *steps(22, 37_500, block=50)], edition=2)


def long_books():
    """Books of more than fifteen rows, and of more than eleven price levels."""
    blocks = [offer(200 + at, 37_500, 70 - at, block=10 * at + 10, stamp=at, step=1) for at in range(4)]
    dear = [offer(300 + at, 40_000 + at, block=1, step=1) for at in range(8)]
    yield "rows-16", book([*STEPS[:2], *tied(90, 80, step=1), *blocks, *dear], edition=2)
    yield "rows-16-with-long-numbers", book([
        BASE, *(offer(2**32 - 1 - at, 37_500, 40 + at, block=30, stamp=2**64 - 1, seller=10**at) for at in range(10)),
        *(offer(99_999_999 + at, 37_500 + at, seller=999_999) for at in range(5))])
    yield "rows-600", book(many(600))
    yield "levels-24-around-x", book([offer(at + 1, 2_000 * at, 700) for at in range(24)])
    yield "levels-13-all-too-dear", book([offer(at + 1, 50_001 + at, 700) for at in range(13)])


def refused_for_form():
    """1 to 3, with every test of 3."""
    yield "refused-1", book([])[:-1]
    yield "refused-1-of-one-byte", b"R"
    yield "refused-1-of-too-many-bytes", bytes(20_993)
    yield "refused-2", damaged(book(FOUR), [(512 + 40, b"\1")])
    yield "refused-3-letters", changed(FOUR, [(1, 0, b"OFFS")])
    yield "refused-3-edition", changed(FOUR, [(0, 4, b"\3")])
    yield "refused-3-block-number", changed(many(16), [(2, 4, b"\1")])
    yield "refused-3-count", changed(FOUR, [(0, 24, b"\20")])
    yield "refused-3-mark", changed(FOUR, [(1, 28 + 3 * 32 + 28, b"\7")])
    yield "refused-3-absent-value", changed(FOUR, [(0, 14, b"\1")], offset=None)
    yield "refused-3-not-zero", changed(FOUR, [(1, 507, b"\1")])


def refused_for_parameters():
    """4 and 5."""
    yield "refused-4", book(FOUR, offset=None)
    yield "refused-4-with-more-missing", book([offer(11, None), offer(12), offer(13, None)], year=2024, cost=None, requirement=None)
    yield "margin-missing-in-2025", book(FOUR, year=2025)
    yield "margin-given-in-2026", book(FOUR, margin=0)
    yield "refused-5-year", book([*FOUR, offer(25, None)], year=1999)
    yield "refused-5-cost-of-zero", book(FOUR, cost=0, offset=0)
    yield "refused-5", book(FOUR, offset=146_001)
    yield "refused-5-requirement", book(FOUR, requirement=999)


def refused_for_rows():
    """6, every value of 7, and 8."""
    yield "no-price-in-row-3", book([offer(11, 0, 100), offer(12, 500, 100), offer(13, 500, 100), offer(41, None, 100)])
    yield "refused-6-in-steps", book(steps(81, 5, None, 3, None), edition=2)
    yield "refused-7-resource", book([*FOUR, offer(0)])
    yield "refused-7-seller", book([*FOUR, offer(25, seller=0)])
    yield "refused-7-price", book([*FOUR, offer(25, 1_000_001)])
    yield "refused-7-quantity", book([*FOUR, offer(25, 100, 200_001)])
    yield "refused-7", book(FOUR[:1] + [offer(25, 100, 40, block=41)])
    yield "refused-7-at-step-11", book(steps(81, *range(11)), edition=2)
    yield "refused-7-every-value", book([offer(0, 1_000_001, 0, block=0, seller=0)], edition=2)
    yield "refused-8", book(FOUR + [offer(22, 0, 5)])
    yield "refused-8-behind-steps", book(STEPS + [offer(81, 50_000, step=1)], edition=2)


def refused_for_steps():
    """Every rule of 10."""
    yield "refused-10-in-row-0", book([offer(81, 0, block=50, step=2)], edition=2)
    yield "refused-10-behind-another-resource", book([*STEPS, offer(81, 50_000, step=3)], edition=2)
    yield "refused-10-as-a-step-is-left-out", book([*STEPS[:3], *STEPS[4:]], edition=2)
    yield "refused-10-as-the-price-falls", book(steps(81, 20_000, 19_999), edition=2)
    yield "refused-10-with-a-block", book([*STEPS, offer(82, 49_000, block=1, step=5)], edition=2)


def books():
    for part in (zeros, ties, long_books, refused_for_form, refused_for_parameters, refused_for_rows, refused_for_steps):
        yield from part()
