#!/usr/bin/env python3
"""Makes the pairs of books that are compared by tests, with what a comparison says of each.

    tests/make_comparisons.py            writes tests/comparisons/NAME.first.book, NAME.second.book, and NAME.txt
    tests/make_comparisons.py --check    says whether they are what it would write

What is expected stands here beside each pair, worked out by hand from the outline: `applies`, the price and how many offers
are shared; `nothing clears`; `field` and its number; `rows` of the first and of the second book, - for none; `refused`, the
book, the number and the place.
"""
from write_book import TESTS, THREE, book, keep, offer, steps

A, B, C = THREE
OVER = offer(14, 37_501, 500, stamp=4)
GAP = offer(21, 10_000, 10_000)
STEPS = [offer(11, 10_000, 9_900, stamp=1, step=1), offer(12, 37_500, 200, stamp=2, step=1),
         offer(13, 37_500, 100, block=50, stamp=3, step=1)]


def losers():
    yield "the-same-book", book(THREE), book(THREE), "applies 37500 3"
    yield "loser-added-behind", book(THREE), book([*THREE, OVER]), "applies 37500 3"
    yield "loser-added-before-all-rows", book(THREE), book([OVER, *THREE]), "applies 37500 3"
    yield "loser-added-between", book(THREE), book([A, OVER, B, C]), "applies 37500 3"
    yield "loser-taken-out", book([A, offer(14, 1_000_000, 9), B, C]), book(THREE), "applies 37500 3"
    yield "losers-of-another-kind", book([OVER, *THREE]), book([A, offer(14, 40_000, 1, block=1), offer(9, 50_001), B, C]), \
        "applies 37500 3"
    # 10,000 at 10,000 meet the curve at 37,500, and the dearer offer never mattered
    yield "loser-in-a-gap-taken-out", book([GAP, offer(22, 40_000, 500)]), book([GAP]), "applies 37500 1"
    yield "price-of-zero", book([offer(21, 0, 11_000)]), book([offer(22, 1), offer(21, 0, 11_000)]), "applies 0 1"
    ladder = [offer(row + 1, 100 * row, 20) for row in range(600)]
    yield "600-offers-and-their-496-at-or-below-49500", book(ladder), book(ladder[:496]), "applies 49500 496"


def offers():
    # at the price, not below it: here the total or the price or a share moves
    yield "offer-at-the-price-altered", book(THREE), book([A, offer(12, 37_500, 150, stamp=2), C]), "rows 1 1"
    yield "offer-at-the-price-added", book(THREE), book([*THREE, offer(14, 37_500, 100)]), "rows - 3"
    yield "offer-at-the-price-taken-out", book(THREE), book([A, B]), "rows 2 -"
    # all of the first book's offers stand in the second, which has one more that is not above the price
    yield "offer-under-the-price-of-a-gap-added", book([GAP]), book([GAP, offer(22, 37_450, 500)]), "rows - 1"
    yield "offer-below-the-price-added-before-all-rows", book(THREE), book([offer(14, 5, 1), *THREE]), "rows 0 0"
    yield "same-offers-in-another-order", book(THREE), book([A, C, B]), "rows 1 1"
    yield "seller-differs", book(THREE), book([offer(11, 10_000, 9_900, stamp=1, seller=8), B, C]), "rows 0 0"
    yield "stamp-differs", book(THREE), book([A, B, offer(13, 37_500, 100, block=50, stamp=4)]), "rows 2 2"
    yield "block-missing", book(THREE), book([A, B, offer(13, 37_500, 100, stamp=3)]), "rows 2 2"
    yield "resource-differs-behind-a-loser", book([OVER, *THREE]), book([A, B, offer(15, 37_500, 100, block=50, stamp=3)]), \
        "rows 3 2"
    yield "first-without-offers-at-the-price", book([A]), book([offer(15, 10_000, 9_900, stamp=1)]), "rows 0 0"


def others():
    yield "year-differs", book(THREE), book(THREE, year=2027), "field 1"
    yield "cost-differs", book(THREE), book(THREE, cost=146_001), "field 2"
    yield "two-fields-differ-the-lowest-first", book(THREE), book(THREE, offset=73_001, requirement=10_001), "field 3"
    yield "outage-differs", book(THREE), book([OVER], outage=0), "field 4"
    yield "requirement-differs", book(THREE), book(THREE, requirement=10_001), "field 5"
    yield "nothing-clears-in-the-first", book([offer(21, 50_001)]), book(THREE), "nothing clears"
    yield "nothing-clears-before-a-field-differs", book([]), book(THREE, year=2027), "nothing clears"
    yield "nothing-clears-in-the-second", book([offer(21, 50_000)]), book([offer(21, 50_001)]), "rows 0 -"
    yield "first-refused", book(THREE, cost=None), book(THREE), "refused 1 4 2"
    yield "second-refused", book(THREE), book([A, offer(12, None), C]), "refused 2 6 1"
    yield "both-refused-the-first-is-told", book(THREE)[1:], b"", "refused 1 1 0"
    yield "second-refused-where-nothing-clears", book([]), book([A, A]), "refused 2 8 1"


def editions():
    """The edition is no parameter, and a step is an offer."""
    step, dearer = offer(13, 37_500, 10, stamp=9, step=2), offer(13, 37_501, 10, stamp=9, step=2)
    yield "editions-1-and-2-of-the-same-offers", book(THREE), book(STEPS, edition=2), "applies 37500 3"
    yield "step-above-the-price-added", book(THREE), book([*STEPS, dearer], edition=2), "applies 37500 3"
    yield "step-above-the-price-taken-out", book([*STEPS, dearer], edition=2), book(STEPS, edition=2), "applies 37500 3"
    yield "step-at-the-price-added", book(STEPS, edition=2), book([*STEPS, step], edition=2), "rows - 3"
    yield "step-at-the-price-of-another-resource", book([*STEPS, step], edition=2), \
        book([*STEPS, offer(14, 37_500, 10, stamp=9, step=1)], edition=2), "rows 3 3"
    again = [*STEPS[:2], offer(12, 37_500, step=2), STEPS[1]]
    yield "second-refused-for-a-repeated-step-1", book(THREE), book(again, edition=2), "refused 2 8 3"
    yield "second-refused-for-a-broken-step", book(THREE), book([*STEPS, *steps(14, 1, 2)[1:]], edition=2), "refused 2 10 3"


def pairs(home, cases):
    """The two books of each pair, with what is expected of them beside them."""
    made = {}
    for name, (first, second), said in cases:
        made |= {home / f"{name}.first.book": first, home / f"{name}.second.book": second, home / f"{name}.txt": said.encode()}
    return made


if __name__ == "__main__":
    parts = losers, offers, others, editions
    found = [(name, (first, second), f"{said}\n") for part in parts for name, first, second, said in part()]
    keep(pairs, TESTS / "comparisons", found)
