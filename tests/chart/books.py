"""The books whose pictures are looked at, named after what they show."""
import random

from compared import clearings
from write_book import THREE, book, offer, steps


def _region(seed=7):
    """600 offers as a region might have them: many at nothing, most of them cheap, some with blocks, a few very dear."""
    drawn, rows = random.Random(seed), []
    for number in range(1_000, 1_600):
        quantity = min(int(drawn.lognormvariate(7.3, 0.9)) + 1, 13_000)
        price = 0 if drawn.random() < 0.25 else min(int(drawn.lognormvariate(9, 0.9)), 1_000_000)
        block = quantity // 2 + 1 if drawn.random() < 0.3 else None
        rows.append((quantity, offer(number, price, quantity, block, drawn.randrange(10**9))))
    total = sum(quantity for quantity, _ in rows)
    parameters = dict(year=2031, cost=120_000, offset=40_000, outage=650, requirement=total * 94 // 100)
    return book([row for _, row in rows], **parameters)


SHIPPED = clearings()
UNDER = offer(1, 0, 9_000)
BOOKS = {
    "reference": book(THREE),
    "no-offers": SHIPPED["no-offers"],
    "nothing-cleared": book([offer(1, 60_000, 3_000), offer(2, 1_000_000, 200), offer(3, 1_000_000, 200)]),
    "price-0": SHIPPED["11000-at-0-price-is-a-real-zero"],
    "price-0-and-a-block": SHIPPED["block-over-the-cleared-part-at-price-0"],
    "ties": SHIPPED["three-ties-spare-to-the-earliest-stamp"],
    "ties-with-blocks": book([offer(row, 100 * row, 20) for row in range(1, 401)]
                             + [offer(1_000 + row, 49_000 - row // 20, 20, 20 if row % 3 == 0 else None) for row in range(200)]),
    "300-ties": book([offer(row, 200 * (row // 2), 20, stamp=row) for row in range(2, 602)]),
    "600-distinct": SHIPPED["600-offers-of-distinct-prices"],
    "600-tied": SHIPPED["600-offers-tied-with-400-spares"],
    "600-at-their-most": SHIPPED["600-offers-with-every-value-at-its-most"],
    "600-of-a-region": _region(),
    "steps-of-three-resources": book([*steps(5, 10_000, 20_000, 37_500, 45_000, quantity=2_500), *steps(6, 0, 37_500, quantity=900),
                                      *steps(7, 30_000, 37_500, 900_000, quantity=800)], edition=2),
    "600-in-runs-of-ten": SHIPPED["steps-600-in-60-runs-of-ten-of-distinct-prices"],
    "dearer-than-p1": SHIPPED["offers-dearer-than-p1"],
    "dear-ties": book([UNDER, offer(2, 60_000, 600), *(offer(number, 1_000_000, 900) for number in (3, 4, 5))]),
    "far-past-q3": book([UNDER, *(offer(number, 10_000 * number, 200_000, 150_000) for number in (2, 3, 4))]),
    "p1-and-p2-of-a-cent": book([offer(1, 0, 900), offer(2, 1, 300)], cost=3, offset=0, outage=0, requirement=1_000),
    "all-points-at-0": SHIPPED["cost-1-curve-of-0"],
    "p2-of-0": book([UNDER, offer(2, 20_000, 600), offer(3, 20_000, 700, 650), offer(4, 30_000, 800)], offset=146_000),
    "a-tenth": book([offer(1, 40_000, 1)]),
    "largest-requirement": book([offer(row, 100 * row, 4_000 + row, 4_000) for row in range(1, 521)], requirement=2_000_000),
}
