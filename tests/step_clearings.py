"""Books of edition 2 that the program `clear` is run on: each one's name, its bytes, and the lines that are expected of it,
worked out by hand as in make_clearings.py. At 10,000 tenths the reference curve asks 37,500 cents."""
from write_book import THREE, book, offer, steps

PAID = "daily 375000000 / year 136875000000"
UNDER = offer(11, 10_000, 9_900, step=1)


def each(lines):
    return " / ".join(lines)


def sold_cases():
    three = [offer(11, 10_000, 9_900, stamp=1, step=1), offer(12, 37_500, 200, stamp=2, step=1),
             offer(13, 37_500, 100, block=50, stamp=3, step=1)]
    yield "edition-2-of-the-printed-example", book(three, edition=2), \
        "cleared 10000 / price 37500 / 11 9900 9900 0 / 12 67 67 0 / 13 33 50 637500 / daily 375637500 / year 137107687500"
    yield "edition-2-no-offers", book([], edition=2), "cleared 0 / price - / daily 0 / year 0"
    ladder = [offer(11, 10_000, 9_000, step=1), offer(11, 20_000, 900, step=2), offer(11, 37_500, 300, step=3),
              offer(11, 40_000, 50, step=4)]
    yield "steps-whole-then-one-in-part-then-none", book(ladder, edition=2), \
        f"cleared 10000 / price 37500 / 11 9000 9000 0 / 11 900 900 0 / 11 100 100 0 / 11 0 0 0 / {PAID}"
    block = [UNDER, offer(12, 37_500, 100, block=50, step=1), offer(12, 37_500, 200, step=2)]
    yield "steps-block-on-step-1-is-made-whole", book(block, edition=2), \
        "cleared 10000 / price 37500 / 11 9900 9900 0 / 12 33 50 637500 / 12 67 67 0 / daily 375637500 / year 137107687500"


def tie_cases():
    """Ties at 37,500, of which 10,000 tenths less what is offered below are bought."""
    yield "steps-tied-spare-to-the-lower-step", book([UNDER, *steps(12, *[37_500] * 3)], edition=2), \
        f"cleared 10000 / price 37500 / 11 9900 9900 0 / 12 34 34 0 / 12 33 33 0 / 12 33 33 0 / {PAID}"
    stamps = [offer(12, 37_500, stamp=stamp, step=at + 1) for at, stamp in enumerate((5, 3, 4))]
    yield "steps-tied-earlier-stamp-before-lower-step", book([UNDER, *stamps], edition=2), \
        f"cleared 10000 / price 37500 / 11 9900 9900 0 / 12 33 33 0 / 12 34 34 0 / 12 33 33 0 / {PAID}"
    # 101 tenths among three offers of 100: 33 each, and two spare tenths
    less = offer(11, 10_000, 9_899, step=1)
    yield "steps-tied-lower-resource-before-lower-step", \
        book([less, *steps(13, 37_500), *steps(12, 37_500, 37_500)], edition=2), \
        f"cleared 10000 / price 37500 / 11 9899 9899 0 / 13 33 33 0 / 12 34 34 0 / 12 34 34 0 / {PAID}"
    yield "steps-tied-larger-remainder-before-lower-step", \
        book([UNDER, offer(12, 37_500, 100, step=1), offer(12, 37_500, 200, step=2)], edition=2), \
        f"cleared 10000 / price 37500 / 11 9900 9900 0 / 12 33 33 0 / 12 67 67 0 / {PAID}"


def large_cases():
    # as 600-offers-of-distinct-prices
    ladder = [offer(row // 10 + 1, 100 * row, 20, step=row % 10 + 1) for row in range(600)]
    amounts = [20] * 495 + [4] + [0] * 104
    lines = each(f"{row // 10 + 1} {amount} {amount} 0" for row, amount in enumerate(amounts))
    yield "steps-600-in-60-runs-of-ten-of-distinct-prices", book(ladder, edition=2), \
        f"cleared 9904 / price 49500 / {lines} / daily 490248000 / year 178940520000"
    # 9,995 tenths among 599 offers of 20: 16 each, and 411 spare tenths: to the nine other steps of resource 1, to all steps of
    # the resources 2 to 41, and to the steps 1 and 2 of resource 42
    ties = [offer(row // 10 + 1, 37_500, 20, step=row % 10 + 1) for row in range(1, 600)]
    lines = each(f"{row // 10 + 1} {amount} {amount} 0" for row, amount in enumerate([5] + [17] * 411 + [16] * 188))
    yield "steps-600-in-60-runs-of-ten-tied", book([offer(1, 0, 5, step=1), *ties], edition=2), \
        f"cleared 10000 / price 37500 / {lines} / {PAID}"


def refused_cases():
    for name, rows, said in [
        ("step-2-without-step-1", [UNDER, offer(12, 37_500, step=2)], "refused 10 1"),
        ("step-price-falls", steps(12, 20, 19), "refused 10 1"),
        ("step-block-past-step-1", [UNDER, offer(11, 37_500, block=1, step=2)], "refused 10 1"),
        ("step-price-missing-between", steps(12, 5, None, 3), "refused 6 1"),
        ("step-1-repeats-an-earlier-run", [*steps(12, 1, 2), *steps(13, 1), *steps(12, 3)], "refused 8 3"),
        ("step-0-in-edition-2", THREE, "refused 7 0"),
        ("step-11", steps(12, *range(11)), "refused 7 10"),
    ]:
        yield name, book(rows, edition=2), said
    yield "step-in-edition-1", book([UNDER]), "refused 3 1"
    yield "edition-3", book([UNDER], edition=3), "refused 3 0"


def step_cases():
    for part in (sold_cases, tie_cases, large_cases, refused_cases):
        yield from part()
