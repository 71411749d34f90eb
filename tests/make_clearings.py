#!/usr/bin/env python3
"""Makes the books that the program `clear` is run on by tests/programs, with what it prints for each.

    tests/make_clearings.py            writes tests/clearings/*.book, and *.txt with what is expected of each
    tests/make_clearings.py --check    says whether they are what it would write

The lines that are expected stand here beside each book, worked out by hand from the outline; ` / ` parts one from the next.

The reference curve falls by 125 cents a tenth from 50,000 at 9,900 to 18,750 at 10,150, then by 62.5 to 0 at 10,450.
"""
from margin_clearings import margin_cases
from step_clearings import step_cases
from write_book import TESTS, THREE, book, files_beside, keep, many, offer, one

NINE_THOUSAND = "cleared 9000 / price 50000 / 21 9000 9000 0 / daily 450000000"
NOTHING = "price - / 21 0 0 0 / daily 0 / year 0"
UNDER = offer(11, 10_000, 9_900)
LARGEST = 2**32 - 1


def each(lines):
    """Lines of rows that differ in a number."""
    return " / ".join(lines)


def reference_cases():
    yield "reference-printed-example", book(THREE), \
        "cleared 10000 / price 37500 / 11 9900 9900 0 / 12 67 67 0 / 13 33 50 637500 / daily 375637500 / year 137107687500"
    yield "no-offers", book([]), "cleared 0 / price - / daily 0 / year 0"
    yield "9000-at-0-all-clears", book(one(9_000)), f"{NINE_THOUSAND} / year 164250000000"
    yield "11000-at-0-price-is-a-real-zero", book(one(11_000)), \
        "cleared 10450 / price 0 / 21 10450 10450 0 / daily 0 / year 0"
    yield "100-at-50000-clears", book(one(100, 50_000)), \
        "cleared 100 / price 50000 / 21 100 100 0 / daily 5000000 / year 1825000000"
    yield "100-at-50001-clears-nothing", book(one(100, 50_001)), f"cleared 0 / {NOTHING}"
    yield "gap-price-of-the-curve", book([offer(21, 10_000, 10_000), offer(22, 40_000, 500)]), \
        "cleared 10000 / price 37500 / 21 10000 10000 0 / 22 0 0 0 / daily 375000000 / year 136875000000"
    yield "gap-price-of-the-next-offer", book([offer(21, 10_000, 10_000), offer(22, 37_450, 500)]), \
        "cleared 10000 / price 37450 / 21 10000 10000 0 / 22 0 0 0 / daily 374500000 / year 136692500000"
    ties = [offer(12, 37_500, stamp=5), offer(13, 37_500, stamp=3), offer(14, 37_500, stamp=4)]
    yield "three-ties-spare-to-the-earliest-stamp", book([UNDER] + ties), \
        "cleared 10000 / price 37500 / 11 9900 9900 0 / 12 33 33 0 / 13 34 34 0 / 14 33 33 0 / daily 375000000 / year 136875000000"
    yield "601-offers", book(many(601)), "refused 1 0"


def curve_cases():
    yield "curve-at-9900", book(one(9_900)), \
        "cleared 9900 / price 50000 / 21 9900 9900 0 / daily 495000000 / year 180675000000"
    yield "curve-at-10000", book(one(10_000)), \
        "cleared 10000 / price 37500 / 21 10000 10000 0 / daily 375000000 / year 136875000000"
    yield "curve-at-10151-rounds-down", book(one(10_151)), \
        "cleared 10151 / price 18687 / 21 10151 10151 0 / daily 189691737 / year 69237484005"
    yield "curve-at-10450", book(one(10_450)), "cleared 10450 / price 0 / 21 10450 10450 0 / daily 0 / year 0"
    yield "offset-0-p1-87500", book(one(9_000), offset=0), \
        "cleared 9000 / price 87500 / 21 9000 9000 0 / daily 787500000 / year 287437500000"
    yield "offset-0-p2-37500", book(one(10_150), offset=0), \
        "cleared 10150 / price 37500 / 21 10150 10150 0 / daily 380625000 / year 138928125000"
    yield "offset-146000-p1-50000", book(one(9_000), offset=146_000), f"{NINE_THOUSAND} / year 164250000000"
    yield "offset-146000-halfway-to-p2", book(one(10_025), offset=146_000), \
        "cleared 10025 / price 25000 / 21 10025 10025 0 / daily 250625000 / year 91478125000"
    yield "offset-146000-p2-0", book(one(10_150), offset=146_000), \
        "cleared 10150 / price 0 / 21 10150 10150 0 / daily 0 / year 0"
    yield "offset-146001", book(one(9_000), offset=146_001), "refused 5 3"
    yield "requirement-999", book(one(9_000), requirement=999), "refused 5 5"
    yield "requirement-1000-q1-990", book(one(990), requirement=1_000), \
        "cleared 990 / price 50000 / 21 990 990 0 / daily 49500000 / year 18067500000"
    yield "requirement-1000-q2-1015", book(one(1_015), requirement=1_000), \
        "cleared 1015 / price 18750 / 21 1015 1015 0 / daily 19031250 / year 6946406250"
    yield "requirement-1000-q3-1045", book(one(11_000), requirement=1_000), \
        "cleared 1045 / price 0 / 21 1045 1045 0 / daily 0 / year 0"
    low = dict(cost=1, offset=0, outage=0, requirement=1_000)
    yield "cost-1-curve-of-0", book([offer(21, 0, 2_000), offer(22, 1, 100)], **low), \
        "cleared 1045 / price 0 / 21 1045 1045 0 / 22 0 0 0 / daily 0 / year 0"
    yield "cost-1-outage-5000-curve-of-1", book(one(500, 1), **{**low, "outage": 5_000}), \
        "cleared 500 / price 1 / 21 500 500 0 / daily 500 / year 182500"
    yield "offers-dearer-than-p1", book([offer(21, 60_000, 1_000), offer(22, 0, 9_000), offer(23, 1_000_000, 500)]), \
        "cleared 9000 / price 50000 / 21 0 0 0 / 22 9000 9000 0 / 23 0 0 0 / daily 450000000 / year 164250000000"


def tie_cases():
    """Ties at 37,500, of which 10,000 tenths less what is offered below are bought."""
    paid = "daily 375000000 / year 136875000000"
    yield "tie-stamps-equal-spare-to-the-lower-resource", \
        book([UNDER, offer(14, 37_500, stamp=3), offer(13, 37_500, stamp=3), offer(12, 37_500, stamp=4)]), \
        f"cleared 10000 / price 37500 / 11 9900 9900 0 / 14 33 33 0 / 13 34 34 0 / 12 33 33 0 / {paid}"
    yield "tie-two-spares-by-stamp-then-by-resource", \
        book([offer(11, 10_000, 9_899), offer(14, 37_500, stamp=9), offer(13, 37_500, stamp=9), offer(15, 37_500, stamp=2)]), \
        f"cleared 10000 / price 37500 / 11 9899 9899 0 / 14 33 33 0 / 13 34 34 0 / 15 34 34 0 / {paid}"
    yield "tie-stamps-of-64-bits", \
        book([UNDER, offer(12, 37_500, stamp=2**32), offer(13, 37_500, stamp=2**32 - 1), offer(14, 37_500, stamp=2**63)]), \
        f"cleared 10000 / price 37500 / 11 9900 9900 0 / 12 33 33 0 / 13 34 34 0 / 14 33 33 0 / {paid}"
    yield "tie-larger-remainder-before-earlier-stamp", \
        book([UNDER, offer(12, 37_500, 200, stamp=9), offer(13, 37_500, 100, stamp=1)]), \
        f"cleared 10000 / price 37500 / 11 9900 9900 0 / 12 67 67 0 / 13 33 33 0 / {paid}"
    yield "tie-larger-remainder-of-the-smaller-offer", \
        book([UNDER, offer(12, 37_500, 250, stamp=1), offer(13, 37_500, 50, stamp=9)]), \
        f"cleared 10000 / price 37500 / 11 9900 9900 0 / 12 83 83 0 / 13 17 17 0 / {paid}"


def block_cases():
    yield "block-wholly-cleared", book(one(9_000, block=9_000)), f"{NINE_THOUSAND} / year 164250000000"
    yield "block-under-and-block-over-the-cleared-part", \
        book([UNDER, offer(12, 37_500, 200, block=60), offer(13, 37_500, 100, block=100)]), \
        "cleared 10000 / price 37500 / 11 9900 9900 0 / 12 67 67 0 / 13 33 100 2512500 / daily 377512500 / year 137792062500"
    yield "block-of-an-offer-that-clears-0", book([offer(21, 10_000, 10_000), offer(22, 37_450, 500, block=500)]), \
        "cleared 10000 / price 37450 / 21 10000 10000 0 / 22 0 0 0 / daily 374500000 / year 136692500000"
    yield "block-of-a-tie-whose-share-came-to-0", \
        book([offer(11, 10_000, 9_999), offer(12, 37_500, 1, block=1), offer(13, 37_500, 100, block=100)]), \
        "cleared 10000 / price 37500 / 11 9999 9999 0 / 12 0 0 0 / 13 1 100 3712500 / daily 378712500 / year 138230062500"
    yield "block-over-the-cleared-part-at-price-0", book(one(11_000, block=11_000)), \
        "cleared 10450 / price 0 / 21 10450 11000 0 / daily 0 / year 0"
    yield "block-where-nothing-clears", book(one(100, 50_001, block=100)), f"cleared 0 / {NOTHING}"


def year_cases():
    """The delivery year that starts in 2027 has the 29 February of 2028; 2100 has none."""
    for year, days in (2026, 365), (2027, 366), (2028, 365), (2099, 365):
        yield f"year-{year}-of-{days}-days", book(one(9_000), year=year), f"{NINE_THOUSAND} / year {days * 450_000_000}"
    yield "year-2027-where-nothing-clears", book(one(100, 50_001), year=2027), f"cleared 0 / {NOTHING}"


def large_cases():
    # at 9,904 the curve has 49,500, and 496 rows offer 9,920
    ladder = [offer(row + 1, 100 * row, 20) for row in range(600)]
    whole, none = (f"{row + 1} 20 20 0" for row in range(495)), (f"{row + 1} 0 0 0" for row in range(496, 600))
    yield "600-offers-of-distinct-prices", book(ladder), \
        f"cleared 9904 / price 49500 / {each(whole)} / 496 4 4 0 / {each(none)} / daily 490248000 / year 178940520000"
    # 10,000 tenths among 600 equal offers: 16 each, and 400 spare tenths to the last 400 rows, whose stamps are the earliest
    ties = [offer(row + 1, 37_500, 20, stamp=600 - row) for row in range(600)]
    late, early = (f"{row + 1} 16 16 0" for row in range(200)), (f"{row + 1} 17 17 0" for row in range(200, 600))
    yield "600-offers-tied-with-400-spares", book(ties), \
        f"cleared 10000 / price 37500 / {each(late)} / {each(early)} / daily 375000000 / year 136875000000"
    # Q1 is 1,980,000: 3,300 for each, and 196,700 that its block commits besides
    full = [offer(LARGEST - row, 958_904, 200_000, block=200_000, stamp=2**64 - 1) for row in range(600)]
    rows = (f"{LARGEST - row} 3300 200000 188616416800" for row in range(600))
    yield "600-offers-with-every-value-at-its-most", \
        book(full, year=2099, cost=1_000_000, offset=0, outage=5_000, requirement=2_000_000), \
        f"cleared 1980000 / price 958904 / {each(rows)} / daily 115068480000000 / year 41999995200000000"


def refused_cases():
    yield "length-0", b"", "refused 1 0"
    yield "length-70000-is-longer-than-the-program-reads", bytes(70_000), "refused 1 0"
    yield "missing-offset", book(THREE, offset=None), "refused 4 3"
    yield "missing-price-in-row-1", book([UNDER, offer(12, None, 200), offer(13, 37_500, 100)]), "refused 6 1"


def cases():
    """Each book's name, its bytes, and what is printed of it."""
    for part in (reference_cases, curve_cases, margin_cases, tie_cases, block_cases, year_cases, large_cases, refused_cases,
                 step_cases):
        for name, data, lines in part():
            yield name, data, f"{lines}\n".replace(" / ", "\n")


if __name__ == "__main__":
    keep(files_beside, TESTS / "clearings", cases())
