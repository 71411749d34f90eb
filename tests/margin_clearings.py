"""Books of the delivery years 2022 to 2025 that the program `clear` is run on: each one's name, its bytes, and the lines that are
expected of it, worked out by hand as in make_clearings.py."""
from write_book import book, one


def margin_cases():
    """The curve of 2022 to 2025. With 15 percent its quantities are 9,896, 10,165 and 10,678, by 11,380, 11,690 and 12,280 over
    11,500: at 10,000 the first line has (50,000 x 165 + 18,750 x 104) / 269, or 37,918 and a fraction."""
    of_15 = dict(year=2024, margin=1_500)
    yield "margin-1500-in-2024-q1-9896", book(one(9_896), **of_15), \
        "cleared 9896 / price 50000 / 21 9896 9896 0 / daily 494800000 / year 180602000000"
    yield "margin-1500-in-2024-curve-at-10000", book(one(10_000), **of_15), \
        "cleared 10000 / price 37918 / 21 10000 10000 0 / daily 379180000 / year 138400700000"
    yield "margin-1500-in-2024-q2-10165", book(one(10_165), **of_15), \
        "cleared 10165 / price 18750 / 21 10165 10165 0 / daily 190593750 / year 69566718750"
    yield "margin-1500-in-2024-q3-10678", book(one(11_000), **of_15), \
        "cleared 10678 / price 0 / 21 10678 10678 0 / daily 0 / year 0"
    yield "margin-0-in-2022-offset-0-p1-75000", book(one(9_000), year=2022, margin=0, offset=0), \
        "cleared 9000 / price 75000 / 21 9000 9000 0 / daily 675000000 / year 246375000000"
    yield "margin-0-in-2023-of-366-days", book(one(9_000), year=2023, margin=0), \
        "cleared 9000 / price 50000 / 21 9000 9000 0 / daily 450000000 / year 164700000000"
    # 1,125 x 9,880 / 10,000 is 1,111.5
    yield "margin-0-in-2025-q1-of-a-half-goes-up", book(one(1_112), year=2025, margin=0, requirement=1_125), \
        "cleared 1112 / price 50000 / 21 1112 1112 0 / daily 55600000 / year 20294000000"
    yield "margin-5000-in-2025-q3-10520", book(one(11_000), year=2025, margin=5_000), \
        "cleared 10520 / price 0 / 21 10520 10520 0 / daily 0 / year 0"
    yield "margin-5001-in-2025", book(one(9_000), year=2025, margin=5_001), "refused 5 6"
    yield "margin-missing-in-2025-is-not-zero", book(one(9_000), year=2025), "refused 4 6"
    yield "margin-0-in-2026-is-a-margin", book(one(9_000), margin=0), "refused 5 6"
    yield "year-2021", book(one(9_000), year=2021, margin=1_500), "refused 5 1"
