#!/usr/bin/env python3
"""Makes the books that the program `verdicts` is run on, with what is expected of each.

    tests/make_books.py            writes crates/verdicts/data/*.book, crates/verdicts/args and crates/verdicts/stdout
    tests/make_books.py --check    says whether they are what it would write

What is expected stands beside each book, worked out by hand from the outline: the fault when clearing, the fault of soundness
where that differs, and how many rows the reader hands back.
"""
from form_books import checks, head_layouts, lengths, row_layouts
from step_books import step_books
from write_book import TESTS, THREE, book, keep, many, offer, program_files


def passes(name, data, rows_read):
    return name, data, None, None, rows_read


def fails(name, data, number, where, rows_read, sound=False):
    fault = (number, where)
    return name, data, fault, None if sound else fault, rows_read


def accepted():
    yield passes("reference", book(THREE), 3)
    yield passes("no-offers-length-512", book([]), 0)
    yield passes("offers-15-fill-one-block", book(many(15)), 15)
    yield passes("offers-16-need-two-blocks", book(many(16)), 16)
    yield passes("offers-600-length-20992", book(many(600)), 600)
    yield passes("price-zero-is-a-price", book([offer(1, price=0)]), 1)
    yield passes("stamp-zero-is-a-stamp", book([offer(1, stamp=0)]), 1)
    yield passes("stamps-fall-and-repeat", book([offer(1, stamp=9), offer(2, stamp=3), offer(3, stamp=3)]), 3)
    yield passes("stamp-largest", book([offer(1, stamp=2**64 - 1)]), 1)
    yield passes("values-at-their-least", book([offer(1, 0, 1, 1, 0, 1)], cost=1, offset=0, outage=0, requirement=1_000), 1)
    yield passes("values-at-their-most",
                 book([offer(2**32 - 1, 1_000_000, 200_000, 200_000, 2**64 - 1, 2**32 - 1)], year=2099, cost=1_000_000,
                      offset=1_000_000, outage=5_000, requirement=2_000_000), 1)


def margins():
    """The years 2022 to 2025 need a margin of 0 to 5,000, and others have none: 0 is a margin too."""
    for year in (2022, 2025):
        yield passes(f"margin-0-in-{year}", book(THREE, year=year, margin=0), 3)
        yield passes(f"margin-5000-in-{year}", book(THREE, year=year, margin=5_000), 3)
        yield fails(f"margin-missing-in-{year}", book(THREE, year=year), 4, 6, 3, sound=True)
        yield fails(f"margin-5001-in-{year}", book(THREE, year=year, margin=5_001), 5, 6, 3)
    yield fails("margin-of-all-ones-in-2024", book([], year=2024, margin=2**32 - 1), 5, 6, 0)
    yield fails("margin-0-in-2026", book(THREE, margin=0), 5, 6, 3)
    yield fails("margin-1500-in-2099", book([], year=2099, margin=1_500), 5, 6, 0)
    yield fails("margin-1500-in-2021-is-the-year", book([], year=2021, margin=1_500), 5, 1, 0)
    yield fails("margin-missing-in-2021-is-the-year", book([], year=2021), 5, 1, 0)
    yield ("margin-missing-before-a-range", book([], year=2024, requirement=999), (4, 6), (5, 5), 0)
    yield fails("margin-missing-after-a-missing-requirement", book([], year=2024, requirement=None), 4, 5, 0, sound=True)
    yield fails("margin-alone-given-in-2024",
                book([], year=2024, cost=None, offset=None, outage=None, requirement=None, margin=1_500), 4, 2, 0, sound=True)
    yield ("margin-in-2026-after-a-missing-cost", book([], cost=None, margin=1_500), (4, 2), (5, 6), 0)
    yield fails("margin-after-a-requirement-out-of-range", book([], year=2024, requirement=999, margin=5_001), 5, 5, 0)
    yield fails("margin-before-any-row", book([offer(0)], year=2024, margin=5_001), 5, 6, 1)


def form():
    for part in (lengths, checks, head_layouts, row_layouts):
        for name, data, number, where in part():
            yield fails(name, data, number, where, 0)


def missing_parameters():
    """Missing parameters are no fault of soundness."""
    for field, name in enumerate(["cost", "offset", "outage", "requirement"], 2):
        yield fails(f"missing-{name}", book(THREE, **{name: None}), 4, field, 3, sound=True)
    yield fails("missing-all-four-lowest-first", book([], cost=None, offset=None, outage=None, requirement=None), 4, 2, 0,
                sound=True)
    yield fails("missing-offset-and-requirement", book([], offset=None, requirement=None), 4, 3, 0, sound=True)
    yield ("missing-cost-before-year-1999", book([], year=1999, cost=None), (4, 2), (5, 1), 0)
    yield fails("missing-cost-offset-1000000-is-sound", book([], cost=None, offset=1_000_000), 4, 2, 0, sound=True)
    yield ("missing-cost-offset-1000001", book([], cost=None, offset=1_000_001), (4, 2), (5, 3), 0)
    yield fails("missing-requirement-before-a-missing-price", book([offer(1, price=None)], requirement=None), 4, 5, 1,
                sound=True)


def parameter_ranges():
    yield fails("year-2021", book([], year=2021), 5, 1, 0)
    yield fails("year-2100", book([], year=2100), 5, 1, 0)
    yield fails("cost-0", book([], cost=0, offset=0), 5, 2, 0)
    yield fails("cost-1000001", book([], cost=1_000_001), 5, 2, 0)
    yield fails("offset-over-cost-by-one", book([], offset=146_001), 5, 3, 0)
    yield fails("outage-5001", book([], outage=5_001), 5, 4, 0)
    yield fails("requirement-999", book([], requirement=999), 5, 5, 0)
    yield fails("requirement-2000001", book([], requirement=2_000_001), 5, 5, 0)
    yield fails("year-before-cost", book([], year=2100, cost=0), 5, 1, 0)
    yield fails("outage-before-requirement", book([], outage=9_999, requirement=0), 5, 4, 0)
    yield fails("requirement-before-any-row", book([offer(0)], requirement=999), 5, 5, 1)


def missing_prices():
    yield fails("no-price-in-row-0", book([offer(1, price=None)]), 6, 0, 1, sound=True)
    yield fails("no-price-in-row-16-of-block-2", book(many(16) + [offer(99, price=None)]), 6, 16, 17, sound=True)
    yield ("no-price-and-a-repeat-in-one-row", book([offer(5), offer(5, price=None)]), (6, 1), (8, 1), 2)
    yield ("no-price-before-out-of-range-in-one-row", book([offer(1, price=None, quantity=0)]), (6, 0), (7, 0), 1)


def offer_ranges():
    yield fails("resource-0", book([offer(0)]), 7, 0, 1)
    yield fails("seller-0", book([offer(1, seller=0)]), 7, 0, 1)
    yield fails("price-1000001", book([offer(1, price=1_000_001)]), 7, 0, 1)
    yield fails("quantity-0", book([offer(1, quantity=0)]), 7, 0, 1)
    yield fails("quantity-200001", book([offer(1, quantity=200_001)]), 7, 0, 1)
    yield fails("block-given-as-0", book([offer(1, block=0)]), 7, 0, 1)
    yield fails("block-over-quantity-by-one", book([offer(1, quantity=100, block=101)]), 7, 0, 1)
    yield fails("out-of-range-before-a-repeat-in-one-row", book([offer(5), offer(5, quantity=0)]), 7, 1, 2)
    yield fails("first-faulty-row-ends-the-search", book([offer(1), offer(2, quantity=0), offer(3, price=None)]), 7, 1, 3)


def repeats():
    yield fails("repeat-in-row-1", book([offer(5), offer(5)]), 8, 1, 2)
    yield fails("repeat-resources-1-2-2-1", book([offer(1), offer(2), offer(2), offer(1)]), 8, 2, 4)
    yield fails("repeat-across-blocks", book(many(15) + [offer(1)]), 8, 15, 16)
    yield fails("repeat-in-the-last-of-600", book(many(599) + [offer(1)]), 8, 599, 600)
    yield fails("repeat-before-a-later-missing-price", book([offer(5), offer(5), offer(6, price=None)]), 8, 1, 3)
    yield ("missing-price-before-a-later-repeat", book([offer(5, price=None), offer(5)]), (6, 0), (8, 1), 2)


def words(fault, passed, refused):
    return passed if fault is None else f"{refused} {fault[0]} {fault[1]}"


def cases():
    """Each book's name, its bytes, and its line."""
    for part in (accepted, margins, form, missing_parameters, parameter_ranges, missing_prices, offer_ranges, repeats,
                 step_books):
        for name, data, clearing, sound, rows_read in part():
            verdict, soundness = words(clearing, "accepted", "refused"), words(sound, "sound", "unsound")
            yield name, data, f"{name}.book: {verdict}, {soundness}, rows {rows_read}\n"


if __name__ == "__main__":
    keep(program_files, TESTS.parent / "crates" / "verdicts", cases())
