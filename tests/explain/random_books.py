"""Random books, the same for every run: small ones with many ties and blocks, in both editions, half of them with a fault.

    random_books(count)    so many books, each with a name
"""
import random

from write_book import blocks, offer, seal

MOST = 2**32 - 1
RESOURCES = [*range(1, 40), *range(99_999_980, 100_000_020), *range(MOST - 40, MOST + 1)]


def parameters(r):
    cost = r.choice((1, 2, 146_000, 1_000_000, r.randint(1, 1_000_000)))
    year = r.choice((2022, 2023, 2025, 2026, 2027, 2031, 2098, 2099))
    given = dict(year=year, cost=cost, offset=r.choice((0, cost, cost // 2, r.randint(0, cost))),
                 outage=r.choice((0, 2_000, 5_000, r.randint(0, 5_000))), requirement=r.choice((1_000, 1_001, 2_000, 10_000)))
    return given | (dict(margin=r.choice((0, 1_500, 5_000, r.randint(0, 5_000)))) if year < 2026 else {})


def price_levels(r, given):
    """A few prices, most of them near those of the curve."""
    first = max(4 * given["cost"], 7 * (given["cost"] - given["offset"])) * 250_000 // (365 * (10_000 - given["outage"]))
    near = [0, first, first + 1, *(r.randint(0, first) for _ in range(6)), r.randint(0, 1_000_000), 1_000_000]
    return r.sample(near, r.randint(1, 4)) if r.random() < 0.8 else [r.randint(0, first + 9) for _ in range(20)]


def resource_rows(r, resource, steps, prices, sizes):
    """The rows of a resource, of which the first may have a minimum block."""
    for step, price in enumerate(sorted(r.choice(prices) for _ in range(steps)), 1):
        quantity = r.choice(sizes)
        yield dict(resource=resource, price=price, quantity=quantity, stamp=r.choice((0, 1, 2, 2, 2**64 - 1)), step=step,
                   block=r.randint(1, quantity) if step == 1 and r.random() < 0.4 else None,
                   seller=r.choice((1, 7, 999_999, 1_000_000, MOST)))


def offers(r, given, edition):
    prices, count = price_levels(r, given), r.choice((0, 1, 2, 4, 6, 9, 12, 15, 16, 24, 31))
    some = max(1, 2 * given["requirement"] // (count + 1))
    sizes = r.choice(([some], [some, some + 1], [r.randint(1, 2 * some) for _ in range(5)], [1, 2, some]))
    numbers = iter(r.sample(RESOURCES, count))
    rows = []
    while len(rows) < count:
        rows += resource_rows(r, next(numbers), r.choice((1, 1, 2, 3, 10)) if edition == 2 else 1, prices, sizes)
    return rows


def without(r, given, rows, edition):
    """Values that are missing."""
    for _ in range(r.choice((0, 0, 1, 2))):
        given[r.choice(("cost", "offset", "outage", "requirement", "margin"))] = None
    for row in r.sample(rows, min(len(rows), r.choice((0, 1, 3)))):
        row["price"] = None


def parameter_out_of_range(r, given, rows, edition):
    name, value = r.choice((("year", 2021), ("year", 2100), ("cost", 0), ("cost", 1_000_001), ("offset", 1_000_001),
                            ("outage", 5_001), ("requirement", 999), ("requirement", 2_000_001), ("margin", 5_001), ("margin", 0)))
    given[name] = value


def row_out_of_range(r, given, rows, edition):
    for row in r.sample(rows, min(len(rows), 2)):
        name, value = r.choice((("resource", 0), ("seller", 0), ("price", 1_000_001), ("price", MOST), ("quantity", 0),
                                ("quantity", 200_001), ("block", 0), ("block", row["quantity"] + 1), ("step", 0), ("step", 11)))
        row[name] = value if edition == 2 or name != "step" else row["step"]


def repeated(r, given, rows, edition):
    if rows:
        rows.insert(r.randint(0, len(rows)), dict(r.choice(rows)))


def broken_steps(r, given, rows, edition):
    late = [row for row in rows if row["step"] > 1]
    if late and edition == 2:
        row = r.choice(late)
        fault = r.choice(("gone", "cheaper", "block", "step", "first"))
        if fault in ("gone", "first"):
            del rows[0 if fault == "first" else rows.index(row) - 1]
        else:
            row |= {"cheaper": dict(price=0), "block": dict(block=1), "step": dict(step=r.randint(1, 10))}[fault]


FAULTS = [without, parameter_out_of_range, row_out_of_range, repeated, broken_steps]
HEAD_BYTES = [*range(8), 11, 24, 25, 26, 26, 26, 27, 31, 32, 33, 507]
OFFER_BYTES = [*range(8), 8, 27, *(28 + 32 * place + at for place in (0, 1, 14) for at in (8, 11, 12, 16, 19, 28, 28, 29, 30, 31))]


def broken(r, made):
    """Bytes of a block that are not what the layout asks, with their right check."""
    for _ in range(r.choice((1, 1, 2))):
        at = r.randrange(len(made))
        made[at][r.choice(OFFER_BYTES if at else HEAD_BYTES)] = r.choice((0, 1, 2, 3, 4, 128, 255))


def one_book(r):
    given, edition = parameters(r), r.choice((1, 2))
    rows, kind = offers(r, given, edition), r.random()
    if 0.4 < kind < 0.75:
        for _ in range(r.choice((1, 1, 2))):
            r.choice(FAULTS)(r, given, rows, edition)
    made = blocks([offer(**row | dict(step=row["step"] if edition == 2 else 0)) for row in rows], edition=edition, **given)
    if 0.75 < kind < 0.9:
        broken(r, made)
    data = bytearray(b"".join(map(seal, made)))
    if 0.9 < kind < 0.95:
        data[r.randrange(len(data))] ^= 1 << r.randrange(8)
    return bytes(data if kind < 0.95 else data[:r.randrange(len(data))] if kind < 0.98 else data + bytes(r.choice((1, 512, 20_992))))


def random_books(count):
    r = random.Random(20_260_601)
    for at in range(count):
        yield f"random book {at}", one_book(r)
