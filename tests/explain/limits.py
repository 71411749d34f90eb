"""Refusals 4 to 8 and 10, of what a book says, from the outline and apart from the library.

    by_margin(year)                  whether the year's curve goes by the reserve margin
    parameters_fault(year, values)   the refusal by 4 and 5, or None
    rows_fault(edition, offers)      the refusal by 6, 7, 8 and 10, or None
    wrong_values(edition, o)         the values of an offer that are out of range
    broken_rule(before, o)           the rule of steps that an offer breaks behind the one before it, or None
"""


def by_margin(year):
    return 2022 <= year <= 2025


def parameters_fault(year, values):
    for field, value in enumerate(values if by_margin(year) else values[:4], 2):
        if value is None:
            return 4, field
    c, e, f, r, margin = values
    tests = [2022 <= year <= 2099, 1 <= c <= 1000000, e <= c, f <= 5000, 1000 <= r <= 2000000,
             margin is None or by_margin(year) and margin <= 5000]
    return None if all(tests) else (5, 1 + tests.index(False))


def wrong_values(edition, o):
    tests = dict(resource=o.resource >= 1, seller=o.seller >= 1, price=o.price is None or o.price <= 1000000,
                 quantity=1 <= o.quantity <= 200000, block=o.block is None or 1 <= o.block <= o.quantity,
                 step=1 <= o.step <= 10 if edition == 2 else o.step == 1)
    return {name for name, holds in tests.items() if not holds}


def broken_rule(before, o):
    if before is None:
        return "there is no row before it to be the step before"
    if before.resource != o.resource:
        return "the row before is of another resource"
    if before.step + 1 != o.step:
        return "the row before is not the step before"
    if None not in (before.price, o.price) and o.price < before.price:
        return "the price is under that of the row before"
    return None if o.block is None else "only step 1 may have a minimum block"


def rows_fault(edition, offers):
    seen, before = set(), None
    for o in offers:
        if o.price is None:
            return 6, o.row
        if wrong_values(edition, o):
            return 7, o.row
        if o.step == 1 and o.resource in seen:
            return 8, o.row
        if o.step > 1 and broken_rule(before, o):
            return 10, o.row
        seen.add(o.resource)
        before = o
    return None
