"""What several parts of the page say: amounts, and a row's offer."""


def parts(n, places):
    return f"{n // 10 ** places:,}.{n % 10 ** places:0{places}d}"


def tenths(n):
    return parts(n, 1)


def megawatts(n):
    return f"{tenths(n)} MW"


def price(cents):
    return parts(cents, 2)


def percent(hundredths):
    return f"{parts(hundredths, 2)} percent"


def dollars(mills):
    return parts(mills, 3)


def named(edition, o):
    """The offer of a row by its resource, and in edition 2 by its step."""
    return f"step {o.step} of resource {o.resource}" if edition == 2 else f"resource {o.resource}"


def offer_lines(edition, o):
    at = ", no price entered" if o.price is None else " at zero, a price" if o.price == 0 else f" at {price(o.price)}"
    block = "flexible" if o.block is None else f"minimum block {megawatts(o.block)}"
    yield f"row {o.row}, {named(edition, o)}: {megawatts(o.quantity)}{at}\n"
    yield f"  seller {o.seller}, {block}, stamp {o.stamp}\n"
