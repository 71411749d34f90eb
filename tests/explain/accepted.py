"""The first parts of the page of an accepted book: the answer, the curve, the total and the price."""
import outline
from words import dollars, megawatts, percent, price

NO_OFFER = "no offer is at or under"


def answer(m):
    """What a desk asks first: the price, the total, and what is paid a day."""
    if m.price is None:
        said, paid = "none: nothing cleared, and no price is not a price of zero", "nothing cleared, so nothing is paid"
    elif m.price == 0:
        said, paid = "0.00 dollars per MW-day: a price, and it is zero", "the price is zero"
    else:
        said, paid = f"{price(m.price)} dollars per MW-day", f"{price(m.price)} x {megawatts(m.x)}, and the make-whole"
    unpaid = "no row commits more than it cleared" if m.price else paid
    none = ": there are no offers" if not m.offers else f": {NO_OFFER} the curve's highest price"
    yield f"""
The answer
  price        {said}
  cleared      {megawatts(m.x)}{"" if m.x else none}
  make-whole   {dollars(m.make_whole)} dollars a day{"" if m.make_whole else f": {unpaid}"}
  daily total  {dollars(m.daily)} dollars
               {paid}
"""


def of_year(m, year):
    """What is paid in the delivery year, and why it has so many days."""
    days, extra = outline.days(year), outline.extra_day(year)
    between = "no 29 February" if extra is None else f"29 February {extra}"
    yield f"""  year total   {dollars(days * m.daily)} dollars
               {days} x {dollars(m.daily)}, as {between} lies between
               1 June {year} and 31 May {year + 1}
"""


def curve(m, outage):
    """The three points, each worked from the parameters."""
    first, second = (f"{price(25 * quarters)} / 365 / {percent(10000 - outage)}" for quarters in m.amounts)
    yield f"""
The curve is that of delivery years {"2022 to 2025, by the margin" if m.early else "from 2026 on"},
rounded to whole cents and tenths of a MW, a half up
  P1 = max(C, {"1.5" if m.early else "1.75"} x (C - E)) / 365 / (1 - F)
     = {first} = {price(m.p1)} dollars per MW-day
  P2 = 0.75 x (C - E) / 365 / (1 - F)
     = {second} = {price(m.p2)} dollars per MW-day
  P3 = 0.00: the curve ends at a price of zero
"""
    q1, q2, q3 = (f"R x {part:,} / {m.whole:,} = {megawatts(q)}" for part, q in zip(m.parts, (m.q1, m.q2, m.q3)))
    yield f"  Q1 = {q1}\n  Q2 = {q2}\n  Q3 = {q3}; past it nothing is bought\n"
    if m.early:
        yield f"  {m.whole:,} is 100 percent and the margin in hundredths; 1.2 less, 1.9 and 7.8 more\n"


def total(m):
    """X, that as much is offered at it, and that one tenth more is not, or that the curve ends there."""
    yield f"\nThe cleared total X is {megawatts(m.x)}"
    if not m.offers:
        yield ": there are no offers"
    elif not m.x:
        yield f": {NO_OFFER}\n  the curve's highest price, {price(m.p1)}"
    here = m.curve(m.x)
    yield f"\n  at X the curve price is {price(here)}; offered up to it: {megawatts(m.supply(here))}\n"
    if m.x == m.q3:
        yield "  X is Q3, the last point of the curve, so X stops here\n"
    else:
        next_one = m.curve(m.x + 1)
        yield f"  one tenth further it is {price(next_one)}; offered up to it: {megawatts(m.supply(next_one))}\n"
        yield "  that is less than X and one tenth, so X stops here\n"


def set_price(m):
    """The price, and whether the curve or an offer sets it."""
    if m.price is None:
        yield "\nNothing cleared, so there is no price; no price is not a price of zero\n"
        return
    yield f"\nThe price is {price(m.price)} dollars per MW-day{'' if m.price else ': a price, and it is zero'}\n"
    if m.more is None:
        yield "  no more than X is offered at any price\n  so the curve sets the price\n"
        return
    yield f"  the lowest price with more than X up to it is {price(m.more)} ({megawatts(m.supply(m.more))})\n"
    here = m.curve(m.x)
    yield ("  that is under the curve price at X, so an offer sets the price\n" if m.more < here else
           "  that is over the curve price at X, so the curve sets the price\n" if m.more > here else
           "  that is the curve price at X too, so both set the price\n")
