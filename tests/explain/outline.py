"""A book and its clearing, from the outline and apart from the library: what page.py writes about.

    Book(data)         what a book says, its first fault, and its market where it has none
    days(year)         the days from 1 June of the year to 31 May of the next
    extra_day(year)    the calendar year of the 29 February between them, or None
    Market, Level      the curve, the total, the price and what each row clears; a price level
"""
import datetime

import layout
from limits import by_margin, parameters_fault, rows_fault


class Book:
    def __init__(self, data):
        self.length = len(data)
        self.fault, self.market = layout.form_fault(data), None
        self.readable = self.fault is None
        if self.readable:
            self.edition = layout.edition(data)
            self.year, self.values, count = layout.parameters(data)
            self.offers = list(layout.offers_in(data, count))
            self.fault = parameters_fault(self.year, self.values) or rows_fault(self.edition, self.offers)
            if not self.fault:
                self.market = Market(self.year, self.values, self.offers)


def days(year):
    return (datetime.date(year + 1, 6, 1) - datetime.date(year, 6, 1)).days


def extra_day(year):
    spans = (datetime.date(year, 6, 1) + datetime.timedelta(day) for day in range(days(year)))
    return next((day.year for day in spans if (day.month, day.day) == (2, 29)), None)


def nearest(a, b):
    return (2 * a + b) // (2 * b)


def largest(top, test):
    """The largest number up to the top that passes a test which no number past it passes."""
    low, high = 0, top
    while low < high:
        middle = (low + high + 1) // 2
        low, high = (middle, high) if test(middle) else (low, middle - 1)
    return low


class Level:
    """All offers at one price, of which some of X is left behind all cheaper ones."""
    def __init__(self, price, offers, left):
        self.price = price
        self.offered = sum(o.quantity for o in offers)
        self.receives = max(0, min(left, self.offered))
        self.divided = 0 < self.receives < self.offered
        self.spares = self.receives - sum(map(self.part, offers))
        self.order = sorted(offers, key=lambda o: (-self.remainder(o), o.stamp, o.resource, o.step))
        self.place = {o: place for place, o in enumerate(self.order)}

    def part(self, o):
        return o.quantity * self.receives // self.offered

    def remainder(self, o):
        return o.quantity * self.receives % self.offered


class Market:
    def __init__(self, year, values, offers):
        c, e, f, r, margin = values
        self.offers, self.early = offers, by_margin(year)
        # what the requirement is taken by and over, in hundredths of a percent
        self.whole = 10000 + margin if self.early else 10000
        self.parts = [self.whole + more for more in ((-120, 190, 780) if self.early else (-100, 150, 450))]
        # the yearly amounts of points 1 and 2, in quarters of a dollar
        self.amounts = max(4 * c, (6 if self.early else 7) * (c - e)), 3 * (c - e)
        self.p1, self.p2 = (nearest(quarters * 1000000, 1460 * (10000 - f)) for quarters in self.amounts)
        self.q1, self.q2, self.q3 = (nearest(r * part, self.whole) for part in self.parts)
        self.x = largest(self.q3, lambda k: self.supply(self.curve(k)) >= k)
        self.levels = {}
        for price in sorted({o.price for o in offers}):
            self.levels[price] = Level(price, [o for o in offers if o.price == price], self.x - self.supply(price - 1))
        self.more = next((price for price in self.levels if self.supply(price) > self.x), None)
        reached = [self.curve(self.x)] + ([] if self.more is None else [self.more])
        self.price = None if self.x == 0 else min(reached)
        self.make_whole = sum(map(self.paid, offers))
        self.daily = (self.price or 0) * self.x + self.make_whole

    def curve(self, k):
        if k <= self.q1:
            return self.p1
        pa, pb, qa, qb = (self.p1, self.p2, self.q1, self.q2) if k <= self.q2 else (self.p2, 0, self.q2, self.q3)
        return (pa * (qb - k) + pb * (k - qa)) // (qb - qa)

    def supply(self, price):
        return sum(o.quantity for o in self.offers if o.price <= price)

    def cleared(self, o):
        level = self.levels[o.price]
        return level.part(o) + (level.place[o] < level.spares)

    def committed(self, o):
        cleared = self.cleared(o)
        return max(cleared, o.block or 0) if cleared else 0

    def paid(self, o):
        """A row's make-whole, in mills a day."""
        return (self.price or 0) * (self.committed(o) - self.cleared(o))
