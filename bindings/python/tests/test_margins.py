"""The delivery years 2022 to 2025, whose curve goes by the reserve margin."""
import random
import unittest
from dataclasses import replace
from fractions import Fraction
from math import floor

import shared  # noqa: F401
from ozpinduru import Curve, Parameters, Refusal, clear, curve, quote
from write_book import REFERENCE, book, offer

GIVEN = Parameters(**REFERENCE)
PERCENT = Fraction(1, 100)


def nearest(exact):
    return floor(exact + Fraction(1, 2))


def by_fractions(p):
    """The points in the form that the tariff has them, in dollars, megawatts and percent."""
    net, pool = p.cost - p.offset, 1 - p.outage * PERCENT / 100
    if p.year < 2026:
        whole = 1 + p.margin * PERCENT / 100
        first, moved = Fraction("1.5"), map(Fraction, ("-1.2", "1.9", "7.8"))
        parts = [(whole + by * PERCENT) / whole for by in moved]
    else:
        first, parts = Fraction("1.75"), [by * PERCENT for by in map(Fraction, ("99", "101.5", "104.5"))]
    p1, p2 = (nearest(yearly / 365 / pool * 100) for yearly in (max(p.cost, first * net), Fraction("0.75") * net))
    q1, q2, q3 = (nearest(Fraction(p.requirement, 10) * part * 10) for part in parts)
    return Curve(p1=p1, q1=q1, p2=p2, q2=q2, p3=0, q3=q3)


class Margins(unittest.TestCase):
    def test_the_year_selects(self):
        points = {0: (9_880, 10_190, 10_780), 1_500: (9_896, 10_165, 10_678), 5_000: (9_920, 10_127, 10_520)}
        for margin, (q1, q2, q3) in points.items():
            given = replace(GIVEN, year=2025, margin=margin)
            self.assertEqual(curve(given), Curve(p1=50_000, q1=q1, p2=18_750, q2=q2, p3=0, q3=q3))
            self.assertEqual(quote(book([offer(1, 0, 11_000)], year=2025, margin=margin)).total, q3)
        self.assertEqual(curve(replace(GIVEN, year=2022, offset=0, margin=0)).p1, 75_000)

    def test_refusals(self):
        wrong = [(2022, None, 4), (2025, 5_001, 5), (2025, 2**32, 5), (2025, -1, 5), (2026, 0, 5), (2099, 1, 5)]
        for year, margin, number in wrong:
            with self.subTest((year, margin)):
                said = rf"^refused {number} at field 6 \(reserve margin\)"
                self.assertRaisesRegex(Refusal, said, curve, replace(GIVEN, year=year, margin=margin))
                if margin is None or 0 <= margin < 2**32:
                    self.assertRaisesRegex(Refusal, said, clear, book([], year=year, margin=margin))
        self.assertRaisesRegex(Refusal, "^refused 5 at field 1 ", curve, replace(GIVEN, year=2021))

    def test_points_by_fractions(self):
        some = random.Random(4)
        for _ in range(2_000):
            cost = some.choice([1, 146_000, 1_000_000, some.randint(1, 1_000_000)])
            year = some.randint(2022, 2029)
            margin = some.choice([0, 5_000, some.randint(0, 5_000)]) if year < 2026 else None
            requirement = some.choice([1_125, some.randint(1_000, 2_000_000)])
            p = Parameters(year, cost, some.randint(0, cost), some.randint(0, 5_000), requirement, margin)
            self.assertEqual(curve(p), by_fractions(p), p)
