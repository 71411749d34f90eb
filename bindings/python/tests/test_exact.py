"""The curve between cents, beside fractions that are worked from the parameters. Nothing here is taken from the library."""
import unittest
from dataclasses import FrozenInstanceError
from fractions import Fraction
from math import floor

import shared  # noqa: F401
from ozpinduru import ExactPrice, Parameters, price_at

# the reference, offsets of nothing and of the whole cost, a curve of zeros, the least and the largest, halves, and odd numbers
CURVES = [Parameters(2026, *values) for values in [
    (146_000, 73_000, 2_000, 10_000), (146_000, 0, 2_000, 10_000), (146_000, 146_000, 2_000, 1_001), (1, 0, 0, 1_000),
    (2, 0, 5_000, 1_000), (1_000_000, 0, 5_000, 2_000_000), (146, 0, 2_000, 1_050), (999_983, 7, 4_999, 9_973)]]


def nearest(number):
    return floor(number + Fraction(1, 2))


def points(p):
    """The three points: quantity and price, each rounded once."""
    def daily(dollars):
        return nearest(dollars * 100 / 365 / (1 - Fraction(p.outage, 10_000)))
    net = p.cost - p.offset
    prices = daily(max(Fraction(p.cost), Fraction(175, 100) * net)), daily(Fraction(75, 100) * net), 0
    return list(zip((nearest(Fraction(part, 1_000) * p.requirement) for part in (990, 1_015, 1_045)), prices))


def lines(p):
    """Each stretch: where it starts and ends, the price at its start, what a tenth is less than the one before it, its divisor."""
    (q1, p1), (q2, p2), (q3, p3) = points(p)
    yield 0, q1, Fraction(p1), Fraction(0), 1
    yield q1, q2, Fraction(p1), Fraction(p1 - p2, q2 - q1), q2 - q1
    yield q2, q3, Fraction(p2), Fraction(p2 - p3, q3 - q2), q3 - q2


class Exact(unittest.TestCase):
    def check(self, p, k, due, divisor):
        price = price_at(p, k)
        self.assertEqual((price.fraction, price.divisor, price.cents), (due, divisor, floor(due)), (p, k))
        self.assertEqual(price.remainder, (due - floor(due)) * divisor)

    def test_corners(self):
        for p in CURVES:
            for start, end, first, step, divisor in lines(p):
                for k in {start + 1, (start + end) // 2, end - 1, end}:
                    self.check(p, k, first - step * (k - start), divisor)
            self.check(p, 0, Fraction(points(p)[0][1]), 1)
            self.assertEqual([price_at(p, end + past) for past in (1, 2, 2**32)], [None] * 3)

    def test_every_tenth(self):
        """Of a small curve: the exact price never rises, and neighbours on one line, its ends included, differ by one fraction."""
        p = Parameters(2026, 146_003, 73_001, 2_001, 1_003)
        for start, end, first, step, divisor in lines(p):
            prices = [price_at(p, k).fraction for k in range(start, end + 1)]
            self.assertEqual((prices[0], {one - next for one, next in zip(prices, prices[1:])}), (first, {step}))
            self.assertGreaterEqual(step, 0)

    def test_second_point_belongs_to_the_line_that_ends_there(self):
        self.assertEqual([price_at(CURVES[0], k) for k in (9_900, 9_901, 10_150, 10_151, 10_450)],
                         [ExactPrice(50_000, 0, 1), ExactPrice(49_875, 0, 250), ExactPrice(18_750, 0, 250),
                          ExactPrice(18_687, 150, 300), ExactPrice(0, 0, 300)])
        self.assertRaises(FrozenInstanceError, setattr, price_at(CURVES[0], 0), "cents", 0)
