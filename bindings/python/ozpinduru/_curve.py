"""The requirement curve."""
from __future__ import annotations

import operator
from dataclasses import dataclass
from fractions import Fraction
from typing import Optional

from ._book import Parameters, lent
from ._library import GIVEN, NO_VALUE, REFUSED, library
from ._refusal import Refusal


@dataclass(frozen=True)
class Curve:
    """The three points of the requirement curve: prices in cents per MW-day at quantities in tenths of a megawatt."""
    p1: int
    q1: int
    p2: int
    q2: int
    p3: int
    q3: int


@dataclass(frozen=True)
class ExactPrice:
    """A price of the curve between cents: whole cents, by which books clear, and remainder / divisor of a cent. Two prices are
    compared by their `fraction`."""
    cents: int
    remainder: int
    divisor: int

    @property
    def fraction(self) -> Fraction:
        """The price in cents, exactly."""
        return self.cents + Fraction(self.remainder, self.divisor)


def curve(parameters: Parameters) -> Curve:
    """The curve that parameters make, or raises Refusal."""
    c = library.ozp_curve(lent(parameters))
    if c.kind == REFUSED:
        raise Refusal(c.number, c.place)
    return Curve(c.p1, c.q1, c.p2, c.q2, c.p3, c.q3)


def price_at(parameters: Parameters, k: int) -> Optional[ExactPrice]:
    """The price at k tenths of the curve that parameters make, between cents; None past its last point; or raises Refusal."""
    if operator.index(k) < 0:
        raise ValueError(f"{k} is no quantity")
    p = library.ozp_price_at(lent(parameters), min(operator.index(k), NO_VALUE))
    if p.kind == REFUSED:
        raise Refusal(p.number, p.place)
    return ExactPrice(p.cents, p.remainder, p.divisor) if p.kind == GIVEN else None
