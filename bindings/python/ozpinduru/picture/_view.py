"""Which part of the plane a picture shows, and where its axes have ticks."""
from __future__ import annotations

from dataclasses import dataclass
from typing import Optional

from ._stack import Stack


@dataclass(frozen=True)
class View:
    """Quantities from `low` to `high` tenths and prices from 0 to `top` cents."""
    low: int
    high: int
    top: int


def _top(stack: Stack) -> int:
    """Room over P1, and for dearer offers up to half as much again. They clear nothing, so that one which asks ten times P1 is cut
    and does not squash what clears. At the least there is a cent to be seen."""
    p1 = stack.curve.p1
    return max(p1 * 113 // 100 + 1, min(stack.dearest * 106 // 100, p1 * 3 // 2), 2)


def whole(stack: Stack) -> View:
    """All from nothing on: the curve and the offers, of which those past half of Q3 again are cut."""
    q3 = stack.curve.q3
    return View(0, max(q3 * 104 // 100, min(stack.offered * 103 // 100, q3 * 3 // 2)), _top(stack))


def slope(stack: Stack) -> Optional[View]:
    """Where the curve falls, which is a twentieth of the whole: shown apart where the total stops there. Short of Q1 every offer
    at or below P1 clears whole, and there is nothing to be seen closer."""
    if stack.total < stack.curve.q1:
        return None
    width = stack.curve.q3 - stack.curve.q1
    return View(stack.curve.q1 - width // 4, stack.curve.q3 + width // 8, _top(stack))


def ticks(low: int, high: int, most: int) -> range:
    """At most so many round numbers and one, equally far apart: by 1, 2 or 5 and zeros after it."""
    step, factors = 1, (2, 5, 10)
    while (high - low) > step * most:
        scale = 10 ** (len(str(step)) - 1)
        step = scale * next(factor for factor in factors if scale * factor > step)
    return range(-(-low // step) * step, high + 1, step)
