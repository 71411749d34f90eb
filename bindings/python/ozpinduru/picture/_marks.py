"""What is drawn over the steps: the curve with its three points, X, and the price; and their names."""
from __future__ import annotations

from dataclasses import dataclass

from .._units import megawatts
from ._panel import ASIDE, Panel
from ._stack import Stack
from ._svg import Coordinate, element, line, text, told, way, wide
from ._words import meeting_words, per_day

# From one name to the next beside a panel, and from its first line to its second, in pixels.
_APART, _LINE = 36, 16


def points(stack: Stack) -> list[tuple[int, int, int]]:
    """The three points of the curve: number, quantity and price."""
    c = stack.curve
    return [(1, c.q1, c.p1), (2, c.q2, c.p2), (3, c.q3, c.p3)]


def curve(panel: Panel, stack: Stack) -> str:
    """The exact curve: level up to Q1, then straight from point to point, since it runs through the points as they are rounded."""
    steps: list[Coordinate] = ["M", panel.left, panel.y(stack.curve.p1)]
    for _, quantity, price in points(stack):
        steps += ["L", panel.x(quantity), panel.y(price)]
    return way("casing", *steps) + way("curve", *steps)


def dots(panel: Panel, stack: Stack) -> str:
    """The three points, and the one where X and the price meet."""
    drawn = [element("circle", told("title", f"P{n} {per_day(price)} at Q{n} {megawatts(quantity)}"), class_="point",
                     cx=panel.x(quantity), cy=panel.y(price), r=4) for n, quantity, price in points(stack)]
    if stack.price is not None:
        drawn.append(element("circle", told("title", meeting_words(stack)), class_="ink meeting",
                             cx=panel.x(stack.total), cy=panel.y(stack.price), r=4.5))
    return "".join(drawn)


def lines(panel: Panel, stack: Stack) -> str:
    """X from top to bottom with its name above, and the price from the axis to X."""
    at, words = panel.x(stack.total), f"X {megawatts(stack.total)}"
    middle = max(at, panel.left + wide(words, 14) / 2)
    drawn = line("total", at, panel.high - 5, at, panel.foot) + text("ink halo name", middle, panel.high - 10, words, "middle")
    if stack.price is not None:
        drawn += line("price", panel.left, panel.y(stack.price), at, panel.y(stack.price))
    return drawn


@dataclass(frozen=True)
class Name:
    """What is written beside a panel, in two lines, for a place in it."""
    x: float
    y: float
    kind: str
    first: str
    second: str


def price_name(panel: Panel, stack: Stack) -> list[Name]:
    if stack.price is None:
        return []
    return [Name(panel.x(stack.total), panel.y(stack.price), "ink name", f"price {per_day(stack.price)}", "per MW-day")]


def point_names(panel: Panel, stack: Stack) -> list[Name]:
    return [Name(panel.x(quantity), panel.y(price), "point name", f"P{n} {per_day(price)}", f"at Q{n} {megawatts(quantity)}")
            for n, quantity, price in points(stack)]


def _spread(wanted: list[float], last: float) -> list[float]:
    """Heights near those wanted, which are in order: each apart from the next, and none below the last."""
    placed: list[float] = []
    for y in wanted:
        placed.append(max(y, placed[-1] + _APART) if placed else y)
    for at in reversed(range(len(placed))):
        placed[at] = min(placed[at], last)
        last = placed[at] - _APART
    return placed


def beside(panel: Panel, names: list[Name]) -> str:
    """Names in a column beside the panel, each led to its place: so they never meet, however near the places are."""
    drawn, ordered, x = "", sorted(names, key=lambda name: name.y), panel.right + ASIDE
    for name, y in zip(ordered, _spread([name.y for name in ordered], panel.zero - _LINE)):
        drawn += way("leader", "M", name.x, name.y, "H", panel.right + 8, "L", x - 6, y)
        drawn += text(name.kind, x, y, name.first) + text("quiet", x, y + _LINE, name.second)
    return drawn
