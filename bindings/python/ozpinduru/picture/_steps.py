"""The steps of the stack in a panel: what clears is filled, what a block commits besides is hatched, the rest is hollow; and which
of them one resource sells."""
from __future__ import annotations

from ._panel import FOOT, Panel
from ._stack import Level, Stack, Step
from ._svg import Coordinate, element, text, told, way, wide
from ._words import offer_words, run_words, tie_words

# Steps that are narrower than this, in pixels, have no line between them.
_NARROW = 3

# Lines that join the steps of a resource are drawn where no more resources than this have any: more would hide each other.
MOST_RUNS = 8

# How far the bracket of a tied level stands over its steps, and how far its ends reach back to them.
_OVER, _END = 6, 4


def hatch() -> str:
    """The hatching of what is committed and not cleared."""
    stripes = way("hatch", "M", -1, 1, "L", 1, -1, "M", 0, 7, "L", 7, 0, "M", 6, 8, "L", 8, 6)
    return element("defs", element("pattern", stripes, id="ozp-hatch", width=7, height=7, patternUnits="userSpaceOnUse"))


def _part(panel: Panel, kind: str, price: int, start: int, end: int) -> str:
    """A part of a step, as far as it is seen."""
    if start == end or not panel.shows(start, end):
        return ""
    x, y = panel.x(start), panel.y(price)
    return element("rect", class_=kind, x=x, y=y, width=panel.x(end) - x, height=panel.foot - y)


def _narrow(panel: Panel, step: Step) -> bool:
    return panel.x(step.end) - panel.x(step.start) < _NARROW


def _step(panel: Panel, step: Step) -> str:
    cleared, committed = step.start + step.gets.cleared, step.start + step.gets.committed
    named = {"data_resource": str(step.offer.resource), **({"data_step": str(step.offer.step)} if step.of > 1 else {})}
    return element("g", told("title", offer_words(step)),
                   _part(panel, "cleared", step.price, step.start, cleared),
                   _part(panel, "committed", step.price, cleared, committed),
                   _part(panel, "offered", step.price, step.start, step.end),
                   class_="step narrow" if _narrow(panel, step) else "step", **named)


def _between(panel: Panel, seen: list[Step]) -> str:
    """The lines between neighbours that are not narrow: light where both sides are filled."""
    ways: dict[str, list[Coordinate]] = {"seam": [], "between": []}
    for step, after in zip(seen, seen[1:]):
        if not (_narrow(panel, step) or _narrow(panel, after)):
            filled = step.gets.cleared == step.offer.quantity and after.gets.cleared
            ways["seam" if filled else "between"] += ["M", panel.x(step.end), panel.foot, "V", panel.y(step.price)]
    return "".join(way(kind, *steps) for kind, steps in ways.items() if steps)


def _outline(panel: Panel, seen: list[Step]) -> str:
    """The upper edge of the stack. It is open where a step goes on outside the view."""
    first, last = seen[0], seen[-1]
    steps: list[Coordinate] = ["M", panel.x(first.start), panel.foot if first.start >= panel.view.low else panel.y(first.price)]
    for step in seen:
        steps += ["V", panel.y(step.price)]
        steps += ["H", panel.x(step.end)] if step.price <= panel.view.top else ["M", panel.x(step.end), panel.high]
    if last.end <= panel.view.high:
        steps += ["V", panel.foot]
    return way("outline", *steps)


def steps(panel: Panel, stack: Stack) -> str:
    """The steps that are seen, each with its words, and the lines that part them from each other and from what is over them."""
    seen = [step for step in stack.steps if panel.shows(step.start, step.end)]
    return "".join(_step(panel, step) for step in seen) + _between(panel, seen) + (_outline(panel, seen) if seen else "")


def _run(panel: Panel, run: list[Step]) -> str:
    """A line from step to step of a resource, with a knot in the middle of each that is seen."""
    seen = [step for step in run if panel.shows(step.start, step.end) and step.price <= panel.view.top]
    at = [((panel.x(step.start) + panel.x(step.end)) / 2, (panel.y(step.price) + panel.foot) / 2) for step in seen]
    if len(at) < 2:
        return ""
    steps = [part for letter, (x, y) in zip(["M", *"L" * len(at)], at) for part in (letter, x, y)]
    knots = "".join(element("circle", class_="knot", cx=x, cy=y, r=2.5) for x, y in at)
    return element("g", told("title", run_words(run)), way("run", *steps), knots, class_="steps")


def runs(panel: Panel, stack: Stack) -> str:
    """The resources that sell in several steps, if they are few."""
    return "".join(_run(panel, run) for run in stack.runs) if len(stack.runs) <= MOST_RUNS else ""


def onward(panel: Panel, stack: Stack) -> str:
    """The signs of what the notes say: that steps go on past the top, or past the right edge of the whole."""
    signs = []
    dear = [step for step in stack.steps if step.price > panel.view.top and panel.shows(step.start, step.end)]
    if dear:
        x, y = (panel.x(dear[0].start) + panel.x(dear[-1].end)) / 2, panel.high
        signs.append(way("ink upward", "M", x - 4, y + 2, "H", x + 4, "L", x, y - 5, "Z"))
    if stack.offered > panel.view.high and panel.view.low == 0:
        x, y = panel.right, panel.foot - FOOT / 2
        signs.append(way("ink onward", "M", x + 2, y - 4, "V", y + 4, "L", x + 9, y, "Z"))
    return "".join(signs)


def _named(panel: Panel, level: Level, total: int, y: float) -> str:
    """The words of a tied level: the longest for which there is room beside the line at X, over its bracket or else under it."""
    left, right, at = panel.x(level.start), panel.x(level.end), panel.x(total)
    rooms = [(at, right), (left, at)] if left < at < right else [(left, right)]
    for words in tie_words(level):
        for start, end in rooms:
            if wide(words) < end - start - 8:
                return text("ink halo", (start + end) / 2, y - 5 if y - 12 > panel.high else y + 15, words, "middle")
    return ""


def _tie(panel: Panel, level: Level, total: int) -> str:
    """A bracket over a tied level, open where the level goes on outside the view; a narrow one has no ends."""
    y = max(panel.y(level.price) - _OVER, panel.high + _OVER)
    left, right = panel.x(level.start), panel.x(level.end)
    end = y + _END if right - left > 3 * _END else y
    bracket: list[Coordinate] = ["M", left, end, "V", y] if level.start >= panel.view.low else ["M", left, y]
    bracket += ["H", right, "V", end] if level.end <= panel.view.high else ["H", right]
    return way("tied", *bracket) + _named(panel, level, total, y)


def ties(panel: Panel, stack: Stack) -> str:
    """The tied levels that are seen."""
    return "".join(_tie(panel, level, stack.total) for level in stack.ties if panel.shows(level.start, level.end))
