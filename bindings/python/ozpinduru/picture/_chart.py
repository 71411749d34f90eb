"""The picture of a book, from top to bottom."""
from __future__ import annotations

from zlib import crc32

from .._library import held
from . import _words as words
from ._marks import beside, curve, dots, lines, point_names, price_name
from ._panel import Panel, axes, grid
from ._stack import Stack, stack_of
from ._steps import MOST_RUNS, hatch, onward, runs, steps, ties
from ._svg import element, line, style, text, told, way, wide
from ._view import View, slope, whole

_WIDTH, _LEFT, _RIGHT, _MARGIN = 1000, 92, 806, 24


def _header(stack: Stack) -> str:
    return text("ink headline", _MARGIN, 40, words.headline(stack)) + text("quiet", _MARGIN, 63, words.subline(stack))


def _keys(stack: Stack) -> list[tuple[str, str]]:
    """A sample and its words for each manner of drawing that occurs."""
    def box(*kinds: str) -> str:
        return "".join(element("rect", class_=kind, x=0.5, y=-10.5, width=18, height=12) for kind in kinds)

    gets = [step.gets for step in stack.steps]
    falling = way("curve", "M", 0, -9, "H", 6, "L", 18, 1) + element("circle", class_="point", cx=6, cy=-9, r=3)
    occurs = [
        (any(row.cleared for row in gets), box("cleared", "outline"), "cleared"),
        (any(row.committed > row.cleared for row in gets), box("committed", "outline"), "committed by a block, not cleared"),
        (any(step.offer.quantity > step.gets.committed for step in stack.steps), box("outline"), "offered, not cleared"),
        (0 < len(stack.runs) <= MOST_RUNS, way("run", "M", 4, 0, "L", 15, -8) + "".join(
            element("circle", class_="knot", cx=x, cy=y, r=2.5) for x, y in ((4, 0), (15, -8))), "steps of one resource"),
        (bool(stack.ties), way("tied", "M", 0.5, 1, "V", -5, "H", 18.5, "V", 1), "tied at one price"),
        (True, falling, "requirement curve"),
    ]
    return [(sample, said) for there, sample, said in occurs if there]


def _legend(stack: Stack, y: float) -> str:
    """The keys in a line, and in a second one where they are too many for it."""
    drawn, x = [], float(_MARGIN)
    for sample, said in _keys(stack):
        if x + 26 + wide(said) > _WIDTH - _MARGIN:
            x, y = float(_MARGIN), y + 17
        drawn.append(element("g", sample, text("ink", 26, 0, said), transform=f"translate({x:g} {y:g})"))
        x += 26 + wide(said) + 18
    return element("g", *drawn, class_="legend")


def _panel(panel: Panel, stack: Stack, named: bool) -> str:
    """All of a panel; the points of the curve are named in one of two."""
    names = (point_names(panel, stack) if named else []) + price_name(panel, stack)
    return element("g", grid(panel), steps(panel, stack), runs(panel, stack), beside(panel, names), curve(panel, stack), lines(panel, stack),
                   dots(panel, stack), ties(panel, stack), onward(panel, stack), axes(panel), class_="panel")


def _closer(above: Panel, below: Panel) -> str:
    """Which part of the panel above is seen closer in the one below."""
    left, right = above.x(below.view.low), above.x(below.view.high)
    part = element("rect", class_="window", x=left, y=above.high, width=right - left, height=above.foot - above.high)
    return part + "".join(line("edge", x, above.high, x, above.foot) + line("edge", x, above.foot, end, below.high)
                          for x, end in ((left, below.left), (right, below.right)))


def _verdict(panel: Panel, stack: Stack) -> str:
    """Said across the panel where nothing cleared."""
    middle = (panel.y(stack.curve.p1) + panel.zero) / 2
    return "" if stack.total else text("ink halo verdict", (_LEFT + _RIGHT) / 2, middle, words.headline(stack), "middle")


def _panels(stack: Stack, all_of_it: View) -> tuple[str, float]:
    """One panel, or two where the slope is shown apart, and where the last one ends."""
    falling = slope(stack)
    if falling is None:
        panel = Panel(all_of_it, _LEFT, _RIGHT, 138, 518)
        return _panel(panel, stack, True) + _verdict(panel, stack), panel.foot
    above, below = Panel(all_of_it, _LEFT, _RIGHT, 138, 308), Panel(falling, _LEFT, _RIGHT, 408, 708)
    return _closer(above, below) + _panel(above, stack, False) + _panel(below, stack, True), below.foot


def chart(book: bytes) -> str:
    """The supply stack of a book against the requirement curve, as the text of an SVG; or raises Refusal."""
    data = held(book)
    stack, own = stack_of(data), f"ozp-{crc32(data):08x}"  # a page may hold several pictures
    view = whole(stack)
    panels, bottom = _panels(stack, view)
    notes = [f"{sign} {note}" for sign, note in words.outside(stack, view)]
    height = bottom + 44 + 18 * len(notes)
    return element(
        "svg", "\n", told("title", f"Supply stack and requirement curve: {words.headline(stack)}", id=f"{own}-title"),
        told("desc", words.description(stack, view), id=f"{own}-desc"), style(), hatch(),
        element("rect", class_="paper", width=_WIDTH, height=height), _header(stack), _legend(stack, 94), panels,
        *(text("quiet", _MARGIN, bottom + 50 + 18 * at, note) for at, note in enumerate(notes)),
        xmlns="http://www.w3.org/2000/svg", class_="ozp", role="img", aria_labelledby=f"{own}-title {own}-desc", lang="en",
        width=_WIDTH, height=height, viewBox=f"0 0 {_WIDTH} {height:g}")
