"""Pictures compared with what `clear`, `read`, `curve` and `price_at` say of their books."""
from collections import Counter, namedtuple
from fractions import Fraction
from itertools import groupby

from shared import ROOT
from drawn import NEAR, Panel, near
from ozpinduru import clear, curve, price_at, read

# An offer in the stack: its cleared part goes from start to cleared, what a block commits besides from there to committed. Its step
# is told where its resource has several.
Stood = namedtuple("Stood", "resource price start cleared committed end step")


def clearings():
    """The books of tests/clearings by name."""
    return {path.stem: path.read_bytes() for path in sorted((ROOT / "tests" / "clearings").glob("*.book"))}


def stood(book):
    """The offers of a book in the order of the stack, where each stands, and what it gets."""
    pairs = list(zip(read(book).offers, clear(book).rows))
    offered, cleared, many = Counter(), Counter(), Counter()
    for offer, row in pairs:
        many[offer.resource] += 1
        offered[offer.price] += offer.quantity
        cleared[offer.price] += row.cleared

    def order(pair):
        part = Fraction(pair[0].quantity * cleared[pair[0].price], offered[pair[0].price])
        return pair[0].price, part // 1 - part, pair[0].stamp, pair[0].resource, pair[0].step

    start, stack = 0, []
    for offer, row in sorted(pairs, key=order):
        step = offer.step if many[offer.resource] > 1 else None
        ends = start + row.cleared, start + row.committed, start + offer.quantity
        stack.append(Stood(offer.resource, offer.price, start, *ends, step))
        start += offer.quantity
    return stack


def _part(panel, found, kind, price, start, end):
    """A part of a step: it is there, and where it belongs, if so much of it is in view that it can be seen."""
    there = [mark for mark in found if kind in mark.kinds]
    left, right = panel.x(start), panel.x(end)
    assert len(there) <= (start < end), f"{kind}: {len(there)} parts"
    assert there or right - left <= NEAR, f"{kind}: nothing from {start} to {end}"
    for mark in there:
        for side, expected in (("left", left), ("right", right), ("top", panel.y(price)), ("bottom", panel.foot)):
            near(getattr(mark, side), expected, f"{kind}, {side}")
    return 4 * len(there)


def steps(panel, book):
    named = groupby(panel.marks, lambda mark: (mark.resource, mark.step))
    found = {name: list(marks) for name, marks in named if name[0]}
    compared = 0
    for step in stood(book):
        parts = found.pop((str(step.resource), None if step.step is None else str(step.step)), [])
        compared += _part(panel, parts, "offered", step.price, step.start, step.end)
        compared += _part(panel, parts, "cleared", step.price, step.start, step.cleared)
        compared += _part(panel, parts, "committed", step.price, step.cleared, step.committed)
    assert not found, f"steps of no offer: {list(found)}"
    return compared


def _away(point, start, end):
    """How far a point lies from a straight line between two others."""
    (x, y), (xa, ya), (xb, yb) = point, start, end
    length = ((xb - xa) ** 2 + (yb - ya) ** 2) ** 0.5
    return float(abs((xb - xa) * (y - ya) - (yb - ya) * (x - xa))) / length


def curved(panel, book):
    """The curve's corners and points, and that the exact price lies on the line that is drawn."""
    parameters = read(book).parameters
    c = curve(parameters)
    points = [(panel.x(q), panel.y(p)) for q, p in ((c.q1, c.p1), (c.q2, c.p2), (c.q3, c.p3))]
    drawn = panel.one("curve").corners
    dots = [((dot.left + dot.right) / 2, (dot.top + dot.bottom) / 2) for dot in panel.all("point") if not dot.words]
    assert (len(drawn), len(dots)) == (4, 3)
    for found, expected in [*zip(drawn, [(panel.left, panel.y(c.p1)), *points]), *zip(dots, points)]:
        near(found[0], expected[0], "the curve, across")
        near(found[1], expected[1], "the curve, down")
    samples = {c.q1, c.q1 + 1, c.q2 - 1, c.q2, c.q2 + 1, c.q3 - 1, c.q3, *range(c.q1, c.q3, max((c.q3 - c.q1) // 50, 1))}
    for k in samples:
        at = panel.x(k), panel.y(price_at(parameters, k).fraction)
        line = drawn[0:2] if k <= c.q1 else drawn[1:3] if k <= c.q2 else drawn[2:4]
        near(_away(at, *line), 0, f"the exact price at {k}")
    return 14 + len(samples)


def lines(panel, book):
    """X and the price, drawn and named."""
    answer = clear(book)
    total, price = panel.one("total"), panel.all("price")
    near(total.left, panel.x(answer.total), "X")
    near(total.right, panel.x(answer.total), "X")
    assert total.top <= panel.high and abs(total.bottom - panel.foot) <= NEAR, "X goes from top to bottom"
    assert f"X {answer.total // 10:,}.{answer.total % 10} MW" in [mark.words for mark in panel.marks], "X is named"
    named = [mark.words for mark in panel.marks if mark.words.startswith("price ")]
    if answer.price is None:
        assert not price and not named and not panel.all("meeting"), "no price is drawn where there is none"
        return 2
    assert named == [f"price ${answer.price // 100:,}.{answer.price % 100:02}"], "the price is named"
    for side, expected in (("left", panel.left), ("right", panel.x(answer.total)), ("top", panel.y(answer.price))):
        near(getattr(price[0], side), expected, f"the price, {side}")
    near(price[0].bottom, price[0].top, "the price, level")
    return 6


def ties(panel, book):
    """A bracket for each tied level, over its steps."""
    levels = [(price, list(members)) for price, members in groupby(stood(book), lambda step: step.price)]
    seen = [(price, panel.x(tied[0].start), panel.x(tied[-1].end)) for price, tied in levels if len(tied) > 1]
    seen = [(price, left, right) for price, left, right in seen if right - left > NEAR]
    drawn = [mark for mark in panel.all("tied") if mark.right - mark.left > NEAR]
    assert len(drawn) == len(seen), f"{len(drawn)} brackets for {len(seen)} levels"
    for mark, (price, left, right) in zip(drawn, seen):
        near(mark.left, left, "a bracket, left")
        near(mark.right, right, "a bracket, right")
        assert panel.high <= mark.top <= max(panel.y(price), panel.high + 6) + NEAR, "a bracket stands over its level"
    return 2 * len(seen)


def runs(panel, book):
    """A line through the middle of the steps of each resource that has several, where they are few and two of them are seen."""
    by_resource = {}
    for step in sorted(stood(book), key=lambda step: (step.resource, step.step or 0)):
        if step.step is not None:
            by_resource.setdefault(step.resource, []).append(step)
    drawn, due, compared = panel.all("run"), [], 0
    for run in by_resource.values() if len(by_resource) <= 8 else []:
        at = [((panel.x(step.start) + panel.x(step.end)) / 2, (panel.y(step.price) + panel.foot) / 2) for step in run
              if panel.inside(step.start, step.end) and panel.under(step.price)]
        due += [at] if len(at) > 1 else []
    assert len(drawn) == len(due), f"{len(drawn)} lines for {len(due)} resources with steps"
    assert len(panel.all("knot")) == sum(map(len, due)), "a knot for each step that is seen"
    for mark, at in zip(drawn, due):
        for found, expected in zip(mark.corners, at, strict=True):
            near(found[0], expected[0], "a knot, across")
            near(found[1], expected[1], "a knot, down")
            compared += 2
    return compared


def compare(book, panels):
    """Compares every panel of a picture with the numbers of its book, and returns how many coordinates were compared."""
    parts = steps, curved, lines, ties, runs
    return sum(part(panel, book) for panel in map(Panel, panels) for part in parts)
