"""A panel: a view laid onto pixels, with its axes."""
from __future__ import annotations

from dataclasses import dataclass

from ._svg import line, told, text
from ._view import View, ticks

# Steps stand on a foot this far under $0, so that an offer at $0 has a body too.
FOOT = 12

# What is written beside a panel stands this far from it.
ASIDE = 34

_TICK = 5


@dataclass(frozen=True)
class Panel:
    """A view, and the pixels of its plot: `left` and `right`, the height of the highest price and that of $0."""
    view: View
    left: float
    right: float
    high: float
    zero: float

    @property
    def foot(self) -> float:
        return self.zero + FOOT

    def x(self, tenths: int) -> float:
        """Where a quantity lies; one outside the view lies on its border."""
        seen = min(max(tenths, self.view.low), self.view.high) - self.view.low
        return self.left + (self.right - self.left) * seen / (self.view.high - self.view.low)

    def y(self, cents: int) -> float:
        """Where a price lies; one over the view lies on its border."""
        return self.zero - (self.zero - self.high) * min(cents, self.view.top) / self.view.top

    def shows(self, start: int, end: int) -> bool:
        """Whether any of these tenths are seen."""
        return start < self.view.high and self.view.low < end

    @property
    def prices(self) -> range:
        return ticks(0, self.view.top, int(self.zero - self.high) // 40)

    @property
    def quantities(self) -> range:
        return ticks(self.view.low, self.view.high, 8)


def _dollars(cents: int, step: int) -> str:
    return f"${cents // 100:,}" if step % 100 == 0 else f"${cents // 100:,}.{cents % 100:02}"


def _megawatts(tenths: int, step: int) -> str:
    return f"{tenths // 10:,}" if step % 10 == 0 else f"{tenths // 10:,}.{tenths % 10}"


def grid(panel: Panel) -> str:
    """What lies under the steps: a line for each price that the axis names."""
    return "".join(line("grid", panel.left, panel.y(cents), panel.right, panel.y(cents)) for cents in panel.prices)


def axes(panel: Panel) -> str:
    """Both axes, named, with ticks that are named."""
    drawn = [line("axis side", panel.left, panel.high, panel.left, panel.foot),
             line("axis base", panel.left, panel.foot, panel.right, panel.foot)]
    for cents in panel.prices:
        y, words = panel.y(cents), _dollars(cents, panel.prices.step)
        drawn += [line("axis tick", panel.left - _TICK, y, panel.left, y),
                  text("quiet dollars", panel.left - _TICK - 4, y + 4, words, "end")]
    below = panel.foot + _TICK + 14
    for tenths in panel.quantities:
        x, words = panel.x(tenths), _megawatts(tenths, panel.quantities.step)
        drawn += [line("axis tick", x, panel.foot, x, panel.foot + _TICK),
                  text("quiet halo megawatts", x, below, words, "middle")]
    drawn.append(text("quiet", panel.right + ASIDE, below, "megawatts"))
    middle = (panel.high + panel.zero) / 2
    drawn.append(told("text", "dollars per MW-day", class_="quiet", text_anchor="middle",
                      transform=f"translate(18 {middle:g}) rotate(-90)"))
    return "".join(drawn)
