"""SVG as text: elements, and how each class of them looks, in light and in dark."""
from __future__ import annotations

from html import escape
from typing import Union

Coordinate = Union[str, float]

FONT = "system-ui,-apple-system,'Segoe UI',Roboto,'Helvetica Neue',Arial,'Liberation Sans',sans-serif"

# class: what is coloured, in light, in dark
_COLOURS = {
    "paper": ("fill", "#ffffff", "#10151b"),
    "ink": ("fill", "#16202a", "#edf2f7"),
    "quiet": ("fill", "#4a5662", "#b4bfca"),
    "halo": ("stroke", "#ffffff", "#10151b"),
    "grid": ("stroke", "#dfe5ea", "#28323c"),
    "axis": ("stroke", "#4a5662", "#b4bfca"),
    "window": ("fill", "#eef2f6", "#1b232c"),
    "edge": ("stroke", "#c3ccd5", "#3a4753"),
    "leader": ("stroke", "#7b8793", "#7b8793"),
    "cleared": ("fill", "#4c8fd0", "#3f7fc0"),
    "hatch": ("stroke", "#1d4f86", "#a9d0f7"),
    "between": ("stroke", "#1d4f86", "#a9d0f7"),
    "seam": ("stroke", "#ffffff", "#10151b"),
    "outline": ("stroke", "#1d4f86", "#a9d0f7"),
    "tied": ("stroke", "#16202a", "#edf2f7"),
    "run": ("stroke", "#5b2a86", "#e3c7ff"),
    "knot": ("fill", "#5b2a86", "#e3c7ff"),
    "casing": ("stroke", "#ffffff", "#10151b"),
    "curve": ("stroke", "#b8420b", "#ff9a4d"),
    "point": ("fill", "#b8420b", "#ff9a4d"),
    "total": ("stroke", "#16202a", "#edf2f7"),
    "price": ("stroke", "#16202a", "#edf2f7"),
}

# class: all else; what has a stroke alone has no fill
_SHAPES = {
    "headline": "font-size:21px;font-weight:600",
    "verdict": "font-size:18px;font-weight:600",
    "name": "font-weight:600",
    "halo": "stroke-width:3.5px;stroke-linejoin:round;paint-order:stroke",
    "offered": "fill:none;pointer-events:all",
    "committed": "fill:url(#ozp-hatch)",
    "narrow": "shape-rendering:crispEdges",
    "hatch": "stroke-width:1.3px",
    "between": "fill:none;stroke-width:.7px",
    "seam": "fill:none;stroke-width:.7px",
    "casing": "fill:none;stroke-width:5px",
    "curve": "fill:none;stroke-width:2.2px;stroke-linejoin:round",
    "total": "fill:none;stroke-width:1.6px",
    "price": "fill:none;stroke-width:1.6px;stroke-dasharray:7 3",
    "run": "fill:none;stroke-width:1.4px;stroke-dasharray:4 2",
    "leader": "fill:none;stroke-dasharray:1 3",
    **dict.fromkeys(("grid", "axis", "edge", "outline", "tied"), "fill:none"),
}


def style() -> str:
    """The picture's own style sheet: light, and dark where the reader prefers it. It reaches nothing outside the picture."""
    shapes = [f".ozp text{{font:13px {FONT};font-variant-numeric:tabular-nums}}", "svg.ozp{max-width:100%;height:auto}"]
    shapes += [f".ozp .{name}{{{said}}}" for name, said in _SHAPES.items()]
    light = [f".ozp .{name}{{{what}:{colour}}}" for name, (what, colour, _) in _COLOURS.items()]
    dark = [f".ozp .{name}{{{what}:{colour}}}" for name, (what, _, colour) in _COLOURS.items()]
    return element("style", "\n".join(["", *shapes, *light, "@media (prefers-color-scheme:dark){", *dark, "}", ""]))


def number(value: float) -> str:
    """A coordinate, to a hundredth of a pixel."""
    return f"{value:.2f}".rstrip("0").rstrip(".")


def element(kind: str, *content: str, **attributes: Coordinate) -> str:
    """An element. Its content is SVG already; of an attribute's name a last underscore goes, and another becomes a hyphen."""
    said = "".join(f' {name.rstrip("_").replace("_", "-")}="{escape(value) if isinstance(value, str) else number(value)}"'
                   for name, value in attributes.items())
    return f"<{kind}{said}>{''.join(content)}</{kind}>\n" if content else f"<{kind}{said}/>\n"


def told(kind: str, words: str, **attributes: Coordinate) -> str:
    """An element that holds words."""
    return element(kind, escape(words, quote=False), **attributes)


def text(kind: str, x: float, y: float, words: str, anchor: str = "start") -> str:
    return told("text", words, class_=kind, x=x, y=y, text_anchor=anchor)


def way(kind: str, *steps: Coordinate) -> str:
    """A path, by its letters and coordinates."""
    return element("path", class_=kind, d=" ".join(step if isinstance(step, str) else number(step) for step in steps))


def line(kind: str, x1: float, y1: float, x2: float, y2: float) -> str:
    return way(kind, "M", x1, y1, "L", x2, y2)


def wide(words: str, size: float = 13) -> float:
    """As wide as a text gets in any of the fonts, or a little wider."""
    return len(words) * size * 0.56
