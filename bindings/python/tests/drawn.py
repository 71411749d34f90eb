"""A picture read back as a person reads it: by the ticks of its axes.

A panel is a list of marks, from the text of an SVG or from where a browser lays them out; coordinates are pixels.
"""
import re
import xml.etree.ElementTree as xml
from collections import namedtuple
from fractions import Fraction

SVG = "{http://www.w3.org/2000/svg}"

# the classes of an element, its box, the corners of a path, the words of a text, the resource of an offer and its step, if told
Mark = namedtuple("Mark", "kinds left top right bottom corners words resource step")

# The pixels by which a coordinate may differ: each is written to a hundredth, and so are the ticks that it is read by.
NEAR = 0.03


def near(found, expected, what):
    assert abs(found - expected) <= NEAR, f"{what}: drawn at {float(found):.3f}, expected at {float(expected):.3f}"


def corners(way):
    """The corners of a path."""
    x = y = 0.0
    for letter, numbers in re.findall(r"([MLHVZ])([^MLHVZ]*)", way):
        at = [float(number) for number in numbers.split()]
        x, y = {"H": [*at, y], "V": [x, *at], "Z": [x, y]}.get(letter, at)
        yield x, y


def _mark(element, resource, step):
    def has(name):
        return float(element.get(name, 0))

    kinds = frozenset(element.get("class", "").split())
    if element.tag == f"{SVG}path":
        at = list(corners(element.get("d")))
    elif element.tag == f"{SVG}circle":
        at = [(has("cx") - has("r"), has("cy") - has("r")), (has("cx") + has("r"), has("cy") + has("r"))]
    else:
        at = [(has("x"), has("y")), (has("x") + has("width"), has("y") + has("height"))]
    across, down = zip(*at)
    words = element.text if element.tag == f"{SVG}text" else ""
    return Mark(kinds, min(across), min(down), max(across), max(down), at, words, resource, step)


def read_svg(text):
    """The panels of a picture, each a list of marks in the order of drawing."""
    for panel in xml.fromstring(text).findall(f"{SVG}g[@class='panel']"):
        marks = []
        for element in panel:
            drawn = element if element.tag == f"{SVG}g" else [element]
            named = element.get("data-resource"), element.get("data-step")
            marks += [_mark(part, *named) for part in drawn if part.tag != f"{SVG}title"]
        yield marks


class Panel:
    """A panel with the scale that its ticks give it. What lies outside its view is cut at the border."""
    def __init__(self, marks):
        self.marks = marks
        side, base = self.one("side"), self.one("base")
        self.left, self.right, self.high, self.foot = base.left, base.right, side.top, base.top
        ticks = self.all("tick")
        self._across = self._scale([t.left for t in ticks if t.top > self.foot - NEAR], self.all("megawatts"), 10)
        self._down = self._scale([t.top for t in ticks if t.top <= self.foot - NEAR], self.all("dollars"), 100)

    def all(self, kind):
        return [mark for mark in self.marks if kind in mark.kinds]

    def one(self, kind):
        found = self.all(kind)
        assert len(found) == 1, f"{len(found)} marks of the kind {kind}"
        return found[0]

    @staticmethod
    def _scale(pixels, texts, parts):
        """The line through the ticks, from tenths or cents to pixels; each tick lies on it."""
        numbers = [round(Fraction(text.words.strip("$").replace(",", "")) * parts) for text in texts]
        assert len(numbers) == len(pixels) > 1
        slope = Fraction(pixels[-1] - pixels[0]) / (numbers[-1] - numbers[0])
        for number, pixel in zip(numbers, pixels):
            near(pixel, pixels[0] + slope * (number - numbers[0]), f"the tick at {number}")
        return lambda number: pixels[0] + slope * (Fraction(number) - numbers[0])

    def x(self, tenths):
        return min(max(self._across(tenths), self.left), self.right)

    def y(self, cents):
        return max(self._down(cents), self.high)

    def inside(self, start, end):
        """Whether any of these tenths lie in the panel."""
        return self._across(start) < self.right - NEAR and self._across(end) > self.left + NEAR

    def under(self, cents):
        """Whether a price lies in the panel."""
        return self._down(cents) >= self.high - NEAR
