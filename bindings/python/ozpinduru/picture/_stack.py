"""The supply stack of a book, with what clears of it: whole tenths of a megawatt and whole cents per MW-day."""
from __future__ import annotations

from collections import Counter
from dataclasses import dataclass, replace
from itertools import groupby
from typing import Optional

from .._book import Offer, Parameters, read
from .._clearing import Row, clear
from .._curve import Curve, curve


@dataclass(frozen=True)
class Step:
    """An offer in the stack, from `start` to `end`, and what it gets. Its cleared part lies at the start. `of` says in how many
    steps its resource sells."""
    offer: Offer
    gets: Row
    start: int
    of: int

    @property
    def end(self) -> int:
        return self.start + self.offer.quantity

    @property
    def price(self) -> int:
        assert self.offer.price is not None, "a book with an unpriced offer is refused"
        return self.offer.price


@dataclass(frozen=True)
class Level:
    """Several offers tied at one price: how many, from where to where they stand, and what they clear together."""
    price: int
    offers: int
    start: int
    end: int
    cleared: int


@dataclass(frozen=True)
class Stack:
    """The steps in their order, the levels that are tied, those of each resource that sells in several, the curve that they meet,
    and where: `price` is None where nothing cleared."""
    parameters: Parameters
    curve: Curve
    steps: list[Step]
    ties: list[Level]
    runs: list[list[Step]]
    total: int
    price: Optional[int]
    make_whole: int

    @property
    def offered(self) -> int:
        return self.steps[-1].end if self.steps else 0

    @property
    def dearest(self) -> int:
        return self.steps[-1].price if self.steps else 0


def _ordered(offers: list[Offer], rows: list[Row]) -> list[Step]:
    """The steps by price and, within a level, in the order in which spare tenths go: the larger remainder, then the earlier
    stamp, then the lower resource, then the lower step."""
    of = Counter(offer.resource for offer in offers)
    offered: Counter[Optional[int]] = Counter()
    cleared: Counter[Optional[int]] = Counter()
    for offer, row in zip(offers, rows):
        offered[offer.price] += offer.quantity
        cleared[offer.price] += row.cleared

    def order(step: Step) -> tuple[int, int, int, int, int]:
        offer = step.offer
        remainder = offer.quantity * cleared[offer.price] % offered[offer.price]
        return step.price, -remainder, offer.stamp, offer.resource, offer.step

    steps, start = [], 0
    for step in sorted((Step(offer, row, 0, of[offer.resource]) for offer, row in zip(offers, rows)), key=order):
        steps.append(replace(step, start=start))
        start += step.offer.quantity
    return steps


def _ties(steps: list[Step]) -> list[Level]:
    levels = [(price, list(members)) for price, members in groupby(steps, key=lambda step: step.price)]
    return [Level(price, len(tied), tied[0].start, tied[-1].end, sum(step.gets.cleared for step in tied))
            for price, tied in levels if len(tied) > 1]


def _runs(steps: list[Step]) -> list[list[Step]]:
    """The steps of each resource that sells in several, in their order, and the resources by number."""
    by_resource: dict[int, list[Step]] = {}
    for step in steps:
        if step.of > 1:
            by_resource.setdefault(step.offer.resource, []).append(step)
    return [sorted(by_resource[resource], key=lambda step: step.offer.step) for resource in sorted(by_resource)]


def stack_of(book: bytes) -> Stack:
    """The stack of a book that clears, or in which nothing clears; else raises Refusal."""
    clearing, said = clear(book), read(book)
    steps = _ordered(said.offers, clearing.rows)
    return Stack(said.parameters, curve(said.parameters), steps, _ties(steps), _runs(steps), clearing.total, clearing.price,
                 clearing.make_whole)
