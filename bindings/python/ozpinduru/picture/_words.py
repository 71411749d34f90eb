"""What a picture says in words."""
from __future__ import annotations

from .._curve import price_at
from .._units import dollars, megawatts, money, sold
from ._stack import Level, Stack, Step
from ._view import View


def per_day(cents: int) -> str:
    """A price where its unit is named beside it."""
    return f"${cents // 100:,}.{cents % 100:02}"


def count(number: int, thing: str) -> str:
    return f"{number or 'no'} {thing}{'' if number == 1 else 's'}"


def name_words(step: Step) -> str:
    """An offer by its resource and, where that sells in several steps, by its own."""
    return f"resource {step.offer.resource}" + (f", step {step.offer.step} of {step.of}" if step.of > 1 else "")


def run_words(run: list[Step]) -> str:
    """A resource that sells in steps, for who points at the line that joins them."""
    cleared = sum(step.gets.cleared for step in run)
    return (f"resource {run[0].offer.resource} sells in {len(run)} steps, from {dollars(run[0].price)} to "
            f"{dollars(run[-1].price)}; cleared {megawatts(cleared)} of {megawatts(sum(step.offer.quantity for step in run))}")


def offer_words(step: Step) -> str:
    """A step, for who points at it."""
    block = "" if step.offer.block is None else f", minimum block {megawatts(step.offer.block)}"
    whole = f", made whole {money(step.gets.make_whole)} a day" if step.gets.make_whole else ""
    return (f"{name_words(step)}: {megawatts(step.offer.quantity)} offered at {dollars(step.price)}{block}; "
            f"cleared {megawatts(step.gets.cleared)}, committed {megawatts(step.gets.committed)}{whole}")


def tie_words(level: Level) -> list[str]:
    """A tied level, at length and shorter."""
    cleared = megawatts(level.cleared)
    return [f"{level.offers} tied at {per_day(level.price)}: {cleared} of {megawatts(level.end - level.start)} clear",
            f"{level.offers} tied: {cleared} clear", f"{level.offers} tied"]


def meeting_words(stack: Stack) -> str:
    """What clears, and the exact price of the curve there."""
    exact = price_at(stack.parameters, stack.total)
    assert exact is not None, "the total is not past Q3"
    part = f" and {exact.remainder}/{exact.divisor}" if exact.remainder else ""
    return f"{sold(stack.total, stack.price)}; the curve there is at {exact.cents:,}{part} cents"


def headline(stack: Stack) -> str:
    said = sold(stack.total, stack.price)
    return said[0].upper() + said[1:]


def _reason(stack: Stack) -> str:
    """Why nothing cleared."""
    return f"no offer asks P1, {dollars(stack.curve.p1)}, or less" if stack.steps else "the book has no offers"


def subline(stack: Stack) -> str:
    parts = [f"Delivery year {stack.parameters.year}"]
    if stack.steps:
        parts.append(f"{count(len(stack.steps), 'offer')}, {megawatts(stack.offered)}")
    if stack.price is None:
        parts.append(_reason(stack))
    if stack.price == 0:
        parts.append("a real price of zero")
    if stack.make_whole:
        parts.append(f"make-whole {money(stack.make_whole)} a day")
    return "; ".join(parts)


def outside(stack: Stack, view: View) -> list[tuple[str, str]]:
    """What the picture of the whole cuts off: the sign at the place, and words."""
    notes = []
    dear = [step for step in stack.steps if step.price > view.top]
    if dear:
        quantity = sum(step.offer.quantity for step in dear)
        notes.append(("\u25b4", f"past the top, over {per_day(view.top)}: {count(len(dear), 'offer')}, {megawatts(quantity)}, "
                      f"up to {per_day(stack.dearest)}"))
    if stack.offered > view.high:
        past = sum(step.start >= view.high for step in stack.steps)
        notes.append(("\u25b8", f"past the right edge, over {megawatts(view.high)}: {count(past, 'whole offer')}; "
                      f"the stack ends at {megawatts(stack.offered)}"))
    return notes


def description(stack: Stack, view: View) -> str:
    """The picture, for who hears it."""
    c = stack.curve
    said = [f"The supply stack of {count(len(stack.steps), 'offer')}, {megawatts(stack.offered)}, in price order, against the "
            f"requirement curve.",
            f"The curve is level at {dollars(c.p1)} up to {megawatts(c.q1)}, then falls straight to {dollars(c.p2)} at "
            f"{megawatts(c.q2)}, and straight to {dollars(c.p3)} at {megawatts(c.q3)}.",
            f"{headline(stack)}{': ' + _reason(stack) if stack.price is None else ''}."]
    if stack.runs:
        said.append(f"{count(len(stack.runs), 'resource')} with several steps: {count(sum(map(len, stack.runs)), 'offer')}.")
    if stack.ties:
        said.append(f"Prices at which offers are tied: {len(stack.ties)}.")
    said += [f"At {dollars(level.price)}, where the total stops, {level.offers} are tied: {megawatts(level.cleared)} of "
             f"{megawatts(level.end - level.start)} clear." for level in stack.ties if level.start < stack.total < level.end]
    blocks = [step.gets.committed - step.gets.cleared for step in stack.steps if step.gets.committed > step.gets.cleared]
    if blocks:
        said.append(f"{count(len(blocks), 'minimum block')}: {megawatts(sum(blocks))} committed that did not clear.")
    return " ".join(said + [f"Not seen, {note}." for _, note in outside(stack, view)])
