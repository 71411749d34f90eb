"""The price levels around the one at which X stops, and how that one is divided where X takes a part of it."""
from words import megawatts, price, tenths


def ladder(m):
    """Up to six levels at or under the one at which X stops, and those above it, eleven in all."""
    if not m.offers:
        return
    levels = list(m.levels.values())
    under = [level for level in levels if m.more is None or level.price <= m.more]
    first = max(0, len(under) - 6)
    lower, higher = (sum(level.offered for level in part) for part in (levels[:first], levels[first + 11:]))
    yield "\nPrice levels around the one at which X stops\n"
    yield f"{'price':>13}{'offered':>19}{'receives':>19}\n"
    if lower:
        yield f"{'lower':>13}  {tenths(lower):>14} MW{'':21}all\n"
    for level in levels[first:first + 11]:
        word = "nothing" if level.receives == 0 else "a part" if level.divided else "all"
        yield f"{price(level.price):>13}  {tenths(level.offered):>14} MW  {tenths(level.receives):>14} MW  {word}\n"
    if higher:
        yield f"{'higher':>13}  {tenths(higher):>14} MW{'':21}nothing\n"


def division(m, edition):
    """The level of which X takes a part, and who gets its spare tenths."""
    for level in m.levels.values():
        if level.divided:
            yield from divided(level, edition)


def divided(level, edition):
    yield f"""
The level at {price(level.price)} is divided: it receives {megawatts(level.receives)} of {megawatts(level.offered)}
  the part of a row is its tenths x {level.receives:,} / {level.offered:,}, rounded down
"""
    if level.spares == 0:
        yield "  that leaves no spare tenth\n"
        return
    yield ("  that leaves 1 spare tenth, for the first in this order\n" if level.spares == 1 else
           f"  that leaves {level.spares:,} spare tenths, one each for the first in this order\n")
    yield f"{'place':>8}{'remainder':>13}{'stamp':>21}{'resource':>11}{'  step' if edition == 2 else ''}\n"
    yield from contest(level, edition)


def left_out(first, last, gets):
    """The places from one to another, which are not shown."""
    if first == last:
        yield f"  place {first:,} is left out: it gets {gets}\n"
    elif first < last:
        yield f"  places {first:,} to {last:,} are left out: each gets {gets}\n"


def contest(level, edition):
    """The five places before the spare tenths end, and the five behind."""
    end, contenders = level.spares, len(level.order)
    first, last = max(1, end - 4), min(contenders, end + 5)
    yield from left_out(1, first - 1, "one")
    for place in range(first, last + 1):
        o = level.order[place - 1]
        if place == end + 1:
            yield "  ---------- the spare tenths end here\n"
        step = f"{o.step:>6}" if edition == 2 else ""
        gets = "gets one" if place <= end else "gets none"
        yield f"{place:>8}{level.remainder(o):>13,}{o.stamp:>21}{o.resource:>11}{step}  {gets}\n"
    yield from left_out(last + 1, contenders, "none")
