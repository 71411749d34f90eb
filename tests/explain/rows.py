"""The rows of an accepted book: few of them one by one, with how each comes by its part, and many as a table."""
import itertools

from words import dollars, megawatts, named, offer_lines, price, tenths


def part(level, o):
    """What the row's level receives, and the row's part of it."""
    yield f"  its level receives {megawatts(level.receives)} of {megawatts(level.offered)}\n"
    if level.receives == 0:
        yield "  X leaves nothing for it, so nothing of the row clears\n"
    elif not level.divided:
        yield "  that is all, so the row clears whole\n"
    else:
        yield f"  its part is {o.quantity:,} x {level.receives:,} / {level.offered:,} tenths\n"
        yield f"    = {level.part(o):,}, remainder {level.remainder(o):,}\n"


def turn(level, edition, o):
    """Where the row stands among those that want a spare tenth, and what decides it."""
    place, spares = level.place[o] + 1, level.spares
    if spares == 0:
        yield "  there is no spare tenth: the parts come out even\n"
        return
    tenth = "1 spare tenth" if spares == 1 else f"{spares:,} spare tenths"
    yield f"  place {place:,} of {len(level.order):,} for {tenth}\n"
    gets = place <= spares
    rival = level.order[spares if gets else spares - 1]
    said = "it gets one; the first that gets none is" if gets else "it gets none; the last that gets one is"
    yield f"  {said} {named(edition, rival)}:\n"
    if level.remainder(o) != level.remainder(rival):
        yield f"    the remainder here is {'larger' if gets else 'smaller'}\n"
    elif o.stamp != rival.stamp:
        yield f"    the remainders are the same, and the stamp here is {'earlier' if gets else 'later'}\n"
    elif o.resource != rival.resource:
        yield f"    remainders and stamps are the same, and the resource number here is {'lower' if gets else 'higher'}\n"
    else:
        yield f"    only the steps differ, and the step here is {'lower' if gets else 'higher'}\n"


def settled(m, o):
    """What the row clears and commits, and what it is paid for committing more."""
    cleared, committed = m.cleared(o), m.committed(o)
    block = ", its minimum block" if committed > cleared else ""
    yield f"  cleared {megawatts(cleared)}, committed {megawatts(committed)}{block}\n"
    if m.paid(o):
        yield f"  make-whole {dollars(m.paid(o))} dollars a day\n"
        yield f"    = {price(m.price)} x {megawatts(committed - cleared)} committed past what cleared\n"
    elif cleared == 0:
        yield "  make-whole 0: nothing of the row cleared, so it commits nothing\n"
    elif committed > cleared:
        yield "  make-whole 0: it commits more than cleared, and the price is zero\n"
    else:
        yield "  make-whole 0: it commits what cleared\n"


def row_lines(m, edition, o):
    level = m.levels[o.price]
    yield from offer_lines(edition, o)
    yield from part(level, o)
    if level.divided:
        yield from turn(level, edition, o)
    yield from settled(m, o)


def one_by_one(m, edition):
    yield "\nThe rows\n"
    for resource, group in itertools.groupby(m.offers, lambda o: o.resource):
        steps = list(group)
        for o in steps:
            yield from row_lines(m, edition, o)
        if len(steps) > 1:
            cleared, offered = sum(map(m.cleared, steps)), sum(o.quantity for o in steps)
            yield f"resource {resource}, steps 1 to {len(steps)}: cleared {megawatts(cleared)} of {megawatts(offered)}\n"


def word(m, o):
    """What became of a row, in one word."""
    cleared = m.cleared(o)
    if cleared == 0:
        return "nothing"
    if m.committed(o) > cleared:
        return "block"
    if cleared == o.quantity:
        return "whole"
    return "spare" if cleared > m.levels[o.price].part(o) else "part"


def table_line(m, o):
    """A row, on one line; long numbers of a resource or a seller have a line to themselves."""
    resource = f"{o.resource:>8}" if o.step == 1 else f" step {o.step:>2}"
    yield f"{o.row:>3} {resource} {o.seller:>6}"
    yield "\n" + 20 * " " if o.seller >= 1000000 or o.resource >= 100000000 else " "
    amounts = (f"{tenths(n):>8}" for n in (o.quantity, m.cleared(o), m.committed(o)))
    yield f"{price(o.price):>9} {' '.join(amounts)} {dollars(m.paid(o)):>15} {word(m, o)}\n"


def table(m):
    yield "\nThe rows, in MW, dollars per MW-day and dollars a day\n"
    yield "  part: rounded down; spare: one tenth more; block: commits its minimum block\n"
    yield "row resource seller     price  offered  cleared  commits      make-whole\n"
    for o in m.offers:
        yield from table_line(m, o)


def rows(m, edition):
    if len(m.offers) > 15:
        yield from table(m)
    elif m.offers:
        yield from one_by_one(m, edition)
