#!/usr/bin/env python3
"""Compares what the program `explain` writes with page.py on every book that ships with the project, on books with the
largest numbers and on random ones; and looks that no line has more than 80 letters.

    tests/explain/compare.py PROGRAM
"""
import collections
import pathlib
import subprocess
import sys

HERE = pathlib.Path(__file__).resolve().parent
sys.path[:0] = [str(HERE), str(HERE.parent)]
sys.dont_write_bytecode = True
from write_book import book, offer  # noqa: E402
from page import page  # noqa: E402
from random_books import random_books  # noqa: E402

MOST = 2**32 - 1
LATEST = 2**64 - 1
RANDOM = 1_000
KINDS = ["accepted", *(f"refused {number}" for number in (1, 2, 3, 4, 5, 6, 7, 8, 10))]


def largest_books():
    high = dict(cost=1_000_000, offset=0, outage=5_000, requirement=2_000_000)
    tied = [offer(MOST - row, 958_904, 200_000 - row % 2, block=199_999, stamp=LATEST - row) for row in range(600)]
    yield "600 tied offers", book(tied, **high)
    yield "13 tied offers", book(tied[:13], **high)
    apart = [offer(MOST - row, 1_000_000 - 1_000 * (row % 600), 200_000, stamp=LATEST) for row in range(600)]
    yield "600 levels", book(apart, **high)
    dearest = [offer(MOST - row, 1_000_000, 200_000, seller=MOST, stamp=LATEST) for row in range(599)]
    yield "all but one at the highest price", book([offer(1, 0, 1, block=1), *dearest], **high)
    yield "offers at zero", book([offer(row + 1, 0, 200_000, block=200_000) for row in range(600)], **high)
    yield "a value past every range", book([offer(MOST, MOST, MOST, block=MOST, seller=MOST)])
    yield "parameters past every range", book([], year=65_535, cost=MOST, offset=MOST, outage=MOST, requirement=MOST, margin=MOST)
    yield "parameters of zero", book([], cost=0, offset=0, outage=0, requirement=0, margin=0)
    for name in ("cost", "offset", "outage", "requirement"):
        yield f"{name} past its range", book([], **{name: MOST})
    yield "a margin past its range", book([], year=2023, margin=MOST)
    yield "a margin at its most", book(tied, year=2022, margin=5_000, **high)
    yield "no parameter", book([], cost=None, offset=None, outage=None, requirement=None)
    yield "the last row again", book(tied[:-1] + [offer(MOST - 598, 0, 1)], **high)
    yield "the last row with no price", book(tied[:-1] + [offer(MOST - 599, None, 1)], **high)
    ten = [offer(MOST - row // 10, 958_904, 200_000 - row % 2, stamp=LATEST, step=1 + row % 10) for row in range(600)]
    yield "60 resources of ten tied steps", book(ten, edition=2, **high)
    yield "a resource of ten tied steps", book(ten[:10], edition=2, cost=1_000_000, offset=0, outage=5_000, requirement=1_500_000)
    yield "a step past every range", book(ten[:-1] + [offer(MOST, MOST, MOST, block=MOST, seller=MOST, step=255)], edition=2)
    yield "no price past every range", book(ten[:-1] + [offer(MOST, None, MOST, block=MOST, stamp=LATEST, step=255)], edition=2)
    yield "no prices", book([offer(MOST - row, None, step=255) for row in range(600)], edition=2)
    yield "the last step is step 1 again", book(ten[:-1] + [offer(MOST - 59, 958_904, step=1)], edition=2)
    yield "the last step is left out", book(ten[:-2] + ten[-1:], edition=2)
    yield "more than is read", bytes(70_000)


def shipped_books():
    root = HERE.parent.parent
    for path in sorted(root.glob("*/**/*.book")):
        if "target" not in path.parts:
            yield path.relative_to(root), path.read_bytes()


def kind(text):
    """By what a page's book is refused, or that it is accepted."""
    return next((line.split(" at ")[0] for line in text.split("\n") if line.startswith("refused ")), "accepted")


def faults(name, data, said):
    if said != page(data):
        yield f"explain writes something else than page.py: {name}"
    for line in said.split("\n"):
        if len(line) > 80:
            yield f"{name}: a line of {len(line)} letters: {line}"
            break


def main():
    program = sys.argv[1]
    failed, kinds = [], collections.Counter()
    for name, data in [*shipped_books(), *largest_books(), *random_books(RANDOM)]:
        said = subprocess.run([program], input=data, capture_output=True, check=True).stdout.decode()
        failed += faults(name, data, said)
        kinds[kind(said)] += 1
    failed += [f"no book is {missing}" for missing in KINDS if not kinds[missing]]
    for line in failed[:20]:
        print(line)
    print(f"{kinds.total()} books explained, {len(failed)} wrong")
    sys.exit(1 if failed else 0)


if __name__ == "__main__":
    main()
