"""Which sentences of the outline docs/TRACE.md leads to each definition."""
import re

from tree import ROOT
from words import Unread


def named(cell):
    """The names in a cell of the table; a file in brackets says where the names before it stand.

    Behind `contract of` stands a function, and behind `contracts of` several, up to the next `;`: a law has a hyphen.
    """
    for part in cell.split(";"):
        waiting, several = [], False
        for function, name, place in re.findall(r"(contracts? of )?`([^`]+)`|\((\w+/(?:specs|proofs)/[\w/]+)\)", part):
            if name:
                several = several or function.startswith("contracts")
                waiting += [] if function or several and "-" not in name else [name]
            else:
                yield from ((name, place) for name in waiting)
                waiting = []
        yield from ((name, None) for name in waiting)


def ids(tree):
    """The ids by name, and by file and name; a name that stands elsewhere than the table says is an error."""
    found = {}
    for row in re.findall(r"^\| ([A-Z0-9]+-\d+) \|([^|]*)\|([^|]*)\|", (ROOT / "docs/TRACE.md").read_text(), re.M):
        for name, place in (pair for cell in row[1:] for pair in named(cell)):
            if place and not stands(tree, place, name):
                tree.errors.append(f"docs/TRACE.md, {row[0]}: `{name}` is not in {place}")
            of = found.setdefault((place, name), [])
            of += [row[0]] if row[0] not in of else []
    return found


def stands(tree, place, name):
    crate, _, file = place.partition("/")
    try:
        return name in tree.file(crate, file).own
    except Unread:
        return False


def ids_of(found, made):
    """The ids of one definition. A name without a file is the one whose file another row gives, if any does."""
    place, name = f"{made.crate}/{made.file}", made.name
    elsewhere = any(other == name and where not in (None, place) for where, other in found)
    here = found.get((place, name), [])
    plain = [] if elsewhere and not here else found.get((None, name), [])
    return sorted(set(here + plain), key=lambda one: (one.split("-")[0], int(one.split("-")[1])))
