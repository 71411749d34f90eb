"""The words of a definition, and which of them are free.

A word is what stands between spaces and brackets. A name that is bound, by an argument, by λ or by let, hides a definition of
the same name up to the end of the brackets in which it is bound.
"""
import re

OPEN, CLOSE = "({⌜", ")}⌝"
# what the language itself has: no import brings these names
LANGUAGE = {"→", "×", "Type", "⊥", "tt", "_", ":", "=", ".", ",", ";", "record", "in"}


class Unread(Exception):
    """Something stands in a file that these scripts cannot read."""


def words(text):
    """The words of a text in order, without what stands in quotes; a dot that ends the names after λ stands for itself."""
    found = []
    for word in re.sub(rf"([{re.escape(OPEN + CLOSE)},;])", r" \1 ", re.sub(r'"[^"]*"', "0", text)).split():
        if len(word) > 1 and word.endswith("."):
            found += [word[:-1], "."]
        else:
            found.append(word)
    return found


def is_name(word):
    """What stands behind a dot of its own is a field of what stands before it."""
    return not (word in LANGUAGE or word in OPEN or word in CLOSE or word[0] == "." or word.isdigit())


def split_equation(found):
    """Both sides of an equation."""
    depth = 0
    for place, word in enumerate(found):
        depth += (word in OPEN) - (word in CLOSE)
        if word == "=" and depth == 0:
            return found[:place], found[place + 1:]
    raise Unread("no equation: " + " ".join(found))


def bound_here(found, place):
    """The names that the bracket at this place binds: `(a b : …)`."""
    names = []
    for word in found[place + 1:]:
        if word == ":":
            return names
        if not is_name(word):
            return []
        names.append(word)
    return []


def is_field(found, place):
    """A name that `record { … }` gives a value."""
    return found[place + 1:place + 2] == ["="] and found[place - 1] in "{;"


class Walk:
    """Goes over words once. `free` holds the free names in order, `bound` what is bound where the words end.

    A scope is what is bound inside a bracket, with what the bracket binds for the words behind it.
    """

    def __init__(self, found, bound=()):
        self.free = []
        self.scopes = [(set(bound), []), (set(), [])]
        self.lets = []
        place = 0
        while place < len(found):
            place = self.step(found, place)
        if len(self.scopes) != 2:
            raise Unread("brackets do not match: " + " ".join(found))
        self.bound = self.scopes[0][0] | self.scopes[1][0]

    def bind(self, names):
        self.scopes[-1][0].update(names)

    def step(self, found, place):
        word = found[place]
        if word in OPEN:
            names = bound_here(found, place)
            self.scopes.append((set(), names))
            return place + len(names) + (2 if names else 1)
        elif word in CLOSE:
            self.bind(self.scopes.pop()[1])
        elif word in ",;":
            self.scopes[-1][0].clear()
        elif word in ("λ", "let"):
            end = found.index("." if word == "λ" else "=", place)
            if found[place + 1] in OPEN:
                return place + 1
            names = found[place + 1:end]
            if word == "let" and ":" in names:
                self.lets.append(names[0])
                return place + 2 + names.index(":")
            if not all(name == "_" or is_name(name) for name in names):
                raise Unread(f"bound after {word}: " + " ".join(names))
            if word == "λ":
                self.bind(names)
            else:
                self.lets.append(names[0])
                self.bind(names[1:])
            return end + 1
        elif word == "in":
            self.bind([self.lets.pop()])
        elif is_name(word) and not is_field(found, place) and not self.is_bound(word.partition(".")[0]):
            self.free.append(word)
        return place + 1

    def is_bound(self, name):
        return any(name in names for names, _ in self.scopes)
