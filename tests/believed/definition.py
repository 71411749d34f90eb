"""A definition of a file of definitions or proofs: its lines, and the names that it speaks of."""
from dataclasses import dataclass

from words import Walk, is_name, split_equation, words


@dataclass
class Definition:
    """A definition, a record, or the arguments that a module gives to all that stand in it."""
    crate: str
    file: str
    name: str
    line: int
    # the lines of its type and of each equation, or of a record's head and of each field
    heads: list
    sentence: str
    # the module in which it stands
    inside: object
    kind: str
    modifiers: list
    # what the file imports, and what it defines
    imports: object
    own: dict
    # a theorem from which the walk starts, and a name that its file has twice
    root: bool = False
    twice: bool = False

    @property
    def key(self):
        return self.crate, self.file, self.name

    @property
    def length(self):
        """Its lines; of a theorem those of its statement."""
        return sum(len(head) for head in self.heads[:1 if self.root else None])

    def texts(self):
        return [" ".join(line.strip() for line in head) for head in self.heads]

    def bound(self):
        """What the modules around it bind."""
        return set() if self.inside is None else self.inside.walk().bound

    def walk(self):
        """The free names of a module's arguments, and what they bind."""
        found = words(self.texts()[0])
        return Walk(found[2:found.index("where")], self.bound())

    def stated(self):
        """The free names of its type."""
        if self.kind == "module":
            return self.walk().free
        first = words(self.texts()[0])
        if self.kind == "record":
            return self.fields(first)
        colon = first.index(":")
        return Walk(first[colon + 1:], self.bound() | {word for word in first[:colon] if is_name(word)}).free

    def fields(self, first):
        """A record is a head and its fields; a field may speak of the arguments and of the fields before it."""
        start = first.index(self.name) + 1
        walk = Walk(first[start:first.index("where")], self.bound())
        free, bound = walk.free, walk.bound
        for text in self.texts()[1:]:
            found = [word for word in words(text) if word != "pub"]
            free = free + Walk(found[found.index(":") + 1:], bound).free
            bound = bound | {found[0]}
        return free

    def types(self):
        """Types of the code are imported like any other name."""
        return []

    def equations(self):
        """The sides of each equation."""
        if self.kind == "definition":
            for text in self.texts()[1:]:
                if not text.startswith("unfolding "):
                    yield split_equation(words(text))
