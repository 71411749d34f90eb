"""What the names of a file stand for, by its `use` lines."""
import re
from typing import NamedTuple

from words import Unread


class Target(NamedTuple):
    """A name and where it stands. The part is specs, proofs or src; of the kit there is only a path."""
    crate: str | None
    part: str
    path: str
    name: str


def module_of(path, crates):
    """The crate, the part and the path in it of a module: `Rattle.A.specs.B`."""
    found = re.fullmatch(r"Rattle\.(\w+)\.(specs|proofs)\.(.+)", path)
    if not found or found[1] not in crates:
        return None, "", path
    return found[1], found[2], found[3]


def target(path, name, crates):
    """What a name of a module is: a type that the code declares, the contract of a function, or a definition."""
    crate, part, inside = module_of(path, crates)
    steps = inside.split(".")
    if crate and steps[0] == "declared":
        steps = [step for step in steps[1:] if step != "TheVariants"]
        return Target(crate, "src", "/".join(steps[:-1]) or "lib", steps[-1])
    if crate and steps[-1] == "Reads":
        return Target(crate, "src", "/".join(steps[:-2]) or "lib", "fn " + steps[-2])
    return Target(crate, part, inside.replace(".", "/"), name)


class Imports:
    """The names that a file imports."""

    def __init__(self, crates):
        self.crates = crates
        self.names = {}
        self.modules = {}
        self.handed_on = set()

    def add(self, line):
        found = re.fullmatch(r"(pub |ghost )?use ([^\s{]+?)(?:\.\{([^}]*)\}| as (\S+))?;?", line.strip())
        if not found:
            raise Unread(line)
        if found[3] is None:
            self.modules[found[4] or found[2].rpartition(".")[2]] = found[2]
        for item in filter(None, (item.strip() for item in (found[3] or "").split(","))):
            name, _, here = item.partition(" as ")
            self.names[here or name] = target(found[2], name, self.crates)
            if found[1] == "pub ":
                self.handed_on.add(here or name)

    def find(self, word):
        """What a word stands for, or None. Of `◌a◌` the middle is the word, and a module's name may stand in front."""
        if word in self.names:
            return self.names[word]
        for name, place in self.names.items():
            if "◌" in name and word in name.split("◌"):
                return place
        front, dot, name = word.rpartition(".")
        if dot and front in self.modules:
            return target(self.modules[front], name, self.crates)
        if dot and front.startswith("Rattle."):
            return target(front, name, self.crates)
        return self.find(front) if dot else None
