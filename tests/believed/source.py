"""Reads a file of code: the types that it declares, and the contracts of its functions."""
import re
from dataclasses import dataclass, field

from imports import Imports, Target
from words import Unread, Walk, words

TYPE = re.compile(r"(?:pub(?:\(crate\))? )?(?:struct|enum) (\w+)")
FUNCTION = re.compile(r"(pub(?:\(crate\))? )?(extern \"C\" )?fn (\w+)")


# the types that code has without an import
PRELUDE = {"Option", "Result", "Self"}


def clause(line):
    return line.strip().startswith(("requires", "ensures"))


@dataclass
class Declared:
    """A struct, an enum, or the contract of a function."""
    crate: str
    file: str
    name: str
    line: int
    lines: list
    sentence: str
    kind: str
    imports: object
    own: dict
    public: bool = False
    exported: bool = False
    signature: str = ""
    arguments: set = field(default_factory=set)
    inside: object = None
    root: bool = False
    twice: bool = False

    @property
    def key(self):
        return self.crate, self.file, self.name

    @property
    def length(self):
        return len(self.lines)

    def types(self):
        """The names of types that it is written with: after a colon or in brackets."""
        texts = [self.signature] if self.signature else self.lines
        written = [part for text in texts for part in re.findall(r":(?!:)[^:]*|\(.*\)|->.*", text)]
        sizes = set(re.findall(r"\bconst (\w+):", " ".join(texts)))
        return [name for part in written for name in re.findall(r"\b[A-Z]\w*", part) if name not in PRELUDE | sizes]

    def equations(self):
        """Code has none."""
        return []

    def stated(self):
        """The free names of its clauses."""
        if self.kind != "contract":
            return []
        text = " ".join(self.lines)
        return Walk(words(re.sub(r"\b(requires|ensures)( \w+)? \{", "{", text)), self.arguments | {"result"}).free


class Source:
    """Reads one file of code."""

    def __init__(self, crate, file, path, crates):
        self.crate, self.file, self.imports, self.own, self.found = crate, file, Imports(crates), {}, []
        self.comment, self.header = [], ""
        lines = path.read_text().splitlines()
        for place, line in enumerate(lines):
            try:
                self.read(lines, place, line)
            except (Unread, ValueError) as error:
                raise Unread(f"{path}:{place + 1}: {error}") from error

    def read(self, lines, place, line):
        if line.startswith("//"):
            self.comment.append(line[2:].strip())
        elif line.startswith("ghost use "):
            self.imports.add(line)
        elif line.startswith("use "):
            self.use(line)
        elif line.startswith("pub use "):
            self.hand_on(line)
        elif TYPE.match(line):
            self.declare(TYPE.match(line)[1], place, self.body(lines, place), "type")
        elif FUNCTION.match(line):
            self.function(lines, place, FUNCTION.match(line))
        if not line.startswith(("//", "#[")):
            self.header = self.header or " ".join(filter(None, self.comment))
            self.comment = []

    def use(self, line):
        """`use a::b::T;` or `use a::b::{T, f};`: the types that it brings."""
        path, _, last = line[4:].rstrip(";").rpartition("::")
        steps = path.split("::")
        crate = self.crate if steps[0] == "crate" else steps[0]
        for name in re.findall(r"\b[A-Z]\w*", last):
            if crate in self.imports.crates:
                self.imports.names[name] = Target(crate, "src", "/".join(steps[1:]) or "lib", name)

    def hand_on(self, line):
        """`pub use a::T;`: the types of a module of this crate that it hands on."""
        path, _, last = line[8:].rstrip(";").rpartition("::")
        for name in re.findall(r"\b[A-Z]\w*", last):
            self.imports.names[name] = Target(self.crate, "src", path.replace("::", "/"), name)
            self.imports.handed_on.add(name)

    def body(self, lines, place):
        """The lines of a type, without comments."""
        last = place
        if not lines[place].rstrip().endswith(";"):
            last = lines.index("}", place)
        return [line for line in lines[place:last + 1] if not line.strip().startswith("//")]

    def declare(self, name, place, lines, kind):
        sentence = " ".join(self.comment)
        made = Declared(self.crate, "src/" + self.file, name, place + 1, lines, sentence, kind, self.imports, self.own)
        self.found.append(made)
        self.own[name] = made
        return made

    def function(self, lines, place, found):
        """A function's head goes up to the line that opens its body; a clause starts with `requires` or `ensures`."""
        last = next(at for at in range(place, len(lines)) if lines[at].endswith("{") and not clause(lines[at]))
        head = lines[place:last + 1]
        first = next((at for at, line in enumerate(head) if clause(line)), len(head))
        clauses = [line.strip() for line in head[first:] if line != "{"]
        made = self.declare("fn " + found[3], place, clauses, "contract")
        made.public, made.exported = found[1] == "pub ", bool(found[2])
        made.signature = " ".join(line.strip() for line in head[:first])
        made.arguments = set(re.findall(r"(\w+):", made.signature))
