"""Reads a file of definitions or proofs: its imports, and its definitions with their lines and the sentence over each."""
import re

from definition import Definition
from imports import Imports
from words import CLOSE, Unread

SIGNATURE = re.compile(r"((?:(?:pub|abbrev|unfoldable)\s+)*)(record\s+)?(\S+)((?:\s+\{\w+\})*)(?:\s|$)")


class Reader:
    """Reads one file."""

    def __init__(self, crate, file, path, crates):
        self.crate, self.file, self.imports = crate, file, Imports(crates)
        self.found, self.own, self.modules = [], {}, []
        self.comment, self.sentence, self.current, self.open = [], "", None, None
        self.header = ""
        for number, line in enumerate(path.read_text().splitlines(), 1):
            try:
                self.read(number, line)
            except (Unread, ValueError) as error:
                raise Unread(f"{path}:{number}: {error}") from error

    def read(self, number, line):
        """One line, by how far it stands in: what stands in a module stands two spaces further in than the module."""
        if not line.strip():
            self.comment = []
        elif line.lstrip().startswith("--"):
            self.remark(line.strip()[2:].strip())
        elif self.open:
            self.module_line(line)
        else:
            indent = len(line) - len(line.lstrip())
            while self.modules and indent < 2 * len(self.modules):
                self.modules.pop()
            if indent > 2 * len(self.modules):
                self.more(line, indent)
            else:
                self.head(number, line)
            self.comment = []

    def remark(self, text):
        """A line of a comment. One that opens a section stands over what follows where nothing else does."""
        if text.startswith("----"):
            self.sentence, self.comment = text.strip("- "), []
        else:
            self.comment.append(text)

    def head(self, number, line):
        """A line that starts something: an import, a module, a definition, or one more equation of the definition above."""
        text = line.strip()
        first = text.split()[0]
        if first in ("use", "mod") or text.startswith(("pub use ", "pub mod ")):
            self.header = self.header or " ".join(filter(None, self.comment)).replace("Assumes nothing.", "").strip()
            return None if "mod" in text.split()[:2] else self.imports.add(text)
        if first == "module":
            self.start(number, line, f"module at {number}", "module")
            self.open = self.current
            return self.module_line(None)
        if "ruleset" in text.split()[:2]:
            return self.start(number, line, text.split("ruleset ")[1].split()[0], "rules")
        found = SIGNATURE.match(text)
        if found[2] or text[found.end():].lstrip().startswith(":") or text.endswith(" :"):
            return self.start(number, line, found[3], "record" if found[2] else "definition", found[1].split())
        if first == "infix":
            return None
        if text in CLOSE and self.current:
            return self.current.heads[-1].append(line)
        if self.current is None or not (first in ("unfolding", self.current.name) or "◌" in self.current.name):
            raise Unread(text)
        self.current.heads.append([line])

    def start(self, number, line, name, kind, modifiers=()):
        if self.comment:
            self.sentence = " ".join(self.comment)
        inside = self.modules[-1] if self.modules else None
        self.current = Definition(self.crate, self.file, name, number, [[line]], self.sentence, inside, kind, modifiers,
                                  self.imports, self.own)
        self.found.append(self.current)
        self.current.twice = name in self.own
        self.own.setdefault(name, self.current).twice |= self.current.twice

    def module_line(self, line):
        """The arguments of a module end with `where`."""
        if line is not None:
            self.open.heads[0].append(line)
        if self.open.heads[0][-1].split()[-1] == "where":
            self.modules.append(self.open)
            self.open, self.current, self.comment = None, None, []

    def more(self, line, indent):
        """A line that goes on; of a record a line of two more spaces is a field."""
        if self.current is None:
            raise Unread(line)
        if self.current.kind == "record" and indent == 2 * len(self.modules) + 2:
            self.current.heads.append([])
        self.current.heads[-1].append(line)
