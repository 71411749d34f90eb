"""All crates of the project: finds what a name stands for, and walks from the roots to everything that they rest on."""
import re
from pathlib import Path

from reader import Reader
from source import Source
from words import Unread, Walk, is_name

ROOT = Path(__file__).resolve().parents[2]


class Tree:
    """The crates that stand in crates.txt and under crates/; those of crates.txt alone belong to the toolchain."""

    def __init__(self):
        listed = (line.split(":") for line in (ROOT / "crates.txt").read_text().splitlines() if ":" in line)
        self.below = {head.split()[0]: rest.split() for head, rest in listed}
        self.crates = [crate for crate in self.below if (ROOT / "crates" / crate).is_dir()]
        self.files, self.errors, self.kit, self.entered = {}, [], {}, set()
        self.specs = [self.file(crate, f"specs/{path}") for crate in self.crates for path in self.modules(crate)]

    def modules(self, crate):
        """The files of a crate's specs, in the order in which the crate names them."""
        folder = ROOT / "crates" / crate / "specs"
        named = self.named(folder, "", folder / "Lib.antt") if folder.is_dir() else []
        there = {str(path.relative_to(folder))[:-5] for path in folder.rglob("*.antt")} - {"Lib"}
        makers = {path for path in there if (folder / path).is_dir()}
        for path in sorted((there - makers) ^ set(named)):
            self.errors.append(f"crates/{crate}/specs/{path}.antt and the `mod` lines do not agree")
        return [path for path in named if path in there]

    def named(self, folder, front, lib):
        """What the `mod` lines of a file name; a folder has a file of its own name with its `mod` lines."""
        found = []
        for name in re.findall(r"^(?:pub )?mod (\w+)", lib.read_text(), re.M):
            inner = folder / front / name
            found += self.named(folder, f"{front}{name}/", Path(f"{inner}.antt")) if inner.is_dir() else [front + name]
        return found

    def file(self, crate, name):
        """A file of a crate, read once: specs/…, proofs/… or src/…"""
        if (crate, name) not in self.files:
            part, _, inside = name.partition("/")
            path = ROOT / "crates" / crate / (name + (".rt" if part == "src" else ".antt"))
            if not path.is_file():
                raise Unread(f"no file {path.relative_to(ROOT)}")
            known = set(self.crates)
            self.files[crate, name] = (
                Source(crate, inside, path, known) if part == "src" else Reader(crate, name, path, known))
        return self.files[crate, name]

    def at(self, target):
        """The definition that a target names; None for what belongs to the kit."""
        if target.crate is None:
            crate = re.match(r"Rattle\.(\w+)", target.path)
            if crate and crate[1] != "std" and not any(crate[1] in below for below in self.below.values()):
                raise Unread(f"no crate {crate[1]}")
            self.kit.setdefault(target.path, set()).add(target.name)
            return None
        file = self.file(target.crate, f"{target.part}/{target.path}")
        if target.name in file.own:
            return file.own[target.name]
        if target.name in file.imports.handed_on:
            return self.at(file.imports.names[target.name])
        raise Unread(f"{target.name} is not in {target.crate}/{target.part}/{target.path}")

    def resolve(self, made, word):
        """What a free word of a definition stands for."""
        head = word.partition(".")[0]
        if head in made.own and head not in made.imports.names:
            return made.own[head]
        found = made.imports.find(word)
        if found is None:
            for name, other in made.own.items():
                if "◌" in name and word in name.split("◌"):
                    return other
            raise Unread(f"`{word}` is no argument, no definition of the file and not imported")
        return self.at(found)

    def equation(self, made, left, right):
        """The free words of an equation: on its left a constructor is one, and every other word is an argument."""
        used, bound = [], made.bound()
        for word in filter(is_name, left):
            target = made.imports.find(word)
            if word not in made.own and target and (target.crate is None or target.part == "src"):
                used.append(word)
            else:
                bound.add(word)
        return used + Walk(right, bound).free

    def used(self, made):
        """The definitions that a definition speaks of, in order; of a theorem, only those of its statement."""
        words = list(made.stated())
        if not made.root:
            words += [word for left, right in made.equations() for word in self.equation(made, left, right)]
        found = [made.inside] if made.inside is not None else []
        for word in words + made.types():
            try:
                found.append(self.resolve(made, word))
            except Unread as error:
                self.errors.append(f"crates/{made.crate}/{made.file}, {made.name}: {error}")
        return [other for other in found if other is not None and other is not made]

    def walk(self, roots, reached):
        """Adds to `reached` all that the roots rest on. Of a root only what it states counts."""
        for root in roots:
            root.root = True
            self.visit(root, reached)

    def visit(self, made, reached):
        """Adds one definition, after all that it speaks of."""
        if made.key not in reached and made.key not in self.entered:
            self.entered.add(made.key)
            if made.twice:
                self.errors.append(f"crates/{made.crate}/{made.file}: more than one {made.name}")
            try:
                used = self.used(made)
            except (Unread, ValueError) as error:
                used = []
                self.errors.append(f"crates/{made.crate}/{made.file}, {made.name}: cannot be read: {error}")
            for other in used:
                self.visit(other, reached)
            reached[made.key] = made
