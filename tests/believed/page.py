"""Writes docs/BELIEVED.md: everything that the roots rest on, in the order of a book's path."""
from outline import ids, ids_of

HEAD = """# What must be believed

Every definition that the public contracts and the theorems of README.md speak of, all the way down. Who believes that these say what the outline says, and believes the toolchain, has no other definition of this project to read. `tests/believed/run --write` writes this list from the crates, and `--check` fails where it is old, where a definition of a crate's specs is reached by no contract and no theorem, and where one of specs/inner, which is for the proofs alone, is reached.

Crates stand in the order of a book's path, each after those that it rests on. Lines are counted without comments and imports. Under *for* stands the first of these lists that reaches a definition; ″ says that the sentence above is said of this definition too.

"""


def order(tree, reached):
    """The crates that are reached, each after those below it, and else in the order in which their definitions are reached."""
    by_path = sorted(reached.values(), key=lambda made: not made.file.startswith("specs/"))
    waiting = list(dict.fromkeys(made.crate for made in by_path))
    while waiting:
        ready = next(crate for crate in waiting if not set(tree.below[crate]) & set(waiting))
        yield ready
        waiting.remove(ready)


def row(*cells):
    return "| " + " | ".join(str(cell).replace("|", "\\|") for cell in cells) + " |\n"


def table(*titles):
    return row(*titles) + "|" + "---|" * len(titles) + "\n"


def counts(lists, reached, first):
    """How many definitions and lines each list adds, and all together."""
    text = table("for", "what", "definitions", "lines", "in specs", "types of the code", "in proofs", "contracts")
    for name, (says, _) in lists.items():
        text += row(name, says, *numbers([made for key, made in reached.items() if first[key] == name]))
    return text + row("", "together", *numbers(list(reached.values()))) + "\n"


def numbers(made):
    """How many definitions there are, their lines, and these by where they stand."""
    kinds = [one.kind if one.kind in ("type", "contract") else one.file.split("/")[0] for one in made]
    lines = [sum(one.length for one, of in zip(made, kinds) if of == kind) for kind in ("specs", "type", "proofs", "contract")]
    return sum(listed(one) for one in made), sum(lines), *lines


def listed(made):
    """A definition: not the arguments of a module, and no contract or theorem from which the walk starts."""
    return made.kind != "module" and not made.root


def stated(lists):
    """The contracts and the theorems themselves."""
    text = "## The contracts and the theorems\n\n" + table("name", "where", "for", "lines", "what it says")
    made = [(name, one) for name, (_, roots) in lists.items() for one in roots]
    for (name, one), says in zip(made, said(one for _, one in made)):
        text += row(f"`{one.name.removeprefix('fn ')}`", f"{one.crate}/{one.file}", name, one.length, says)
    return text + "\n"


def said(made):
    """The sentence over each; where the one before has the same, a mark."""
    before = None
    for one in made:
        yield "″" if one.sentence == before else one.sentence
        before = one.sentence


def crate_text(tree, crate, reached, first, outline):
    """The definitions of a crate by file: the types of its code, its specs, and what stands in its proofs."""
    text = f"## {crate}\n\n"
    files = list(dict.fromkeys(made.file for made in reached.values() if made.crate == crate))
    places = {f"specs/{path}": place for place, path in enumerate(tree.modules(crate))}
    parts = ["src", "specs", "proofs"]
    for file in sorted(files, key=lambda file: (parts.index(file.split("/")[0]), places.get(file, 0), file)):
        here = (one for one in reached.values() if (one.crate, one.file) == (crate, file) and listed(one))
        made = sorted(here, key=lambda one: one.line)
        if made:
            text += f"**{file}.** {tree.file(crate, file).header}".rstrip() + "\n\n"
            text += table("definition", "lines", "for", "what it says", "outline")
            for one, says in zip(made, said(made)):
                name = one.name.removeprefix("fn ")
                text += row(f"`{name}`", one.length, first[one.key], says, ", ".join(ids_of(outline, one)))
            text += "\n"
    return text if text.count("\n") > 2 else ""


def kit(tree):
    """The names of the toolchain's own libraries that the definitions are written with."""
    text = "## Of the toolchain\n\nThe definitions are written with these names of the toolchain's libraries.\n\n"
    text += table("library", "names")
    for path in sorted(tree.kit):
        text += row(path.replace("/", "."), ", ".join(f"`{name}`" for name in sorted(tree.kit[path])))
    return text


def page(tree, lists, reached, first):
    """The whole list."""
    outline = ids(tree)
    text = HEAD + counts(lists, reached, first) + stated(lists)
    for crate in order(tree, reached):
        text += crate_text(tree, crate, reached, first, outline)
    return text + kit(tree)
