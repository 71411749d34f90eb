#!/usr/bin/env python3
"""Brings the names of definitions and lemmas to snake case: types, facts and modules keep their upper camel case.

usage: tools/respell.py [ROOT]

It ran once, after the kit's port.py, and works by text: in each .antt and .rt file and each must-fail edit below ROOT/crates a
word that begins with a small letter and has a capital behind a small letter or a digit gets an underscore there, as
`clearedTotal` to `cleared_total` and `listOf-last` to `list_of-last`. Strings of a .rt file keep their text. In the pages the
code spans are turned. A name that a library declares stays. A lemma that would meet its definition gets `_lem` behind it.
"""
import os
import re
import sys

WORD = re.compile(r"(?<![\w'\-])[a-z][\w'\-₀-₉]*")
HUMP = re.compile(r"(?<=[a-z0-9])([A-Z])")
STRING = re.compile(r'"(?:\\.|[^"\\\n])*"')
SPAN = re.compile(r"`[^`\n]+`")

# lemmas whose name would be their definition's, by the file that declares them
MET = {
    "crates/compare/proofs/Applying.antt": "field_apart",
    "crates/encoding/proofs/HeadHolds.antt": "count_fits",
    "crates/steps/proofs/Following.antt": "step_follows",
    "crates/writer/proofs/Blocks.antt": "block_made",
}


def snake(word):
    """The word with an underscore before each hump; a type that stands behind a dash or an underscore keeps its capital."""
    return HUMP.sub(lambda m: "_" + m[1].lower(), word)


def turned(text):
    return WORD.sub(lambda m: snake(m[0]), text)


def outside(skip, text):
    """The text turned, but for what `skip` finds."""
    out, at = [], 0
    for m in skip.finditer(text):
        out += [turned(text[at : m.start()]), m[0]]
        at = m.end()
    return "".join(out + [turned(text[at:])])


def inside(span, text):
    return span.sub(lambda m: turned(m[0]), text)


def respelled(path, root):
    with open(path, encoding="utf-8") as f:
        text = f.read()
    new = text
    name = os.path.relpath(path, root)
    if name in MET:
        new = re.sub(rf"(?<![\w'\-.]){MET[name]}(?![\w'\-])", MET[name] + "_lem", new)
    if path.endswith(".md"):
        new = inside(SPAN, new)
    elif path.endswith((".rt", ".edit")):
        new = outside(STRING, new)
    else:
        new = turned(new)
    if new != text:
        with open(path, "w", encoding="utf-8") as f:
            f.write(new)
    return new != text


def main():
    root = os.path.abspath(sys.argv[1] if len(sys.argv) > 1 else ".")
    paths = [os.path.join(root, n) for n in ("README.md", "CONTRIBUTING.md")]
    for top in ("crates", "docs"):
        for folder, dirs, files in os.walk(os.path.join(root, top)):
            dirs[:] = sorted(d for d in dirs if d != "out")
            ends = (".antt", ".rt", ".edit") if top == "crates" else (".md",)
            paths += [os.path.join(folder, f) for f in sorted(files) if f.endswith(ends)]
    print(sum(respelled(p, root) for p in paths), "files respelled")


main()
