"""What a caller relies on: the roots from which everything that must be believed is reached, list after list."""
import re

from tree import ROOT
from words import Unread

# the one call that desks make
CLEAR = ["call::clear"]
# what else callers call; of a crate alone, every function that it exports
CALLS = ["call::quote", "book::verdict", "book::soundness", "layout::reader::own_bytes", "report::put_report", "ozpinduru"]
# the theorems that this section of README.md names, and tables of theorems
THEOREMS = "## What is proved"
TABLES = ["reference/proofs/Starred"]
# every public function of two crates
WORKINGS = ["readout", "workings"]
# of what callers call, the page for a desk, which has a list of its own
PAGE = [f"ozpinduru::explained::{name}" for name in ("ozp_explain", "ozp_explain_head", "ozp_explain_row")]


def contracts(tree, names):
    """The contracts of functions by their paths."""
    for name in names:
        crate, *modules = name.split("::")
        if modules:
            file = tree.file(crate, "src/" + ("/".join(modules[:-1]) or "lib"))
            if "fn " + modules[-1] not in file.own:
                raise Unread(f"no function {name}")
            yield file.own["fn " + modules[-1]]
        else:
            yield from public(tree, crate)


def public(tree, crate):
    """The functions that a crate exports; where it exports none, those that are public."""
    folder = ROOT / "crates" / crate
    files = [tree.file(crate, str(path.relative_to(folder).with_suffix(""))) for path in sorted(folder.glob("src/**/*.rt"))]
    found = [made for file in files for made in file.found if made.kind == "contract" and made.public]
    return [made for made in found if made.exported] or found


def is_function(tree, name):
    """Whether the code has a function of this name."""
    paths = [path for crate in tree.crates for path in (ROOT / "crates" / crate / "src").rglob("*.rt")]
    return any(re.search(rf"\bfn {name}\(", path.read_text()) for path in paths)


def theorems(tree):
    """The theorems that README.md names, and those of the tables."""
    section = (ROOT / "README.md").read_text().split(THEOREMS, 1)[1].split("\n## ")[0]
    files = [path for crate in tree.crates for path in sorted((ROOT / "crates" / crate / "proofs").glob("*.antt"))]
    for name in re.findall(r"`([\w']+(?:[-_][\w']+)+)`", section):
        there = [path for path in files if re.search(rf"^ *pub {name}(?= |$)", path.read_text(), re.M)]
        if not there and is_function(tree, name):
            continue
        if len(there) != 1:
            tree.errors.append(f"README.md names `{name}`, of which there are {len(there)} among the proofs")
            continue
        yield tree.file(there[0].parts[-3], f"proofs/{there[0].stem}").own[name]
    for table in TABLES:
        crate, _, name = table.partition("/")
        yield from (made for made in tree.file(crate, name).found if made.kind == "definition" and made.modifiers == ["pub"])


def lists(tree):
    """Each list of roots by its name, with what it says."""
    page = list(contracts(tree, PAGE))
    return {
        "clear": ("the contract of `clear`", list(contracts(tree, CLEAR))),
        "calls": ("the contracts of what else callers call", [made for made in contracts(tree, CALLS) if made not in page]),
        "theorems": ("the theorems that README.md names", list(theorems(tree))),
        "workings": ("what the functions of `readout` and `workings` promise", list(contracts(tree, WORKINGS))),
        "page": ("what the pages for a desk promise", page),
    }
