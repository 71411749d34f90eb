"""What the tests share: the repository's folders on the path of imports, and its books."""
import pathlib
import sys

ROOT = pathlib.Path(__file__).resolve().parents[3]
PYTHON = ROOT / "bindings" / "python"
VERDICTS = ROOT / "crates" / "verdicts"
sys.path[:0] = [str(PYTHON), str(ROOT / "tests")]


def reference():
    return (ROOT / "examples" / "reference.book").read_bytes()


def verdicts():
    """Each book of the program `verdicts`: its name, its bytes, what clearing says of it, and how many rows are read."""
    for line in (VERDICTS / "stdout").read_text().splitlines():
        name, said = line.split(": ")
        yield name, (VERDICTS / "data" / name).read_bytes(), said.split(", ")[0], int(said.split()[-1])


def pairs():
    """Each pair of tests/comparisons: its name, both books, and what is due."""
    for path in sorted((ROOT / "tests" / "comparisons").glob("*.txt")):
        first, second = (path.with_suffix(f".{which}.book").read_bytes() for which in ("first", "second"))
        yield path.stem, first, second, path.read_text().strip()


def soundness():
    """What the program `verdicts` says of each book by its name: sound, or by what it is not."""
    lines = (line.split(": ") for line in (VERDICTS / "stdout").read_text().splitlines())
    return {name: said.split(", ")[1] for name, said in lines}


def shipped():
    """Every book that ships with the project."""
    tests = [ROOT / "tests" / name for name in ("clearings", "comparisons", "explain")]
    folders = (VERDICTS / "data", ROOT / "examples", *tests)
    return [path for folder in folders for path in sorted(folder.glob("*.book"))]
