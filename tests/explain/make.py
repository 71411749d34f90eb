#!/usr/bin/env python3
"""Makes the books that the program `explain` is run on.

    tests/explain/make.py            writes crates/explain/stdin and tests/explain/*.book, with what is expected of each
    tests/explain/make.py --check    says whether they are what it would write

What is expected comes from page.py: crates/explain/stdout, and NAME.txt beside each book.
"""
import pathlib
import sys

HERE = pathlib.Path(__file__).resolve().parent
PROGRAM = HERE.parent.parent / "crates" / "explain"
sys.path[:0] = [str(HERE), str(HERE.parent)]
sys.dont_write_bytecode = True
from write_book import book  # noqa: E402
from books import FOUR, books  # noqa: E402
from page import page  # noqa: E402


def files():
    yield PROGRAM / "stdin", book(FOUR)
    yield PROGRAM / "stdout", page(book(FOUR)).encode()
    for name, data in books():
        yield HERE / f"{name}.book", data
        yield HERE / f"{name}.txt", page(data).encode()


def main():
    made = dict(files())
    stray = [path for kind in ("*.book", "*.txt") for path in HERE.glob(kind) if path not in made]
    if sys.argv[1:] == ["--check"]:
        wrong = stray + [path for path, data in made.items() if not path.is_file() or path.read_bytes() != data]
        for path in wrong:
            print(f"not what tests/explain/make.py makes: {path.name}")
        sys.exit(1 if wrong else 0)
    for path in stray:
        path.unlink()
    for path, data in made.items():
        path.write_bytes(data)


if __name__ == "__main__":
    main()
