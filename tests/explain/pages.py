#!/usr/bin/env python3
"""The pages of books as page.py has them, for the tests of callers.

    tests/explain/pages.py            of every book that ships with the project
    tests/explain/pages.py --short    the same without the whole page of many rows, which takes long where memory is watched
    tests/explain/pages.py CALLS      of the books of calls, as `oracle calls` writes them: the page, the head and a row; of many rows the
                                      row alone, and the head of one book in ten

Each page is a line and the bytes of its text: the book's path, or the call's number; `page`, `head` or the number of a row; and how
many bytes follow, 0 where the book has no such row.
"""
import functools
import pathlib
import struct
import sys

HERE = pathlib.Path(__file__).resolve().parent
ROOT = HERE.parent.parent
FOLDERS = ("crates/verdicts/data", "examples", "tests/clearings", "tests/comparisons", "tests/explain")
FEW, MANY = 15, 100

sys.path.insert(0, str(HERE))
sys.dont_write_bytecode = True
import outline  # noqa: E402
from page import head, page, row_page  # noqa: E402

# a book is worked once for all of its pages
outline.Book = functools.lru_cache(1)(outline.Book)


def rows(book):
    """How many rows block 0 states; of no more than a book has blocks for."""
    stated = struct.unpack_from("<H", book, 24)[0] if len(book) >= 512 else 0
    return min(stated, len(book) // 512 * FEW)


def pages(book, whole=True):
    """The page, whole or only where it has not many rows, the head, and rows: all of a few, else some of them; and the one behind the
    last, which is not there."""
    count = rows(book)
    if whole or count < MANY:
        yield "page", page(book)
    yield "head", head(book)
    for row in range(count + 1) if count <= FEW else (0, FEW - 1, FEW, count // 2, count - 1, count):
        yield row, row_page(book, row)


def some_pages(book, number):
    """Some of them, by a number."""
    count = rows(book)
    if count < MANY:
        yield "page", page(book)
    if count < MANY or number % 10 == 0:
        yield "head", head(book)
    yield number % (count + 1), row_page(book, number % (count + 1))


def shipped():
    """Each book that ships, by its path in the project."""
    for folder in FOLDERS:
        for path in sorted((ROOT / folder).glob("*.book")):
            yield path.relative_to(ROOT), path.read_bytes()


def called(data):
    """The books of calls by number: behind a head of 64 bytes, which has the lengths of what follows."""
    at = number = 0
    while at < len(data):
        book_bytes, filled = struct.unpack_from("<I8xI", data, at + 44)
        yield number, data[at + 64:at + 64 + book_bytes]
        at += 64 + book_bytes + 8 * filled
        number += 1


def main():
    asked = sys.argv[1:]
    if asked in ([], ["--short"]):
        found = ((path, page) for path, book in shipped() for page in pages(book, not asked))
    else:
        found = ((number, page) for number, book in called(pathlib.Path(asked[0]).read_bytes()) for page in some_pages(book, number))
    for name, (which, text) in found:
        sys.stdout.write(f"{name} {which} {len(text)}\n{text}")


if __name__ == "__main__":
    main()
