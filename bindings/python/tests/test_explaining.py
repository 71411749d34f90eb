"""The page of a book: the functions, beside tests/explain/pages.py, and the word `ozp explain`."""
import ctypes
import functools
import sys
import unittest

from shared import ROOT, VERDICTS, reference
from test_command import NOTHING, REFERENCE, STEPS, UNPRICED, ozp
from test_files import inside
from ozpinduru import _library as c
from ozpinduru import explain, explain_head, report
from write_book import book, many

sys.path.append(str(ROOT / "tests" / "explain"))
from pages import pages, shipped  # noqa: E402

CUT = VERDICTS / "data" / "length-511.book"
HELD = b"\xa5"
NO_TEXT, SHORT = (0, c.NONE, c.NO_VALUE, c.NO_VALUE), (2**64 - 1, c.REFUSED, 20, 0)


@functools.lru_cache(None)
def due():
    """Of every book that ships its path, its bytes and its pages."""
    return [(path, data, list(pages(data))) for path, data in shipped()]


def said(data, which):
    """A page by the package's functions; nothing where there is none."""
    try:
        return explain(data) if which == "page" else explain_head(data) if which == "head" else explain(data, which)
    except IndexError:
        return ""


def put(data, which, lent):
    """The answer of the library's own call, and what it leaves in room of so many bytes and behind it."""
    room = ctypes.create_string_buffer(HELD * (lent + 64), lent + 64)
    call = {"page": c.library.ozp_explain, "head": c.library.ozp_explain_head}.get(which, c.library.ozp_explain_row)
    text = call(data, len(data), *([] if isinstance(which, str) else [which]), room, lent)
    return (text.bytes, text.kind, text.number, text.place), room.raw


class Explains(unittest.TestCase):
    def test_every_book_that_ships(self):
        for path, data, texts in due():
            with self.subTest(path):
                for which, text in texts:
                    self.assertEqual(said(data, which), text, which)
                    self.assertLessEqual(max(map(len, text.split("\n"))), 80, which)
        self.assertGreater(sum(len(texts) for _, _, texts in due()), 1_000)

    def test_rooms(self):
        """Just long enough, one byte short, longer, and none: byte for byte, before the end of the room and behind it; the page of
        many rows in the first two."""
        for path, data, texts in due():
            for which, text in ((which, text.encode()) for which, text in texts):
                for lent in [len(text), max(len(text) - 1, 0), len(text) + 64, c.PAGE_BYTES, 0][:2 if len(text) > 20_000 else 5]:
                    with self.subTest(path, which=which, lent=lent):
                        given = (len(text), c.GIVEN, c.NO_VALUE, c.NO_VALUE)
                        answer, kept = (NO_TEXT, b"") if not text else (SHORT, b"") if lent < len(text) else (given, text)
                        self.assertEqual(put(data, which, lent), (answer, kept + HELD * (lent + 64 - len(kept))))

    def test_parts(self):
        data = reference()
        page, rows = explain(data), [explain(data, row) for row in range(3)]
        self.assertEqual(page, f"{explain_head(data)}\nThe rows\n{''.join(rows)}")
        self.assertEqual([explain(bytearray(data)), explain(memoryview(data), row=True)], [page, rows[1]])
        long = book(many(600))
        self.assertTrue(explain(long).startswith(explain_head(long)))
        self.assertTrue(explain(long, 599).startswith("row 599, resource 600: "))

    def test_refused(self):
        """A refused book has a page, and so have its rows where it can be read."""
        data = (VERDICTS / "data" / "no-price-in-row-0.book").read_bytes()
        self.assertEqual(report(data), "refused 6 0\n")
        self.assertIn("\nrefused 6 at row 0\n", explain(data))
        self.assertEqual(explain_head(data), explain(data))
        self.assertIn("\n    price not entered\n", explain(data, 0))
        self.assertTrue(explain(b"").startswith("refused 1 at 0\n  the length is 0 bytes\n"))

    def test_rows_that_are_not_there(self):
        for row in (3, 599, 600, -1, 2**32, 2**64, 2**64 + 1, -2**70):
            self.assertRaisesRegex(IndexError, f"^the book has no row {row}$", explain, reference(), row)
        for data in (b"", CUT.read_bytes(), reference()[:512]):
            self.assertRaises(IndexError, explain, data, 0)

    def test_misuse(self):
        for call in (lambda: explain("RPMB"), lambda: explain(512), lambda: explain_head(None), lambda: explain(reference(), "1"),
                     lambda: explain(reference(), 1.0)):
            self.assertRaises(TypeError, call)


class Command(unittest.TestCase):
    def test_page(self):
        self.assertEqual(ozp("explain", REFERENCE), (0, explain(reference()), ""))
        self.assertEqual(ozp("explain", "-", input=reference()), (0, explain(reference()), ""))
        self.assertEqual(inside("explain", NOTHING)[::2], (0, ""))

    def test_readme(self):
        """The row that README.md shows."""
        self.assertIn(f"```\n{explain(reference(), 2)}```\n", (ROOT / "README.md").read_text())

    def test_rows(self):
        for row in range(3):
            self.assertEqual(inside("explain", REFERENCE, "--row", str(row)), (0, explain(reference(), row), ""))
        self.assertEqual(ozp("explain", "--row", "2", "-", input=reference())[:2], (0, explain(reference(), 2)))
        self.assertEqual(inside("explain", REFERENCE, "--resource", "13"), (0, explain(reference(), 2), ""))

    def test_steps(self):
        """Every row of the resource, in order."""
        with open(STEPS, "rb") as file:
            data = file.read()
        rows = "".join(explain(data, row) for row in range(4))
        self.assertEqual(inside("explain", STEPS, "--resource", "11"), (0, rows, ""))
        self.assertEqual([line[:5] for line in rows.splitlines() if line.startswith("row")], ["row 0", "row 1", "row 2", "row 3"])

    def test_refused(self):
        with open(UNPRICED, "rb") as file:
            data = file.read()
        self.assertEqual(ozp("explain", UNPRICED), (1, explain(data), ""))
        self.assertEqual(inside("explain", UNPRICED, "--row", "0"), (1, explain(data, 0), ""))
        for words in ([], ["--row", "0"], ["--resource", "11"]):
            self.assertEqual(inside("explain", str(CUT), *words), (1, explain(CUT.read_bytes()), ""))

    def test_not_there(self):
        for words, line in [(["--row", "3"], "there is no row 3"), (["--row", str(2**64)], f"there is no row {2**64}"),
                            (["--resource", "14"], "no row has resource 14"), (["--resource", "0"], "no row has resource 0")]:
            self.assertEqual(inside("explain", REFERENCE, *words), (2, "", f"ozp: {REFERENCE}: {line}\n"))
        self.assertEqual(inside("explain", UNPRICED, "--row", "600")[0], 2)
        self.assertEqual(inside("explain", NOTHING, "--row", "0")[0], 2)

    def test_usage(self):
        for words in (["explain"], ["explain", REFERENCE, REFERENCE], ["explain", REFERENCE, "--row", "-1"],
                      ["explain", REFERENCE, "--row", "one"], ["explain", REFERENCE, "--row", "1", "--resource", "13"],
                      ["explain", REFERENCE, "--json"], ["explain", "/nowhere"]):
            with self.subTest(words):
                status, out, wrong = inside(*words)
                self.assertEqual((status, out, len(wrong.splitlines())), (2, "", 1))
                self.assertRegex(wrong, "^ozp")
        with open("/dev/full", "w") as full:
            self.assertEqual(ozp("explain", REFERENCE, stdout=full)[::2], (2, "ozp: standard output: No space left on device\n"))
