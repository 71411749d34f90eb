"""The functions of the package. Run by: python3 -m unittest discover -s bindings/python/tests"""
import ctypes
import importlib.util
import os
import re
import subprocess
import sys
import unittest
from concurrent.futures import ThreadPoolExecutor
from dataclasses import FrozenInstanceError, replace

from shared import PYTHON, ROOT, pairs, reference, verdicts
from ozpinduru import (Book, Clearing, Columns, Comparison, Curve, Fault, Offer, Parameters, Quote, Refusal, RefusedBook, Row,
                       clear, clear_columns, compare, curve, days, price_at, quote, read, report, version, words)
from write_book import REFERENCE, THREE, book, many, offer

GIVEN = Parameters(**REFERENCE)
IN_ALL = (10_000, 37_500, 637_500, 375_637_500, 137_107_687_500)
ANSWER = Clearing(*IN_ALL, [Row(11, 9_900, 9_900, 0), Row(12, 67, 67, 0), Row(13, 33, 50, 637_500)])


class Clears(unittest.TestCase):
    def test_reference(self):
        data = reference()
        self.assertEqual([clear(data), clear(bytearray(data)), clear(memoryview(data))], [ANSWER] * 3)
        self.assertEqual(quote(data), Quote(*IN_ALL))
        self.assertRaisesRegex(Refusal, "^refused 1 at 0: length not a multiple of 512", quote, data[1:])
        columns = clear_columns(data)
        self.assertIsInstance(columns, Columns)
        self.assertEqual([list(columns.cleared), list(columns.committed)], [[9_900, 67, 33], [9_900, 67, 50]])
        for column in (columns.cleared, columns.committed):
            view = memoryview(column)
            self.assertEqual((view.format, view.itemsize, view.nbytes, view.contiguous), ("I", 4, 12, True))
            self.assertEqual(ctypes.addressof(ctypes.c_char.from_buffer(column)), column.buffer_info()[0])

    @unittest.skipUnless(importlib.util.find_spec("numpy"), "NumPy is not here")
    def test_columns_in_numpy(self):
        import numpy
        column = clear_columns(reference()).cleared
        seen = numpy.frombuffer(column, numpy.uint32)
        column[1] = 68
        self.assertEqual(seen.tolist(), [9_900, 68, 33])

    def test_every_verdict(self):
        for name, data, verdict, count in verdicts():
            with self.subTest(name):
                try:
                    answer, said = clear(data), "accepted"
                    self.assertEqual([len(answer.rows), sum(r.make_whole for r in answer.rows)], [count, answer.make_whole])
                    offers = read(data).offers
                    self.assertEqual([(r.resource, r.step) for r in answer.rows], [(o.resource, o.step) for o in offers])
                except Refusal as refusal:
                    said = f"refused {refusal.number} {refusal.place}"
                    self.assertEqual(report(data), f"{said}\n")
                    self.assertRaises(Refusal, clear_columns, data)
                self.assertEqual(said, verdict)

    def test_zero_none_and_missing(self):
        self.assertEqual(clear(book([])), Clearing(0, None, 0, 0, 0, []))
        self.assertEqual(clear(book([offer(1, 50_001)])), Clearing(0, None, 0, 0, 0, [Row(1, 0, 0, 0)]))
        self.assertEqual(clear(book([offer(1, 0, 11_000)])), Clearing(10_450, 0, 0, 0, 0, [Row(1, 10_450, 10_450, 0)]))
        with self.assertRaisesRegex(Refusal, r"^refused 6 at row 16: an offer has no price$") as caught:
            clear(book(many(16) + [offer(99, None)]))
        self.assertEqual((caught.exception.number, caught.exception.place), (Fault.UNPRICED_OFFER, 16))

    def test_two_threads(self):
        for data in (book(THREE), book(many(600))):
            with ThreadPoolExecutor(2) as pool:
                self.assertEqual(list(pool.map(clear, [data] * 50)), [clear(data)] * 50)


class Reads(unittest.TestCase):
    def test_reference(self):
        offers = [Offer(11, 7, 10_000, 9_900, None, 1), Offer(12, 7, 37_500, 200, None, 2), Offer(13, 7, 37_500, 100, 50, 3)]
        self.assertEqual(read(reference()), Book(GIVEN, offers))
        self.assertRaises(FrozenInstanceError, setattr, GIVEN, "year", 2027)
        self.assertRaises(FrozenInstanceError, setattr, offers[0], "price", 0)

    def test_every_verdict(self):
        for name, data, verdict, count in verdicts():
            with self.subTest(name):
                try:
                    self.assertEqual(len(read(data).offers), count)
                    self.assertNotIn(verdict.split()[1:2], [["1"], ["2"], ["3"]])
                except Refusal as refusal:
                    self.assertEqual(f"refused {refusal.number} {refusal.place}", verdict)

    def test_missing_and_out_of_range(self):
        self.assertEqual([read(book([offer(1, price)])).offers[0].price for price in (0, None, 2**32 - 1)], [0, None, 2**32 - 1])
        missing = dict(year=65_535, cost=None, offset=0, outage=None, requirement=2**32 - 1)
        self.assertEqual(read(book([], **missing)).parameters, Parameters(**missing, margin=None))
        self.assertEqual([read(book([], margin=margin)).parameters.margin for margin in (0, None, 2**32 - 1)], [0, None, 2**32 - 1])
        extreme = Offer(2**32 - 1, 2**32 - 1, None, 2**32 - 1, 0, 2**64 - 1)
        self.assertEqual(read(book([offer(2**32 - 1, None, 2**32 - 1, 0, 2**64 - 1, 2**32 - 1)])).offers, [extreme])


class Curves(unittest.TestCase):
    def test_points_and_prices(self):
        self.assertEqual(curve(GIVEN), Curve(p1=50_000, q1=9_900, p2=18_750, q2=10_150, p3=0, q3=10_450))
        prices = {0: 50_000, 9_900: 50_000, 10_000: 37_500, 10_151: 18_687, 10_450: 0}
        self.assertEqual({k: price_at(GIVEN, k).cents for k in prices}, prices)
        self.assertEqual([price_at(GIVEN, k) for k in (10_451, 2**32, 10**30)], [None] * 3)

    def test_refusals(self):
        names = ("year", "cost", "offset", "outage", "requirement")
        for call in (curve, lambda parameters: price_at(parameters, 0)):
            for field, name in enumerate(names, 1):
                for wrong in (-1, 2**32, 2**32 + REFERENCE[name], 2**40, -2**70):
                    self.assertRaisesRegex(Refusal, f"^refused 5 at field {field} ", call, replace(GIVEN, **{name: wrong}))
                if field > 1:
                    self.assertRaisesRegex(Refusal, f"^refused 4 at field {field} ", call, replace(GIVEN, **{name: None}))
            self.assertRaisesRegex(Refusal, r"4 at field 2 \(cost of new entry\)", call, Parameters(-1, None, -1, None, None))


class Days(unittest.TestCase):
    def test_days(self):
        years = {0: 365, 2026: 365, 2027: 366, 2028: 365, 2099: 365, 2100: 365, 2399: 366, 2**32 - 1: 366}
        self.assertEqual({year: days(year) for year in years}, years)
        for year in (2026, 2027, 2099):
            answer = quote(book(THREE, year=year))
            self.assertEqual(answer.year, days(year) * answer.daily)
        for year in (-1, 2**32):
            self.assertRaisesRegex(ValueError, f"^{year} is no year$", days, year)


class Compares(unittest.TestCase):
    def said(self, first, second):
        """A comparison as the line beside a pair of tests/comparisons says it."""
        try:
            c = compare(first, second)
        except RefusedBook as refusal:
            return f"refused {refusal.book} {refusal.number} {refusal.place}"
        self.assertEqual((c.first, c.second), (quote(first), quote(second)))
        if c.applies:
            self.assertEqual((c.first, c.field, c.row, c.other), (c.second, None, None, None))
            return f"applies {c.first.price} {c.shared}"
        self.assertIsNone(c.shared)
        if c.field is not None:
            return f"field {c.field}"
        rows = ["-" if row is None else row for row in (c.row, c.other)]
        return "nothing clears" if rows == ["-", "-"] else "rows {} {}".format(*rows)

    def test_pairs(self):
        for name, first, second, due in pairs():
            with self.subTest(name):
                self.assertEqual(self.said(first, second), due)

    def test_losers(self):
        """A loser, wherever it is put, changes nothing of what the others get; an offer at the price does."""
        rows = clear(book(THREE)).rows
        for at in range(4):
            more = clear(book([*THREE[:at], offer(14, 37_501, 500), *THREE[at:]])).rows
            self.assertEqual(more.pop(at), Row(14, 0, 0, 0))
            self.assertEqual(more, rows)
        self.assertNotEqual(clear(book([*THREE, offer(14, 37_500, 500)])).rows[:3], rows)
        both = Comparison(True, 3, None, None, None, Quote(*IN_ALL), Quote(*IN_ALL))
        self.assertEqual(compare(book(THREE), memoryview(book(THREE))), both)

    def test_refused(self):
        self.assertRaisesRegex(RefusedBook, "^book 2 is refused 1 at 0: length", compare, reference(), b"")
        with self.assertRaises(Refusal) as refused:
            compare(b"", reference())
        self.assertEqual((refused.exception.args, refused.exception.where), ((1, 1, 0), "0"))


class Words(unittest.TestCase):
    def test_words(self):
        self.assertEqual(words(6), "an offer has no price; the row")
        self.assertEqual(len({words(number) for number in Fault}), len(Fault))
        for number in (0, 12, 18, 21, 2**32, -1):
            self.assertRaisesRegex(ValueError, f"^no refusal has number {number}$", words, number)
        self.assertEqual(report(book([])), "cleared 0\nprice -\ndaily 0\nyear 0\n")
        self.assertEqual(report(reference()).splitlines()[4], "13 33 50 637500")
        self.assertEqual(version(), "0.9.0")

    def test_names_and_words_are_the_header_s(self):
        header = (ROOT / "include" / "ozpinduru.h").read_text()
        table = header[header.index("/* numbers of refusals"):header.index("/* fields")]
        found = re.findall(r"OZP_(\w+) = (\d+),?\s*/\*\s*(.*?)\s*\*/", table, re.DOTALL)
        self.assertEqual({name: int(number) for name, number, _ in found}, {fault.name: fault.value for fault in Fault})
        self.assertEqual([" ".join(said.split()) for _, _, said in found], [words(int(number)) for _, number, _ in found])

    def test_misuse(self):
        for call in (lambda: clear(512), lambda: clear("RPMB"), lambda: price_at(GIVEN, 0.0), lambda: words("6"),
                     lambda: curve(replace(GIVEN, cost="1")), lambda: curve(replace(GIVEN, year=None))):
            self.assertRaises(TypeError, call)
        self.assertRaises(ValueError, price_at, GIVEN, -1)
        done = subprocess.run([sys.executable, "-c", "import ozpinduru"], cwd=PYTHON, text=True, capture_output=True,
                              env={**os.environ, "OZPINDURU_LIB": "/nowhere.so"})
        self.assertRegex(done.stderr, "ImportError: /nowhere.so: .*: make it with bindings/build")
