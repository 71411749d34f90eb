"""The picture of a book, drawn and read back."""
import re
import unittest
import xml.etree.ElementTree as xml

from shared import ROOT, reference, verdicts
from compared import clearings, compare, stood
from drawn import SVG, Panel, read_svg
from ozpinduru import Refusal, chart, clear
from write_book import book, many, offer, steps

BOOKS = {
    **clearings(),
    "far past Q3": book([offer(1, 0, 9_000), *(offer(n, 10_000 * n, 200_000, block=150_000) for n in range(2, 6))]),
    "dearer than P1, tied": book([offer(1, 0, 9_000), offer(2, 60_000), *(offer(n, 900_000 + n // 5) for n in (3, 4, 5))]),
    "300 ties": book([offer(row, 200 * (row // 2), 20, stamp=row) for row in range(2, 602)]),
    "P1 and P2 of a cent": book([offer(1, 0, 900), offer(2, 1, 300)], cost=3, offset=0, outage=0, requirement=1_000),
    "P2 of 0": book([offer(1, 0, 9_000), offer(2, 20_000, 600), offer(3, 20_000, 700, block=650)], offset=146_000),
    "a tenth": book([offer(1, 40_000, 1)]),
    "the largest requirement": book([offer(n, 100 * n, 4_000 + n, block=4_000) for n in range(1, 521)], requirement=2_000_000),
    "steps of two resources": book([*steps(5, 10_000, 37_500, 37_500, 40_000, 900_000, quantity=3_400), *steps(6, 0, 37_500)],
                                   edition=2),
    "steps of nine resources": book([row for n in range(1, 10) for row in steps(n, 0, 100 * n, quantity=700)], edition=2),
    "rows from dear to cheap": book([offer(9, 37_500, 50, 40, 3), offer(8, 10_000, 9_900), offer(7, 37_500, 70, None, 1)]),
}


def pictures():
    """Each book that clears, or in which nothing clears, with its picture."""
    for name, data in BOOKS.items():
        try:
            yield name, data, chart(data)
        except Refusal:
            pass


class Draws(unittest.TestCase):
    def test_coordinates(self):
        """Steps and their parts, the curve, X, the price and tied levels, each read back by the ticks."""
        for name, data, picture in pictures():
            with self.subTest(name):
                self.assertGreater(compare(data, read_svg(picture)), 20)

    def test_slope_is_shown_closer_where_the_total_stops_on_it(self):
        panels = {name: len(list(read_svg(picture))) for name, _, picture in pictures()}
        self.assertEqual((panels["reference-printed-example"], panels["curve-at-9900"], panels["9000-at-0-all-clears"]), (2, 2, 1))
        tenth = Panel(list(read_svg(chart(reference())))[1])
        self.assertGreater(tenth.x(10_001) - tenth.x(10_000), 0.9)

    def test_parts_of_a_row(self):
        """Filled, hatched and hollow, as the reference book has them: 13 clears 3.3 of 10.0 MW and commits 5.0."""
        whole = Panel(list(read_svg(chart(reference())))[1])
        parts = {(mark.resource, kind): mark for mark in whole.marks if mark.resource for kind in mark.kinds}
        self.assertEqual(sorted(parts), [("11", "cleared"), ("11", "offered"), ("12", "cleared"), ("12", "offered"),
                                         ("13", "cleared"), ("13", "committed"), ("13", "offered")])
        tenth = (whole.x(10_050) - whole.x(9_950)) / 100
        widths = {key: round((mark.right - mark.left) / tenth) for key, mark in parts.items() if key[0] != "11"}
        self.assertEqual(list(widths.values()), [67, 200, 33, 17, 100])

    def test_ties_stand_in_the_order_of_spare_tenths(self):
        steps = list(stood(BOOKS["tie-two-spares-by-stamp-then-by-resource"]))
        self.assertEqual([step.resource for step in steps], [11, 15, 13, 14])
        self.assertEqual([step.cleared - step.start for step in steps[1:]], [34, 34, 33])
        drawn = re.findall(r'data-resource="(\d+)"', chart(BOOKS["tie-two-spares-by-stamp-then-by-resource"]))
        self.assertEqual(drawn[:4], ["11", "15", "13", "14"])

    def test_steps_of_a_resource_are_joined(self):
        """A line through its steps, with the words of the resource; where nine have steps there is none."""
        picture = chart(BOOKS["steps of two resources"])
        self.assertEqual([len(Panel(marks).all("run")) for marks in read_svg(picture)], [2, 1])
        self.assertIn("resource 5 sells in 5 steps, from $100.00 per MW-day to $9,000.00 per MW-day; cleared ", picture)
        self.assertIn('data-resource="5" data-step="2"', picture)
        self.assertIn(">resource 6, step 2 of 2: 10.0 MW offered at ", picture)
        self.assertIn("steps of one resource", picture)
        picture = chart(BOOKS["steps of nine resources"])
        self.assertNotIn('class="steps"', picture)
        self.assertNotIn("steps of one resource", picture)
        self.assertIn(">resource 9, step 1 of 2: ", picture)
        self.assertIn("9 resources with several steps: 18 offers.", picture)
        self.assertNotIn("step ", chart(reference()).replace('class="step ', ""))

    def test_tied_steps_stand_in_the_order_of_spare_tenths(self):
        steps = [(step.resource, step.step) for step in stood(BOOKS["steps-tied-lower-resource-before-lower-step"])]
        self.assertEqual(steps, [(11, None), (12, 1), (12, 2), (13, None)])

    def test_600_offers_are_little_work(self):
        for rows in (many(600), [offer(row, 37_500, 20, block=20) for row in range(1, 601)]):
            picture = chart(book(rows))
            self.assertLess(len(list(xml.fromstring(picture).iter())), 600 * 5 + 600)
            self.assertLess(len(picture), 400_000)


class Stands(unittest.TestCase):
    def test_for_screen_readers(self):
        for name, data, picture in pictures():
            root = xml.fromstring(picture)
            title, desc = root.find(f"{SVG}title"), root.find(f"{SVG}desc")
            self.assertEqual((root.get("role"), root.get("aria-labelledby")), ("img", f"{title.get('id')} {desc.get('id')}"))
            sold = "Cleared" if clear(data).total else "Nothing cleared, no price"
            self.assertTrue(title.text.startswith(f"Supply stack and requirement curve: {sold}"), name)
            self.assertTrue(desc.text.startswith("The supply stack of ") and sold in desc.text and desc.text.endswith("."), name)

    def test_alone_and_among_others(self):
        """Nothing is fetched, no script runs, styles stay inside, and two pictures on a page have names of their own."""
        picture, other = chart(reference()), chart(BOOKS["no-offers"])
        self.assertEqual(re.findall(r"https?://[^\"]*", picture), ["http://www.w3.org/2000/svg"])
        self.assertNotRegex(picture, r"<script|<image|@import|\bon\w+=")
        for rule in re.findall(r"^(\S.*)\{", picture, re.MULTILINE):
            self.assertRegex(rule, r"^(\.ozp |svg\.ozp$|@media \(prefers-color-scheme:dark\)$)")
        ids = [set(re.findall(r'id="([^"]+)"', text)) for text in (picture, other)]
        self.assertEqual(ids[0] & ids[1], {"ozp-hatch"})

    def test_dark_names_every_colour_again(self):
        light, dark = re.search(r"<style>(.*)@media[^{]*\{(.*)\}\s*</style>", chart(reference()), re.DOTALL).groups()
        coloured = [set(re.findall(r"\.ozp (\.\w+)\{\w+:#", part)) for part in (light, dark)]
        self.assertEqual(coloured[0], coloured[1])
        self.assertGreater(len(coloured[0]), 15)

    def test_the_picture_of_the_documents(self):
        self.assertEqual((ROOT / "docs" / "reference.svg").read_text(), chart(reference()), "draw it again with ozp chart")

    def test_refused(self):
        refused = 0
        for name, data, verdict, _ in verdicts():
            if verdict == "accepted":
                self.assertGreater(compare(data, read_svg(chart(data))), 15, name)
            else:
                with self.assertRaises(Refusal) as caught:
                    chart(data)
                self.assertEqual(f"refused {caught.exception.number} {caught.exception.place}", verdict)
                refused += 1
        self.assertGreater(refused, 20)
        self.assertEqual(chart(memoryview(reference())), chart(reference()))
        self.assertRaises(TypeError, chart, "RPMB")
