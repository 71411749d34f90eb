"""What the picture of a book says in words."""
import unittest
import xml.etree.ElementTree as xml

from shared import reference
from compared import clearings
from drawn import SVG
from ozpinduru import chart
from write_book import book, offer

BOOKS = clearings()


def said(picture):
    """The texts of a picture."""
    return [text.text for text in xml.fromstring(picture).iter(f"{SVG}text")]


class Says(unittest.TestCase):
    def test_what_is_where(self):
        words = said(chart(reference()))
        for name in ("dollars per MW-day", "megawatts", "X 1,000.0 MW", "price $375.00"):
            self.assertEqual(words.count(name), 2, name)
        for name in ("P1 $500.00", "at Q1 990.0 MW", "P2 $187.50", "at Q2 1,015.0 MW", "P3 $0.00", "at Q3 1,045.0 MW"):
            self.assertEqual(words.count(name), 1, name)
        self.assertIn("Cleared 1,000.0 MW at $375.00 per MW-day", words)
        self.assertIn("2 tied: 10.0 MW clear", words)

    def test_nothing_cleared(self):
        reasons = {"no-offers": "the book has no offers",
                   "100-at-50001-clears-nothing": "no offer asks P1, $500.00 per MW-day, or less"}
        for name, why in reasons.items():
            picture = chart(BOOKS[name])
            self.assertEqual(said(picture).count("Nothing cleared, no price"), 2)
            self.assertIn(why, " ".join(said(picture)))
            self.assertIn(f"Nothing cleared, no price: {why}", xml.fromstring(picture).find(f"{SVG}desc").text)
            self.assertNotRegex(" ".join(said(picture)), r"price \$|zero")

    def test_price_zero(self):
        words = said(chart(BOOKS["11000-at-0-price-is-a-real-zero"]))
        self.assertEqual(words.count("price $0.00"), 2)
        self.assertIn("a real price of zero", " ".join(words))
        self.assertNotIn("zero", " ".join(said(chart(reference()))))

    def test_legend_names_what_occurs(self):
        names = {"steps of one resource", "cleared", "committed by a block, not cleared", "offered, not cleared", "tied at one price", "requirement curve"}
        flat = {"steps of one resource"}
        missing = {"no-offers": names - {"requirement curve"}, "reference-printed-example": flat,
                   "steps-block-on-step-1-is-made-whole": set(),
                   "9000-at-0-all-clears": names - {"cleared", "requirement curve"},
                   "block-over-the-cleared-part-at-price-0": flat | {"offered, not cleared", "tied at one price"},
                   "100-at-50001-clears-nothing": names - {"offered, not cleared", "requirement curve"}}
        for name, expected in missing.items():
            self.assertEqual(names - set(said(chart(BOOKS[name]))), expected, name)

    def test_legend_stays_inside(self):
        """Every key has room, in two lines where all of them occur."""
        lines = {}
        for name in ("reference-printed-example", "steps-block-on-step-1-is-made-whole"):
            legend = xml.fromstring(chart(BOOKS[name])).find(f"{SVG}g[@class='legend']")
            at = [(*map(float, key.get("transform")[10:-1].split()), key.find(f"{SVG}text").text) for key in legend]
            self.assertLess(max(x + 26 + 7.3 * len(words) for x, _, words in at), 1_000 - 20)
            lines[name] = {y for _, y, _ in at}
        self.assertEqual(list(map(len, lines.values())), [1, 2])

    def test_outside(self):
        rows = [offer(1, 0, 9_000), offer(2, 60_000, 300), offer(3, 900_000), offer(4, 900_000), offer(5, 1_000_000)]
        words = " ".join(said(chart(book(rows))))
        self.assertIn("past the top, over $750.00: 3 offers, 30.0 MW, up to $10,000.00", words)
        words = " ".join(said(chart(book([rows[0], *(offer(n, 10_000 * n, 200_000) for n in range(2, 6))]))))
        self.assertIn("past the right edge, over 1,567.5 MW: 3 whole offers; the stack ends at 80,900.0 MW", words)
        self.assertNotIn("past the", " ".join(said(chart(reference()))))

    def test_each_step_and_point(self):
        titles = [title.text for title in xml.fromstring(chart(reference())).iter(f"{SVG}title")][1:]
        self.assertEqual(titles.count("resource 13: 10.0 MW offered at $375.00 per MW-day, minimum block 5.0 MW; cleared 3.3 MW, "
                                      "committed 5.0 MW, made whole $637.500 a day"), 2)
        self.assertEqual(titles.count("P2 $187.50 at Q2 1,015.0 MW"), 2)
        self.assertEqual(titles.count("cleared 1,000.0 MW at $375.00 per MW-day; the curve there is at 37,500 cents"), 2)
        titles = chart(BOOKS["curve-at-10151-rounds-down"])
        self.assertIn("at $186.87 per MW-day; the curve there is at 18,687 and 150/300 cents", titles)
