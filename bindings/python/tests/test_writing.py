"""Books that are written by the package."""
import random
import unittest
from dataclasses import replace

from shared import reference, shipped, soundness
from ozpinduru import Fault, Offer, Parameters, Refusal, clear, read, write
from write_book import REFERENCE, book, many, offer, steps

GIVEN = Parameters(**REFERENCE)
NONE = Parameters(2022, None, None, None, None)
FIRST = Offer(1, 7, None, 10, None, 0)


def refusal(parameters, offers, edition=1):
    """Number and place by which contents are refused, or None."""
    try:
        write(parameters, offers, edition)
    except Refusal as refused:
        return refused.number, refused.place


class Writes(unittest.TestCase):
    def test_every_book_that_ships(self):
        """What is read is written back byte for byte; what is not sound is refused as the program `verdicts` says."""
        said, same = soundness(), 0
        for path in shipped():
            with self.subTest(path.name):
                data = path.read_bytes()
                try:
                    found = read(data)
                except Refusal:
                    continue
                fault = refusal(found.parameters, found.offers, found.edition)
                if fault is None:
                    same += 1
                    self.assertEqual(write(found.parameters, found.offers, found.edition), data)
                verdict = "sound" if fault is None else "unsound {} {}".format(*fault)
                if path.parent.name == "data":
                    self.assertEqual(verdict, said[path.name])
        self.assertGreaterEqual(same, 90)

    def test_the_tests_own_writer(self):
        """Two writers that share nothing agree on random values."""
        some = random.Random(1)

        def given(number):
            return some.choice([None, number])

        for count in [0, 1, 14, 15, 16, 30, 31, 599, 600, *(some.randint(0, 60) for _ in range(60))]:
            year, cost = some.randint(2022, 2099), given(some.randint(1, 1_000_000))
            values = dict(cost=cost, offset=given(some.randint(0, cost or 1_000_000)), outage=given(some.randint(0, 5_000)),
                          requirement=given(some.randint(1_000, 2_000_000)),
                          margin=given(some.randint(0, 5_000)) if year < 2026 else None)
            offers = []
            for resource in some.sample(range(1, 2**32), count):
                quantity = some.randint(1, 200_000)
                offers.append(Offer(resource, some.randrange(1, 2**32), given(some.choice([0, some.randint(0, 1_000_000)])),
                                    quantity, given(some.randint(1, quantity)), some.choice([0, 2**64 - 1, some.getrandbits(64)])))
            for edition, step in ((1, 0), (2, 1)):
                places = [offer(o.resource, o.price, o.quantity, o.block, o.stamp, o.seller, step) for o in offers]
                written = write(Parameters(year, **values), iter(offers), edition)
                self.assertEqual(written, book(places, edition=edition, year=year, **values))
                self.assertEqual((read(written).offers, read(written).edition), (offers, edition))

    def test_missing_is_not_zero(self):
        data = [write(GIVEN, [replace(FIRST, price=price)]) for price in (None, 0)]
        self.assertEqual([read(written).offers[0].price for written in data], [None, 0])
        self.assertEqual([written[540 + 28] for written in data], [0, 1])
        self.assertEqual(read(write(NONE, [])).parameters, NONE)


class Steps(unittest.TestCase):
    RUN = [Offer(5, 7, price, 100, None, 1, step) for step, price in enumerate((5, 5, 9), 1)]

    def test_written_and_read(self):
        data = write(GIVEN, self.RUN, 2)
        self.assertEqual(data, book(steps(5, 5, 5, 9), edition=2))
        self.assertEqual((read(data).offers, read(data).edition), (self.RUN, 2))
        self.assertEqual(read(reference()).edition, 1)
        self.assertEqual([(row.resource, row.step) for row in clear(data).rows], [(5, 1), (5, 2), (5, 3)])

    def test_editions(self):
        """Edition 1 has no steps past 1, and there is no third; a number too wide is not cut."""
        self.assertEqual(refusal(GIVEN, self.RUN), (Fault.OFFER_OUT_OF_RANGE, 1))
        for edition in (0, 3, -1, 257, 2**32 + 1, 2**32 + 2, 2**70):
            self.assertEqual(refusal(replace(GIVEN, year=0), [FIRST] * 601, edition), (Fault.WRONG_LAYOUT, 0))
        for wrong in (0, 11, 255, 256, 258, 2**32 + 2, -1):
            self.assertEqual(refusal(GIVEN, [self.RUN[0], replace(self.RUN[1], step=wrong)], 2), (Fault.OFFER_OUT_OF_RANGE, 1))

    def test_rules(self):
        first, second, third = self.RUN
        broken = Fault.BROKEN_STEPS
        for offers, due in [
            ([second], (broken, 0)), ([first, third], (broken, 1)), ([first, replace(second, resource=6)], (broken, 1)),
            ([first, replace(second, price=4)], (broken, 1)), ([first, replace(second, block=1)], (broken, 1)),
            ([first, replace(second, price=None), replace(third, price=0)], None), ([first, second, first], (Fault.REPEATED_RESOURCE, 2)),
        ]:
            self.assertEqual(refusal(GIVEN, offers, 2), due)
        self.assertRaisesRegex(Refusal, "^refused 10 at row 1: a resource's steps do not stand in neighbouring rows", write, GIVEN,
                               [first, third], 2)


class Refuses(unittest.TestCase):
    def test_numbers_too_wide(self):
        """A number that its bytes do not hold is out of range, and never cut."""
        for field, name in enumerate(("year", "cost", "offset", "outage", "requirement", "margin"), 1):
            for wrong in (-1, 2**32, 2**32 + 2022, 2**64 + 1, -2**70):
                self.assertEqual(refusal(replace(NONE, **{name: wrong}), [FIRST, FIRST]), (5, field))
        self.assertEqual(refusal(replace(NONE, year=65_536 + 2_022), []), (5, 1))
        for name, widest in dict(resource=32, seller=32, price=32, quantity=32, block=32, stamp=64, step=32).items():
            for wrong in (-1, 2**widest, 2**widest + 1, 2**70, -2**70):
                self.assertEqual(refusal(NONE, [replace(FIRST, resource=2), replace(FIRST, **{name: wrong})]), (7, 1))

    def test_order(self):
        rows = [replace(FIRST, resource=at) for at in range(1, 10_000)]
        wrong = replace(FIRST, quantity=0)
        self.assertEqual(refusal(replace(NONE, year=0), [wrong] * 601), (Fault.TOO_MANY_ROWS, 0))
        self.assertEqual(refusal(NONE, rows), (Fault.TOO_MANY_ROWS, 0))
        self.assertEqual(refusal(replace(NONE, margin=5_001), [wrong] * 600), (Fault.PARAMETER_OUT_OF_RANGE, 6))
        self.assertEqual(refusal(NONE, [FIRST, FIRST, wrong]), (Fault.REPEATED_RESOURCE, 1))
        self.assertEqual(refusal(NONE, [FIRST, wrong, FIRST]), (Fault.OFFER_OUT_OF_RANGE, 1))
        self.assertEqual(len(write(NONE, rows[:600])), 20_992)

    def test_refusals_are_those_of_soundness(self):
        self.assertEqual(read(book(many(600))), read(write(GIVEN, read(book(many(600))).offers)))
        self.assertRaisesRegex(Refusal, "^refused 19 at 0: more than 600 rows$", write, GIVEN, [FIRST] * 601)
        self.assertRaisesRegex(Refusal, "^refused 8 at row 1: a resource number stands in an earlier row$", write, GIVEN, [FIRST] * 2)

    def test_misuse(self):
        for wrong in (dict(price="1"), dict(quantity=1.0), dict(stamp=None), dict(resource=None), dict(block=b"1"), dict(step=None)):
            self.assertRaises(TypeError, write, GIVEN, [replace(FIRST, **wrong)])
        for call in (lambda: write(replace(GIVEN, cost="1"), []), lambda: write(GIVEN, FIRST), lambda: write(reference(), []),
                     lambda: write(GIVEN, [], "1"), lambda: write(GIVEN, [], None)):
            self.assertRaises((TypeError, AttributeError), call)
