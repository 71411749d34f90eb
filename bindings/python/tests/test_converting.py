"""Books in the other edition: the function and the word `ozp convert`."""
import json
import unittest

from shared import VERDICTS, reference, shipped
from test_command import REFERENCE, ozp
from test_files import Files, inside
from ozpinduru import Fault, Refusal, clear, convert, read, write
from write_book import THREE, book, offer, steps

RUN = VERDICTS / "data" / "steps-across-blocks.book"


class Converts(unittest.TestCase):
    def test_up_and_down(self):
        there = [offer(11, 10_000, 9_900, stamp=1, step=1), offer(12, 37_500, 200, stamp=2, step=1),
                 offer(13, 37_500, 100, block=50, stamp=3, step=1)]
        self.assertEqual(convert(book(THREE)), book(there, edition=2))
        self.assertEqual([convert(book(there, edition=2)), convert(memoryview(convert(reference())))], [book(THREE), reference()])
        self.assertEqual(clear(convert(reference())), clear(reference()))

    def test_every_book_that_ships(self):
        """A sound book goes there and back unless it has a later step; any other is refused as it is by the writer."""
        there = later = 0
        for path in shipped():
            with self.subTest(path.name):
                data = path.read_bytes()
                try:
                    other = convert(data)
                    self.assertEqual(convert(other), data)
                    self.assertEqual((read(other).parameters, read(other).offers), (read(data).parameters, read(data).offers))
                    self.assertEqual(read(other).edition, 3 - read(data).edition)
                    there += 1
                except Refusal as refusal:
                    if refusal.number == Fault.LATER_STEP:
                        said = read(data)
                        self.assertEqual(write(said.parameters, said.offers, said.edition), data)
                        self.assertEqual([row.step > 1 for row in said.offers].index(True), refusal.place)
                        later += 1
                    else:
                        with self.assertRaises(Refusal) as due:
                            said = read(data)
                            write(said.parameters, said.offers, said.edition)
                        self.assertEqual((due.exception.number, due.exception.place), (refusal.number, refusal.place))
        self.assertGreater(there, 90)
        self.assertGreater(later, 10)

    def test_refused(self):
        self.assertRaisesRegex(Refusal, "^refused 11 at row 1: a row has a step of 2 or more, which edition 1 cannot hold$", convert,
                               book(steps(5, 1, 2), edition=2))
        for data in (b"", b"RPMB", bytes(100_000)):
            self.assertRaisesRegex(Refusal, "^refused 1 at 0: ", convert, data)
        self.assertRaises(TypeError, convert, "RPMB")


class Command(Files):
    def test_there_and_back(self):
        up, down = self.path("up"), self.path("down")
        self.assertEqual(ozp("convert", REFERENCE, "-o", up), (0, f"{up}: written in edition 2, 3 offers in 1,024 bytes\n", ""))
        status, said, _ = ozp("convert", "-", "-o", down, "--json", input=(self.folder / "up").read_bytes())
        self.assertEqual((status, json.loads(said)), (0, {"book": down, "edition": 1, "offers": 3, "bytes": 1_024}))
        self.assertEqual((self.folder / "down").read_bytes(), reference())
        self.assertEqual(self.names(), ["down", "up"])

    def test_its_own_place(self):
        """Never over the book that is read, by whatever name, unless that is asked for."""
        own = self.folder / "book"
        own.write_bytes(reference())
        (self.folder / "link").symlink_to("book")
        for name in ("book", "link"):
            self.fails(2, "take its own place: --force lets it", "convert", str(own), "-o", self.path(name))
        self.assertEqual(inside("convert", str(own), "-o", str(own), "--force")[0], 0)
        self.assertEqual(own.read_bytes(), convert(reference()))
        self.assertEqual(self.names(), ["book", "link"])

    def test_refused(self):
        kept = self.path("book", "what stood there")
        self.fails(1, "book: refused 11 at row 14: ", "convert", str(RUN), "-o", kept)
        self.fails(1, r'"refused": \{"number": 10, "place": 0, ', "convert", str(RUN.with_name("step-2-in-row-0.book")), "-o", kept, "--json")
        self.fails(2, "No such file", "convert", self.path("nowhere"), "-o", kept)
        self.fails(2, "No such file", "convert", REFERENCE, "-o", self.path("none/book"))
        self.fails(2, "^ozp", "convert", REFERENCE, "-o", "-")
        self.fails(2, "^ozp", "convert", REFERENCE)
