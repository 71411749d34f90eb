"""The command `ozp`: what it says, and its exit status, whatever it is given."""
import json
import os
import pathlib
import pty
import subprocess
import sys
import tempfile
import unittest

from shared import PYTHON, ROOT, VERDICTS, reference

OZP = [sys.executable, "-m", "ozpinduru"]
REFERENCE = str(ROOT / "examples" / "reference.book")
UNPRICED = str(VERDICTS / "data" / "no-price-in-row-0.book")
NOTHING = str(VERDICTS / "data" / "no-offers-length-512.book")
STEPS = str(ROOT / "tests" / "clearings" / "steps-whole-then-one-in-part-then-none.book")
MISSED = str(VERDICTS / "data" / "margin-missing-in-2022.book")
GIVEN = "curve --year 2026 --cost 146000 --offset 73000 --outage 2000 --requirement 10000".split()
SETTING = {**os.environ, "PYTHONPATH": str(PYTHON)}


def pair(name):
    """The files of a pair of tests/comparisons."""
    return [str(ROOT / "tests" / "comparisons" / f"{name}.{which}.book") for which in ("first", "second")]


def ozp(*words, **streams):
    """Exit status, standard output and standard error of a run."""
    streams = {"stdout": subprocess.PIPE, "stderr": subprocess.PIPE, "env": SETTING, **streams}
    done = subprocess.run(OZP + list(words), **streams)
    return done.returncode, (done.stdout or b"").decode(), (done.stderr or b"").decode()


class Says(unittest.TestCase):
    def test_clear(self):
        line = ("cleared 1,000.0 MW at $375.00 per MW-day; make-whole $637.500 a day, "
                "paid $375,637.500 a day, $137,107,687.500 a year\n")
        self.assertEqual(ozp("clear", REFERENCE), (0, f"{REFERENCE}: {line}", ""))
        self.assertEqual(ozp("clear", "-", input=reference()), (0, f"-: {line}", ""))
        status, said, _ = ozp("clear", NOTHING)
        self.assertEqual((status, said.startswith(f"{NOTHING}: nothing cleared, no price; ")), (0, True))

    def test_rows(self):
        status, said, _ = ozp("rows", REFERENCE)
        self.assertEqual((status, said.splitlines()[-1].split()), (0, ["2", "13", "3.3", "MW", "5.0", "MW", "$637.500"]))

    def test_rows_of_steps(self):
        status, said, _ = ozp("rows", STEPS)
        self.assertEqual((status, said.splitlines()[1].split()[:4]), (0, ["row", "resource", "step", "cleared"]))
        self.assertEqual([line.split()[:3] for line in said.splitlines()[2:]],
                         [["0", "11", "1"], ["1", "11", "2"], ["2", "11", "3"], ["3", "11", "4"]])
        self.assertEqual([row["step"] for row in json.loads(ozp("rows", "--json", STEPS)[1])["rows"]], [1, 2, 3, 4])
        self.assertNotIn("step", ozp("rows", REFERENCE)[1])

    def test_curve(self):
        points = "990.0 MW at $500.00 per MW-day; 1,015.0 MW at $187.50 per MW-day; 1,045.0 MW at $0.00 per MW-day"
        self.assertEqual(ozp(*GIVEN), (0, f"{points}\n", ""))
        self.assertEqual(ozp("curve", REFERENCE, "--at", "10000")[:2],
                         (0, f"{REFERENCE}: {points}; at 1,000.0 MW: $375.00 per MW-day\n"))
        self.assertTrue(ozp(*GIVEN, "--at", "10151")[1].endswith("; at 1,015.1 MW: $186.87 per MW-day and 150/300 of a cent\n"))
        self.assertIn("past the last point", ozp(*GIVEN, "--at", "10451")[1])
        early = [word.replace("2026", "2024") for word in GIVEN]
        self.assertEqual(ozp(*early, "--margin", "1500")[:2],
                         (0, points.replace("990.0", "989.6").replace("1,015.0", "1,016.5").replace("1,045.0", "1,067.8") + "\n"))
        self.assertEqual(ozp(*early)[:2], (1, "refused 4 at field 6 (reserve margin): a parameter is missing\n"))
        self.assertEqual(ozp(*GIVEN, "--margin", "0")[:2],
                         (1, "refused 5 at field 6 (reserve margin): a parameter is out of range\n"))
        self.assertEqual(ozp(*GIVEN[:-2])[:2],
                         (1, "refused 4 at field 5 (reliability requirement): a parameter is missing\n"))

    def test_compare(self):
        side = "cleared 1,000.0 MW at $375.00 per MW-day; paid $375,637.500 a day, $137,107,687.500 a year"
        head = "losers don't matter: the parameters and 3 offers at or below $375.00 per MW-day are the same"
        over = "above the first's price"
        self.assertEqual(ozp("compare", *pair("loser-added-between")),
                         (0, f"{head}\n  first  {side}; 0 offers {over}\n  second {side}; 1 offer {over}\n", ""))
        for name, why in {
            "offer-at-the-price-altered": "row 1 of the first book and row 1 of the second differ: quantity 200 and 150",
            "block-missing": "row 2 of the first book and row 2 of the second differ: block 50 and none",
            "offer-at-the-price-added": "row 3 of the second book, resource 14 at $375.00 per MW-day, is at or below "
                                        "$375.00 per MW-day, and the first has no such offer more",
            "offer-at-the-price-taken-out": "row 2 of the first book, resource 13 at $375.00 per MW-day, is at or below "
                                            "$375.00 per MW-day, and the second has no such offer more",
            "two-fields-differ-the-lowest-first": "field 3 (revenue offset) differs, 73,000 and 73,001, "
                                                  "and the curve or the year with it",
            "nothing-clears-in-the-first": "nothing clears in the first book, so there is no price to compare to",
        }.items():
            status, said, _ = ozp("compare", *pair(name))
            self.assertEqual((status, said.splitlines()[0]), (0, f"losers may matter: {why}"))
        self.assertEqual(ozp("compare", "-", REFERENCE, input=reference())[0], 0)
        self.assertEqual(ozp("compare", REFERENCE, UNPRICED)[:2],
                         (1, f"{UNPRICED}: book 2 is refused 6 at row 0: an offer has no price\n"))

    def test_compare_json(self):
        books = pair("losers-of-another-kind")
        status, said, _ = ozp("compare", "--json", *books)
        found = json.loads(said)
        self.assertEqual([status, *map(found.get, ("books", "applies", "shared", "above"))], [0, books, True, 3, [1, 2]])
        self.assertEqual(found["first"], found["second"])
        apart = json.loads(ozp("compare", "--json", *pair("offer-at-the-price-taken-out"))[1])
        self.assertEqual([apart[name] for name in ("applies", "field", "row", "other")], [False, None, 2, None])
        nothing = json.loads(ozp("compare", "--json", *pair("nothing-clears-in-the-first"))[1])
        self.assertEqual((nothing["above"], nothing["first"]["price"]), ([None, None], None))
        self.assertEqual(json.loads(ozp("compare", "--json", UNPRICED, REFERENCE)[1])["refused"],
                         {"book": 1, "number": 6, "place": 0, "where": "row 0", "when": "an offer has no price"})

    def test_json(self):
        status, said, _ = ozp("clear", "--json", REFERENCE, UNPRICED, NOTHING)
        cleared, refused, nothing = map(json.loads, said.splitlines())
        self.assertEqual((status, cleared["price"], nothing["price"]), (1, 37_500, None))
        self.assertEqual(refused["refused"], {"number": 6, "place": 0, "where": "row 0", "when": "an offer has no price"})
        self.assertEqual(json.loads(ozp("rows", "--json", REFERENCE)[1])["rows"][2],
                         {"resource": 13, "cleared": 33, "committed": 50, "make_whole": 637_500, "step": 1})
        self.assertEqual([json.loads(ozp(*GIVEN, "--json", "--at", k)[1])["price_at"] for k in ("10151", "10451")],
                         [{"cents": 18_687, "remainder": 150, "divisor": 300}, None])
        refused = json.loads(ozp("curve", "--json", MISSED)[1])["refused"]
        self.assertEqual((refused["number"], refused["place"], refused["where"]), (4, 6, "field 6 (reserve margin)"))

    def test_example(self):
        done = subprocess.run([sys.executable, str(PYTHON / "example.py")], capture_output=True, text=True, check=True)
        self.assertEqual(done.stdout.splitlines()[0], "cleared 1000.0 MW at $375.00 per MW-day")

    def test_help(self):
        for words in ([], ["clear"], ["rows"], ["curve"], ["compare"], ["read"], ["write"], ["convert"], ["explain"]):
            status, said, wrong = ozp(*words, "--help")
            self.assertEqual((status, said.startswith("usage: ozp"), wrong), (0, True, ""))

    def test_progress(self):
        """A bar on a terminal, none in a file."""
        mine, theirs = pty.openpty()
        status, said, _ = ozp("clear", *[REFERENCE] * 40, stderr=theirs)
        os.close(theirs)
        self.assertEqual((status, len(said.splitlines())), (0, 40))
        self.assertIn(b"40 of 40 books", os.read(mine, 100_000))
        os.close(mine)
        self.assertEqual(ozp("clear", *[REFERENCE] * 40)[2], "")


class Fails(unittest.TestCase):
    def one_line(self, status, result, pattern):
        self.assertEqual((result[0], len(result[2].splitlines())), (status, 1), result)
        self.assertRegex(result[2], pattern)

    def test_refused(self):
        self.assertEqual(ozp("clear", UNPRICED), (1, f"{UNPRICED}: refused 6 at row 0: an offer has no price\n", ""))
        self.assertEqual(ozp("rows", REFERENCE, UNPRICED, NOTHING)[0], 1)
        self.assertEqual(ozp("clear", "-", stdin=subprocess.DEVNULL)[0], 1)

    def test_bad_usage(self):
        for words in ([], ["clear"], ["sell"], ["rows", "--loud", REFERENCE], ["curve"], ["curve", REFERENCE, "--year", "2026"],
                      ["curve", "--cost", "1"], [*GIVEN, "--at", "-1"], ["curve", "--year", "soon"], ["clear", "-", "-"],
                      ["compare", REFERENCE], ["compare", REFERENCE, REFERENCE, REFERENCE], ["compare", "-", "-"]):
            with self.subTest(words):
                self.one_line(2, ozp(*words), "^ozp")

    def test_unreadable(self):
        with tempfile.TemporaryDirectory() as folder:
            self.one_line(2, ozp("clear", folder), "Is a directory")
            self.one_line(2, ozp("rows", REFERENCE, f"{folder}/none", UNPRICED), "No such file")
            self.one_line(2, ozp("compare", REFERENCE, f"{folder}/none"), "No such file")
            odd = os.path.join(os.fsencode(folder), b"odd\n\xff.book")
            self.one_line(2, ozp("clear", odd), "No such file")
            pathlib.Path(os.fsdecode(odd)).write_bytes(b"no book")
            self.assertEqual(ozp("clear", odd)[::2], (1, ""))
        self.one_line(2, ozp("clear", "-", preexec_fn=lambda: os.close(0)), "standard input is shut")

    def test_unwritable(self):
        for words in (["clear", REFERENCE], ["rows", "--json", REFERENCE], ["compare", REFERENCE, REFERENCE],
                      ["read", REFERENCE], GIVEN, ["--help"],
                      ["clear", "--help"], ["--version"]):
            with self.subTest(words), open("/dev/full", "w") as full:
                self.one_line(2, ozp(*words, stdout=full), "No space left on device")
                self.one_line(2, ozp(*words, preexec_fn=lambda: os.close(1), stdout=None), "standard output is shut")
                self.assertEqual(ozp(*words, stdout=full, stderr=full)[0], 2)
        read, write = os.pipe()
        os.close(read)
        self.one_line(2, ozp("clear", REFERENCE, stdout=write), "Broken pipe")
        os.close(write)
