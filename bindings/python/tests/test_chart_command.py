"""The word `ozp chart`: the picture's file, whole or not at all, and what is said of it."""
import json
import os
import pathlib
import resource
import subprocess
import tempfile
import unittest

from shared import reference
from ozpinduru import chart
from test_command import NOTHING, REFERENCE, UNPRICED, ozp


class Chart(unittest.TestCase):
    def setUp(self):
        folder = tempfile.TemporaryDirectory()
        self.addCleanup(folder.cleanup)
        self.folder = pathlib.Path(folder.name)
        self.file = self.folder / "stack.svg"

    def holds(self, **expected):
        """The folder holds these texts by name, and nothing else."""
        self.assertEqual({path.name: path.read_text() for path in self.folder.iterdir()},
                         {name.replace("_", "."): text for name, text in expected.items()})

    def test_drawn(self):
        status, said, wrong = ozp("chart", REFERENCE, "-o", str(self.file))
        line = f"{REFERENCE}: cleared 1,000.0 MW at $375.00 per MW-day; drawn in {self.file}\n"
        self.assertEqual((status, said, wrong), (0, line, ""))
        self.holds(stack_svg=chart(reference()))
        self.assertEqual(ozp("chart", "-", "--output", str(self.file), input=reference())[:2], (0, line.replace(REFERENCE, "-")))
        status, said, _ = ozp("chart", NOTHING, "-o", str(self.file))
        self.assertEqual((status, said), (0, f"{NOTHING}: nothing cleared, no price; drawn in {self.file}\n"))
        self.holds(stack_svg=chart(pathlib.Path(NOTHING).read_bytes()))

    def test_mode_and_link(self):
        """A new file is for those whom the mask admits, one that is replaced keeps its mode, and a link leads to its file."""
        ozp("chart", REFERENCE, "-o", str(self.file), preexec_fn=lambda: os.umask(0o027))
        self.assertEqual(self.file.stat().st_mode & 0o777, 0o640)
        self.file.chmod(0o604)
        link = self.folder / "link.svg"
        link.symlink_to(self.file)
        ozp("chart", NOTHING, "-o", str(link))
        self.assertTrue(link.is_symlink())
        self.assertEqual((self.file.stat().st_mode & 0o777, self.file.read_text()), (0o604, link.read_text()))
        self.assertIn("Nothing cleared", self.file.read_text())

    def test_standard_output(self):
        self.assertEqual(ozp("chart", REFERENCE, "-o", "-"), (0, chart(reference()), ""))
        refused = f"ozp: {UNPRICED}: refused 6 at row 0: an offer has no price\n"
        self.assertEqual(ozp("chart", UNPRICED, "-o", "-"), (1, "", refused))
        self.holds()

    def test_json(self):
        said = json.loads(ozp("chart", "--json", REFERENCE, "-o", str(self.file))[1])
        self.assertEqual(said, {"book": REFERENCE, "picture": str(self.file), "total": 10_000, "price": 37_500})
        self.assertIsNone(json.loads(ozp("chart", "--json", NOTHING, "-o", str(self.file))[1])["price"])
        status, said, _ = ozp("chart", "--json", UNPRICED, "-o", str(self.file))
        self.assertEqual((status, json.loads(said)["refused"]["number"]), (1, 6))

    def test_refused(self):
        """The refusal, and no file; one that is there stays as it was."""
        refused = (1, f"{UNPRICED}: refused 6 at row 0: an offer has no price\n", "")
        self.assertEqual(ozp("chart", UNPRICED, "-o", str(self.file)), refused)
        self.holds()
        self.file.write_text("before")
        self.assertEqual(ozp("chart", UNPRICED, "-o", str(self.file)), refused)
        self.assertEqual(ozp("chart", "-", "-o", str(self.file), stdin=subprocess.DEVNULL)[0], 1)
        self.holds(stack_svg="before")

    def fails(self, pattern, *words, **streams):
        status, _, wrong = ozp("chart", *words, **streams)
        self.assertEqual((status, len(wrong.splitlines())), (2, 1), wrong)
        self.assertRegex(wrong, pattern)

    def test_never_half_a_file(self):
        """Where the room ends in the middle of the picture, what was there stays, and nothing is left beside it."""
        short = {"preexec_fn": lambda: resource.setrlimit(resource.RLIMIT_FSIZE, (1_000, 1_000))}
        self.fails("stack.svg: File too large", REFERENCE, "-o", str(self.file), **short)
        self.holds()
        self.file.write_text("before")
        self.fails("stack.svg: File too large", REFERENCE, "-o", str(self.file), **short)
        self.holds(stack_svg="before")

    def test_unwritable(self):
        self.fails("No such file or directory", REFERENCE, "-o", str(self.folder / "none" / "stack.svg"))
        self.fails("Is a directory", REFERENCE, "-o", str(self.folder))
        self.fails("No space left on device", REFERENCE, "-o", "/dev/full")
        with open("/dev/full", "w") as full:
            self.fails("standard output: No space left on device", REFERENCE, "-o", "-", stdout=full)
        self.assertTrue(pathlib.Path("/dev/full").is_char_device())
        self.holds()

    def test_unreadable(self):
        self.fails("No such file", str(self.folder / "none"), "-o", str(self.file))
        self.fails("Is a directory", str(self.folder), "-o", str(self.file))
        self.holds()

    def test_bad_usage(self):
        for words in ([], [REFERENCE], ["-o", str(self.file)], [REFERENCE, REFERENCE, "-o", "-"], ["--json", REFERENCE, "-o", "-"]):
            self.fails("^ozp", *words)
        copy = self.folder / "a.book"
        copy.write_bytes(reference())
        self.fails("the picture would take the book's place", str(copy), "-o", str(copy))
        self.assertEqual(copy.read_bytes(), reference())
        self.assertEqual([path.name for path in self.folder.iterdir()], ["a.book"])

    def test_help(self):
        status, said, wrong = ozp("chart", "--help")
        self.assertEqual((status, said.startswith("usage: ozp chart"), wrong), (0, True, ""))
        self.assertIn("chart", ozp("--help")[1])
