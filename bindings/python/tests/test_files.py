"""The words `ozp read` and `ozp write`: each undoes the other on files, and no half a book is ever left."""
import contextlib
import io
import json
import os
import pathlib
import resource
import stat
import tempfile
import unittest

from shared import VERDICTS, reference, shipped, soundness
from test_command import REFERENCE, ozp
from ozpinduru.command import main

MISSING = VERDICTS / "data" / "no-price-in-row-0.book"
DAMAGED = str(VERDICTS / "data" / "check-byte-altered.book")


def inside(*words):
    """Exit status, standard output and standard error of a run in this process."""
    with contextlib.redirect_stdout(io.StringIO()) as out, contextlib.redirect_stderr(io.StringIO()) as wrong:
        return main(words), out.getvalue(), wrong.getvalue()


class Files(unittest.TestCase):
    def setUp(self):
        folder = tempfile.TemporaryDirectory()
        self.addCleanup(folder.cleanup)
        self.folder = pathlib.Path(folder.name)

    def path(self, name, text=None):
        """The name of a file in a folder of its own, which has the text if there is one."""
        if text is not None:
            (self.folder / name).write_text(text if isinstance(text, str) else json.dumps(text))
        return str(self.folder / name)

    def names(self):
        return sorted(os.listdir(self.folder))

    def fails(self, status, pattern, *words, **streams):
        """A run that fails, with one line and the files as they were."""
        before = {name: (self.folder / name).read_bytes() for name in self.names()}
        done = ozp(*words, **streams) if streams else inside(*words)
        said = done[2] if status == 2 else done[1]
        self.assertEqual((done[0], len(said.splitlines())), (status, 1), done)
        self.assertRegex(said, pattern)
        self.assertEqual({name: (self.folder / name).read_bytes() for name in self.names()}, before)


class ReadsAndWrites(Files):
    def test_document(self):
        status, said, _ = ozp("read", REFERENCE)
        document = json.loads(said)
        self.assertEqual((status, document["parameters"]["margin"], document["offers"][0]["block"]), (0, None, None))
        self.assertEqual((list(document), document["edition"]), (["edition", "parameters", "offers"], 1))
        self.assertEqual(document["offers"][2], dict(resource=13, seller=7, price=37_500, quantity=100, block=50, stamp=3, step=1))
        self.assertEqual(ozp("write", "-", "-o", self.path("book"), input=said.encode()),
                         (0, f"{self.path('book')}: written, 3 offers in 1,024 bytes\n", ""))
        self.assertEqual((self.folder / "book").read_bytes(), reference())
        self.assertEqual(ozp("read", self.path("book"), "-o", self.path("json")), (0, "", ""))
        self.assertEqual((self.folder / "json").read_text(), said)

    def test_apart(self):
        parameters, rows, copy = self.path("p.json"), self.path("rows.json"), self.path("copy")
        self.assertEqual(ozp("read", str(MISSING), "--parameters", parameters, "-o", rows), (0, "", ""))
        self.assertIsNone(json.loads((self.folder / "rows.json").read_text())[0]["price"])
        self.assertEqual(ozp("write", "--parameters", parameters, rows, "-o", copy, "--json")[::2], (0, ""))
        self.assertEqual((self.folder / "copy").read_bytes(), MISSING.read_bytes())
        self.assertEqual(ozp("read", str(MISSING), "--parameters", parameters)[:2], (0, (self.folder / "rows.json").read_text()))
        self.assertEqual(self.names(), ["copy", "p.json", "rows.json"])

    def test_editions(self):
        """A document without an edition or a step means 1; --edition says it where the document does not."""
        steps = VERDICTS / "data" / "steps-1-to-10-of-one-resource.book"
        document, book = json.loads(ozp("read", str(steps))[1]), self.path("book")
        self.assertEqual((document["edition"], [offer["step"] for offer in document["offers"]]), (2, [*range(1, 11)]))
        self.assertEqual(ozp("write", self.path("json", document), "-o", book),
                         (0, f"{book}: written, edition 2, 10 offers in 1,024 bytes\n", ""))
        self.assertEqual((self.folder / "book").read_bytes(), steps.read_bytes())
        apart = self.path("p.json"), self.path("rows.json")
        self.assertEqual(ozp("read", str(steps), "--parameters", apart[0], "-o", apart[1]), (0, "", ""))
        self.assertEqual(ozp("write", "--parameters", *apart, "-o", book, "--json")[::2], (0, ""))
        self.assertEqual((self.folder / "book").read_bytes(), steps.read_bytes())
        self.assertEqual(json.loads((self.folder / "p.json").read_text())["edition"], 2)
        old = json.loads(ozp("read", REFERENCE)[1])
        old = {"parameters": old["parameters"],
               "offers": [{name: offer[name] for name in offer if name != "step"} for offer in old["offers"]]}
        self.assertEqual(ozp("write", self.path("json", old), "-o", book)[::2], (0, ""))
        self.assertEqual((self.folder / "book").read_bytes(), reference())
        said = json.loads(ozp("write", self.path("json", old), "-o", book, "--edition", "2", "--json")[1])
        self.assertEqual((said["edition"], said["offers"], said["bytes"]), (2, 3, 1_024))
        self.assertEqual(json.loads(ozp("read", book)[1])["edition"], 2)

    def test_every_book_that_ships(self):
        """What is read is written back byte for byte where the book is sound; else no book is made."""
        said, written = soundness(), 0
        for path in shipped():
            source, copy = self.path("json"), self.folder / path.name
            refused = inside("read", str(path), "-o", source)[0] or inside("write", source, "-o", str(copy))[0]
            self.assertEqual(refused, 0 if copy.exists() else 1, path.name)
            if copy.exists():
                self.assertEqual(copy.read_bytes(), path.read_bytes(), path.name)
            if path.parent.name == "data":
                self.assertEqual(copy.exists(), said[path.name] == "sound", path.name)
            written += copy.exists()
            copy.unlink(missing_ok=True)
        self.assertGreaterEqual(written, 90)

    def test_place(self):
        """A link stays a link, and a file keeps its rights."""
        book, link = self.path("book", "old"), self.path("link")
        os.chmod(book, 0o640)
        os.symlink("book", link)
        self.assertEqual(ozp("write", "-", "-o", link, input=ozp("read", REFERENCE)[1].encode())[0], 0)
        self.assertTrue(os.path.islink(link))
        self.assertEqual(((self.folder / "book").read_bytes(), stat.S_IMODE(os.stat(book).st_mode)), (reference(), 0o640))
        self.assertEqual(self.names(), ["book", "link"])


class Fails(Files):
    def test_refused(self):
        document = json.loads(ozp("read", REFERENCE)[1])
        document["offers"][1]["resource"] = 11
        source, book = self.path("json", document), self.path("book", "what stood there")
        self.fails(1, "book: refused 8 at row 1: ", "write", source, "-o", book)
        document["parameters"]["cost"] = 2**40
        source = self.path("json", document)
        self.fails(1, r'"refused": \{"number": 5, "place": 2, ', "write", "--json", source, "-o", book)
        self.path("json", {**document, "offers": document["offers"] * 201})
        self.fails(1, "refused 19 at 0: more than 600 rows$", "write", source, "-o", book)
        steps = {**document, "parameters": json.loads(ozp("read", REFERENCE)[1])["parameters"]}
        self.path("json", {**steps, "offers": [{**document["offers"][0], "step": 2}]})
        self.fails(1, "refused 7 at row 0: ", "write", source, "-o", book)
        self.path("json", {**steps, "edition": 2, "offers": [{**document["offers"][0], "step": 2}]})
        self.fails(1, "refused 10 at row 0: ", "write", source, "-o", book)
        self.path("json", {**steps, "edition": 3})
        self.fails(1, "refused 3 at block 0: ", "write", source, "-o", book)
        self.fails(1, r'^\{"book": ".*", "refused": \{"number": 2, "place": ', "read", DAMAGED, "-o", book)

    def test_no_json_of_a_book(self):
        document = json.loads(ozp("read", REFERENCE)[1])
        parameters, offers = document["parameters"], document["offers"]
        first = offers[0]
        for wrong, pattern in [
            (offers, "goes with --parameters"), ({"offers": offers}, "no object of"), ({**document, "bids": []}, "no object of"),
            ({**document, "offers": {}}, "the offers are no list"), ({**document, "parameters": []}, "the parameters should be"),
            ({**document, "offers": [first, None]}, "offer 1 should be an object"),
            ({**document, "offers": [{**first, "price": 1.0}]}, "1.0 is no whole number"),
            ({**document, "offers": [{**first, "price": "1"}]}, "offer 0: 'price' is no whole number and no null"),
            ({**document, "offers": [{**first, "price": True}]}, "'price' is no whole number"),
            ({**document, "offers": [{**first, "stamp": None}]}, "'stamp' is no whole number$"),
            ({**document, "offers": [{**first, "step": None}]}, "offer 0: 'step' is no whole number$"),
            ({**document, "edition": None}, "'edition' is no whole number$"), ({**document, "edition": True}, "'edition' is no"),
            ({**document, "parameters": {**parameters, "edition": 1}}, "'edition' is none of year, "),
            ({**document, "offers": [{**first, "prise": 1}]}, "'prise' is none of resource, seller, price, "),
            ({**document, "parameters": {**parameters, "margin": float("nan")}}, "NaN is no whole number"),
            ({**document, "parameters": {name: parameters[name] for name in parameters if name != "margin"}}, "no 'margin'; null"),
            ('{"offers": [], "offers": []}', "stands twice"), ("", "no JSON"), ("[" * 100_000, "no JSON"), ("9" * 5_000, "no JSON"),
        ]:
            with self.subTest(pattern):
                self.fails(2, pattern, "write", self.path("json", wrong), "-o", self.path("book"))
        pathlib.Path(self.path("json")).write_bytes(b"\xff\xff\xff")
        self.fails(2, "no JSON", "write", self.path("json"), "-o", self.path("book"))

    def test_usage(self):
        source = self.path("json", ozp("read", REFERENCE)[1])
        other = self.path("other", "{}")
        for words in (["write", source], ["write", source, "-o", "-"], ["write", source, "-o", source], ["read"],
                      ["write", "-", "--parameters", "-", "-o", other], ["write", other, "--parameters", source, "-o", source],
                      ["read", source, "-o", source], ["read", other, "--parameters", source, "-o", source],
                      ["read", other, "-o", "-"], ["read", source, other],
                      ["write", source, "-o", other, "--edition", "1"], ["write", source, "-o", other, "--edition", "3"]):
            with self.subTest(words):
                self.fails(2, "^ozp", *words)

    def test_unwritable(self):
        """A full disk, a folder that is not there, what is no file: nothing is left behind."""
        source, book = self.path("json", ozp("read", REFERENCE)[1]), self.path("book", "what stood there")

        def full():
            resource.setrlimit(resource.RLIMIT_FSIZE, (700, 700))

        self.fails(2, "book: File too large", "write", source, "-o", book, preexec_fn=full)
        self.fails(2, "No such file", "write", source, "-o", self.path("none/book"))
        self.fails(2, "Is a directory", "write", source, "-o", str(self.folder))
        self.fails(2, "Not a file", "write", source, "-o", "/dev/null")
        self.fails(2, "No such file", "write", self.path("nowhere"), "-o", book)
        self.fails(2, "No such file", "read", self.path("nowhere"), "-o", book)
        self.fails(2, "No such file", "read", REFERENCE, "--parameters", book, "-o", self.path("none/rows"))
        self.fails(2, "standard input is shut", "write", "-", "-o", book, preexec_fn=lambda: os.close(0))
