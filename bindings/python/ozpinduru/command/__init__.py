"""The command `ozp`. Each word of it is a module of this folder whose name has no underscore in front: its docstring is the
help, `arguments(parser)` adds what it takes, and `run(asked)` does it and returns the exit status.

Exit status: 0 where every book cleared, nothing cleared, or was read or written; 1 where one was refused; 2 for bad usage or what
cannot be read or written.
"""
import argparse
import importlib
import pkgutil
from typing import NoReturn, Optional, Sequence

from .. import __version__
from ._streams import Unwritable, complain, say, settle, start

UNUSABLE, INTERRUPTED = 2, 130


class _Parser(argparse.ArgumentParser):
    """A parser that says what is wrong in one line, and the rest where it is seen whether it is taken."""
    def _print_message(self, message: str, file: object = None) -> None:
        say(message)

    def error(self, message: str) -> NoReturn:
        complain(f"{message}; see {self.prog} --help", self.prog)
        raise SystemExit(UNUSABLE)


def _parser() -> argparse.ArgumentParser:
    parser = _Parser(prog="ozp", description="Clears capacity auctions, and reads and writes their books, with the proved library.",
                     epilog="Exit status: 0 answered, 1 refused, 2 bad usage or what cannot be read or written.")
    parser.add_argument("--version", action="version", version=f"ozp {__version__}")
    words = parser.add_subparsers(metavar="WORD", required=True)
    for found in pkgutil.iter_modules(__path__):
        if not found.name.startswith("_"):
            word = importlib.import_module(f"{__name__}.{found.name}")
            about = (word.__doc__ or "").strip()
            added = words.add_parser(found.name, help=about.split("\n")[0], description=about, allow_abbrev=False,
                                     formatter_class=argparse.RawDescriptionHelpFormatter)
            word.arguments(added)
            added.set_defaults(run=word.run)
    return parser


def main(arguments: Optional[Sequence[str]] = None) -> int:
    """Runs a word; whatever goes wrong is one line on standard error and an exit status."""
    start()
    try:
        try:
            asked = _parser().parse_args(arguments)
            status = asked.run(asked)
        except SystemExit as left:
            status = left.code if isinstance(left.code, int) else UNUSABLE
        settle()
    except Unwritable as error:
        complain(str(error))
        status = UNUSABLE
    except KeyboardInterrupt:
        status = INTERRUPTED
    return status
