"""A progress bar on standard error, where that is a terminal and there are many books."""
import sys

from ._streams import hint, is_terminal

MANY, WIDTH = 20, 40


class Bar:
    def __init__(self, books: int) -> None:
        self.books, self.done = books, 0
        self.shown = books >= MANY and is_terminal(sys.stderr)

    def hide(self) -> None:
        """Makes room for a line."""
        if self.shown:
            hint("\r\033[K")

    def step(self) -> None:
        """One book more is done."""
        self.done += 1
        if self.shown:
            filled = WIDTH * self.done // self.books
            hint(f"\r[{'#' * filled:<{WIDTH}}] {self.done} of {self.books} books")
