"""Standard output and standard error, either of which may be shut or full."""
import io
import os
import sys


class Unwritable(Exception):
    """What is written to standard output is not taken."""


def start() -> None:
    """Names of books are bytes: they are written as they are, whatever the language of the terminal."""
    for stream in (sys.stdout, sys.stderr):
        if isinstance(stream, io.TextIOWrapper):
            stream.reconfigure(encoding="utf-8", errors="surrogateescape")


def say(text: str) -> None:
    """Writes a text to standard output."""
    if sys.stdout is None:
        raise Unwritable("standard output is shut")
    try:
        sys.stdout.write(text)
    except OSError as error:
        _drop(error)


def settle() -> None:
    """Sees to it that what was written is taken."""
    if sys.stdout is not None:
        try:
            sys.stdout.flush()
        except OSError as error:
            _drop(error)


def _drop(error: OSError) -> None:
    """What is not taken now is not tried again when the program ends."""
    os.dup2(os.open(os.devnull, os.O_WRONLY), sys.stdout.fileno())
    raise Unwritable(f"standard output: {error.strerror}") from error


def hint(text: str) -> None:
    """Writes to standard error, where that can be written."""
    try:
        print(text, end="", file=sys.stderr, flush=True)
    except (OSError, ValueError):
        pass


def complain(text: str, name: str = "ozp") -> None:
    """Writes one line to standard error."""
    hint(f"{name}: {' '.join(text.split())}\n")


def is_terminal(stream: object) -> bool:
    return isinstance(stream, io.TextIOWrapper) and stream.isatty()
