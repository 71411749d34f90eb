"""Files that are written whole or not at all: a file beside the one that is due is written first and then moved into its place."""
import os
import secrets
import stat
from contextlib import suppress
from typing import Mapping

from ._books import shown


class Unstored(Exception):
    """A file is not written, and why."""


def put(files: Mapping[str, bytes]) -> None:
    """Puts files in their places once all of them are written. Where one cannot be written, those that stand there are left as
    they are."""
    made: list[tuple[str, str, str]] = []
    name = ""
    try:
        for name, data in files.items():
            place = _place(name)
            made.append((name, os.path.join(os.path.dirname(place), f".ozp-{secrets.token_hex(8)}"), place))
            _write(made[-1][1], data, place)
        for name, beside, place in made:
            os.replace(beside, place)
    except OSError as error:
        raise Unstored(f"{shown(name)}: {error.strerror}") from error
    finally:
        for _, beside, _ in made:
            with suppress(OSError):
                os.unlink(beside)


def same(one: str, other: str) -> bool:
    """Whether two names are of one file."""
    return os.path.realpath(one) == os.path.realpath(other)


def _place(name: str) -> str:
    """Where a file is due: what a link leads to, so that the link stays. A folder or a device is no place for a file."""
    place = os.path.realpath(name)
    if os.path.isdir(place):
        raise IsADirectoryError(0, "Is a directory")
    if os.path.exists(place) and not os.path.isfile(place):
        raise OSError(0, "Not a file, so that nothing is moved into its place")
    return place


def _write(beside: str, data: bytes, place: str) -> None:
    """Writes a new file, with the rights of the one whose place it takes, and waits until it is stored."""
    with open(os.open(beside, os.O_WRONLY | os.O_CREAT | os.O_EXCL | os.O_CLOEXEC, 0o666), "wb") as file:
        with suppress(FileNotFoundError):
            os.fchmod(file.fileno(), stat.S_IMODE(os.stat(place).st_mode))
        file.write(data)
        file.flush()
        os.fsync(file.fileno())
