"""The C interface, as include/ozpinduru.h declares it."""
from __future__ import annotations

import ctypes
import os
import pathlib
from typing import Any

VERSION = (0, 9, 0)

# kinds
GIVEN, NONE, REFUSED, MISSING, DIFFERS = 1, 2, 3, 4, 5

# a number of 32 bits that has no value
NO_VALUE = 2**32 - 1

BOOK_BYTES, ROWS, STEPS, REPORT_BYTES, WORDS_BYTES, PAGE_BYTES = 20_992, 600, 10, 32_768, 256, 98_304


def _struct(name: str, *fields: tuple[type, str]) -> Any:
    """A struct of the header: types, each with the names of the fields that have it."""
    return type(name, (ctypes.Structure,), {"_fields_": [(field, kind) for kind, names in fields for field in names.split()]})


_word, _amount, _size = ctypes.c_uint32, ctypes.c_uint64, ctypes.c_size_t
Value = _struct("ozp_value", (_word, "kind number"))
Parameters = _struct("ozp_parameters", (_word, "year"), (Value, "cost offset outage requirement margin"))
Row = _struct("ozp_row", (_amount, "stamp"), (_word, "resource seller quantity"), (Value, "price block"), (_word, "step"))
Answer = _struct("ozp_answer", (_amount, "make_whole daily year"), (_word, "kind total price rows number place"))
CurvePoints = _struct("ozp_curve_points", (_word, "kind p1 p2 p3 q1 q2 q3 number place"))
CurvePrice = _struct("ozp_curve_price", (_word, "kind cents remainder divisor number place"))
Contents = _struct("ozp_contents", (_word, "kind rows edition number place"), (Parameters, "parameters"))
Comparison = _struct("ozp_comparison", (_word, "kind price shared field row other book number place"))
Text = _struct("ozp_text", (_amount, "bytes"), (_word, "kind number place"))
STRUCTS = (Value, Parameters, Row, Answer, CurvePoints, CurvePrice, Contents, Comparison, Text)


def _declared(c: ctypes.CDLL) -> ctypes.CDLL:
    """The library with the types of its functions. A book is bytes; a buffer is its address."""
    book, buffer = [ctypes.c_char_p, _size], [ctypes.c_void_p, _size]
    for name, result, arguments in [
        ("clear", Answer, book + buffer + buffer),
        ("quote", Answer, book),
        ("read", Contents, book + buffer),
        ("write", Text, [_word, Parameters] + buffer + buffer),
        ("convert", Text, book + buffer),
        ("compare", Comparison, book + book),
        ("curve", CurvePoints, [Parameters]),
        ("price_at", CurvePrice, [Parameters, _word]),
        ("make_whole", _amount, [_word] * 4),
        ("days", _word, [_word]),
        ("report", Text, book + buffer),
        ("explain", Text, book + buffer),
        ("explain_head", Text, book + buffer),
        ("explain_row", Text, book + [_size] + buffer),
        ("words", Text, [_word] + buffer),
        ("version", _word, []),
    ]:
        function = getattr(c, f"ozp_{name}")
        function.restype, function.argtypes = result, arguments
    return c


def _load() -> ctypes.CDLL:
    """The shared object that OZPINDURU_LIB names, or the one beside this file, or the one in the repository's build/."""
    here, name, named = pathlib.Path(__file__).resolve().parent, "libozpinduru.so", os.environ.get("OZPINDURU_LIB")
    places = [pathlib.Path(named).absolute()] if named else [here / name, here.parents[2] / "build" / name]
    try:
        c = _declared(ctypes.CDLL(str(next(filter(pathlib.Path.is_file, places), places[-1]))))
    except (OSError, AttributeError) as error:
        raise ImportError(f"{error}: make it with bindings/build, or name it in OZPINDURU_LIB") from error
    if numbered(c.ozp_version())[:2] != VERSION[:2]:
        raise ImportError(f"version {numbered(c.ozp_version())} of the library is not of this package, {VERSION}")
    return c


def numbered(version: int) -> tuple[int, int, int]:
    """Major, minor and patch of a version."""
    return version // 1_000_000, version // 1_000 % 1_000, version % 1_000


library = _load()


def held(book: Any) -> bytes:
    """The bytes of a book; anything that has a buffer is copied once."""
    return book if type(book) is bytes else bytes(memoryview(book))


def most_rows(data: bytes) -> int:
    """As many rows as the blocks of a book could have: fifteen in each."""
    return min(len(data) // 512 * 15, ROWS)
