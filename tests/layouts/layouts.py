"""Prints constants, sizes and offsets as tests/layouts/layouts.c does, as the Python package has them."""
import ctypes
import pathlib
import sys

sys.path.insert(0, str(pathlib.Path(__file__).resolve().parents[2] / "bindings" / "python"))
from ozpinduru._book import ROW  # noqa: E402
from ozpinduru import _library as c  # noqa: E402

assert ROW.size == ctypes.sizeof(c.Row)
print("constants", c.GIVEN, c.NONE, c.REFUSED, c.MISSING, c.DIFFERS, c.BOOK_BYTES, c.ROWS, c.STEPS, c.REPORT_BYTES,
      c.WORDS_BYTES, c.PAGE_BYTES, c.NO_VALUE, 2**64 - 1)
for struct in c.STRUCTS:
    fields = "".join(f" {name} {getattr(struct, name).offset}" for name, _ in struct._fields_)
    print(f"{struct.__name__} {ctypes.sizeof(struct)} {ctypes.alignment(struct)}{fields}")
