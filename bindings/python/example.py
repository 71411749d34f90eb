"""Clears the book that ships with the project, or the one named: python3 bindings/python/example.py [BOOK]"""
import pathlib
import sys
import ozpinduru

reference = pathlib.Path(__file__).resolve().parents[2] / "examples" / "reference.book"
book = pathlib.Path(sys.argv[1] if sys.argv[1:] else reference).read_bytes()
try:
    clearing = ozpinduru.clear(book)
except ozpinduru.Refusal as refusal:
    sys.exit(str(refusal))
if clearing.price is None:
    print("nothing cleared, so there is no price")
else:
    print(f"cleared {clearing.total / 10} MW at ${clearing.price / 100:,.2f} per MW-day")
for row in clearing.rows:
    print(f"resource {row.resource}: cleared {row.cleared / 10} MW, committed {row.committed / 10} MW,",
          f"made whole ${row.make_whole / 1000:,.3f} a day")
print(f"paid ${clearing.daily / 1000:,.3f} a day, ${clearing.year / 1000:,.3f} a year")
