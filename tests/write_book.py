"""Writes books, sound or not, and the files of those that ship with the project.

Written from the outline alone: it shares nothing with the library.
"""
import pathlib
import struct
import sys

TESTS = pathlib.Path(__file__).resolve().parent

REFERENCE = dict(year=2026, cost=146_000, offset=73_000, outage=2_000, requirement=10_000)


def seal(block):
    """The 508 bytes of a block with both sums behind them."""
    assert len(block) == 508
    plain = sum(block) % 65_536
    placed = sum(byte * (at + 1) for at, byte in enumerate(block)) % 65_536
    return bytes(block) + struct.pack("<HH", plain, placed)


def number(value):
    return 0 if value is None else value


def head(offers, edition=1, year=2026, cost=None, offset=None, outage=None, requirement=None, margin=None, letters=b"RPMB"):
    given = [cost, offset, outage, requirement, margin]
    marks = sum(1 << bit for bit, value in enumerate(given) if value is not None)
    text = letters + struct.pack("<HHIIIIHBxI", edition, year, *map(number, given[:4]), offers, marks, number(margin))
    return bytearray(text.ljust(508, b"\0"))


def offer(resource, price=0, quantity=100, block=None, stamp=1, seller=7, step=0):
    """The 32 bytes of a place. Edition 2 has a step in it, and edition 1 a zero."""
    marks = (price is not None) + 2 * (block is not None)
    values = resource, seller, number(price), quantity, number(block), stamp, marks, step
    return struct.pack("<IIIIIQBB", *values).ljust(32, b"\0")


def steps(resource, *prices, **values):
    """The steps of a resource at these prices, from 1 on."""
    return [offer(resource, price, step=at + 1, **values) for at, price in enumerate(prices)]


def rows(offers, block_number, letters=b"OFRS"):
    text = letters + struct.pack("<HH", block_number, len(offers)) + bytes(20) + b"".join(offers)
    return bytearray(text.ljust(508, b"\0"))


def blocks(offers, **parameters):
    """The unsealed blocks of a book: reference parameters, but for those that are named."""
    given = {**REFERENCE, **parameters}
    cut = [offers[at:at + 15] for at in range(0, len(offers), 15)]
    return [head(len(offers), **given)] + [rows(part, at + 1) for at, part in enumerate(cut)]


def book(offers, **parameters):
    return b"".join(seal(block) for block in blocks(offers, **parameters))


def changed(offers, changes, **parameters):
    """A book with some bytes of its blocks changed before they are sealed: (block, place, bytes)."""
    made = blocks(offers, **parameters)
    for block, at, new in changes:
        made[block][at:at + len(new)] = new
    return b"".join(seal(block) for block in made)


def damaged(whole, changes):
    """A sealed book with some bytes changed and its sums left as they were: (place, bytes)."""
    made = bytearray(whole)
    for at, new in changes:
        made[at:at + len(new)] = new
    return bytes(made)


def many(n):
    return [offer(row + 1, price=row, quantity=row % 50 + 1, stamp=row) for row in range(n)]


def one(quantity, price=0, **rest):
    """The offers of a book that has one."""
    return [offer(21, price, quantity, **rest)]


THREE = [offer(11, 10_000, 9_900, stamp=1), offer(12, 37_500, 200, stamp=2), offer(13, 37_500, 100, block=50, stamp=3)]


def program_files(home, cases):
    """The files of a program's folder, from each book's name, its bytes and what is expected to be printed of it."""
    made = {home / "data" / f"{name}.book": data for name, data, _ in cases}
    made[home / "args"] = "".join(f"{name}.book\n" for name, _, _ in cases).encode()
    made[home / "stdout"] = "".join(printed for _, _, printed in cases).encode()
    return made


def files_beside(home, cases):
    """Each book with what is expected to be printed of it beside it."""
    made = {home / f"{name}.book": data for name, data, _ in cases}
    made |= {home / f"{name}.txt": printed.encode() for name, _, printed in cases}
    return made


def keep(files, home, cases):
    """Writes the files of some books, or with --check says which are not what the script makes."""
    cases = list(cases)
    assert len({name for name, _, _ in cases}) == len(cases)
    made = files(home, cases)
    folders = {path.parent for path in made if path.suffix == ".book"}
    stray = [path for folder in folders for path in folder.glob("*") if path not in made]
    if sys.argv[1:] == ["--check"]:
        wrong = stray + [path for path, data in made.items() if not path.is_file() or path.read_bytes() != data]
        for path in wrong:
            print(f"not what {pathlib.Path(sys.argv[0]).name} makes: {path.name}")
        print(f"{len(cases)} books compared with their making")
        sys.exit(1 if wrong else 0)
    for folder in folders:
        folder.mkdir(parents=True, exist_ok=True)
    for path in stray:
        path.unlink()
    for path, data in made.items():
        path.write_bytes(data)
