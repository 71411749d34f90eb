"""Replays calls through the Python module, each in two threads at once, and compares what they give with what is due.

    python3 tests/replay/replay.py PAGES < CALLS     as `oracle calls` writes them, and tests/explain/pages.py their pages
"""
import collections
import ctypes
import pathlib
import struct
import sys
import threading
from concurrent.futures import ThreadPoolExecutor

sys.path.insert(0, str(pathlib.Path(__file__).resolve().parents[2] / "bindings" / "python"))
import ozpinduru  # noqa: E402

library = ozpinduru._library.library
HEAD = struct.Struct("<3Q10I")
ANSWER = "make_whole daily year kind total price number place"
Due = collections.namedtuple("Due", f"{ANSWER} book_bytes cleared_entries committed_entries filled rows")

start = threading.Barrier(2)


def calls(data):
    """Each call: what is due, the book, and the entries that are filled of both buffers."""
    at = 0
    while at < len(data):
        due = Due._make(HEAD.unpack_from(data, at))
        at += HEAD.size + due.book_bytes
        entries = struct.unpack_from(f"<{2 * due.filled}I", data, at)
        yield due, data[at - due.book_bytes:at], [entries[:due.filled], entries[due.filled:]]
        at += 8 * due.filled


def lent(due, book, filled):
    """What differs where the library is called as the module calls it, with buffers of just the lengths that are due."""
    cleared, committed = [(ctypes.c_uint32 * n)(*range(n)) for n in (due.cleared_entries, due.committed_entries)]
    a = library.ozp_clear(book, len(book), cleared, len(cleared), committed, len(committed))
    if any(getattr(a, name) != getattr(due, name) for name in ANSWER.split()):
        return "the answer"
    if a.rows != (2**32 - 1 if due.kind == 3 else due.filled):
        return "the number of rows"
    for buffer, entries in zip((cleared, committed), filled):
        if list(buffer) != [*entries, *range(len(entries), len(buffer))]:
            return "a buffer"


def decoded(book, count):
    """The values of a book of so many rows, from its bytes, as the outline places them."""
    edition, year, *values, _, marks, margin = struct.unpack_from("<HH4IHBxI", book, 4)
    offers = []
    for n in range(count):
        at = 512 * (1 + n // 15) + 28 + 32 * (n % 15)
        resource, seller, price, quantity, block, stamp, own, step = struct.unpack_from("<5IQBB", book, at)
        price, block = price if own & 1 else None, block if own & 2 else None
        offers.append(ozpinduru.Offer(resource, seller, price, quantity, block, stamp, 1 if edition == 1 else step))
    given = [value if marks >> bit & 1 else None for bit, value in enumerate([*values, margin])]
    return ozpinduru.Book(ozpinduru.Parameters(year, *given), offers, edition)


def printed(due, rows):
    """What the program `clear` prints."""
    if due.kind == 3:
        return f"refused {due.number} {due.place}\n"
    price = due.price if due.kind == 1 else "-"
    lines = [f"cleared {due.total}", f"price {price}", *(" ".join(map(str, row[:4])) for row in rows)]
    return "\n".join([*lines, f"daily {due.daily}", f"year {due.year}", ""])


def read(due, book):
    """What the package reads, or None where that differs from what the bytes say."""
    try:
        found = ozpinduru.read(book)
    except ozpinduru.Refusal as refusal:
        return [] if due.rows == 0 and refusal.number <= 3 else None
    return found.offers if found == decoded(book, due.rows) else None


def written_back(due, book):
    """Whether what the package reads it writes back: the book's bytes, unless it is one that no writer makes."""
    try:
        found = ozpinduru.read(book)
    except ozpinduru.Refusal:
        return True
    try:
        return ozpinduru.write(found.parameters, found.offers, found.edition) == book
    except ozpinduru.Refusal as refusal:
        return refusal.number in (5, 7, 8, 10) and due.kind == 3 and due.number != ozpinduru.Fault.SHORT_BUFFER


def converted(due, book):
    """Whether a book goes to the other edition and back again, unless it is not sound or has a later step."""
    try:
        other = ozpinduru.convert(book)
    except ozpinduru.Refusal as refusal:
        return refusal.number == 11 or due.kind == 3 and due.number != ozpinduru.Fault.SHORT_BUFFER
    return ozpinduru.convert(other) == book and len(other) == len(book)


def pages(data):
    """The pages that are due, by the number of their call: `page`, `head` or a row, and the text, empty where there is none."""
    at, found = 0, collections.defaultdict(list)
    while at < len(data):
        end = data.index(b"\n", at) + 1
        call, which, count = data[at:end].split()
        at = end + int(count)
        found[int(call)].append((which.decode(), data[end:at].decode()))
    return found


def explained(book, which):
    """A page of a book, empty where there is none."""
    try:
        whole = {"page": ozpinduru.explain, "head": ozpinduru.explain_head}
        return whole[which](book) if which in whole else ozpinduru.explain(book, int(which))
    except IndexError:
        return ""


def called(due, book, filled):
    """What differs where the package's own functions are called; their buffers are never short."""
    offers, price = read(due, book), due.price if due.kind == 1 else None
    if offers is None:
        return "what is read"
    if not written_back(due, book):
        return "what is written back"
    if not converted(due, book):
        return "the other edition"
    if due.number == ozpinduru.Fault.SHORT_BUFFER:
        return None
    rows = [(offer.resource, x, y, (price or 0) * (y - x), offer.step) for offer, x, y in zip(offers, *filled)]
    try:
        answer, columns = ozpinduru.clear(book), ozpinduru.clear_columns(book)
        in_all = (due.total, price, due.make_whole, due.daily, due.year)
        same = answer == ozpinduru.Clearing(*in_all, rows) and ozpinduru.quote(book) == ozpinduru.Quote(*in_all)
        same = same and [tuple(columns.cleared), tuple(columns.committed)] == filled
    except ozpinduru.Refusal as refusal:
        same = (refusal.number, refusal.place) == (due.number, due.place)
    if not same:
        return "the package's answer"
    return None if ozpinduru.report(book) == printed(due, rows) else "the report"


def replay(texts, *call):
    start.wait()
    if not texts or any(explained(call[1], which) != text for which, text in texts):
        return "a page"
    return lent(*call) or called(*call)


def main():
    count = differ = 0
    texts = pages(pathlib.Path(sys.argv[1]).read_bytes())
    with ThreadPoolExecutor(2) as pool:
        for call in calls(sys.stdin.buffer.read()):
            for what in {thread.result() for thread in [pool.submit(replay, texts[count], *call) for _ in range(2)]} - {None}:
                print(f"call {count}: {what} differs from what is due", file=sys.stderr)
                differ += 1
            count += 1
    print(f"{count} calls, each in two threads at once, {differ} differ")
    return 0 if count and not differ else 1


if __name__ == "__main__":
    sys.exit(main())
