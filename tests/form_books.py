"""Books that are refused for their form, by 1, 2 or 3: each one's name, its bytes, the refusal's number and its place."""
import struct

from write_book import book, changed, damaged, many, offer, steps

NO_OFFERS, SIXTEEN = book([]), book(many(16))
PLACE_0, PLACE_1 = 28, 60


def lengths():
    yield ("length-0", b"", 1, 0)
    yield ("length-511", NO_OFFERS[:511], 1, 0)
    yield ("length-513", NO_OFFERS + b"\0", 1, 0)
    yield ("length-21504-offers-601", book(many(601)), 1, 0)
    yield ("length-1024-and-a-half", SIXTEEN[:1280], 1, 0)


def checks():
    yield ("check-first-sum-wrong", damaged(NO_OFFERS, [(508, bytes([NO_OFFERS[508] ^ 1]))]), 2, 0)
    yield ("check-second-sum-wrong", damaged(NO_OFFERS, [(511, bytes([NO_OFFERS[511] ^ 128]))]), 2, 0)
    yield ("check-byte-altered", damaged(SIXTEEN, [(512 + 40, b"\x77")]), 2, 1)
    yield ("check-bytes-exchanged", damaged(NO_OFFERS, [(6, NO_OFFERS[7:8]), (7, NO_OFFERS[6:7])]), 2, 0)
    yield ("check-lowest-of-two", damaged(SIXTEEN, [(512 + 40, b"\x77"), (1024 + 40, b"\x77")]), 2, 1)
    yield ("check-in-a-late-block-before-layout-in-block-0",
           damaged(changed(many(16), [(0, 0, b"RPMX")]), [(1024 + 40, b"\x77")]), 2, 2)


def head_layouts():
    yield ("layout-letters-of-block-0", changed([], [(0, 0, b"RPMX")]), 3, 0)
    yield ("layout-edition-0", changed([], [(0, 4, b"\0\0")]), 3, 0)
    yield ("layout-edition-3", changed([], [(0, 4, b"\3\0")]), 3, 0)
    yield ("layout-edition-257", changed([], [(0, 4, b"\1\1")]), 3, 0)
    yield ("layout-edition-258", changed([], [(0, 4, b"\2\1")]), 3, 0)
    yield ("layout-count-601", changed(many(600), [(0, 24, struct.pack("<H", 601))]), 3, 0)
    yield ("layout-count-65535", changed([], [(0, 24, b"\xff\xff")]), 3, 0)
    yield ("layout-count-too-large-for-the-blocks", changed(many(15), [(0, 24, b"\x10\0")]), 3, 0)
    yield ("layout-count-too-small-for-the-blocks", changed(many(16), [(0, 24, b"\x0f\0")]), 3, 0)
    yield ("layout-count-0-with-an-offer-block", changed([offer(1)], [(0, 24, b"\0\0")]), 3, 0)
    yield ("layout-count-before-a-wrong-later-block", changed(many(16), [(0, 24, b"\x0f\0"), (1, 0, b"X")]), 3, 0)
    yield ("layout-mark-bit-5", changed([], [(0, 26, b"\x2f")]), 3, 0)
    yield ("layout-mark-bit-7", changed([], [(0, 26, b"\x8f")]), 3, 0)
    yield ("layout-byte-27-not-zero", changed([], [(0, 27, b"\1")]), 3, 0)
    yield ("layout-byte-27-not-zero-beside-a-margin", changed([], [(0, 27, b"\1")], year=2024, margin=1_500), 3, 0)
    yield ("layout-margin-without-its-mark", changed([], [(0, 28, struct.pack("<I", 1_500))]), 3, 0)
    yield ("layout-margin-without-its-mark-in-2024", changed([], [(0, 28, struct.pack("<I", 1_500))], year=2024), 3, 0)
    yield ("layout-bids-are-set-aside", changed([], [(0, 32, b"\1\0")]), 3, 0)
    yield ("layout-byte-33-not-zero-beside-a-margin", changed([], [(0, 33, b"\1")], year=2024, margin=1_500), 3, 0)
    yield ("layout-byte-507-of-block-0-not-zero", changed([], [(0, 507, b"\1")]), 3, 0)
    for field, at in [("cost", 8), ("offset", 12), ("outage", 16), ("requirement", 20)]:
        yield (f"layout-absent-{field}-not-zero", changed([], [(0, at + 3, b"\1")], **{field: None}), 3, 0)


def row_layouts():
    yield ("layout-letters-of-an-offer-block", changed(many(16), [(2, 0, b"OFRT")]), 3, 2)
    yield ("layout-bid-letters-are-set-aside", changed([offer(1)], [(1, 0, b"BIDS")]), 3, 1)
    yield ("layout-block-number-0", changed([offer(1)], [(1, 4, b"\0\0")]), 3, 1)
    yield ("layout-block-numbers-exchanged", changed(many(30), [(1, 4, b"\2\0"), (2, 4, b"\1\0")]), 3, 1)
    yield ("layout-count-of-the-last-block-too-small", changed(many(17), [(2, 6, b"\1\0")]), 3, 2)
    yield ("layout-count-of-a-full-block-14", changed(many(16), [(1, 6, b"\x0e\0")]), 3, 1)
    yield ("layout-byte-8-of-an-offer-block-not-zero", changed([offer(1)], [(1, 8, b"\1")]), 3, 1)
    yield ("layout-byte-27-of-an-offer-block-not-zero", changed([offer(1)], [(1, 27, b"\1")]), 3, 1)
    yield ("layout-unused-place-not-zero", changed([offer(1)], [(1, PLACE_1 + 12, b"\1")]), 3, 1)
    yield ("layout-last-byte-of-the-last-place-not-zero", changed([offer(1)], [(1, 507, b"\1")]), 3, 1)
    yield ("layout-mark-bit-2-of-a-place", changed([offer(1)], [(1, PLACE_0 + 28, b"\5")]), 3, 1)
    yield ("layout-step-1-in-edition-1", book([offer(1, step=1)]), 3, 1)
    yield ("layout-step-2-in-edition-1", book([offer(1), offer(1, step=2)]), 3, 1)
    yield ("layout-step-in-an-unused-place", changed(steps(1, 5), [(1, PLACE_1 + 29, b"\1")], edition=2), 3, 1)
    yield ("layout-event-byte-30-is-set-aside", changed([offer(1)], [(1, PLACE_0 + 30, b"\1")]), 3, 1)
    yield ("layout-byte-31-of-a-place-not-zero", changed([offer(1)], [(1, PLACE_0 + 31, b"\1")]), 3, 1)
    for at in (30, 31):
        yield (f"layout-byte-{at}-of-a-place-of-edition-2-not-zero",
               changed(steps(1, 5), [(1, PLACE_0 + at, b"\1")], edition=2), 3, 1)
    yield ("layout-absent-price-not-zero-is-no-price-of-one", changed([offer(1, price=None)], [(1, PLACE_0 + 8, b"\1")]), 3, 1)
    yield ("layout-absent-block-not-zero", changed([offer(1)], [(1, PLACE_0 + 16, b"\1")]), 3, 1)
    yield ("layout-in-block-0-before-a-late-block", changed(many(16), [(2, 0, b"X"), (0, 27, b"\1")]), 3, 0)
    yield ("layout-lowest-of-two-blocks", changed(many(31), [(3, 0, b"X"), (2, 0, b"X")]), 3, 2)
