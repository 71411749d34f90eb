"""The bytes of a book, from the outline and apart from the library.

    form_fault(book)            the refusal by 1 to 3 as number, place and cause, or None
    edition(book)               the edition that it states
    parameters(book)            year, [C, E, F, R, margin] with None where one is missing, number of offers
    offers_in(book, count)      the offers

The cause of a 3 is the first test that fails in the block: the byte of the block, and what is wrong there.
"""
import collections
import struct

Offer = collections.namedtuple("Offer", "row resource seller price quantity block stamp step")

LETTERS = "the letters are not those of its kind"
EDITION = "the edition is neither 1 nor 2"
NUMBER = "the block's number is not its place"
COUNT = "the number of offers does not fit"
MARK = "a mark that has no meaning is set"
ABSENT = "a value marked absent is not zero"
ZERO = "it has to be zero"


def half(block, at):
    return struct.unpack_from("<H", block, at)[0]


def wrong_letters(block, letters):
    return ((at, LETTERS) for at in range(4) if block[at] != letters[at])


def not_zero(block, start, end):
    return ((at, ZERO) for at in range(start, end) if block[at])


def head_faults(head, blocks):
    """What is wrong in block 0 of a book of so many blocks, in the order of the tests."""
    yield from wrong_letters(head, b"RPMB")
    if half(head, 4) not in (1, 2):
        yield 4, EDITION
    offers, marks = half(head, 24), head[26]
    if offers > 600 or blocks != 1 + (offers + 14) // 15:
        yield 24, COUNT
    if marks > 31:
        yield 26, MARK
    for bit, at in enumerate((8, 12, 16, 20, 28)):
        if not marks >> bit & 1 and any(head[at:at + 4]):
            yield at, ABSENT
    yield from not_zero(head, 27, 28)
    yield from not_zero(head, 32, 508)


def place_faults(block, at, steps):
    """What is wrong in a used place, which starts at a byte of its block."""
    marks = block[at + 28]
    if marks > 3:
        yield at + 28, MARK
    yield from not_zero(block, at + (30 if steps else 29), at + 32)
    if not marks & 1 and any(block[at + 8:at + 12]):
        yield at + 8, ABSENT
    if not marks & 2 and any(block[at + 16:at + 20]):
        yield at + 16, ABSENT


def offer_faults(block, k, here, steps):
    """What is wrong in offer block k, which holds so many offers."""
    yield from wrong_letters(block, b"OFRS")
    if half(block, 4) != k:
        yield 4, NUMBER
    if half(block, 6) != here:
        yield 6, COUNT
    yield from not_zero(block, 8, 28)
    for at in range(28, 508, 32):
        yield from place_faults(block, at, steps) if at < 28 + 32 * here else not_zero(block, at, at + 32)


def check_holds(block):
    plain, placed = sum(block[:508]), sum(byte * position for position, byte in enumerate(block[:508], 1))
    return struct.unpack("<HH", block[508:]) == (plain % 65536, placed % 65536)


def form_fault(book):
    if len(book) % 512 or not 512 <= len(book) <= 20992:
        return 1, 0, None
    cut = [book[at:at + 512] for at in range(0, len(book), 512)]
    for k, block in enumerate(cut):
        if not check_holds(block):
            return 2, k, None
    for cause in head_faults(cut[0], len(cut)):
        return 3, 0, cause
    offers, steps = half(book, 24), edition(book) == 2
    for k, block in enumerate(cut[1:], 1):
        for cause in offer_faults(block, k, min(15, offers - 15 * (k - 1)), steps):
            return 3, k, cause
    return None


def edition(book):
    return half(book, 4)


def parameters(book):
    year, c, e, f, r, offers, marks, margin = struct.unpack_from("<HIIIIHBxI", book, 6)
    values = c, e, f, r, margin
    return year, [value if marks >> bit & 1 else None for bit, value in enumerate(values)], offers


def offers_in(book, count):
    for row in range(count):
        at = 512 * (1 + row // 15) + 28 + 32 * (row % 15)
        resource, seller, price, quantity, block, stamp, marks, step = struct.unpack_from("<IIIIIQBB", book, at)
        yield Offer(row, resource, seller, price if marks & 1 else None, quantity, block if marks & 2 else None, stamp,
                    1 if edition(book) == 1 else step)
