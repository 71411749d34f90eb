/* Books in the other edition, and what is left of the room that is lent for them. */
#include "check.h"

#include <stdio.h>
#include <string.h>

#define LONG (OZP_BOOK_BYTES + 64)

static uint8_t room[LONG], again[LONG];
static ozp_row rows[ENTRIES], others[ENTRIES];

static int untouched(size_t from)
{
    while (from < LONG && room[from] == UNTOUCHED_BYTE)
        from++;
    return from == LONG;
}

static ozp_text convert_into(const uint8_t *book, size_t bytes, size_t lent)
{
    memset(room, UNTOUCHED_BYTE, LONG);
    return ozp_convert(book, bytes, room, lent);
}

/* a refusal has no count and leaves the room */
static void expect_kept(ozp_text t, unsigned number, unsigned place, const char *name)
{
    expect(t.kind == OZP_REFUSED && t.bytes == OZP_NO_AMOUNT && t.number == number && t.place == place, name, "what is not converted");
    expect(untouched(0), name, "what is not converted leaves the room");
}

/* the first row past step 1 of a book that is read, or the number of rows */
static uint32_t later_step(uint32_t count)
{
    uint32_t i = 0;
    while (i < count && rows[i].step == 1)
        i++;
    return i;
}

/* the book in the other edition says what the book says, and back again it has the bytes it had */
static void expect_there_and_back(const uint8_t *book, size_t bytes, ozp_contents c, const char *name)
{
    ozp_contents other;
    ozp_text t = convert_into(book, bytes, LONG);
    expect(t.kind == OZP_GIVEN && t.bytes == bytes && untouched(bytes), name, "as many bytes, and what stands behind them");
    other = ozp_read(room, bytes, others, ENTRIES);
    expect(other.kind == OZP_GIVEN && other.edition == 3 - c.edition && other.rows == c.rows, name, "the other edition");
    expect(memcmp(&other.parameters, &c.parameters, sizeof c.parameters) == 0, name, "the same parameters");
    expect(memcmp(others, rows, c.rows * sizeof *rows) == 0, name, "the same rows");
    memcpy(again, room, bytes);
    t = convert_into(again, bytes, bytes);
    expect(t.kind == OZP_GIVEN && t.bytes == bytes && memcmp(room, book, bytes) == 0, name, "there and back");
    expect_kept(convert_into(book, bytes, bytes - 1), OZP_SHORT_ROOM, 0, name);
    expect_kept(ozp_convert(book, bytes, NULL, 0), OZP_SHORT_ROOM, 0, name);
}

/* a book of the line `verdict`: converted where it is sound and has no step that is in the way */
void expect_converted(const uint8_t *book, size_t bytes, const char *verdict, const char *name)
{
    ozp_contents c = ozp_read(book, bytes, rows, ENTRIES);
    unsigned number, place;
    if (sscanf(verdict, ", unsound %u %u", &number, &place) == 2) {
        expect_kept(convert_into(book, bytes, LONG), number, place, name);
        expect_kept(convert_into(book, bytes, 0), number, place, name);
    } else if (later_step(c.rows) < c.rows) {
        expect_kept(convert_into(book, bytes, LONG), OZP_LATER_STEP, later_step(c.rows), name);
        expect_kept(convert_into(book, bytes, 0), OZP_LATER_STEP, later_step(c.rows), name);
    } else
        expect_there_and_back(book, bytes, c, name);
}

void converting(const char *folder)
{
    static uint8_t book[ROOM];
    const char *name = "reference.book";
    size_t bytes = read_book(folder, name, book);
    expect(convert_into(book, bytes, LONG).kind == OZP_GIVEN && room[4] == 2, name, "up to edition 2");
    expect(room[540 + 29] == 1 && room[572 + 29] == 1 && room[604 + 29] == 1 && room[636 + 29] == 0, name, "step 1 in every row");
    name = "steps-across-blocks.book";
    bytes = read_book(folder, name, book);
    expect_kept(convert_into(book, bytes, 0), OZP_LATER_STEP, 14, name);
    expect_kept(ozp_convert(NULL, 0, NULL, 0), OZP_WRONG_LENGTH, 0, "no bytes");
}
