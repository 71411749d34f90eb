/* Books that are written, and what is left of the room that is lent for them. */
#include "check.h"

#include <stdio.h>
#include <string.h>

/* a little longer than any book, and than any book may have rows */
#define LONG (OZP_BOOK_BYTES + 64)
#define MANY (OZP_ROWS + 2)

static uint8_t room[LONG];
static ozp_row rows[MANY];

static ozp_value value(uint32_t kind, uint32_t number)
{
    ozp_value v;
    v.kind = kind;
    v.number = number;
    return v;
}

static int untouched(size_t from)
{
    while (from < LONG && room[from] == UNTOUCHED_BYTE)
        from++;
    return from == LONG;
}

static ozp_text write_edition(uint32_t edition, ozp_parameters p, size_t count, size_t bytes)
{
    memset(room, UNTOUCHED_BYTE, LONG);
    return ozp_write(edition, p, rows, count, room, bytes);
}

static ozp_text write_into(ozp_parameters p, size_t count, size_t bytes)
{
    return write_edition(1, p, count, bytes);
}

/* a refusal has no count and leaves the room */
static void expect_unwritten(ozp_text t, unsigned number, unsigned place, const char *name)
{
    expect(t.kind == OZP_REFUSED && t.bytes == OZP_NO_AMOUNT && t.number == number && t.place == place, name, "what is not written");
    expect(untouched(0), name, "what is not written leaves the room");
}

/* the book stands at the start of the room, and nothing else changed */
static void expect_book(ozp_text t, const uint8_t *book, size_t bytes, const char *name)
{
    expect(t.kind == OZP_GIVEN && t.bytes == bytes && t.number == OZP_NO_VALUE && t.place == OZP_NO_VALUE, name, "count of the book");
    expect(memcmp(room, book, bytes) == 0, name, "the book that was read is written back");
    expect(untouched(bytes), name, "what stands behind the book");
}

/* what is read of a book, written back: its bytes where it is sound, else the fault that keeps it from being sound */
void expect_written_back(const uint8_t *book, size_t bytes, const char *verdict, const char *name)
{
    ozp_contents c = ozp_read(book, bytes, rows, MANY);
    unsigned number, place;
    if (sscanf(verdict, ", unsound %u %u", &number, &place) == 2) {
        expect_unwritten(write_edition(c.edition, c.parameters, c.rows, LONG), number, place, name);
        expect_unwritten(write_edition(c.edition, c.parameters, c.rows, 0), number, place, name);
        return;
    }
    expect_book(write_edition(c.edition, c.parameters, c.rows, LONG), book, bytes, name);
    expect_book(write_edition(c.edition, c.parameters, c.rows, bytes), book, bytes, name);
    expect_unwritten(write_edition(c.edition, c.parameters, c.rows, bytes - 1), OZP_SHORT_ROOM, 0, name);
    expect_unwritten(ozp_write(c.edition, c.parameters, rows, c.rows, NULL, 0), OZP_SHORT_ROOM, 0, name);
}

/* values that no sound book says, one at a time, in the parameters */
static void wrong_parameters(ozp_parameters reference)
{
    static const uint32_t years[] = {0, 2021, 2100, 65536 + 2026, UINT32_MAX}, kinds[] = {0, OZP_NONE, OZP_REFUSED, 5, UINT32_MAX};
    ozp_parameters p = reference;
    size_t i;
    for (i = 0; i < LENGTH(years); i++) {
        p.year = years[i];
        expect_unwritten(write_into(p, 3, LONG), OZP_PARAMETER_OUT_OF_RANGE, OZP_YEAR, "year out of range");
    }
    for (i = 0; i < LENGTH(kinds); i++) {
        p = reference;
        p.margin = value(kinds[i], 0);
        expect_unwritten(write_into(p, 3, LONG), OZP_PARAMETER_OUT_OF_RANGE, OZP_MARGIN, "margin of another kind");
        p.offset = value(kinds[i], 0);
        expect_unwritten(write_into(p, 3, LONG), OZP_PARAMETER_OUT_OF_RANGE, OZP_OFFSET, "offset of another kind");
    }
    p = reference;
    p.cost.kind = OZP_MISSING;
    p.offset.number = 1000000;
    expect(write_into(p, 3, LONG).kind == OZP_GIVEN, "no cost", "offset up to 1,000,000");
    p.offset.number = 1000001;
    expect_unwritten(write_into(p, 3, LONG), OZP_PARAMETER_OUT_OF_RANGE, OZP_OFFSET, "no cost");
}

/* the same in rows */
static void wrong_rows(ozp_parameters reference)
{
    static const uint32_t kinds[] = {0, OZP_NONE, OZP_REFUSED, 5, UINT32_MAX};
    ozp_row kept = rows[2];
    size_t i;
    for (i = 0; i < LENGTH(kinds); i++) {
        rows[2].price = value(kinds[i], 0);
        expect_unwritten(write_into(reference, 3, LONG), OZP_OFFER_OUT_OF_RANGE, 2, "price of another kind");
        rows[2] = kept;
        rows[2].block = value(kinds[i], 1);
        expect_unwritten(write_into(reference, 3, LONG), OZP_OFFER_OUT_OF_RANGE, 2, "block of another kind");
        rows[2] = kept;
    }
    rows[2].resource = rows[0].resource;
    expect_unwritten(write_into(reference, 3, LONG), OZP_REPEATED_RESOURCE, 2, "repeated resource");
    rows[2].quantity = 0;
    expect_unwritten(write_into(reference, 3, LONG), OZP_OFFER_OUT_OF_RANGE, 2, "7 before 8");
    expect(write_into(reference, 2, LONG).kind == OZP_GIVEN, "two rows", "entries past them are not looked at");
    rows[2] = kept;
}

/* steps that an edition cannot hold are refused and never cut; an edition that is neither is refused first */
static void wrong_steps(ozp_parameters reference)
{
    static const uint32_t editions[] = {0, 3, 257, 258, 65537, UINT32_MAX}, steps[] = {0, 11, 255, 256, 257, 65537, UINT32_MAX};
    ozp_parameters wrong = reference;
    ozp_row kept = rows[1];
    size_t i;
    wrong.year = 0;
    for (i = 0; i < LENGTH(editions); i++)
        expect_unwritten(write_edition(editions[i], wrong, MANY, 0), OZP_WRONG_LAYOUT, 0, "neither edition");
    for (i = 0; i < LENGTH(steps); i++) {
        rows[1].step = steps[i];
        expect_unwritten(write_edition(1, reference, 3, LONG), OZP_OFFER_OUT_OF_RANGE, 1, "step of edition 1");
        expect_unwritten(write_edition(2, reference, 3, LONG), OZP_OFFER_OUT_OF_RANGE, 1, "step of edition 2");
    }
    rows[1].step = 2;
    expect_unwritten(write_edition(1, reference, 3, LONG), OZP_OFFER_OUT_OF_RANGE, 1, "step 2 in edition 1");
    expect_unwritten(write_edition(2, reference, 3, 0), OZP_BROKEN_STEPS, 1, "step 2 behind another resource");
    rows[1].resource = rows[0].resource;
    expect(write_edition(2, reference, 3, LONG).kind == OZP_GIVEN && room[4] == 2, "two steps", "a book of edition 2");
    expect(room[540 + 29] == 1 && room[540 + 32 + 29] == 2 && room[540 + 64 + 29] == 1, "two steps", "byte 29 of each place");
    rows[1].block = value(OZP_GIVEN, 1);
    expect_unwritten(write_edition(2, reference, 3, LONG), OZP_BROKEN_STEPS, 1, "block on step 2");
    rows[1].block.kind = OZP_MISSING;
    rows[1].price.number = rows[0].price.number - 1;
    expect_unwritten(write_edition(2, reference, 3, LONG), OZP_BROKEN_STEPS, 1, "price that falls");
    rows[1].price.kind = OZP_MISSING;
    expect(write_edition(2, reference, 3, LONG).kind == OZP_GIVEN, "two steps", "a missing price is not compared");
    rows[1].step = 1;
    expect_unwritten(write_edition(2, reference, 3, LONG), OZP_REPEATED_RESOURCE, 1, "step 1 twice");
    rows[1] = kept;
}

/* more rows than a book may have come before any other fault, and the room comes last */
static void order(ozp_parameters reference)
{
    ozp_parameters wrong = reference;
    size_t i;
    wrong.year = 1999;
    for (i = 0; i < MANY; i++) {
        rows[i] = rows[0];
        rows[i].resource = (uint32_t)i + 1;
    }
    rows[1].quantity = 0;
    expect_unwritten(write_into(wrong, OZP_ROWS + 1, 0), OZP_TOO_MANY_ROWS, 0, "601 rows");
    expect_unwritten(write_into(wrong, MANY, LONG), OZP_TOO_MANY_ROWS, 0, "602 rows");
    expect_unwritten(write_into(wrong, OZP_ROWS, 0), OZP_PARAMETER_OUT_OF_RANGE, OZP_YEAR, "5 before 7");
    expect_unwritten(write_into(reference, OZP_ROWS, 0), OZP_OFFER_OUT_OF_RANGE, 1, "7 before 20");
    rows[1].quantity = 1;
    expect_unwritten(write_into(reference, OZP_ROWS, OZP_BOOK_BYTES - 1), OZP_SHORT_ROOM, 0, "600 rows");
    expect(write_into(reference, OZP_ROWS, OZP_BOOK_BYTES).bytes == OZP_BOOK_BYTES, "600 rows", "the most bytes of a book");
}

void writing(const char *folder)
{
    static uint8_t book[ROOM];
    const char *name = "reference.book";
    size_t bytes = read_book(folder, name, book);
    ozp_parameters p = ozp_read(book, bytes, rows, MANY).parameters;
    ozp_text t;
    wrong_parameters(p);
    wrong_rows(p);
    wrong_steps(p);
    rows[0].price = value(OZP_MISSING, 123);
    expect(write_into(p, 3, LONG).kind == OZP_GIVEN && room[540 + 8] == 0 && room[540 + 28] == 0, name, "the number of a missing price is not looked at");
    rows[0].price = value(OZP_GIVEN, 0);
    expect(write_into(p, 3, LONG).kind == OZP_GIVEN && room[540 + 8] == 0 && room[540 + 28] == 1, name, "a price of 0 is a price");
    memset(room, UNTOUCHED_BYTE, LONG);
    t = ozp_write(1, p, NULL, 0, room, 512);
    expect(t.kind == OZP_GIVEN && t.bytes == 512 && untouched(512), "no rows", "block 0 alone");
    order(p);
}
