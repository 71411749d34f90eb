/* What a book says, and what is left of the entries that are lent for its rows. */
#include "check.h"

#include <string.h>

static ozp_row rows[ENTRIES];

static ozp_contents read_into(const uint8_t *book, size_t bytes, size_t entries)
{
    memset(rows, UNTOUCHED_BYTE, sizeof rows);
    return ozp_read(book, bytes, rows, entries);
}

/* whether all entries from one on hold what they held */
static int untouched(size_t from)
{
    const uint8_t *byte = (const uint8_t *)(rows + from), *end = (const uint8_t *)(rows + ENTRIES);
    while (byte < end && *byte == UNTOUCHED_BYTE)
        byte++;
    return byte == end;
}

static int is_value(ozp_value v, uint32_t kind)
{
    return v.kind == kind && (kind == OZP_GIVEN || v.number == OZP_NO_VALUE);
}

static int either(ozp_value v)
{
    return is_value(v, OZP_GIVEN) || is_value(v, OZP_MISSING);
}

/* a refusal has no values and leaves the entries */
static void expect_kept(ozp_contents c, unsigned number, unsigned place, const char *name)
{
    ozp_parameters p = c.parameters;
    expect(c.kind == OZP_REFUSED && c.number == number && c.place == place, name, "number and place of what is not read");
    expect(c.rows == OZP_NO_VALUE && c.edition == OZP_NO_VALUE && p.year == OZP_NO_VALUE, name, "what is not read has no values");
    expect(is_value(p.cost, OZP_NONE) && is_value(p.offset, OZP_NONE) && is_value(p.outage, OZP_NONE)
               && is_value(p.requirement, OZP_NONE) && is_value(p.margin, OZP_NONE),
           name, "what is not read has no parameters");
    expect(untouched(0), name, "what is not read leaves the entries");
}

/* the step of a row: byte 29 of its place, and in edition 1 always 1 */
static uint32_t step_of(const uint8_t *book, size_t row)
{
    return book[4] == 1 ? 1 : book[512 * (1 + row / 15) + 28 + 32 * (row % 15) + 29];
}

/* a book hands back so many rows, and needs as many entries */
void expect_rows(const uint8_t *book, size_t bytes, size_t count, const char *name)
{
    ozp_contents c = read_into(book, bytes, ENTRIES);
    ozp_parameters p = c.parameters;
    size_t i, wrong = 0;
    expect(c.kind == OZP_GIVEN && c.rows == count && c.number == OZP_NO_VALUE && c.place == OZP_NO_VALUE, name, "every row is read");
    expect(c.edition == book[4] + 256u * book[5], name, "the edition is the book's");
    expect(either(p.cost) && either(p.offset) && either(p.outage) && either(p.requirement) && either(p.margin), name, "kinds of the parameters");
    for (i = 0; i < count; i++)
        wrong += !either(rows[i].price) || !either(rows[i].block) || rows[i].step != step_of(book, i);
    expect(wrong == 0 && untouched(count), name, "kinds and steps of the rows, and the entries past them");
    expect(read_into(book, bytes, count).kind == OZP_GIVEN, name, "as many entries as rows are enough");
    if (count > 0)
        expect_kept(read_into(book, bytes, count - 1), OZP_SHORT_BUFFER, 1, name);
}

/* a book that is not laid out as a book, whatever is lent */
void expect_unread(const uint8_t *book, size_t bytes, unsigned number, unsigned place, const char *name)
{
    expect_kept(read_into(book, bytes, ENTRIES), number, place, name);
    expect_kept(read_into(book, bytes, 0), number, place, name);
}

static int has(ozp_value v, uint32_t number)
{
    return v.kind == OZP_GIVEN && v.number == number;
}

void reading(const char *folder)
{
    static uint8_t book[ROOM];
    const char *name = "reference.book";
    ozp_parameters p = read_into(book, read_book(folder, name, book), ENTRIES).parameters;
    expect(p.year == 2026 && has(p.cost, 146000) && has(p.offset, 73000) && has(p.outage, 2000) && has(p.requirement, 10000), name,
           "parameters");
    expect(rows[0].resource == 11 && rows[0].seller == 7 && rows[0].quantity == 9900 && rows[0].stamp == 1, name, "row 0");
    expect(has(rows[0].price, 10000) && is_value(rows[0].block, OZP_MISSING), name, "price of row 0, which is flexible");
    expect(rows[2].resource == 13 && rows[2].quantity == 100 && rows[2].stamp == 3, name, "row 2");
    expect(has(rows[2].price, 37500) && has(rows[2].block, 50), name, "price and minimum block of row 2");
    read_into(book, read_book(folder, "no-price-in-row-0.book", book), ENTRIES);
    expect(is_value(rows[0].price, OZP_MISSING), "no-price-in-row-0.book", "missing price");
    p = read_into(book, read_book(folder, "missing-cost.book", book), ENTRIES).parameters;
    expect(is_value(p.cost, OZP_MISSING) && has(p.offset, 73000), "missing-cost.book", "missing cost");
    expect(is_value(p.margin, OZP_MISSING), "missing-cost.book", "no margin");
    p = read_into(book, read_book(folder, "margin-0-in-2022.book", book), ENTRIES).parameters;
    expect(p.year == 2022 && has(p.margin, 0), "margin-0-in-2022.book", "a margin of 0 is a margin");
    name = "steps-1-to-10-of-one-resource.book";
    expect(read_into(book, read_book(folder, name, book), ENTRIES).edition == 2, name, "edition 2");
    expect(rows[0].step == 1 && rows[9].step == 10 && rows[9].resource == 5 && has(rows[9].price, 9), name, "ten steps");
    name = "step-255.book";
    read_into(book, read_book(folder, name, book), ENTRIES);
    expect(rows[1].step == 255, name, "a step is read as it stands");
}
