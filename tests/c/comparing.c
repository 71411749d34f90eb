/* Two books compared: each kind of answer once, and every field that has no value. */
#include "check.h"

#include <string.h>

static uint8_t first[ROOM], second[ROOM];
static size_t bytes, others;

/* whether a comparison has this kind and these values, and no other value */
static int is(ozp_comparison c, uint32_t kind, const uint32_t *values)
{
    return c.kind == kind && c.price == values[0] && c.shared == values[1] && c.field == values[2] && c.row == values[3] &&
           c.other == values[4] && c.book == values[5] && c.number == values[6] && c.place == values[7];
}

#define NO OZP_NO_VALUE

/* compares the two books as they stand */
static void compared(uint32_t kind, uint32_t price, uint32_t shared, uint32_t field, uint32_t row, uint32_t other,
                     const char *what)
{
    uint32_t values[] = {NO, NO, NO, NO, NO, NO, NO, NO};
    values[0] = price;
    values[1] = shared;
    values[2] = field;
    values[3] = row;
    values[4] = other;
    expect(is(ozp_compare(first, bytes, second, others), kind, values), "comparing", what);
}

static void refused(const uint8_t *one, size_t one_bytes, const uint8_t *two, size_t two_bytes, uint32_t book, uint32_t number,
                    const char *what)
{
    uint32_t values[] = {NO, NO, NO, NO, NO, NO, NO, 0};
    values[5] = book;
    values[6] = number;
    expect(is(ozp_compare(one, one_bytes, two, two_bytes), OZP_REFUSED, values), "comparing", what);
}

/* the second book anew, with one byte of a block another */
static void altered(size_t block, size_t at, uint8_t byte)
{
    memcpy(second, first, bytes);
    second[block * 512 + at] = byte;
    seal(second + block * 512);
}

/* row r of block 1 stands at 28 + 32 r; its price's low byte 8 further on */
void comparing(const char *folder)
{
    static uint8_t nothing[ROOM];
    size_t none = read_book(folder, "no-offers-length-512.book", nothing);
    bytes = others = read_book(folder, "reference.book", first);
    memcpy(second, first, bytes);
    compared(OZP_GIVEN, 37500, 3, NO, NO, NO, "a book with itself");
    altered(0, 6, (uint8_t)(first[6] + 1));
    compared(OZP_DIFFERS, NO, NO, OZP_YEAR, NO, NO, "another year");
    altered(1, 28 + 32 * 1 + 4, 99);
    compared(OZP_DIFFERS, NO, NO, NO, 1, 1, "another seller in row 1");
    altered(1, 28 + 32 * 2 + 8, (uint8_t)(first[512 + 28 + 32 * 2 + 8] + 1));
    compared(OZP_DIFFERS, NO, NO, NO, 2, NO, "row 2 a cent over the price");
    memcpy(second, nothing, none);
    others = none;
    compared(OZP_DIFFERS, NO, NO, NO, 0, NO, "no offers beside three");
    expect(ozp_compare(second, others, first, bytes).kind == OZP_NONE, "comparing", "nothing clears in the first");
    refused(first, bytes - 1, second, others, 1, OZP_WRONG_LENGTH, "the first refused");
    refused(first, bytes, second, 0, 2, OZP_WRONG_LENGTH, "the second refused");
    refused(first, bytes, NULL, 0, 2, OZP_WRONG_LENGTH, "no second book");
    refused(NULL, 0, NULL, 0, 1, OZP_WRONG_LENGTH, "no book at all");
}
