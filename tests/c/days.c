/* The days of delivery years, and the year total that they make. */
#include "check.h"

/* the year of a book's block 0 */
static void set_year(uint8_t *book, uint32_t year)
{
    book[6] = (uint8_t)(year % 256);
    book[7] = (uint8_t)(year / 256);
    seal(book);
}

void days(const char *folder)
{
    static const uint32_t has[][2] = {{0, 365},    {2026, 365}, {2027, 366}, {2028, 365},      {2095, 366},
                                      {2099, 365}, {2100, 365}, {2399, 366}, {UINT32_MAX, 366}};
    static uint8_t book[ROOM];
    static struct buffers out;
    size_t bytes = read_book(folder, "reference.book", book), i;
    for (i = 0; i < LENGTH(has); i++)
        expect(ozp_days(has[i][0]) == has[i][1], "days", "of a delivery year");
    for (i = 0; i < LENGTH(has); i++) {
        ozp_answer a;
        if (has[i][0] < 2026 || has[i][0] > 2099)
            continue;
        set_year(book, has[i][0]);
        a = clear(book, bytes, &out, ENTRIES, ENTRIES);
        expect(a.year == has[i][1] * (uint64_t)375637500, "days", "times the daily total of the reference book");
        expect_clearing(a, &out, has[i][0], 3, "days");
    }
}
