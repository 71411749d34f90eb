#include "check.h"

#include <stdio.h>
#include <stdlib.h>

unsigned held = 0;
unsigned failed = 0;

void expect(int fact, const char *name, const char *what)
{
    if (fact) {
        held++;
        return;
    }
    failed++;
    fprintf(stderr, "failed: %s: %s\n", name, what);
}

size_t read_book(const char *folder, const char *name, uint8_t *book)
{
    char path[512];
    FILE *file;
    size_t bytes;
    snprintf(path, sizeof path, "%s/%s", folder, name);
    file = fopen(path, "rb");
    if (file == NULL) {
        perror(path);
        exit(2);
    }
    bytes = fread(book, 1, ROOM, file);
    fclose(file);
    return bytes;
}

/* the two sums of a block, made anew */
void seal(uint8_t *block)
{
    uint32_t first = 0, second = 0, i;
    for (i = 0; i < 508; i++) {
        first += block[i];
        second += block[i] * (i + 1);
    }
    block[508] = (uint8_t)(first % 256);
    block[509] = (uint8_t)(first / 256 % 256);
    block[510] = (uint8_t)(second % 256);
    block[511] = (uint8_t)(second / 256 % 256);
}

static void fill(struct buffers *out)
{
    size_t i;
    for (i = 0; i < ENTRIES; i++) {
        out->cleared[i] = UNTOUCHED;
        out->committed[i] = UNTOUCHED;
    }
}

/* whether all entries from one on hold what they held */
static int untouched(const struct buffers *out, size_t from)
{
    size_t i;
    for (i = from; i < ENTRIES; i++)
        if (out->cleared[i] != UNTOUCHED || out->committed[i] != UNTOUCHED)
            return 0;
    return 1;
}

uint32_t year_of(const uint8_t *book)
{
    return book[6] + 256u * book[7];
}

/* a clearing of a year, priced or not, with the bookkeeping that its own rows show */
void expect_clearing(ozp_answer a, const struct buffers *out, uint32_t year, size_t rows, const char *name)
{
    uint64_t total = 0, whole = 0;
    size_t i, short_of = 0;
    for (i = 0; i < rows; i++) {
        total += out->cleared[i];
        whole += ozp_make_whole(a.kind, a.price, out->cleared[i], out->committed[i]);
        short_of += out->committed[i] < out->cleared[i];
    }
    expect(short_of == 0, name, "every row commits what it clears");
    expect(a.kind == OZP_GIVEN || a.kind == OZP_NONE, name, "kind of a clearing");
    expect(a.rows == rows, name, "the number of rows");
    expect((a.kind == OZP_NONE) == (a.total == 0), name, "no price where nothing clears, and only there");
    expect((a.kind == OZP_NONE) == (a.price == OZP_NO_VALUE), name, "no price is all ones");
    expect(a.total == total, name, "the total is what the rows clear");
    expect(a.make_whole == whole, name, "all make-whole is what the rows are paid");
    expect(a.daily == (a.kind == OZP_NONE ? 0 : (uint64_t)a.price * a.total) + whole, name, "daily total");
    expect(a.year == ozp_days(year) * a.daily, name, "year total");
    expect(a.number == OZP_NO_VALUE && a.place == OZP_NO_VALUE, name, "a clearing has no refusal");
    expect(untouched(out, rows), name, "entries past the last row");
}

void expect_refusal(ozp_answer a, const struct buffers *out, unsigned number, unsigned place, const char *name)
{
    expect(a.kind == OZP_REFUSED && a.number == number && a.place == place, name, "number and place of the refusal");
    expect(a.total == OZP_NO_VALUE && a.price == OZP_NO_VALUE && a.rows == OZP_NO_VALUE, name, "a refusal has no total, price or rows");
    expect(a.make_whole == OZP_NO_AMOUNT && a.daily == OZP_NO_AMOUNT && a.year == OZP_NO_AMOUNT, name, "a refusal has no amounts");
    expect(untouched(out, 0), name, "a refusal leaves both buffers");
}

ozp_answer clear(const uint8_t *book, size_t bytes, struct buffers *out, size_t cleared, size_t committed)
{
    fill(out);
    return ozp_clear(book, bytes, out->cleared, cleared, out->committed, committed);
}
