/* The pages of books, for a person, beside those that tests/explain/pages.py writes. */
#include "rooms.h"

#include <stdio.h>
#include <stdlib.h>
#include <string.h>

/* which page of a book: all of it, its head, or that of a row */
struct page {
    uint8_t book[ROOM];
    size_t bytes;
    char path[256], which[16];
};

static ozp_text explained(const struct page *p, uint8_t *lent, size_t lent_bytes)
{
    if (strcmp(p->which, "page") == 0)
        return ozp_explain(p->book, p->bytes, lent, lent_bytes);
    if (strcmp(p->which, "head") == 0)
        return ozp_explain_head(p->book, p->bytes, lent, lent_bytes);
    return ozp_explain_row(p->book, p->bytes, (size_t)strtoul(p->which, NULL, 10), lent, lent_bytes);
}

/* in room that is just long enough, one byte short, longer, and none; the page of many rows in the first two */
static void expect_page(const struct page *p, const char *text)
{
    size_t length = strlen(text);
    clean_room(length + 64);
    if (length == 0) {
        expect_none(explained(p, room, 64), p->path);
        expect_none(explained(p, NULL, 0), p->path);
        return;
    }
    expect_text(explained(p, room, length), text, p->path);
    expect_short(explained(p, room, length - 1), p->path);
    if (length > LONG / 5)
        return;
    expect_text(explained(p, room, length + 64), text, p->path);
    expect_short(explained(p, NULL, 0), p->path);
}

/* rows that no book has, and no book at all */
static void nowhere(const char *folder)
{
    static const size_t rows[] = {3, OZP_ROWS - 1, OZP_ROWS, UINT32_MAX, SIZE_MAX};
    static uint8_t book[ROOM];
    size_t bytes = read_book(folder, "reference.book", book), i;
    clean_room(LONG);
    for (i = 0; i < LENGTH(rows); i++)
        expect_none(ozp_explain_row(book, bytes, rows[i], room, LONG), "a row that is not there");
    expect_none(ozp_explain_row(NULL, 0, 0, room, LONG), "a row of no bytes");
    expect_none(ozp_explain_row(NULL, 0, 0, NULL, 0), "a row of no bytes, in no room");
    expect_text(ozp_explain(NULL, 0, room, OZP_PAGE_BYTES),
                "refused 1 at 0\n  the length is 0 bytes\n  it has to be a multiple of 512, from 512 to 20,992\n", "no bytes");
}

void explaining(const char *folder, const char *pages)
{
    static struct page p;
    static char text[OZP_PAGE_BYTES + 1], last[sizeof p.path];
    FILE *file = fopen(pages, "rb");
    unsigned length, count = 0;
    if (file == NULL) {
        perror(pages);
        exit(2);
    }
    nowhere(folder);
    while (fscanf(file, "%255s %15s %u", p.path, p.which, &length) == 3) {
        expect(fgetc(file) == '\n' && length <= OZP_PAGE_BYTES && fread(text, 1, length, file) == length, p.path, "a page that is due");
        text[length <= OZP_PAGE_BYTES ? length : 0] = '\0';
        if (strcmp(p.path, last) != 0)
            p.bytes = read_book(".", p.path, p.book);
        memcpy(last, p.path, sizeof last);
        expect_page(&p, text);
        count++;
    }
    fclose(file);
    expect(count > 1000, "pages", "many of them");
}
