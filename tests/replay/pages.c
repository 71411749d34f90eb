/* The pages that are due of the calls' books, and whether the library writes them. */
#define _POSIX_C_SOURCE 200112L

#include "replay.h"

#include <stdio.h>
#include <stdlib.h>
#include <string.h>

/* `page`, `head` or the number of a row, of a call's book, and its text, of no bytes where there is none */
struct page {
    unsigned call;
    char which[16];
    unsigned bytes;
    uint8_t *text;
};

static struct page *pages;
static size_t count;

static int page_read(FILE *file, struct page *p)
{
    if (fscanf(file, "%u %15s %u", &p->call, p->which, &p->bytes) != 3)
        return 0;
    p->text = (uint8_t *)room(p->bytes);
    if (fgetc(file) == '\n' && fread(p->text, 1, p->bytes, file) == p->bytes)
        return 1;
    fprintf(stderr, "a page ends too soon\n");
    exit(2);
}

void read_pages(const char *path)
{
    FILE *file = fopen(path, "rb");
    struct page p, *more;
    if (file == NULL) {
        perror(path);
        exit(2);
    }
    while (page_read(file, &p)) {
        more = (struct page *)realloc(pages, (count + 1) * sizeof *pages);
        if (more == NULL)
            exit(2);
        pages = more;
        pages[count++] = p;
    }
    fclose(file);
}

void free_pages(void)
{
    while (count > 0)
        free(pages[--count].text);
    free(pages);
}

static ozp_text explained(const struct call *call, const struct page *p, uint8_t *lent, size_t bytes)
{
    if (strcmp(p->which, "page") == 0)
        return ozp_explain(call->book, call->due.book_bytes, lent, bytes);
    if (strcmp(p->which, "head") == 0)
        return ozp_explain_head(call->book, call->due.book_bytes, lent, bytes);
    return ozp_explain_row(call->book, call->due.book_bytes, (size_t)strtoul(p->which, NULL, 10), lent, bytes);
}

/* whether a page is written into room of just its length, and into none that is shorter */
static int is_page(const struct call *call, const struct page *p)
{
    uint8_t *text = (uint8_t *)room(p->bytes);
    ozp_text cut, whole;
    int as_due;
    if (p->bytes == 0) {
        free(text);
        return explained(call, p, NULL, 0).kind == OZP_NONE;
    }
    memset(text, 0x5E, p->bytes);
    cut = explained(call, p, text, p->bytes - 1);
    as_due = cut.kind == OZP_REFUSED && cut.number == OZP_SHORT_ROOM && text[0] == 0x5E && memcmp(text, text + 1, p->bytes - 1) == 0;
    whole = explained(call, p, text, p->bytes);
    as_due = as_due && whole.kind == OZP_GIVEN && whole.bytes == p->bytes && memcmp(text, p->text, p->bytes) == 0;
    free(text);
    return as_due;
}

/* whether all pages of a call's book that are due are as they are due; one is at least */
int is_explained(const struct call *call)
{
    size_t i, met = 0;
    for (i = 0; i < count; i++) {
        if (pages[i].call != call->at)
            continue;
        if (!is_page(call, &pages[i]))
            return 0;
        met++;
    }
    return met > 0;
}
