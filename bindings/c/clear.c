/* Clears a book and prints what it clears.
 *
 *     cc clear.c -o clear $(pkg-config --cflags --libs ozpinduru)
 *     ./clear BOOK
 *
 * Exit status: 0 where the book cleared or nothing cleared, 1 where it is refused, 2 where it cannot be read. */
#include <ozpinduru.h>

#include <inttypes.h>
#include <stdio.h>

/* one byte more than any book has, so that a longer file is refused as too long */
static uint8_t book[OZP_BOOK_BYTES + 1];

/* why a book is refused, in the library's words */
static void print_refusal(ozp_answer a)
{
    uint8_t room[OZP_WORDS_BYTES];
    ozp_text words = ozp_words(a.number, room, sizeof room);
    int bytes = words.kind == OZP_GIVEN ? (int)words.bytes : 0;
    printf("refused %" PRIu32 " at %" PRIu32 ": %.*s\n", a.number, a.place, bytes, (const char *)room);
}

static void print_rows(ozp_answer a, const ozp_row *rows, const uint32_t *cleared, const uint32_t *committed)
{
    uint32_t i;
    for (i = 0; i < a.rows; i++) {
        uint64_t make_whole = ozp_make_whole(a.kind, a.price, cleared[i], committed[i]);
        printf("%" PRIu32 " %" PRIu32 " %" PRIu32 " %" PRIu64 "\n", rows[i].resource, cleared[i], committed[i], make_whole);
    }
}

int main(int count, char **words)
{
    static uint32_t cleared[OZP_ROWS], committed[OZP_ROWS];
    static ozp_row rows[OZP_ROWS];
    ozp_answer a;
    size_t bytes;
    int unread;
    FILE *file = count == 2 ? fopen(words[1], "rb") : NULL;
    if (file == NULL) {
        perror(count == 2 ? words[1] : "usage: clear BOOK");
        return 2;
    }
    bytes = fread(book, 1, sizeof book, file);
    unread = ferror(file);
    fclose(file);
    if (unread) {
        fprintf(stderr, "%s cannot be read\n", words[1]);
        return 2;
    }
    a = ozp_clear(book, bytes, cleared, OZP_ROWS, committed, OZP_ROWS);
    if (a.kind == OZP_REFUSED) {
        print_refusal(a);
        return 1;
    }
    ozp_read(book, bytes, rows, OZP_ROWS);
    printf("cleared %" PRIu32 "\n", a.total);
    if (a.kind == OZP_GIVEN)
        printf("price %" PRIu32 "\n", a.price);
    else
        puts("price -");
    print_rows(a, rows, cleared, committed);
    printf("daily %" PRIu64 "\nyear %" PRIu64 "\n", a.daily, a.year);
    return 0;
}
