/* Every book against the line that is expected of it, the reference book number by number, and nothing at all. */
#include "check.h"

#include <stdio.h>
#include <stdlib.h>
#include <string.h>

static void judge(const char *folder, const char *line)
{
    static uint8_t book[ROOM];
    static struct buffers out;
    char name[256];
    char said[64];
    unsigned number, place, rows;
    const char *verdict = strstr(line, ": ");
    const char *sound = strchr(line, ',');
    const char *handed = strstr(line, ", rows ");
    size_t bytes;
    if (verdict == NULL || sound == NULL || handed == NULL || (size_t)(verdict - line) >= sizeof name
        || sscanf(handed, ", rows %u", &rows) != 1) {
        expect(0, line, "a line of the expected output");
        return;
    }
    memcpy(name, line, (size_t)(verdict - line));
    name[verdict - line] = 0;
    bytes = read_book(folder, name, book);
    if (sscanf(verdict, ": refused %u %u", &number, &place) == 2) {
        snprintf(said, sizeof said, "refused %u %u\n", number, place);
        expect_report(book, bytes, said, name);
        if (number <= OZP_WRONG_LAYOUT)
            expect_unread(book, bytes, number, place, name);
        else {
            expect_rows(book, bytes, rows, name);
            expect_written_back(book, bytes, sound, name);
        }
        expect_converted(book, bytes, sound, name);
        expect_refusal(clear(book, bytes, &out, ENTRIES, ENTRIES), &out, number, place, name);
        expect_refusal(clear(book, bytes, &out, 0, 0), &out, number, place, name);
        return;
    }
    expect_rows(book, bytes, rows, name);
    expect_written_back(book, bytes, sound, name);
    expect_converted(book, bytes, sound, name);
    expect_clearing(clear(book, bytes, &out, ENTRIES, ENTRIES), &out, year_of(book), rows, name);
    expect_clearing(clear(book, bytes, &out, rows, rows), &out, year_of(book), rows, name);
    if (rows > 0) {
        expect_refusal(clear(book, bytes, &out, rows - 1, rows - 1), &out, OZP_SHORT_BUFFER, 1, name);
        expect_refusal(clear(book, bytes, &out, rows, rows - 1), &out, OZP_SHORT_BUFFER, 2, name);
    }
}

unsigned judge_all(const char *folder, const char *lines)
{
    char line[512];
    unsigned books = 0;
    FILE *file = fopen(lines, "r");
    if (file == NULL) {
        perror(lines);
        exit(2);
    }
    while (fgets(line, sizeof line, file) != NULL) {
        judge(folder, line);
        books++;
    }
    fclose(file);
    return books;
}

void reference(const char *folder)
{
    static const uint32_t cleared[] = {9900, 67, 33}, committed[] = {9900, 67, 50};
    static const uint64_t whole[] = {0, 0, 637500};
    static uint8_t book[ROOM];
    static struct buffers out;
    const char *name = "reference.book";
    size_t bytes = read_book(folder, name, book), row;
    ozp_answer a = clear(book, bytes, &out, ENTRIES, ENTRIES), q = ozp_quote(book, bytes);
    expect(q.kind == a.kind && q.total == a.total && q.price == a.price && q.rows == a.rows && q.year == a.year, name, "quote");
    expect(a.kind == OZP_GIVEN && a.total == 10000 && a.price == 37500, name, "total and price");
    expect(a.make_whole == 637500 && a.daily == 375637500 && a.year == 137107687500u, name, "amounts");
    for (row = 0; row < LENGTH(cleared); row++) {
        expect(out.cleared[row] == cleared[row], name, "cleared");
        expect(out.committed[row] == committed[row], name, "committed");
        expect(ozp_make_whole(a.kind, a.price, out.cleared[row], out.committed[row]) == whole[row], name, "make-whole");
    }
}

/* nothing offered: no price, and no buffer is needed; no bytes at all */
void nothing(const char *folder)
{
    static uint8_t book[ROOM];
    size_t bytes = read_book(folder, "no-offers-length-512.book", book);
    ozp_answer a = ozp_clear(book, bytes, NULL, 0, NULL, 0);
    expect(a.kind == OZP_NONE && a.total == 0 && a.price == OZP_NO_VALUE, "no offers", "no price");
    expect(a.make_whole == 0 && a.daily == 0 && a.year == 0, "no offers", "every amount is 0");
    a = ozp_clear(NULL, 0, NULL, 0, NULL, 0);
    expect(a.kind == OZP_REFUSED && a.number == OZP_WRONG_LENGTH && a.place == 0, "no bytes", "refused 1 0");
    expect(ozp_quote(NULL, 0).number == OZP_WRONG_LENGTH, "no bytes", "no quote");
    expect(ozp_read(NULL, 0, NULL, 0).number == OZP_WRONG_LENGTH, "no bytes", "nothing is read");
    expect_rows(book, bytes, 0, "no offers");
}
