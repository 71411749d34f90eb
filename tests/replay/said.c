/* What is said of a call's book besides what it clears. */
#define _POSIX_C_SOURCE 200112L

#include "replay.h"

#include <stdlib.h>
#include <string.h>

/* whether a book is read into so many entries */
int is_read(const struct call *call, size_t entries)
{
    ozp_row *rows = (ozp_row *)room(entries * sizeof *rows);
    ozp_contents contents = ozp_read(call->book, call->due.book_bytes, rows, entries);
    free(rows);
    return contents.kind == OZP_GIVEN && contents.rows == call->due.rows;
}

/* whether contents are written into room of so many bytes; room that is not written is left as it was */
static int is_written(const struct call *call, const ozp_contents *c, const ozp_row *rows, size_t bytes, ozp_text *t)
{
    uint8_t *book = (uint8_t *)room(bytes), *before = (uint8_t *)room(bytes);
    int as_due;
    memset(book, 0x5E, bytes);
    memset(before, 0x5E, bytes);
    *t = ozp_write(c->edition, c->parameters, rows, c->rows, book, bytes);
    as_due = memcmp(book, t->kind == OZP_GIVEN ? call->book : before, bytes) == 0;
    free(book);
    free(before);
    return as_due && (t->kind == OZP_REFUSED || t->bytes == bytes);
}

/* whether what is read of a book is written back, in room of just its length: a book that clears always, and none in less */
int is_written_back(const struct call *call)
{
    const struct head *due = &call->due;
    int clears = due->kind != OZP_REFUSED || due->number == OZP_SHORT_BUFFER, as_due;
    ozp_row *rows = (ozp_row *)room(due->rows * sizeof *rows);
    ozp_contents c = ozp_read(call->book, due->book_bytes, rows, due->rows);
    ozp_text whole, cut;
    if (c.kind == OZP_REFUSED) {
        free(rows);
        return due->rows == 0 && !clears;
    }
    as_due = is_written(call, &c, rows, due->book_bytes, &whole) && is_written(call, &c, rows, due->book_bytes - 1, &cut);
    free(rows);
    if (whole.kind == OZP_GIVEN)
        return as_due && cut.number == OZP_SHORT_ROOM;
    return as_due && !clears && whole.number >= OZP_PARAMETER_OUT_OF_RANGE && cut.number == whole.number;
}

/* whether a book goes into room of just its length in the other edition and back again, and into none that is shorter; or is
 * refused, as one that clears is only by 11 */
int is_converted(const struct call *call)
{
    const struct head *due = &call->due;
    size_t bytes = due->book_bytes;
    int clears = due->kind != OZP_REFUSED || due->number == OZP_SHORT_BUFFER, as_due;
    uint8_t *other = (uint8_t *)room(bytes), *again = (uint8_t *)room(bytes);
    ozp_text there = ozp_convert(call->book, bytes, other, bytes);
    if (there.kind == OZP_GIVEN) {
        ozp_text back = ozp_convert(other, bytes, again, bytes), cut = ozp_convert(other, bytes, again, bytes - 1);
        as_due = back.kind == OZP_GIVEN && memcmp(again, call->book, bytes) == 0 && cut.number == OZP_SHORT_ROOM;
    } else
        as_due = there.number == OZP_LATER_STEP || !clears;
    free(other);
    free(again);
    return as_due;
}

/* whether a book's report fits room of just its length, and none that is shorter */
int is_reported(const struct call *call)
{
    uint8_t *text = (uint8_t *)room(OZP_REPORT_BYTES);
    ozp_text whole = ozp_report(call->book, call->due.book_bytes, text, OZP_REPORT_BYTES), fitted, cut;
    free(text);
    text = (uint8_t *)room(whole.bytes);
    fitted = ozp_report(call->book, call->due.book_bytes, text, whole.bytes);
    cut = ozp_report(call->book, call->due.book_bytes, text, whole.bytes - 1);
    free(text);
    return whole.kind == OZP_GIVEN && fitted.kind == OZP_GIVEN && fitted.bytes == whole.bytes && cut.number == OZP_SHORT_ROOM;
}

/* whether a book beside itself is answered by what it clears */
int is_compared(const struct call *call)
{
    const uint8_t *book = call->book;
    size_t bytes = call->due.book_bytes;
    ozp_answer a = ozp_quote(book, bytes);
    ozp_comparison c = ozp_compare(book, bytes, book, bytes);
    return c.kind == a.kind && c.price == a.price && c.number == a.number && c.place == a.place;
}
