/* ozpinduru: clears a capacity auction of one region from a book of bytes, and writes such books. For x86-64 Linux.
 *
 * Units. Quantities are tenths of a megawatt, prices whole cents per MW-day, amounts mills (tenths of a cent), costs whole
 * dollars per MW-year, the outage rate and the reserve margin hundredths of a percent. No amount is rounded. ozp_price_at alone
 * says what lies between two cents.
 *
 * Every function answers every input, and its answer is proved to be the one described here. None keeps state, allocates or
 * looks at anything but its arguments, so any number of threads may call at once, also on one book. Of the C library they use
 * memcpy and memset. What one call writes must not overlap anything else that it is lent, and nobody else may write what it reads
 * or use what it writes while the call runs. A call uses less than 40 KiB of stack, ozp_compare less than 56, ozp_report
 * less than 72, and ozp_explain, ozp_explain_head and ozp_explain_row less than 160: that is measured, and no theorem bounds it.
 *
 * A slice is a pointer and a number of entries, all of which may be read (and, of a buffer, written). Where the number is 0
 * the pointer is not followed and may be null; else it must be valid and aligned to its entries.
 *
 * No kind is 0, so a struct of zeros is no answer. A field that has no value holds all ones and never 0: a price of 0 is a
 * price. Look at the kind first. A clearing that has no price cleared nothing; an offer whose price is missing is unpriced.
 *
 * Versions 0.x may change; ozp_version says which one is linked.
 */
#ifndef OZP_OZPINDURU_H
#define OZP_OZPINDURU_H

#include <stddef.h>
#include <stdint.h>

#ifdef __cplusplus
extern "C" {
#endif

#define OZP_VERSION_MAJOR 0
#define OZP_VERSION_MINOR 9
#define OZP_VERSION_PATCH 0
#define OZP_VERSION (OZP_VERSION_MAJOR * 1000000 + OZP_VERSION_MINOR * 1000 + OZP_VERSION_PATCH)

#define OZP_BOOK_BYTES 20992   /* the most bytes of a book */
#define OZP_ROWS 600           /* the most rows of a book, which count from 0 */
#define OZP_STEPS 10           /* the most steps of a resource, which count from 1 */
#define OZP_REPORT_BYTES 32768 /* room for every text of ozp_report */
#define OZP_WORDS_BYTES 256    /* room for every text of ozp_words */
#define OZP_PAGE_BYTES 98304   /* room for every page of ozp_explain, ozp_explain_head and ozp_explain_row */

#define OZP_NO_VALUE UINT32_MAX
#define OZP_NO_AMOUNT UINT64_MAX

/* kinds */
enum {
    OZP_GIVEN = 1,   /* what was asked for is there */
    OZP_NONE = 2,    /* there is none */
    OZP_REFUSED = 3, /* number and place say why */
    OZP_MISSING = 4, /* a value that the book or the caller leaves out */
    OZP_DIFFERS = 5  /* two books differ: a field, or a row of either, says where */
};

/* numbers of refusals; in the comment, what the place is */
enum {
    OZP_WRONG_LENGTH = 1,           /* length not a multiple of 512, or under 512, or over 20,992; 0 */
    OZP_WRONG_CHECK = 2,            /* a block's check is wrong; the block */
    OZP_WRONG_LAYOUT = 3,           /* letters, edition, block number, counts, unused marks or bytes differ from the layout,
                                       or a value marked absent is not zero; the block */
    OZP_MISSING_PARAMETER = 4,      /* a parameter is missing; the field */
    OZP_PARAMETER_OUT_OF_RANGE = 5, /* a parameter is out of range; the field */
    OZP_UNPRICED_OFFER = 6,         /* an offer has no price; the row */
    OZP_OFFER_OUT_OF_RANGE = 7,     /* an offer value is out of range; the row */
    OZP_REPEATED_RESOURCE = 8,      /* a resource number stands in an earlier row; the row */
    OZP_SHORT_BUFFER = 9,           /* a result buffer has fewer entries than offers; 1 cleared, 2 committed */
    OZP_BROKEN_STEPS = 10,          /* a resource's steps do not stand in neighbouring rows counted up from 1, their prices
                                       fall, or a step past 1 has a minimum block; the row */
    OZP_LATER_STEP = 11,            /* a row has a step of 2 or more, which edition 1 cannot hold; the row */
    OZP_TOO_MANY_ROWS = 19,         /* more than 600 rows; 0 */
    OZP_SHORT_ROOM = 20             /* the room lent is too small; 0 */
};

/* fields: the place of 4 and 5 */
enum { OZP_YEAR = 1, OZP_COST = 2, OZP_OFFSET = 3, OZP_OUTAGE = 4, OZP_REQUIREMENT = 5, OZP_MARGIN = 6 };

/* A value that may be missing: OZP_GIVEN with its number, or OZP_MISSING, when the number is all ones on the way out and not
 * looked at on the way in. On the way in any other kind is a value out of range. */
typedef struct { uint32_t kind, number; } ozp_value;

/* Parameters: the first calendar year, C, E, F, R and the reserve margin, which a year from 2022 to 2025 needs and no other year
 * has: OZP_MISSING there. */
typedef struct { uint32_t year; ozp_value cost, offset, outage, requirement, margin; } ozp_parameters;

/* A row of a book. With no block the offer is flexible. A stamp may be any number, also all ones. In edition 1 the step is 1. In
 * edition 2 a resource may sell in steps: they stand in neighbouring rows, counted up from 1 to at most OZP_STEPS, prices never
 * falling from one to the next where both are given, and only step 1 may have a block. Each row is an offer for itself. */
typedef struct { uint64_t stamp; uint32_t resource, seller, quantity; ozp_value price, block; uint32_t step; } ozp_row;

/* What a book clears; amounts are of all rows, make_whole and daily by the day, year for the days of the delivery year.
 *
 *   kind          make_whole, daily, year   total     price      rows          number, place
 *   OZP_GIVEN     mills                     over 0    cents      the book's    no value
 *   OZP_NONE      0                         0         no value   the book's    no value
 *   OZP_REFUSED   no value                  no value  no value   no value      the refusal's
 */
typedef struct {
    uint64_t make_whole, daily, year;
    uint32_t kind, total, price, rows, number, place;
} ozp_answer;

/* The three points of a curve, (q1, p1), (q2, p2), (q3, p3): OZP_GIVEN, with p3 0, or OZP_REFUSED with number and place. */
typedef struct { uint32_t kind, p1, p2, p3, q1, q2, q3, number, place; } ozp_curve_points;

/* The price of a curve at a quantity, between cents: OZP_GIVEN with whole cents and `remainder` over `divisor` of a cent,
 * OZP_NONE past q3, or OZP_REFUSED with number and place. The cents are the price rounded down, by which books clear. The
 * remainder is under the divisor: up to q1, with q1, it is 0 over 1; past q1, to q2, the divisor is q2 - q1, and past q2 it is
 * q3 - q2. Of two prices with equal cents the larger has the larger remainder times the other's divisor, in 64 bits. */
typedef struct { uint32_t kind, cents, remainder, divisor, number, place; } ozp_curve_price;

/* What a book says: OZP_GIVEN with rows, edition (1 or 2) and parameters, or OZP_REFUSED with number and place, when the kind
 * of every parameter is OZP_NONE. */
typedef struct { uint32_t kind, rows, edition, number, place; ozp_parameters parameters; } ozp_contents;

/* The comparison of two books. `book` is 1 or 2, `field` one of the parameters' fields, `row` a row of the first book and
 * `other` one of the second.
 *
 *   kind          price, shared   book, number, place   field      row, other
 *   OZP_GIVEN     the first's     no value              no value   no value
 *   OZP_NONE      no value        no value              no value   no value
 *   OZP_REFUSED   no value        the refusal's         no value   no value
 *   OZP_DIFFERS   no value        no value              given      no value, where parameters differ
 *   OZP_DIFFERS   no value        no value              no value   where offers differ; no value where a book has no more
 */
typedef struct { uint32_t kind, price, shared, field, row, other, book, number, place; } ozp_comparison;

/* A text or a book in lent room: OZP_GIVEN with the count of bytes written, OZP_NONE with 0 where there is no such text, or
 * OZP_REFUSED with number and place, by OZP_SHORT_ROOM at 0 where the room is too small. Only the bytes that are counted are
 * changed, none on a refusal; no zero ends a text. */
typedef struct { uint64_t bytes; uint32_t kind, number, place; } ozp_text;

/* Clears a book.
 *
 * On OZP_GIVEN and OZP_NONE entry i of `cleared` and of `committed` holds the cleared and the committed tenths of row i, for
 * every row of the book. The buffers may be longer than that: entries past the last row are not touched. On OZP_REFUSED both
 * buffers hold what they held. The refusal is the first in the order of the numbers: 1; 2 over all blocks, lowest first; 3
 * likewise; 4 and 5 by field; rows from 0, each for 6, 7, 8, if its step is 1, and 10; 9, `cleared` before `committed`. Spare
 * tenths of a tie go to the larger remainder, then the earlier stamp, the lower resource and the lower step. */
ozp_answer ozp_clear(const uint8_t *book, size_t book_bytes, uint32_t *cleared, size_t cleared_entries, uint32_t *committed,
                     size_t committed_entries);

/* What a book clears, with no result buffers: the answer that ozp_clear gives where both are long enough. */
ozp_answer ozp_quote(const uint8_t *book, size_t book_bytes);

/* What a book says, for every book that passes 1 to 3, with its values in range or not: entry i of `rows` receives row i, and
 * entries past the last row are not touched. Refused by 1, 2, 3, then by 9 at 1 where the book has more rows than there are
 * entries; a refusal leaves the entries as they were. */
ozp_contents ozp_read(const uint8_t *book, size_t book_bytes, ozp_row *rows, size_t row_entries);

/* Writes the book of an edition that says these parameters and rows, in their order, into the room. What is missing is written as
 * missing, and a value out of range is not written. Reading what was written gives back the same edition, parameters and rows;
 * writing what was read gives back the bytes of a sound book.
 *
 * On OZP_GIVEN the book stands at the start of the room, and what stands behind it is not touched; OZP_BOOK_BYTES are room for
 * every book. Refused by 3 at 0 for an edition that is neither 1 nor 2; by 19 at 0 for more than OZP_ROWS rows; by 5 at the
 * lowest field that is given out of range, as by ozp_curve, where E may reach 1,000,000 if C is missing; rows from 0, each by 7,
 * 8 and 10, a step being out of range where it is not 1 to OZP_STEPS, or in edition 1 not 1; by 20 at 0 where the room is too
 * small. A refusal leaves the room as it was. */
ozp_text ozp_write(uint32_t edition, ozp_parameters parameters, const ozp_row *rows, size_t row_entries, uint8_t *room,
                   size_t room_bytes);

/* Writes a sound book in the other edition into the room: one of edition 1 goes up to edition 2, with step 1 in every row, and one
 * of edition 2 down to edition 1. Everything else that it says stays as it is, missing values too, and so does what it clears.
 * Going there and back gives the same bytes.
 *
 * On OZP_GIVEN the book stands at the start of the room, in as many bytes as it had, and what stands behind it is not touched.
 * Refused by 1, 2, 3, 5, 7, 8 and 10 where the book is not sound, a missing value being no fault; by 11 at the first row with a
 * step of 2 or more where it would go down; by 20 at 0 where the room is too small. A refusal leaves the room as it was. */
ozp_text ozp_convert(const uint8_t *book, size_t book_bytes, uint8_t *room, size_t room_bytes);

/* Whether losers matter between two books.
 *
 * OZP_GIVEN says that they don't: both books are accepted, the first has the price `price`, their parameters are the same, and
 * their offers at or below that price are the same in every value, in the same order among themselves, `shared` of them; every
 * other offer, in either book, is above it. Then both books have the same answer, with the same price and total and the same
 * amounts of the day and the year; the shared offers clear and commit the same and have the same make-whole, wherever their
 * rows stand, and all others nothing. That is proved.
 *
 * Else the first of these, in this order: OZP_REFUSED, the first book's refusal or the second's, as by ozp_quote; OZP_NONE,
 * nothing clears in the first book, so that there is no price to compare to; OZP_DIFFERS with the lowest field in which the
 * parameters differ; OZP_DIFFERS with the rows of the first two offers at or below the price that differ, `other` having no
 * value where the second book has no such offer more, and `row` where the first has none. */
ozp_comparison ozp_compare(const uint8_t *first, size_t first_bytes, const uint8_t *second, size_t second_bytes);

/* The curve that parameters make: the year selects it, that of 2022 to 2025 with the reserve margin, or that from 2026 on.
 * Refused by 4 at the lowest missing field, the margin among them where the year goes by it; else by 5 at the lowest field out of
 * range: the year is 2022 to 2099, C 1 to 1,000,000, E 0 to C, F 0 to 5,000, R 1,000 to 2,000,000, the margin 0 to 5,000, and
 * from 2026 on none is given, not even 0. */
ozp_curve_points ozp_curve(ozp_parameters parameters);

/* The price at quantity k of the curve that parameters make, between cents, refused as by ozp_curve. */
ozp_curve_price ozp_price_at(ozp_parameters parameters, uint32_t k);

/* A row's make-whole in mills a day, from the kind and the price of the answer and the row's entries of the two buffers: with
 * OZP_GIVEN price times (committed minus cleared), 0 where committed is less; with OZP_NONE 0; with any other kind
 * OZP_NO_AMOUNT, which no product is. */
uint64_t ozp_make_whole(uint32_t kind, uint32_t price, uint32_t cleared, uint32_t committed);

/* The days of the delivery year that starts on 1 June of `year`: 366 where the February of the next year has 29 days, else 365;
 * for any year. The year total of an answer is the daily total times the days of the book's year. */
uint32_t ozp_days(uint32_t year);

/* The text that the program `clear` prints for these bytes; a refusal is a text too. */
ozp_text ozp_report(const uint8_t *book, size_t book_bytes, uint8_t *room, size_t room_bytes);

/* The page of a book, for a person: what it states, its answer, the curve, where the total stops and why, what sets the price, the
 * price levels around it, how the level that is divided is divided, and its rows, up to 15 of them each in full, more of them each
 * in a line; or why it is refused, and what it lacks. A refused book has a page too. Plain letters in lines of at most 80, each
 * ended by a line feed. */
ozp_text ozp_explain(const uint8_t *book, size_t book_bytes, uint8_t *room, size_t room_bytes);

/* The head of that page: all of it but the rows. Of a refused book it is the whole page. */
ozp_text ozp_explain_head(const uint8_t *book, size_t book_bytes, uint8_t *room, size_t room_bytes);

/* The page of one row, in full whatever the number of rows: its offer, its part of its price level, its turn for a spare tenth, what
 * it clears and commits, and why it is paid or not. Of a book that is refused by 4 to 10 it is the row's offer, and its values with
 * their ranges. OZP_NONE where the book has no such row, or is refused by 1 to 3. */
ozp_text ozp_explain_row(const uint8_t *book, size_t book_bytes, size_t row, uint8_t *room, size_t room_bytes);

/* A refusal in words: when it is given, a semicolon, and what its place is, as in the comments above. */
ozp_text ozp_words(uint32_t number, uint8_t *room, size_t room_bytes);

/* OZP_VERSION of the library that is linked. */
uint32_t ozp_version(void);

#ifdef __cplusplus
}
#endif

#endif
