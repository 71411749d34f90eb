/* The texts that are written into lent room. */
#include "rooms.h"

#include <string.h>

/* in room that is long, just long enough, one byte short, and none */
void expect_report(const uint8_t *book, size_t bytes, const char *text, const char *name)
{
    size_t length = strlen(text);
    clean_room(LONG);
    expect_text(ozp_report(book, bytes, room, LONG), text, name);
    expect_text(ozp_report(book, bytes, room, length), text, name);
    expect_short(ozp_report(book, bytes, room, length - 1), name);
    expect_short(ozp_report(book, bytes, NULL, 0), name);
}

static void expect_words(uint32_t number, const char *text)
{
    clean_room(LONG);
    expect_text(ozp_words(number, room, OZP_WORDS_BYTES), text, "words");
    expect_text(ozp_words(number, room, strlen(text)), text, "words");
    expect_short(ozp_words(number, room, strlen(text) - 1), "words");
    expect_short(ozp_words(number, NULL, 0), "words");
}

static void expect_no_words(uint32_t number)
{
    clean_room(LONG);
    expect_none(ozp_words(number, room, LONG), "words");
    expect_none(ozp_words(number, NULL, 0), "words");
}

void texts(const char *folder)
{
    static uint8_t book[ROOM];
    const char *name = "reference.book";
    size_t bytes = read_book(folder, name, book);
    expect_report(book, bytes,
                  "cleared 10000\nprice 37500\n11 9900 9900 0\n12 67 67 0\n13 33 50 637500\ndaily 375637500\nyear 137107687500\n", name);
    bytes = read_book(folder, "no-offers-length-512.book", book);
    expect_report(book, bytes, "cleared 0\nprice -\ndaily 0\nyear 0\n", "no offers");
    expect_report(NULL, 0, "refused 1 0\n", "no bytes");
    bytes = read_book(folder, "offers-600-length-20992.book", book);
    expect(ozp_report(book, bytes, room, OZP_REPORT_BYTES).kind == OZP_GIVEN, "600 offers", "room for every report");
    expect_words(OZP_WRONG_LENGTH, "length not a multiple of 512, or under 512, or over 20,992; 0");
    expect_words(OZP_WRONG_CHECK, "a block's check is wrong; the block");
    expect_words(OZP_WRONG_LAYOUT, "letters, edition, block number, counts, unused marks or bytes differ from the layout, or a value "
                                   "marked absent is not zero; the block");
    expect_words(OZP_MISSING_PARAMETER, "a parameter is missing; the field");
    expect_words(OZP_PARAMETER_OUT_OF_RANGE, "a parameter is out of range; the field");
    expect_words(OZP_UNPRICED_OFFER, "an offer has no price; the row");
    expect_words(OZP_OFFER_OUT_OF_RANGE, "an offer value is out of range; the row");
    expect_words(OZP_REPEATED_RESOURCE, "a resource number stands in an earlier row; the row");
    expect_words(OZP_SHORT_BUFFER, "a result buffer has fewer entries than offers; 1 cleared, 2 committed");
    expect_words(OZP_BROKEN_STEPS, "a resource's steps do not stand in neighbouring rows counted up from 1, their prices fall, or a "
                                   "step past 1 has a minimum block; the row");
    expect_words(OZP_LATER_STEP, "a row has a step of 2 or more, which edition 1 cannot hold; the row");
    expect_words(OZP_TOO_MANY_ROWS, "more than 600 rows; 0");
    expect_words(OZP_SHORT_ROOM, "the room lent is too small; 0");
    expect_no_words(0);
    expect_no_words(12);
    expect_no_words(18);
    expect_no_words(21);
    expect_no_words(UINT32_MAX);
}
