/* What the tests in C share: counted facts, books that are read, answers and buffers that are held to what is expected. */
#ifndef CHECK_H
#define CHECK_H

#include <ozpinduru.h>

#define LENGTH(xs) (sizeof(xs) / sizeof((xs)[0]))

/* what stands in each byte of a buffer before a call, and in four of them */
#define UNTOUCHED_BYTE 0xA5
#define UNTOUCHED 0xA5A5A5A5u

/* a buffer a little longer than any book needs */
#define ENTRIES (OZP_ROWS + 8)

/* room for a file that is longer than any book */
#define ROOM (OZP_BOOK_BYTES + 1024)

struct buffers {
    uint32_t cleared[ENTRIES];
    uint32_t committed[ENTRIES];
};

/* the facts that hold and that fail */
extern unsigned held, failed;

void expect(int fact, const char *name, const char *what);
size_t read_book(const char *folder, const char *name, uint8_t *book);
void seal(uint8_t *block);
ozp_answer clear(const uint8_t *book, size_t bytes, struct buffers *out, size_t cleared, size_t committed);
uint32_t year_of(const uint8_t *book);
void expect_clearing(ozp_answer a, const struct buffers *out, uint32_t year, size_t rows, const char *name);
void expect_refusal(ozp_answer a, const struct buffers *out, unsigned number, unsigned place, const char *name);

/* the tests */
unsigned judge_all(const char *folder, const char *lines);
void expect_rows(const uint8_t *book, size_t bytes, size_t rows, const char *name);
void expect_unread(const uint8_t *book, size_t bytes, unsigned number, unsigned place, const char *name);
void reading(const char *folder);
void expect_written_back(const uint8_t *book, size_t bytes, const char *verdict, const char *name);
void writing(const char *folder);
void expect_converted(const uint8_t *book, size_t bytes, const char *verdict, const char *name);
void converting(const char *folder);
void reference(const char *folder);
void nothing(const char *folder);
void curve(void);
void make_whole(void);
void days(const char *folder);
void comparing(const char *folder);
void expect_report(const uint8_t *book, size_t bytes, const char *text, const char *name);
void texts(const char *folder);
void explaining(const char *folder, const char *pages);
void threads(const char *folder);
void stacks(const char *folder);

#endif
