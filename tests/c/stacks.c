/* How much stack each call uses: a thread calls on a stack that was painted before, and the paint that is gone is counted. */
#define _POSIX_C_SOURCE 200112L

#include "check.h"

#include <pthread.h>
#include <stdio.h>
#include <stdlib.h>
#include <string.h>

#define STACK (512 * 1024)
#define PAINT 0x5C

static uint8_t book[ROOM];
static size_t bytes;
static struct buffers out;
static ozp_row rows[ENTRIES];
static ozp_parameters parameters;
static uint32_t edition;
static size_t count;
static uint8_t room[OZP_PAGE_BYTES];

static void *call_nothing(void *lent) { return lent; }
static void *call_clear(void *lent) { clear(book, bytes, &out, ENTRIES, ENTRIES); return lent; }
static void *call_quote(void *lent) { ozp_quote(book, bytes); return lent; }
static void *call_compare(void *lent) { ozp_compare(book, bytes, book, bytes); return lent; }
static void *call_read(void *lent) { ozp_read(book, bytes, rows, ENTRIES); return lent; }
static void *call_write(void *lent) { ozp_write(edition, parameters, rows, count, room, sizeof room); return lent; }
static void *call_convert(void *lent) { ozp_convert(book, bytes, room, sizeof room); return lent; }
static void *call_report(void *lent) { ozp_report(book, bytes, room, sizeof room); return lent; }
static void *call_explain(void *lent) { ozp_explain(book, bytes, room, sizeof room); return lent; }
static void *call_explain_head(void *lent) { ozp_explain_head(book, bytes, room, sizeof room); return lent; }
static void *call_explain_row(void *lent) { ozp_explain_row(book, bytes, count - 1, room, sizeof room); return lent; }
static void *call_words(void *lent) { ozp_words(OZP_WRONG_LAYOUT, room, sizeof room); return lent; }
static void *call_curve(void *lent) { ozp_curve(parameters); return lent; }
static void *call_price_at(void *lent) { ozp_price_at(parameters, 10000); return lent; }

/* the bytes of stack that a thread uses */
static size_t used(void *(*call)(void *), uint8_t *stack)
{
    pthread_attr_t own;
    pthread_t thread;
    size_t left = 0;
    memset(stack, PAINT, STACK);
    pthread_attr_init(&own);
    pthread_attr_setstack(&own, stack, STACK);
    expect(pthread_create(&thread, &own, call, NULL) == 0, "stack", "a thread");
    pthread_join(thread, NULL);
    pthread_attr_destroy(&own);
    while (left < STACK && stack[left] == PAINT)
        left++;
    return STACK - left;
}

void stacks(const char *folder)
{
    /* by name, with the KiB that the header says are more than enough */
    static const struct { const char *name; void *(*call)(void *); size_t enough; } calls[] = {
        {"clear", call_clear, 40}, {"quote", call_quote, 40}, {"read", call_read, 40}, {"write", call_write, 48}, {"convert", call_convert, 48},
        {"curve", call_curve, 40}, {"price_at", call_price_at, 40}, {"report", call_report, 72}, {"words", call_words, 40},
        {"compare", call_compare, 56}, {"explain", call_explain, 160}, {"explain_head", call_explain_head, 160},
        {"explain_row", call_explain_row, 160},
    };
    static const char *const books[] = {"reference.book", "offers-600-length-20992.book", "steps-600-in-60-runs-of-ten.book"};
    void *stack = NULL;
    size_t i, k, idle, most;
    expect(posix_memalign(&stack, 4096, STACK) == 0, "stack", "room for a stack");
    idle = used(call_nothing, (uint8_t *)stack);
    printf("KiB of stack:");
    for (i = 0; i < LENGTH(calls); i++) {
        for (most = idle, k = 0; k < LENGTH(books); k++) {
            ozp_contents contents;
            size_t now;
            bytes = read_book(folder, books[k], book);
            contents = ozp_read(book, bytes, rows, ENTRIES);
            edition = contents.edition;
            parameters = contents.parameters;
            count = contents.rows;
            now = used(calls[i].call, (uint8_t *)stack);
            most = now > most ? now : most;
        }
        printf(" %s %.1f", calls[i].name, (double)(most - idle) / 1024);
        expect(most - idle < calls[i].enough * 1024, calls[i].name, "less stack than the header says");
    }
    printf("\n");
    free(stack);
}
