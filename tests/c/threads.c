/* Two threads on one book, each with a small stack. */
#define _POSIX_C_SOURCE 200112L

#include "check.h"

#include <pthread.h>
#include <string.h>

#define TIMES 50

/* bytes of stack: a call needs well under this */
#define STACK (64 * 1024)

struct work {
    const uint8_t *book;
    size_t bytes;
    struct buffers out;
    ozp_answer answers[TIMES];
};

static int same(ozp_answer a, ozp_answer b)
{
    return a.make_whole == b.make_whole && a.daily == b.daily && a.year == b.year && a.kind == b.kind && a.total == b.total
           && a.price == b.price && a.rows == b.rows && a.number == b.number && a.place == b.place;
}

static void *clear_often(void *lent)
{
    struct work *w = (struct work *)lent;
    int i;
    for (i = 0; i < TIMES; i++)
        w->answers[i] = clear(w->book, w->bytes, &w->out, ENTRIES, ENTRIES);
    return NULL;
}

void threads(const char *folder)
{
    static uint8_t book[ROOM];
    static struct work work[2];
    const char *name = "offers-600-length-20992.book";
    size_t bytes = read_book(folder, name, book);
    pthread_attr_t small;
    pthread_t thread[2];
    int i, k;
    pthread_attr_init(&small);
    pthread_attr_setstacksize(&small, STACK);
    for (k = 0; k < 2; k++) {
        work[k].book = book;
        work[k].bytes = bytes;
        expect(pthread_create(&thread[k], &small, clear_often, &work[k]) == 0, name, "a thread");
    }
    for (k = 0; k < 2; k++)
        pthread_join(thread[k], NULL);
    pthread_attr_destroy(&small);
    for (k = 0; k < 2; k++) {
        expect_clearing(work[k].answers[0], &work[k].out, year_of(book), OZP_ROWS, name);
        for (i = 0; i < TIMES; i++)
            expect(same(work[k].answers[i], work[0].answers[0]), name, "one answer in every thread");
    }
    expect(memcmp(&work[0].out, &work[1].out, sizeof work[0].out) == 0, name, "one content of the buffers in every thread");
}
