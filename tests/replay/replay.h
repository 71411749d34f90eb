/* A call, and what is due of it. */
#ifndef REPLAY_H
#define REPLAY_H

#include <ozpinduru.h>

#include <pthread.h>

/* a call's head, as it is written: 64 bytes, with no gap */
struct head {
    uint64_t make_whole, daily, year;
    uint32_t kind, total, price, number, place;
    uint32_t book_bytes, cleared_entries, committed_entries, filled, rows;
};

struct call {
    unsigned at; /* which one it is, from 0 */
    struct head due;
    uint8_t *book;
    uint32_t *cleared, *committed; /* the entries that are filled */
    pthread_barrier_t start;
};

/* memory of just so many bytes */
void *room(size_t bytes);

int is_read(const struct call *call, size_t entries);
int is_reported(const struct call *call);
int is_compared(const struct call *call);
int is_written_back(const struct call *call);
int is_converted(const struct call *call);

/* the pages of all calls, from a file */
void read_pages(const char *path);
void free_pages(void);
int is_explained(const struct call *call);

#endif
