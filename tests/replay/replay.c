/* Replays calls, each in two threads at once, and compares what they give with what is due.
 *
 *     replay PAGES < CALLS     as `oracle calls` writes them, and tests/explain/pages.py the pages of their books
 *
 * The book and the buffers are lent from memory of just their length, so that valgrind or the address sanitizer sees every
 * access past them.
 */
#define _POSIX_C_SOURCE 200112L

#include "replay.h"

#include <stdio.h>
#include <stdlib.h>

void *room(size_t bytes)
{
    void *room = malloc(bytes);
    if (room == NULL && bytes > 0) {
        perror("room for a call");
        exit(2);
    }
    return room;
}

static void *taken(size_t entries, size_t size)
{
    void *entry = room(entries * size);
    if (fread(entry, size, entries, stdin) != entries) {
        fprintf(stderr, "a call ends too soon\n");
        exit(2);
    }
    return entry;
}

/* what stands in a buffer before the call: at each entry a number of its own */
static uint32_t before(size_t entry)
{
    return 0x5EED0000u + (uint32_t)entry;
}

static uint32_t *buffer(size_t entries)
{
    uint32_t *buffer = room(entries * sizeof *buffer);
    size_t i;
    for (i = 0; i < entries; i++)
        buffer[i] = before(i);
    return buffer;
}

/* whether a buffer has the entries that are filled, and past them what it held */
static int holds(const uint32_t *buffer, size_t entries, const uint32_t *due, size_t filled)
{
    size_t i;
    for (i = 0; i < entries; i++)
        if (buffer[i] != (i < filled ? due[i] : before(i)))
            return 0;
    return 1;
}

static int same(ozp_answer a, const struct head *due)
{
    return a.make_whole == due->make_whole && a.daily == due->daily && a.year == due->year && a.kind == due->kind
           && a.total == due->total && a.price == due->price && a.number == due->number && a.place == due->place
           && a.rows == (due->kind == OZP_REFUSED ? OZP_NO_VALUE : due->filled);
}

/* what differs, or null */
static const char *difference(const struct call *call, ozp_answer a, const uint32_t *cleared, const uint32_t *committed)
{
    const struct head *due = &call->due;
    uint64_t whole = 0;
    size_t i;
    if (!same(a, due))
        return "the answer";
    if (!holds(cleared, due->cleared_entries, call->cleared, due->filled))
        return "the cleared buffer";
    if (!holds(committed, due->committed_entries, call->committed, due->filled))
        return "the committed buffer";
    for (i = 0; i < due->filled; i++)
        whole += ozp_make_whole(a.kind, a.price, cleared[i], committed[i]);
    if (a.kind != OZP_REFUSED && whole != due->make_whole)
        return "the sum of make-whole";
    if (due->rows > 0 && !(is_read(call, due->rows) && is_read(call, due->rows + 1) && !is_read(call, due->rows - 1)))
        return "what is read";
    if (!is_compared(call))
        return "the comparison with itself";
    if (!is_written_back(call))
        return "what is written back";
    if (!is_converted(call))
        return "the other edition";
    if (!is_explained(call))
        return "a page";
    return is_reported(call) ? NULL : "the report";
}

static void *replay(void *lent)
{
    struct call *call = (struct call *)lent;
    const struct head *due = &call->due;
    uint32_t *cleared = buffer(due->cleared_entries), *committed = buffer(due->committed_entries);
    const char *differs;
    ozp_answer a;
    pthread_barrier_wait(&call->start);
    a = ozp_clear(call->book, due->book_bytes, cleared, due->cleared_entries, committed, due->committed_entries);
    differs = difference(call, a, cleared, committed);
    free(cleared);
    free(committed);
    return (void *)differs;
}

/* in a second thread and in this one */
static const char *replay_twice(struct call *call)
{
    pthread_t thread;
    void *other;
    const char *own;
    pthread_barrier_init(&call->start, NULL, 2);
    if (pthread_create(&thread, NULL, replay, call) != 0)
        return "a thread";
    own = replay(call);
    pthread_join(thread, &other);
    pthread_barrier_destroy(&call->start);
    return own != NULL ? own : other;
}

int main(int words, char **word)
{
    struct call call;
    unsigned calls = 0, differ = 0;
    const char *differs;
    if (words != 2) {
        fprintf(stderr, "usage: replay PAGES < CALLS\n");
        return 2;
    }
    read_pages(word[1]);
    while (fread(&call.due, sizeof call.due, 1, stdin) == 1) {
        call.at = calls;
        call.book = taken(call.due.book_bytes, 1);
        call.cleared = taken(call.due.filled, sizeof *call.cleared);
        call.committed = taken(call.due.filled, sizeof *call.committed);
        differs = replay_twice(&call);
        if (differs != NULL)
            fprintf(stderr, "call %u: %s differs from what is due\n", calls, differs);
        differ += differs != NULL;
        calls++;
        free(call.book);
        free(call.cleared);
        free(call.committed);
    }
    free_pages();
    printf("%u calls, each in two threads at once, %u differ\n", calls, differ);
    return calls > 0 && differ == 0 ? 0 : 1;
}
