#include "rooms.h"

#include <string.h>

uint8_t room[LONG];
static size_t clean;

void clean_room(size_t bytes)
{
    clean = bytes;
    memset(room, UNTOUCHED_BYTE, clean);
}

static int untouched(size_t from)
{
    while (from < clean && room[from] == UNTOUCHED_BYTE)
        from++;
    return from == clean;
}

/* a text that stands at the start of the room, and nothing else changed; then the room is as before */
void expect_text(ozp_text t, const char *text, const char *name)
{
    size_t bytes = strlen(text);
    expect(t.kind == OZP_GIVEN && t.bytes == bytes && t.number == OZP_NO_VALUE && t.place == OZP_NO_VALUE, name, "count of the text");
    expect(memcmp(room, text, bytes) == 0, name, "the text");
    expect(untouched(bytes), name, "what stands behind the text");
    memset(room, UNTOUCHED_BYTE, bytes);
}

void expect_short(ozp_text t, const char *name)
{
    expect(t.kind == OZP_REFUSED && t.bytes == OZP_NO_AMOUNT && t.number == OZP_SHORT_ROOM && t.place == 0, name, "room too small");
    expect(untouched(0), name, "room that is too small is left");
}

/* there is no such text */
void expect_none(ozp_text t, const char *name)
{
    expect(t.kind == OZP_NONE && t.bytes == 0 && t.number == OZP_NO_VALUE && t.place == OZP_NO_VALUE, name, "no such text");
    expect(untouched(0), name, "no such text leaves the room");
}
