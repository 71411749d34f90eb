/* Room that is lent for texts, and what is left of it. */
#ifndef ROOMS_H
#define ROOMS_H

#include "check.h"

#define LONG (OZP_PAGE_BYTES + 64)

/* the room; so many of its bytes hold the same before a call, and are looked at after it */
extern uint8_t room[LONG];

void clean_room(size_t bytes);
void expect_text(ozp_text t, const char *text, const char *name);
void expect_short(ozp_text t, const char *name);
void expect_none(ozp_text t, const char *name);

#endif
