/* Calls in a row, from before the first start on, that lead to a difference: found, cut down to few, and told as the console's
   lines. */
#ifndef LIFE_H
#define LIFE_H

#include "code.h"
#include "pair.h"

/* A call is some of the bytes, as code.h has them. */
struct life {
    uint8_t *bytes;
    size_t length, room;
    struct piece {
        size_t at, length;
    } *call;
    size_t calls, call_room;
};

void add_call(struct life *life, const struct call *call);
void end_life(struct life *life);

/* Makes its calls on both boards, up to the first that they show a difference after, and leaves out those behind it; false
   where there is no such call. */
bool find_difference(struct life *life, struct difference *difference);

/* Tells the difference that was seen after these calls: as few and as simple ones as still lead to one, as the console's lines,
   and what both boards answer to the last of them, as comments. */
void tell_difference(struct life *life, const struct difference *seen);

#endif
