/* Inputs played. */
#include "input.h"

/* As is_played_alike, but tells nothing. */
static bool is_alike(const uint8_t *bytes, size_t length, uint64_t *calls, struct difference *difference)
{
    static struct reader reader;
    struct board board;
    struct store store;
    struct pair pair;
    const struct call *call;
    set_up_pair(&pair, &board, &store);
    begin_reading(&reader, bytes, length);
    for (size_t left = most_calls_of(length); left > 0 && (call = next_call(&reader)) != NULL; left--) {
        ++*calls;
        if (!is_made_alike(&pair, call, difference))
            return false;
    }
    return true;
}

/* So many calls of an input. */
static void add_calls(struct life *life, const uint8_t *bytes, size_t length, uint64_t calls)
{
    static struct reader reader;
    begin_reading(&reader, bytes, length);
    for (; calls > 0; calls--)
        add_call(life, next_call(&reader));
}

bool is_played_alike(const uint8_t *bytes, size_t length, uint64_t *calls)
{
    struct life life = {.calls = 0};
    struct difference difference;
    const uint64_t before = *calls;
    if (is_alike(bytes, length, calls, &difference))
        return true;
    add_calls(&life, bytes, length, *calls - before);
    tell_difference(&life, &difference);
    end_life(&life);
    return false;
}
