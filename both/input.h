/* An input: the calls of one file, as code.h has them, from before the first start on. */
#ifndef INPUT_H
#define INPUT_H

#include "life.h"

/* How many calls are made of one with so many bytes, the first ones: as many as it has bytes, but a thousand at least. Two bytes may
   ask for a call 256 times more, so without such an end it could ask for hours. */
static inline size_t most_calls_of(size_t length)
{
    return length > 1000 ? length : 1000;
}

/* Makes them on both boards and adds up how many there are; false where the boards show a difference, which is told. */
bool is_played_alike(const uint8_t *bytes, size_t length, uint64_t *calls);

#endif
