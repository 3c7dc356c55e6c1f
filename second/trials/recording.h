/* Recordings that are made up, and a recording told in other words. How one is played is in board/replay.h. */
#ifndef RECORDING_H
#define RECORDING_H

#include "../board/replay.h"

/* A recording as calls that the console takes; gives back whether nothing is refused. */
bool print_calls(void);

/* A recording's tables of the page, in plain lines: tables.c says which; gives back whether nothing is refused. */
bool print_page_tables(void);

/* A record as it is written, with a place for all that must be zero. */
struct written {
    uint16_t cell[MOST_CELLS];
    int32_t current;
    int16_t temperature[3];     /* internal, external 1, external 2 */
    uint16_t pulses;
    uint8_t flags, zero[3];
};

enum { CHARGER = 1, IGNITION = 2 };     /* of the flags */

/* The first `length` bytes of a record, to standard output. */
void write_record(const struct written *record, size_t length);

/* Writes a recording to standard output, always the same for one seed; damage is NULL or the name of one. False where
   there is no damage of that name. */
bool write_recording(uint64_t seed, uint64_t ticks, const char *damage);

enum { TICKS_OF_DAY = 864000 };

/* Writes a courier's days to standard output, always the same for one seed. False where a board would refuse a tick of
   them, which is a fault of theirs and told. */
bool write_courier(uint64_t seed, uint64_t days);

#endif
