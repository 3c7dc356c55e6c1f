/* W-211: "Replay a returned week." A recording is read and played into a board. */
#ifndef REPLAY_H
#define REPLAY_H

#include "board.h"

#include <stdio.h>

enum {
    OPENING_BYTES = 4,
    RECORD_BYTES = 48,
    MOST_ENGINE_TICKS = 600     /* "at every tick of recordings up to 600 ticks" */
};

/* One tick as it was recorded. */
struct record {
    struct readings readings;
    size_t cells;
    uint16_t cell[MOST_CELLS];
    uint32_t other_bits;        /* of the flag byte and after it: "others zero", "three zero bytes" */
};

struct replay {
    FILE *recording;
    struct board board;         /* as after the last good tick */
    uint8_t opening[OPENING_BYTES];
    struct record record;       /* the latest one read */
    size_t bytes_read;          /* of the opening or of the record that was read last: too few where it is cut */
    enum number tick_number;    /* that the board gave the record; DONE too where a wrong bit kept it from the board */
    uint64_t ticks;             /* accepted */
    enum number number;         /* other than DONE: it is over */
    const char *meaning;        /* of that number */
    bool unread;                /* a read failed: it is over too */
};

void begin_replay(struct replay *replay, FILE *recording);
bool play_tick(struct replay *replay);      /* false where there is no other good record */
void tell(const char *who, const struct replay *replay);    /* on standard error: the ticks accepted, and the refusal */

/* "It prints a line for each event", and at the end how it went; gives back whether nothing is refused. */
bool replay_recording(void);

/* Whether the board and the plain engine agree at every tick; else it says where they do not. */
bool engine_agrees(void);

#endif
