/* A recording as the console's calls: the board's start and each good tick. */
#include "console.h"
#include "recording.h"

bool print_calls(void)
{
    static struct replay replay;
    const struct board *board = &replay.board;
    struct record *record = &replay.record;
    begin_replay(&replay, stdin);
    if (replay.number == DONE)
        print_call(&(struct call){.kind = CALL_START, .cells = board->cells, .pulses_per_km = board->pulses_per_km});
    while (play_tick(&replay))
        print_call(&(struct call){.kind = CALL_TICK, .readings = record->readings, .cell = record->cell, .length = record->cells});
    return replay.number == DONE;
}
