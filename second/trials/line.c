/* `line`: a board "at one end of a raw serial line: bytes on standard input, replies on standard output, and nothing else there." */
#include "../board/replay.h"
#include "console.h"

#include <stdio.h>

/* "a board that a recording was played into (`line` alone: a board of 8 cells and 2000 pulses per km, no tick yet)". A recording that
   is refused is told of, and its board is as after the last good tick; where its opening is refused, or the recording cannot be read,
   there is none. */
static bool board_after(const char *name, struct board *board)
{
    static struct replay replay;
    FILE *recording = fopen(name, "rb");
    if (recording == NULL) {
        fputs("line: 0 ticks, the recording cannot be read\n", stderr);
        return false;
    }
    begin_replay(&replay, recording);
    while (play_tick(&replay))
        ;
    fclose(recording);
    if (replay.number != DONE || replay.unread)
        tell("line", &replay);
    *board = replay.board;
    return board->cells > 0 && !replay.unread;
}

bool serve_line(const char *recording)
{
    static struct board board;
    uint8_t bytes[4096], reply[LEAST_ROOM];
    size_t length, taken;
    uint16_t which;
    if (recording == NULL)
        board_start(&board, 8, 2000);
    else if (!board_after(recording, &board))
        return false;
    while ((length = fread(bytes, 1, sizeof bytes, stdin)) > 0)
        for (size_t at = 0; at < length; at += taken) {
            board_offer(&board, bytes + at, length - at, &taken);
            if (board_fetch(&board, reply, sizeof reply, &which) != NO_FRAME_HELD)
                fwrite(reply, 1, length_of_reply(reply), stdout);
        }
    return true;
}
