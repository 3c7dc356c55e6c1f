/* W-201: a receiver for the raw line, whose bytes come in scraps. */
#include "board.h"

#include <string.h>

/* A frame is held from its last byte on. */
bool holds_frame(const struct board *board)
{
    return board->receiver.length == length_of_request(board->receiver.bytes, board->receiver.length);
}

/* "Bytes before 0xAA are skipped." */
static void receive(struct receiver *receiver, uint8_t byte)
{
    if (receiver->length > 0 || byte == 0xAA)
        receiver->bytes[receiver->length++] = byte;
}

/* "takes bytes up to the end of the first complete frame, says how many it took, and holds that frame"
   "6, an offer (of no bytes too) while a frame is held, nothing taken"
   Reading: a skipped byte is taken, and so are the bytes of an unfinished frame. */
enum number board_offer(struct board *board, const uint8_t *bytes, size_t length, size_t *taken)
{
    *taken = 0;
    if (board->cells == 0)
        return NO_BOARD;
    if (holds_frame(board))
        return FRAME_HELD;
    while (*taken < length && !holds_frame(board))
        receive(&board->receiver, bytes[(*taken)++]);
    return DONE;
}

/* "A fetch answers the held frame into a lent buffer as 01 says, and the receiver goes on."
   "a fetch that answers with a NACK lets the held frame go and changes no other state"
   "1 on a fetch leaves the frame held; ... 7, a fetch with none held, the buffer zeroed, after 1"
   Reading: an unfinished frame is none held. */
enum number board_fetch(struct board *board, uint8_t *reply, size_t room, uint16_t *which)
{
    memset(reply, 0, room);
    *which = 0;
    if (board->cells == 0)
        return NO_BOARD;
    if (room < LEAST_ROOM)
        return ROOM_TOO_SMALL;
    if (!holds_frame(board))
        return NO_FRAME_HELD;
    const enum number number = board_frame(board, board->receiver.bytes, board->receiver.length, reply, room, which);
    board->receiver.length = 0;
    return number;
}
