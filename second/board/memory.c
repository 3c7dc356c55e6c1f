/* W-205: the kept events in the pack's memory; W-207: 62 of them. */
#include "board.h"

#include <string.h>

/* "the three time bytes and the event number", the time low byte first as everywhere but in 0x03 and 0x10. */
static void put_record(uint8_t record[AREA_RECORD], struct event event)
{
    record[0] = (uint8_t)event.time;
    record[1] = (uint8_t)(event.time >> 8);
    record[2] = (uint8_t)(event.time >> 16);
    record[3] = event.number;
}

static struct event event_of(const uint8_t record[AREA_RECORD])
{
    return (struct event){record[0] | (uint32_t)record[1] << 8 | (uint32_t)record[2] << 16, record[3]};
}

/* "unused records all 0xFF". Reading: a record is used if any of its bytes is another. */
static bool is_used(const uint8_t record[AREA_RECORD])
{
    return record[0] != 0xFF || record[1] != 0xFF || record[2] != 0xFF || record[3] != 0xFF;
}

/* "Save the list into a lent area of ... records of 4 bytes, no header: ... oldest first, unused records all 0xFF."
   "An area refused on saving is not written". W-207: "31 ... on saving, not 248". */
enum number board_save(const struct board *board, uint8_t *area, size_t length)
{
    if (board->cells == 0)
        return NO_BOARD;
    if (length != AREA_BYTES)
        return WRONG_AREA;
    memset(area, 0xFF, AREA_BYTES);
    for (uint64_t at = oldest_kept(board); at < board->events_noted; at++) {
        put_record(area, board->event[at % EVENTS_KEPT]);
        area += AREA_RECORD;
    }
    return DONE;
}

/* The used records before the first unused one. */
static size_t count_used(const uint8_t area[AREA_BYTES])
{
    size_t used = 0;
    while (used < EVENTS_KEPT && is_used(area + AREA_RECORD * used))
        used++;
    return used;
}

/* "32, a used record after an unused one; 33, an event number this board never records"; the lowest number first. */
static enum number judge_area(const uint8_t area[AREA_BYTES], size_t used)
{
    for (size_t at = used; at < EVENTS_KEPT; at++)
        if (is_used(area + AREA_RECORD * at))
            return USED_AFTER_UNUSED;
    for (size_t at = 0; at < used; at++)
        if (!is_ever_recorded(event_of(area + AREA_RECORD * at).number))
            return NEVER_RECORDED;
    return DONE;
}

static void take_events(struct board *board, const uint8_t area[AREA_BYTES], size_t used)
{
    for (size_t at = 0; at < used; at++)
        board->event[at] = event_of(area + AREA_RECORD * at);
    board->events_noted = used;
    board->events_sent = used;
}

/* "A load replaces the list", "with everything marked as sent"; "one refused on loading leaves the board as it was"
   W-207: "An old 192-byte area still loads, as the 248 bytes it makes with 14 unused records after it."
   "31 on loading now means neither 192 nor 248" */
enum number board_load(struct board *board, const uint8_t *lent, size_t length)
{
    uint8_t area[AREA_BYTES];
    if (board->cells == 0)
        return NO_BOARD;
    if (length != OLD_AREA_BYTES && length != AREA_BYTES)
        return WRONG_AREA;
    memset(area, 0xFF, AREA_BYTES);
    memcpy(area, lent, length);
    const size_t used = count_used(area);
    const enum number refused = judge_area(area, used);
    if (refused == DONE)
        take_events(board, area, used);
    return refused;
}
