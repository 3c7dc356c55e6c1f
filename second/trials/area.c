/* Areas of saved events made by chance, for scripts of calls: as a save would give them, and damaged in each way. */
#include "script.h"

#include <string.h>

/* The table's fourteen, 0x64 and 0x65. */
static const int recorded[] = {0x02, 0x03, 0x04, 0x05, 0x06, 0x07, 0x37, 0x73, 0x74, 0x76, 0x77, 0x78, 0x79, 0x7B,
                               0x64, 0x65};

static void put_event(struct script *script, uint8_t *record, int number)
{
    static const int times[] = {0, 1, 255, 256, 65535, 65536, 0xFFFFFE, 0xFFFFFF};
    const int time = one_in(script, 3) ? PICK(script, times) : between(script, 0, 0xFFFFFF);
    record[0] = (uint8_t)time;
    record[1] = (uint8_t)(time >> 8);
    record[2] = (uint8_t)(time >> 16);
    record[3] = (uint8_t)number;
}

/* What another pack may have saved. */
static void fill_area(struct script *script, uint8_t area[AREA_BYTES])
{
    static const int counts[] = {0, 1, 47, 48, 49, EVENTS_KEPT - 1, EVENTS_KEPT, EVENTS_KEPT};
    const int used = one_in(script, 2) ? PICK(script, counts) : between(script, 0, EVENTS_KEPT);
    memset(area, 0xFF, AREA_BYTES);
    for (int at = 0; at < used; at++)
        put_event(script, area + AREA_RECORD * at, PICK(script, recorded));
}

/* Three bytes of an unused record, and one that may be another. */
static void nearly_unuse(struct script *script, uint8_t *record)
{
    memset(record, 0xFF, AREA_RECORD);
    record[between(script, 0, AREA_RECORD - 1)] = (uint8_t)(one_in(script, 2) ? 0xFE : PICK(script, recorded));
}

/* "a used record after an unused one" */
static void leave_gap(struct script *script, uint8_t *area, int records)
{
    const int first = between(script, 0, records - 2), next = first + 1;
    const int later = one_in(script, 3) ? next : between(script, next, records - 1);
    memset(area + AREA_RECORD * first, 0xFF, AREA_RECORD);
    put_event(script, area + AREA_RECORD * later, PICK(script, recorded));
}

/* Mostly "an event number this board never records": those next to one that is recorded, and any other. */
static void renumber(struct script *script, uint8_t *record)
{
    if (one_in(script, 2))
        record[3] = (uint8_t)near(script, PICK(script, recorded));
    else
        record[3] = (uint8_t)between(script, 0, 255);
}

/* Some used record, the first unused one, or (seldom) any. */
static uint8_t *pick_record(struct script *script, uint8_t *area, int records)
{
    int used = 0;
    while (used < records - 1 && area[AREA_RECORD * used + 3] != 0xFF)
        used++;
    return area + AREA_RECORD * between(script, 0, one_in(script, 4) ? records - 1 : used);
}

static size_t damage(struct script *script, uint8_t area[MOST_BYTES], size_t length)
{
    static const int lengths[] = {0, 1, OLD_AREA_BYTES - 4, OLD_AREA_BYTES - 1, OLD_AREA_BYTES, OLD_AREA_BYTES + 1,
                                  OLD_AREA_BYTES + 4, AREA_BYTES - 4, AREA_BYTES - 1, AREA_BYTES, AREA_BYTES + 1,
                                  AREA_BYTES + 4, 300};
    const int records = (length == OLD_AREA_BYTES ? OLD_AREA_BYTES : AREA_BYTES) / AREA_RECORD;
    uint8_t *record = pick_record(script, area, records);
    switch (between(script, 0, 6)) {
    case 0: return (size_t)PICK(script, lengths);
    case 1: leave_gap(script, area, records); break;
    case 2: put_event(script, record, PICK(script, recorded)); break;
    case 3: nearly_unuse(script, record); break;
    case 4: record[between(script, 0, AREA_RECORD - 1)] ^= (uint8_t)(1 << between(script, 0, 7)); break;
    default: renumber(script, record); break;
    }
    return length;
}

/* An old area is the first records of one of today's. */
size_t make_area(struct script *script, uint8_t area[MOST_BYTES])
{
    size_t length = one_in(script, 3) ? OLD_AREA_BYTES : AREA_BYTES;
    memset(area, one_in(script, 2) ? 0xFF : 0x02, MOST_BYTES);
    memcpy(area, script->saved, AREA_BYTES);
    if (one_in(script, 2))
        fill_area(script, area);
    else if (one_in(script, 2))
        board_save(&script->board, area, AREA_BYTES);
    for (int damages = one_in(script, 2) ? between(script, 1, 2) : 0; damages > 0; damages--)
        length = damage(script, area, length);
    return length;
}
