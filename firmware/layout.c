/* layout: holds the structs of slatecauseway.h to those of the archive. Each field of a board has a line below: C writes the field and a
 * verb shows it, verbs make another board and C reads the field. Where a field lies elsewhere in the archive, one of the two is another
 * number: this is told, with the field's name, and the status is 1. What the archive alone writes (sc_told, sc_word) is read.
 */
#include "slatecauseway.h"

#include <inttypes.h>
#include <stdio.h>
#include <string.h>

/* ---- what a tick brings: calm readings, at which each condition recovers and none holds */

enum { CELLS = 4, PULSES_PER_KM = 2000 };

static const uint16_t calm_cells[CELLS] = {37000, 37000, 37000, 37000};
static const struct sc_readings calm = {.internal = 200, .external1 = 200, .external2 = 200};

static void tick(struct sc_board *board, struct sc_readings readings) { sc_tick(board, calm_cells, CELLS, readings); }

static struct sc_board new_board(void)
{
    struct sc_board board;
    sc_start(&board, CELLS, PULSES_PER_KM);
    return board;
}

/* ---- numbers as bytes, low byte first, and frames */

static uint64_t low_first(const uint8_t *bytes, int count)
{
    uint64_t value = 0;
    while (count-- > 0)
        value = value << 8 | bytes[count];
    return value;
}

static void put_low_first(uint8_t *bytes, uint64_t value, int count)
{
    for (int at = 0; at < count; at++)
        bytes[at] = (uint8_t)(value >> 8 * at);
}

static uint16_t crc_of(const uint8_t *bytes, size_t length)
{
    uint16_t crc = 0xFFFF;
    for (size_t bit = 0; bit < 8 * length; bit++) {
        crc ^= bit % 8 == 0 ? bytes[bit / 8] : 0;
        crc = (uint16_t)(crc >> 1 ^ (crc & 1 ? 0xA001 : 0));
    }
    return crc;
}

/* The PL of the reply to a command that is all of its request. */
static uint8_t length_told(struct sc_board *board, uint8_t command)
{
    uint8_t request[4] = {0xAA, command}, reply[SC_REPLY_ROOM];
    put_low_first(request + 2, crc_of(request, 2), 2);
    sc_frame(board, request, sizeof request, reply, sizeof reply, NULL);
    return reply[2];
}

/* The longest frame that a receiver holds: a 0x10 with a PL of 255, which no count of registers has, so it is 42. */
enum { LONGEST_FRAME = 264 };

static const uint8_t *longest_frame(void)
{
    static uint8_t frame[LONGEST_FRAME] = {0xAA, 0x10};
    for (int at = 2; at < LONGEST_FRAME - 2; at++)
        frame[at] = (uint8_t)(7 * at + 3);
    frame[6] = 255;
    put_low_first(frame + LONGEST_FRAME - 2, crc_of(frame, LONGEST_FRAME - 2), 2);
    return frame;
}

/* ---- what verbs show of a board; `of` says which, or of what */

static uint64_t register_of(struct sc_board *board, unsigned of)
{
    uint16_t value = 0;
    sc_register(board, (uint16_t)of, &value);
    return value;
}

static uint64_t pair_of(struct sc_board *board, unsigned of) { return register_of(board, of) | register_of(board, of + 1) << 16; }

static uint64_t low_byte_of(struct sc_board *board, unsigned of) { return register_of(board, of) & 0xFF; }
static uint64_t high_byte_of(struct sc_board *board, unsigned of) { return register_of(board, of) >> 8; }

/* The desk's record has numbers of 64 bits. */
static uint64_t recorded(struct sc_board *board, unsigned of)
{
    uint8_t record[SC_RECORD_BYTES];
    sc_handover(board, 0, record, sizeof record);
    return low_first(record + of, 8);
}

static uint64_t cabinet_of(struct sc_board *board, unsigned of)
{
    uint16_t registers[SC_CABINET_REGISTERS];
    sc_cabinet(board, registers, SC_CABINET_REGISTERS);
    return registers[of];
}

static uint64_t switch_of(struct sc_board *board, unsigned of) { return of == 0 ? sc_charge_switch(board) : sc_discharge_switch(board); }
static uint64_t bits_of(struct sc_board *board, unsigned of) { return of == 0 ? sc_decision_bits(board) : sc_balancing_bits(board); }

static uint64_t cells_told(struct sc_board *board, unsigned of) { return length_told(board, (uint8_t)of) / 2; }

static uint64_t new_events_told(struct sc_board *board, unsigned of)
{
    board->hire.events.kept = 62;
    return (length_told(board, (uint8_t)of) - 4) / 4;
}

static uint64_t saved_event(struct sc_board *board, unsigned of)
{
    uint8_t area[SC_AREA_BYTES];
    sc_save(board, area, sizeof area);
    return low_first(area + 4 * of, 4);
}

/* An unused record is four bytes of 0xFF. */
static uint64_t saved_events(struct sc_board *board, unsigned of)
{
    while (of < 62 && saved_event(board, of) != 0xFFFFFFFF)
        of++;
    return of;
}

static uint64_t listed_event(struct sc_board *board, unsigned of)
{
    board->hire.events.kept = 62;
    return saved_event(board, of);
}

/* The number of the newest event after a calm tick. */
static uint64_t event_at_calm_tick(struct sc_board *board, unsigned of)
{
    tick(board, calm);
    const uint64_t events = saved_events(board, of);
    return events == 0 ? 0 : saved_event(board, (unsigned)events - 1) >> 24;
}

/* How many calm ticks until that recovery is recorded, all three waits being waited for. */
static uint64_t ticks_to_recovery(struct sc_board *board, unsigned of)
{
    uint64_t ticks = 0, event = 0;
    struct sc_conditions *latched = &board->pack.guard.latched;
    latched->doc = latched->coc = latched->roc = true;
    for (; event != of && ticks < 99; ticks++)
        event = event_at_calm_tick(board, 0);
    return ticks;
}

static uint64_t ticks_to_second(struct sc_board *board, unsigned of)
{
    const uint64_t second = pair_of(board, of);
    uint64_t ticks = 0;
    for (; pair_of(board, of) == second && ticks < 99; ticks++)
        tick(board, calm);
    return ticks;
}

/* OT is latched, and that external is unplugged. */
static uint64_t stays_hot(struct sc_board *board, unsigned of)
{
    struct sc_readings readings = calm;
    *(of == 1 ? &readings.external1 : &readings.external2) = SC_NOT_CONNECTED;
    board->pack.guard.latched.ot = true;
    tick(board, readings);
    return register_of(board, 50) == 0x9B;
}

static uint64_t distance_of_pulses(struct sc_board *board, unsigned of)
{
    board->hire.statistics.pulses = of;
    return pair_of(board, 100);
}

/* No verb shows what a board keeps of its pulses and its ignition: another board is given the readings. */
static uint64_t pulses_given(struct sc_board *board, unsigned of)
{
    struct sc_board other = new_board();
    tick(&other, board->hire.sensed.readings);
    return recorded(&other, of) & 0xFFFFFFFF;
}

static uint64_t ignition_given(struct sc_board *board, unsigned of)
{
    struct sc_board other = new_board();
    other.pack.settings.r334 = (uint16_t)of;
    tick(&other, board->hire.sensed.readings);
    return sc_discharge_switch(&other);
}

/* The temperatures are shown where one was seen; 1 and 2 degrees were. */
static uint64_t temperatures_seen(struct sc_board *board, unsigned of)
{
    board->hire.statistics.temperatures.coldest = 10;
    board->hire.statistics.temperatures.hottest = 20;
    return register_of(board, of);
}

static uint64_t coldest_seen(struct sc_board *board, unsigned of)
{
    board->hire.statistics.temperatures.seen = true;
    return low_byte_of(board, of);
}

static uint64_t hottest_seen(struct sc_board *board, unsigned of)
{
    board->hire.statistics.temperatures.seen = true;
    return high_byte_of(board, of);
}

/* With 3600 pulses per km the speed is the pulses of the last ten ticks; those of the oldest leave at each tick. */
static uint64_t pulses_in_window(struct sc_board *board)
{
    const uint32_t bits = (uint32_t)pair_of(board, 54);
    float speed;
    memcpy(&speed, &bits, sizeof speed);
    return (uint64_t)speed;
}

static uint64_t pulses_leaving(struct sc_board *board, unsigned of)
{
    uint64_t before = 0;
    board->pack.per_km = 3600;
    for (unsigned at = 0; at <= of; at++) {
        before = pulses_in_window(board);
        tick(board, calm);
    }
    return before - pulses_in_window(board);
}

/* The frame that is held is the one that C wrote if its CRC is right, and is wrong with a bit of that byte changed. */
static uint64_t held_byte(struct sc_board *board, unsigned of)
{
    uint8_t reply[SC_REPLY_ROOM];
    struct sc_board changed;
    board->hire.receiver.count = LONGEST_FRAME;
    changed = *board;
    changed.hire.receiver.bytes[of] ^= 1;
    const uint8_t byte = board->hire.receiver.bytes[of];
    const bool is_whole = sc_fetch(board, reply, sizeof reply, NULL) == 42;
    return is_whole && sc_fetch(&changed, reply, sizeof reply, NULL) != 42 ? byte : UINT64_MAX;
}

/* Of a frame that has `of` bytes; a status request has begun. */
static uint64_t bytes_come(struct sc_board *board, unsigned of)
{
    static const uint8_t rest[] = {0x7F, 0x1A, 0x00, 0x00};
    size_t taken = 0;
    board->hire.receiver.bytes[0] = 0xAA;
    board->hire.receiver.bytes[1] = 0x18;
    sc_offer(board, rest, sizeof rest, &taken);
    return of - taken;
}

/* ---- what verbs make of a new board; `by` says of which */

static void start(struct sc_board *board, unsigned by) { sc_start(board, (uint8_t)by, 1234); }

/* The twelve settings of a hire class, in register order. */
static void recall(struct sc_board *board, unsigned by)
{
    static const int settings[] = {3001, 3903, 18, 4115, 2816, 61, 31, 59, -7, 12, 3, 2};
    uint8_t store[SC_STORE_BYTES] = {0};
    put_low_first(store, by, 4);
    for (int at = 0; at < 12; at++)
        put_low_first(store + 4 + 2 * at, (uint64_t)settings[at], 2);
    sc_recall(board, store, sizeof store, by);
}

/* By a row of document 01's table, that condition alone. */
enum { UV, OV, OT, DOC, COC, ROC, LT };

static void latch(struct sc_board *board, unsigned by)
{
    const uint16_t cells[CELLS] = {37000, by == UV ? 29000 : by == OV ? 42000 : 37000, 37000, 37000};
    struct sc_readings readings = calm;
    readings.internal = by == OT ? 600 : 200;
    readings.external1 = by == LT ? 0 : 200;
    readings.current = by == DOC ? -60000 : by == COC || by == ROC ? 30000 : 0;
    readings.charger = by == COC;
    sc_tick(board, cells, CELLS, readings);
}

/* OT latches while that external alone is connected. */
static void latch_hot(struct sc_board *board, unsigned by)
{
    struct sc_readings readings = calm;
    readings.internal = 600;
    *(by == 1 ? &readings.external2 : &readings.external1) = SC_NOT_CONNECTED;
    tick(board, readings);
}

/* A ride, with the ignition on; or a charge. */
enum { RIDE, CHARGE };

static void ride_or_charge(struct sc_board *board, unsigned by)
{
    static const uint16_t cells[CELLS] = {35950, 36000, 37010, 36040};
    struct sc_readings readings = {.internal = 251, .external1 = 199, .external2 = 187};
    readings.current = by == RIDE ? -2500 : 5000;
    readings.pulses = by == RIDE ? 13 : 0;
    readings.ignition = by == RIDE;
    readings.charger = by == CHARGE;
    sc_tick(board, cells, CELLS, readings);
}

/* Cell 3 is above 4 V and 20 mV above the others, at rest or while charging; a low cell 1 turns the discharge switch off. */
static void balance(struct sc_board *board, unsigned by)
{
    static const uint16_t cells[CELLS] = {40050, 40050, 40250, 40050};
    struct sc_readings readings = calm;
    readings.charger = by == CHARGE;
    readings.current = by == CHARGE ? 5000 : 0;
    sc_tick(board, cells, CELLS, readings);
}

static void charge_when_low(struct sc_board *board, unsigned by)
{
    const uint16_t cells[CELLS] = {(uint16_t)by, 37000, 37000, 37000};
    struct sc_readings readings = calm;
    readings.charger = true;
    sc_tick(board, cells, CELLS, readings);
}

static void wait_ticks(struct sc_board *board, unsigned by)
{
    while (by-- > 0)
        tick(board, calm);
}

static void hand_over_after(struct sc_board *board, unsigned by)
{
    wait_ticks(board, by);
    recorded(board, 0);
}

static uint64_t loaded_event(unsigned at) { return 0x65000000 + 70001 * (uint64_t)at; }

static void load(struct sc_board *board, unsigned by)
{
    uint8_t area[SC_AREA_BYTES];
    memset(area, 0xFF, sizeof area);
    for (unsigned at = 0; at < by; at++)
        put_low_first(area + 4 * at, loaded_event(at), 4);
    sc_load(board, area, sizeof area);
}

/* Three more are new: the charger comes, and a cell is low while too much is drawn. */
static void load_and_record(struct sc_board *board, unsigned by)
{
    const uint16_t cells[CELLS] = {29000, 37000, 37000, 37000};
    struct sc_readings readings = calm;
    load(board, by);
    readings.charger = true;
    readings.current = -60000;
    sc_tick(board, cells, CELLS, readings);
}

static uint64_t cell_ticked(unsigned at) { return 37001 + 13 * (uint64_t)at; }

static void tick_cells(struct sc_board *board, unsigned by)
{
    uint16_t cells[16];
    sc_start(board, (uint8_t)by, PULSES_PER_KM);
    for (unsigned at = 0; at < by; at++)
        cells[at] = (uint16_t)cell_ticked(at);
    sc_tick(board, cells, by, calm);
}

static uint64_t pulses_ticked(unsigned at) { return 5 + 3 * at; }

static void tick_pulses(struct sc_board *board, unsigned by)
{
    struct sc_readings readings = calm;
    for (unsigned at = 0; at < by; at++) {
        readings.pulses = (uint16_t)pulses_ticked(at);
        tick(board, readings);
    }
}

static uint64_t byte_offered(unsigned at) { return longest_frame()[at]; }

static void offer(struct sc_board *board, unsigned by) { sc_offer(board, longest_frame(), by, NULL); }

/* ---- the fields of a board, in the header's order: what C writes, and what a verb then shows; what verbs make, and what C then reads */

struct field {
    const char *name;
    size_t at, bytes;
    uint64_t written;
    uint64_t (*shown)(struct sc_board *board, unsigned of);
    unsigned of;
    uint64_t shows;
    void (*made)(struct sc_board *board, unsigned by);
    unsigned by;
    uint64_t reads;
};

#define FIELD(name) #name, offsetof(struct sc_board, name), sizeof((struct sc_board *)0)->name

static const struct field fields[] = {
    {FIELD(pack.settings.r301), 1301, register_of, 301, 1301, recall, 1, 3001},
    {FIELD(pack.settings.r303), 1303, register_of, 303, 1303, recall, 1, 3903},
    {FIELD(pack.settings.r308), 1308, register_of, 308, 1308, recall, 1, 18},
    {FIELD(pack.settings.r315), 1315, register_of, 315, 1315, recall, 1, 4115},
    {FIELD(pack.settings.r316), 1316, register_of, 316, 1316, recall, 1, 2816},
    {FIELD(pack.settings.r317), 1317, register_of, 317, 1317, recall, 1, 61},
    {FIELD(pack.settings.r318), 1318, register_of, 318, 1318, recall, 1, 31},
    {FIELD(pack.settings.r319), 1319, register_of, 319, 1319, recall, 1, 59},
    {FIELD(pack.settings.r320), 0xFFF5, register_of, 320, 0xFFF5, recall, 1, 0xFFF9},
    {FIELD(pack.settings.r332), 1332, register_of, 332, 1332, recall, 1, 12},
    {FIELD(pack.settings.r334), 1334, register_of, 334, 1334, recall, 1, 3},
    {FIELD(pack.settings.r335), 1335, register_of, 335, 1335, recall, 1, 2},
    {FIELD(pack.guard.latched.uv), 1, event_at_calm_tick, 0, 0x7B, latch, UV, 1},
    {FIELD(pack.guard.latched.ov), 1, event_at_calm_tick, 0, 0x79, latch, OV, 1},
    {FIELD(pack.guard.latched.ot), 1, event_at_calm_tick, 0, 0x73, latch, OT, 1},
    {FIELD(pack.guard.latched.doc), 1, event_at_calm_tick, 0, 0x77, latch, DOC, 1},
    {FIELD(pack.guard.latched.coc), 1, event_at_calm_tick, 0, 0x76, latch, COC, 1},
    {FIELD(pack.guard.latched.roc), 1, event_at_calm_tick, 0, 0x78, latch, ROC, 1},
    {FIELD(pack.guard.latched.lt), 1, event_at_calm_tick, 0, 0x74, latch, LT, 1},
    {FIELD(pack.guard.waits.doc), 7, ticks_to_recovery, 0x77, 7, latch, DOC, 50},
    {FIELD(pack.guard.waits.coc), 8, ticks_to_recovery, 0x76, 8, latch, COC, 50},
    {FIELD(pack.guard.waits.roc), 9, ticks_to_recovery, 0x78, 9, latch, ROC, 50},
    {FIELD(pack.guard.remembered.external1), 1, stays_hot, 1, 1, latch_hot, 1, 1},
    {FIELD(pack.guard.remembered.external2), 1, stays_hot, 2, 1, latch_hot, 2, 1},
    {FIELD(pack.clock.seconds), 0x89ABCDEF, pair_of, 32, 0x89ABCDEF, wait_ticks, 23, 2},
    {FIELD(pack.clock.tenths), 7, ticks_to_second, 32, 3, wait_ticks, 23, 3},
    {FIELD(pack.cells), 9, cells_told, 0x1C, 9, start, 11, 11},
    {FIELD(pack.per_km), 250, distance_of_pulses, 500, 200, start, 11, 1234},
    {FIELD(hire.sensed.readings.current), 123450, cabinet_of, 1, 12345, ride_or_charge, CHARGE, 5000},
    {FIELD(hire.sensed.readings.internal), 348, register_of, 48, 348, ride_or_charge, RIDE, 251},
    {FIELD(hire.sensed.readings.external1), 342, register_of, 42, 342, ride_or_charge, RIDE, 199},
    {FIELD(hire.sensed.readings.external2), 343, register_of, 43, 343, ride_or_charge, RIDE, 187},
    {FIELD(hire.sensed.readings.pulses), 120, pulses_given, 24, 6, ride_or_charge, RIDE, 13},
    {FIELD(hire.sensed.readings.charger), 1, event_at_calm_tick, 0, 0x65, ride_or_charge, CHARGE, 1},
    {FIELD(hire.sensed.readings.ignition), 1, ignition_given, 1, 1, ride_or_charge, RIDE, 1},
    {FIELD(hire.sensed.extremes.lowest), 31230, register_of, 40, 3123, ride_or_charge, RIDE, 35950},
    {FIELD(hire.sensed.extremes.highest), 41230, register_of, 41, 4123, ride_or_charge, RIDE, 37010},
    {FIELD(hire.sensed.live.volts), 0x41480000, pair_of, 36, 0x41480000, ride_or_charge, RIDE, 0x41680000},
    {FIELD(hire.sensed.live.amps), 0xC0E80000, pair_of, 38, 0xC0E80000, ride_or_charge, RIDE, 0xC0200000},
    {FIELD(hire.events.kept), 5, saved_events, 0, 5, load_and_record, 5, 8},
    {FIELD(hire.events.unsent), 3, new_events_told, 0x11, 3, load_and_record, 5, 3},
    {FIELD(hire.statistics.temperatures.coldest), 0xFFCE, coldest_seen, 113, 0xFB, ride_or_charge, RIDE, 187},
    {FIELD(hire.statistics.temperatures.hottest), 250, hottest_seen, 113, 25, ride_or_charge, RIDE, 199},
    {FIELD(hire.statistics.temperatures.seen), 1, temperatures_seen, 113, 0x0201, ride_or_charge, RIDE, 1},
    {FIELD(hire.statistics.counts.uv), 105, register_of, 105, 105, latch, UV, 1},
    {FIELD(hire.statistics.counts.ov), 106, register_of, 106, 106, latch, OV, 1},
    {FIELD(hire.statistics.counts.doc), 107, register_of, 107, 107, latch, DOC, 1},
    {FIELD(hire.statistics.counts.charge), 108, register_of, 108, 108, latch, COC, 1},
    {FIELD(hire.statistics.counts.ot), 109, register_of, 109, 109, latch, OT, 1},
    {FIELD(hire.statistics.counts.charging), 111, register_of, 111, 111, ride_or_charge, CHARGE, 1},
    {FIELD(hire.statistics.sums.positive), 0x0123456789ABCDEF, recorded, 8, 0x0123456789ABCDEF, ride_or_charge, CHARGE, 5000},
    {FIELD(hire.statistics.sums.negative), 0x1122334455667788, recorded, 16, 0x1122334455667788, ride_or_charge, RIDE, 2500},
    {FIELD(hire.statistics.pulses), 8589934592, pair_of, 100, 429496729, ride_or_charge, RIDE, 13},
    {FIELD(hire.statistics.drawn), 102, register_of, 102, 102, ride_or_charge, RIDE, 25},
    {FIELD(hire.statistics.fed), 103, register_of, 103, 103, ride_or_charge, CHARGE, 50},
    {FIELD(hire.statistics.difference), 104, register_of, 104, 104, ride_or_charge, RIDE, 1060},
    {FIELD(hire.statistics.cleared), 0xFEDCBA98, pair_of, 116, 0xFEDCBA98, hand_over_after, 23, 2},
    {FIELD(hire.status), 0x50, register_of, 50, 0x50, ride_or_charge, RIDE, 0x93},
    {FIELD(hire.decision), 0x0051, bits_of, 0, 0x0051, balance, RIDE, 4},
    {FIELD(hire.balancing), 0x0052, bits_of, 1, 0x0052, balance, CHARGE, 4},
    {FIELD(hire.charge), 1, switch_of, 0, 1, charge_when_low, 29000, 1},
    {FIELD(hire.discharge), 1, switch_of, 1, 1, wait_ticks, 1, 1},
    {FIELD(hire.receiver.count), 2, bytes_come, 4, 2, offer, LONGEST_FRAME, LONGEST_FRAME},
};

/* Of an array, each place: C writes what `value` says of it and a verb shows the same, verbs make that and C reads the same. */
struct array {
    const char *name;
    size_t at, bytes, places;
    uint64_t (*value)(unsigned at);
    uint64_t (*shown)(struct sc_board *board, unsigned of);
    void (*made)(struct sc_board *board, unsigned by);
};

#define PLACES(name) (sizeof((struct sc_board *)0)->name / sizeof((struct sc_board *)0)->name[0])
#define ARRAY(name) #name, offsetof(struct sc_board, name), sizeof((struct sc_board *)0)->name[0], PLACES(name)

static const struct array arrays[] = {
    {ARRAY(hire.sensed.cells), cell_ticked, register_of, tick_cells},
    {ARRAY(hire.window), pulses_ticked, pulses_leaving, tick_pulses},
    {ARRAY(hire.events.list), loaded_event, listed_event, load},
    {ARRAY(hire.receiver.bytes), byte_offered, held_byte, offer},
};

/* ---- the test */

static unsigned differences;

static void hold(const char *name, const char *what, uint64_t expected, uint64_t seen)
{
    if (expected == seen)
        return;
    printf("layout: %s: %s %" PRIu64 ", and not %" PRIu64 "\n", name, what, seen, expected);
    differences++;
}

/* C's own view, by what its compiler says of the header. */
static void put_field(struct sc_board *board, size_t at, size_t bytes, uint64_t value)
{
    put_low_first((uint8_t *)board + at, value, (int)bytes);
}

static uint64_t field_of(const struct sc_board *board, size_t at, size_t bytes)
{
    return low_first((const uint8_t *)board + at, (int)bytes);
}

static void try_field(const struct field *field)
{
    struct sc_board written = new_board(), made = new_board();
    put_field(&written, field->at, field->bytes, field->written);
    hold(field->name, "C writes it, and the archive shows", field->shows, field->shown(&written, field->of));
    field->made(&made, field->by);
    hold(field->name, "the archive makes it, and C reads", field->reads, field_of(&made, field->at, field->bytes));
}

static void try_array(const struct array *array)
{
    struct sc_board written = new_board(), made = new_board();
    for (unsigned at = 0; at < array->places; at++)
        put_field(&written, array->at + array->bytes * at, array->bytes, array->value(at));
    array->made(&made, (unsigned)array->places);
    for (unsigned at = 0; at < array->places; at++) {
        struct sc_board board = written;
        const uint64_t read = field_of(&made, array->at + array->bytes * at, array->bytes);
        hold(array->name, "C writes a place, and the archive shows", array->value(at), array->shown(&board, at));
        hold(array->name, "the archive makes a place, and C reads", array->value(at), read);
    }
}

/* What the archive gives back, and takes from nobody. */
static unsigned try_told(void)
{
    static const uint8_t refused[] = {0xAA, 0x0D, 0x04, 0x3D, 0x01, 0xFF, 0xFF, 0, 0};
    const struct sc_board board = new_board();
    uint8_t request[sizeof refused], reply[SC_REPLY_ROOM];
    memcpy(request, refused, sizeof refused);
    put_low_first(request + 7, crc_of(request, 7), 2);
    const struct sc_told told = slatecauseway_frame(board, request, sizeof request, reply, sizeof reply);
    hold("sc_told.number", "a setting is out of its range, and C reads", 44, told.number);
    hold("sc_told.which", "it is 317's, and C reads", 317, told.which);
    hold("sc_told.more", "an offer takes three bytes, and C reads", 3, slatecauseway_offer(board, request, 3).more);
    hold("sc_told.board", "a start has 13 cells, and C reads", 13, slatecauseway_start(13, 0).board.pack.cells);
    hold("sc_word.value", "317 is as it was, and C reads", 60, slatecauseway_register(board, 317).value);
    hold("sc_word.is", "there is a register 317, and C reads", true, slatecauseway_register(board, 317).is);
    hold("sc_word.is", "there is no register 400, and C reads", false, slatecauseway_register(board, 400).is);
    return 6;
}

int main(void)
{
    const size_t field_count = sizeof fields / sizeof fields[0], array_count = sizeof arrays / sizeof arrays[0];
    for (size_t at = 0; at < field_count; at++)
        try_field(&fields[at]);
    for (size_t at = 0; at < array_count; at++)
        try_array(&arrays[at]);
    const unsigned told = try_told();
    if (differences > 0)
        return 1;
    printf("layout: %zu fields written and read on both sides, %u more that the archive alone writes\n", field_count + array_count, told);
    return 0;
}
