/* The board of document 01, written a second time from the papers alone: its state, and the calls made on it. */
#ifndef BOARD_H
#define BOARD_H

#include <stdbool.h>
#include <stddef.h>
#include <stdint.h>

/* "Numbers the caller gets", 6 and 7 of W-201, 31 to 33 of W-205, 41 to 45 of W-208 in the place of 4, 51 to 55 of
   W-210, 61 and 62 of W-211, 71 of W-213, 81 to 83 of W-214. */
enum number {
    DONE = 0,
    ROOM_TOO_SMALL = 1,
    NOT_A_FRAME = 2,
    WRONG_CRC = 3,
    FRAME_HELD = 6,
    NO_FRAME_HELD = 7,
    WRONG_CELL_SLICE = 11,
    WRONG_CURRENT = 12,
    NO_INTERNAL_TEMPERATURE = 13,
    WRONG_PULSES = 14,
    NO_BOARD = 21,
    WRONG_AREA = 31,
    USED_AFTER_UNUSED = 32,
    NEVER_RECORDED = 33,
    UNKNOWN_COMMAND = 41,
    WRONG_LENGTH = 42,
    WRONG_FIELD = 43,
    OUT_OF_RANGE = 44,
    OUT_OF_ORDER = 45,
    WRONG_STORE = 51,
    DAMAGED_STORE = 52,
    NO_SUCH_EDITION = 53,
    WRONG_CLASS = 54,
    EDITIONS_USED_UP = 55,
    BAD_RECORD = 61,
    CUT_RECORD = 62,
    WRONG_CABINET_SLICE = 71,
    CUT_HIRE = 81,
    PAST_64_BITS = 82,
    WRONG_HIRE_RECORD = 83
};

enum {
    LEAST_CELLS = 4,
    MOST_CELLS = 16,
    LEAST_ROOM = 259,
    LONGEST_REQUEST = 264,  /* a 0x10 whose PL is 255 */
    NOT_CONNECTED = -32768,
    EVENTS_KEPT = 62,       /* W-207 */
    AREA_RECORD = 4,        /* bytes of a saved event: three of time, and its number */
    AREA_BYTES = EVENTS_KEPT * AREA_RECORD,
    OLD_AREA_BYTES = 192,   /* of an area that was saved before W-207 */
    CABINET_REGISTERS = 20, /* W-213 */
    HIRE_BYTES = 32,        /* of the record that the desk gets, W-214 */
    CLASS_BYTES = 32,       /* of a record of a store of classes, W-210 */
    STORE_BYTES = 16 * CLASS_BYTES,
    LISTED_SETTINGS = 12,
    WINDOW = 10             /* ticks that the speed looks back on */
};

/* "Status". */
enum { CHARGING = 0x91, DISCHARGING = 0x93, REGENERATION = 0x96, IDLE = 0x97, FAULT = 0x9B };

/* The conditions, in the table's order. A set of them has one bit for each. */
enum condition { UV, OV, OT, DOC, COC, ROC, LT };

/* Registers 300 to 399, as they stand on the wire. */
struct settings {
    uint16_t of[100];
};

extern const struct settings least_settings, greatest_settings, factory_settings;
extern const unsigned listed_settings[LISTED_SETTINGS];     /* their registers, rising */

/* "Readings", without the cells: these are lent as a slice. */
struct readings {
    int32_t current;        /* mA, charging positive */
    int16_t internal;       /* 0.1 degrees C */
    int16_t external[2];    /* 0.1 degrees C, or NOT_CONNECTED */
    uint16_t pulses;
    bool charger, ignition;
};

/* "Statistics since the last clear", and W-214: "since the last statistics clear or handover". */
struct statistics {
    uint64_t hundred_pulses;                        /* 100 times the pulses, exact */
    int32_t largest_negative, largest_positive;     /* mA, both as positive numbers */
    uint16_t largest_difference;                    /* 0.1 mV */
    uint16_t count[7];                              /* registers 105 to 111 */
    bool external_seen;
    int16_t coldest, hottest;                       /* external, 0.1 degrees C */
    uint64_t positive_sum, negative_sum;            /* mA over the ticks, both as positive numbers */
    uint32_t cleared_at;
};

struct event {
    uint32_t time;
    uint8_t number;
};

/* W-201: the bytes of the frame that is held or still unfinished, from its 0xAA on; none of what was skipped. */
struct receiver {
    uint8_t bytes[LONGEST_REQUEST];
    size_t length;
};

struct board {
    /* Kept at a handover. */
    uint8_t cells;                      /* 0: no board */
    uint16_t pulses_per_km;             /* 0: no wheel sensor */
    struct settings settings;
    uint32_t lifetime;                  /* seconds */
    uint8_t tenths;                     /* accepted ticks since the last whole second */
    uint8_t latched;                    /* the set of latched conditions */
    uint8_t connected_since_OT;         /* the set of externals that W-204 remembers; empty while OT is not latched */
    uint16_t wait[LT];                  /* ticks left of the waits of DOC, COC and ROC; 0: none */
    /* Not kept. */
    struct readings readings;
    uint16_t cell[MOST_CELLS];          /* 0.1 mV */
    uint16_t lowest, highest;           /* cell, 0.1 mV */
    float volts, amps;
    uint16_t window[WINDOW];            /* pulses of the last ten ticks, the latest first */
    uint8_t status;
    uint16_t need, real;                /* the balancing bits, registers 51 and 52 */
    bool charge_switch, discharge_switch;
    struct statistics statistics;
    struct event event[EVENTS_KEPT];    /* the event noted as number n lies at n modulo 62 */
    uint64_t events_noted, events_sent; /* since their clear or load; sent: loaded, or noted before the latest 0x11 */
    struct receiver receiver;
};

/* 0: none. 1 to 6: a slip of the old board, put in on purpose; in the order of "Slips seen on our old board". */
extern int board_fault;

enum number board_start(struct board *board, uint8_t cells, uint16_t pulses_per_km);
enum number board_tick(struct board *board, const struct readings *readings, const uint16_t *cell, size_t cells);
/* `which` takes the register of an OUT_OF_RANGE, and 0 otherwise. */
enum number board_frame(struct board *board, const uint8_t *frame, size_t length, uint8_t *reply, size_t room, uint16_t *which);
enum number board_handover(struct board *board, uint32_t pack, uint8_t *record, size_t length);
enum number board_offer(struct board *board, const uint8_t *bytes, size_t length, size_t *taken);
enum number board_fetch(struct board *board, uint8_t *reply, size_t room, uint16_t *which);
enum number board_save(const struct board *board, uint8_t *area, size_t length);
enum number board_load(struct board *board, const uint8_t *area, size_t length);
enum number board_cabinet(const struct board *board, uint16_t *registers, size_t count);
/* `edition` takes the new one, and 0 where it is refused. */
enum number board_keep(const struct board *board, uint8_t *store, size_t length, uint32_t *edition);
enum number board_recall(struct board *board, const uint8_t *store, size_t length, uint32_t edition);
enum number store_tidy(uint8_t *store, size_t length);

bool holds_frame(const struct board *board);
bool is_ever_recorded(uint8_t event_number);
uint64_t oldest_kept(const struct board *board);    /* as events are noted, from 0; events_noted where none is kept */
void clear_events(struct board *board);
void clear_statistics(struct board *board);
void put_class(uint8_t record[CLASS_BYTES], uint32_t edition, const struct settings *settings);

/* A write, with the settings as they would be after it; `which` takes the register of an OUT_OF_RANGE, and 0 otherwise. */
enum number take_settings(struct board *board, const struct settings *after, uint16_t *which);

/* "A register block must lie in one range: 0 to 55, 100 to 117, or 300 to 399." */
bool in_one_range(unsigned first, unsigned registers);
uint16_t board_register(const struct board *board, unsigned number);    /* of one in a range */
uint16_t crc_of(const uint8_t *bytes, size_t length);

/* "All lengths include AA and CRC." The length of the request that has these first bytes; the least that it may have
   where they do not tell yet. */
size_t length_of_request(const uint8_t *first, size_t bytes);

/* Of the reply that a reply buffer begins with, where there is one. */
size_t length_of_reply(const uint8_t *reply);

/* 320 is signed 16-bit; every other setting is read as it stands. */
static inline int read_setting(const struct settings *settings, unsigned number)
{
    const int value = settings->of[number - 300];
    return number == 320 && value > 32767 ? value - 65536 : value;
}

#endif
