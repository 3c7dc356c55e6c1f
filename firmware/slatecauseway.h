/* The board of one pack, for firmware in C: proved code in libslatecauseway.a, called by these verbs. It has no heap and no statics, and
 * needs nothing but memcpy, memmove and memset. One board is one struct; there may be any number of them, each called by one thread at a
 * time.
 *
 * A verb gives document 01's or 02's number: 0 for done; any other is a refusal, and changes nothing but what the verb says. Any value of
 * the struct is safe to call, its bools 0 or 1; one of all zeros answers 21. An address may be NULL where the length beside it is 0, and
 * what is lent to be written overlaps nothing else that is lent.
 */
#ifndef SLATECAUSEWAY_H
#define SLATECAUSEWAY_H

#include <stdbool.h>
#include <stddef.h>
#include <stdint.h>

#ifdef __cplusplus
extern "C" {
#define SC_STATIC_ASSERT static_assert
#else
#define SC_STATIC_ASSERT _Static_assert
#endif

/* How much is lent: a reply buffer (at least), an area of events, a store of hire classes, a desk's record; and a cabinet's registers. */
#define SC_REPLY_ROOM 259
#define SC_AREA_BYTES 248
#define SC_STORE_BYTES 512
#define SC_RECORD_BYTES 32
#define SC_CABINET_REGISTERS 20
/* A temperature that is not connected. */
#define SC_NOT_CONNECTED (-32767 - 1)

/* ---- what goes in and comes back: the structs as they lie in memory, and their sizes held below */

struct sc_readings {
    int32_t current;              /* mA, charging positive */
    int16_t internal;             /* 0.1 degrees Celsius, as both externals */
    int16_t external1, external2; /* SC_NOT_CONNECTED: not connected */
    uint16_t pulses;              /* of the wheel, in this tick */
    bool charger, ignition;       /* present */
};

/* The settings, by their registers. */
struct sc_settings {
    uint16_t r301, r303, r308, r315, r316, r317, r318, r319;
    int16_t r320;
    uint16_t r332, r334, r335;
};

struct sc_conditions {
    bool uv, ov, ot, doc, coc, roc, lt;
};

struct sc_waits {
    uint32_t doc, coc, roc;
};

struct sc_remembered {
    bool external1, external2;
};

struct sc_guard {
    struct sc_conditions latched;
    struct sc_waits waits;
    struct sc_remembered remembered;
};

struct sc_clock {
    uint32_t seconds;
    uint8_t tenths;
};

/* All that a handover keeps. */
struct sc_pack {
    struct sc_settings settings;
    struct sc_guard guard;
    struct sc_clock clock;
    uint8_t cells;
    uint16_t per_km;
};

struct sc_extremes {
    uint16_t lowest, highest;
};

struct sc_live {
    float volts, amps;
};

struct sc_sensed {
    struct sc_readings readings;
    uint16_t cells[16];
    struct sc_extremes extremes;
    struct sc_live live;
};

struct sc_event {
    uint32_t bytes;
};

struct sc_events {
    struct sc_event list[62];
    uint8_t kept, unsent;
};

struct sc_temperatures {
    int16_t coldest, hottest;
    bool seen;
};

struct sc_counts {
    uint16_t uv, ov, doc, charge, ot, charging;
};

struct sc_sums {
    uint64_t positive, negative;
};

struct sc_statistics {
    struct sc_temperatures temperatures;
    struct sc_counts counts;
    struct sc_sums sums;
    uint64_t pulses;
    uint16_t drawn, fed, difference;
    uint32_t cleared;
};

struct sc_receiver {
    uint8_t bytes[264];
    uint16_t count;
};

/* What one rider did and saw. */
struct sc_hire {
    struct sc_sensed sensed;
    uint16_t window[10];
    struct sc_events events;
    struct sc_statistics statistics;
    uint16_t status, decision, balancing;
    bool charge, discharge;
    struct sc_receiver receiver;
};

/* A board: by value; its fields are not to be touched. */
struct sc_board {
    struct sc_pack pack;
    struct sc_hire hire;
};

/* ---- what the archive has: each takes the board by value and gives it back, with the number, a 44's register, and what else is told */

struct sc_told {
    uint8_t number;
    uint16_t which;
    size_t more; /* how many bytes an offer took; the edition of a keep */
    struct sc_board board;
};

struct sc_word {
    uint16_t value;
    bool is;
};

struct sc_told slatecauseway_start(uint8_t cells, uint16_t pulses_per_km);
struct sc_told slatecauseway_tick(struct sc_board board, const uint16_t *cells, size_t count, struct sc_readings readings);
struct sc_told slatecauseway_frame(struct sc_board board, const uint8_t *request, size_t length, uint8_t *reply, size_t room);
struct sc_told slatecauseway_offer(struct sc_board board, const uint8_t *bytes, size_t length);
struct sc_told slatecauseway_fetch(struct sc_board board, uint8_t *reply, size_t room);
struct sc_told slatecauseway_handover(struct sc_board board, uint32_t pack, uint8_t *record, size_t length);
struct sc_told slatecauseway_save(struct sc_board board, uint8_t *area, size_t length);
struct sc_told slatecauseway_load(struct sc_board board, const uint8_t *area, size_t length);
struct sc_told slatecauseway_keep(struct sc_board board, uint8_t *store, size_t length);
struct sc_told slatecauseway_recall(struct sc_board board, const uint8_t *store, size_t length, uint32_t edition);
uint8_t slatecauseway_tidy(uint8_t *store, size_t length);
struct sc_told slatecauseway_cabinet(struct sc_board board, uint16_t *registers, size_t count);
struct sc_word slatecauseway_register(struct sc_board board, uint16_t number);
bool slatecauseway_charge_switch(struct sc_board board);
bool slatecauseway_discharge_switch(struct sc_board board);
uint16_t slatecauseway_decision_bits(struct sc_board board);
uint16_t slatecauseway_balancing_bits(struct sc_board board);
size_t slatecauseway_reply_length(const uint8_t *reply, size_t room);

/* ---- the verbs */

/* A new board with 4 to 16 cells and so many wheel pulses to a kilometre, 0 where there is no wheel sensor; factory settings.
 * 21: not 4 to 16 cells; the board then answers 21 to everything. */
static inline int sc_start(struct sc_board *board, uint8_t cells, uint16_t pulses_per_km) {
    struct sc_told told = slatecauseway_start(cells, pulses_per_km);
    *board = told.board;
    return told.number;
}

/* One set of readings, every 100 ms: the cells in 0.1 mV, as many as the board has, and the rest. It sets switches and balancing bits.
 * 11: another number of cells; 12: current past 1,000,000 mA; 13: no internal; 14: over 400 pulses, or any without a sensor; 21. */
static inline int sc_tick(struct sc_board *board, const uint16_t *cells, size_t count, struct sc_readings readings) {
    struct sc_told told = slatecauseway_tick(*board, cells, count, readings);
    *board = told.board;
    return told.number;
}

/* One whole request, answered into a reply buffer: the reply, then zeros to the buffer's end. A refused one leaves a NACK or zeros.
 * 1: room under 259; 2: no frame; 3: CRC; 41 to 43: command, length, field; 44: a setting's range, `which` has it; 45: their order; 21. */
static inline int sc_frame(struct sc_board *board, const uint8_t *request, size_t length, uint8_t *reply, size_t room, uint16_t *which) {
    struct sc_told told = slatecauseway_frame(*board, request, length, reply, room);
    *board = told.board;
    if (which) *which = told.which;
    return told.number;
}

/* Bytes of the raw line as they come, up to the end of the first whole frame, which is then held; `taken` says how many were used.
 * 6: a frame is held (fetch it first, then offer the rest); 21: no board. */
static inline int sc_offer(struct sc_board *board, const uint8_t *bytes, size_t length, size_t *taken) {
    struct sc_told told = slatecauseway_offer(*board, bytes, length);
    *board = told.board;
    if (taken) *taken = told.more;
    return told.number;
}

/* Answers the held frame as sc_frame does, and lets it go, also where it is answered with a NACK.
 * 1: room under 259, the frame is still held; 7: none is held; else as sc_frame. */
static inline int sc_fetch(struct sc_board *board, uint8_t *reply, size_t room, uint16_t *which) {
    struct sc_told told = slatecauseway_fetch(*board, reply, room);
    *board = told.board;
    if (which) *which = told.which;
    return told.number;
}

/* Between two riders: writes the desk's record of the hire that ends, with the pack's number, and forgets the hire.
 * 83: a record not of 32 bytes, and nothing is handed over; 21: no board. */
static inline int sc_handover(struct sc_board *board, uint32_t pack, uint8_t *record, size_t length) {
    struct sc_told told = slatecauseway_handover(*board, pack, record, length);
    *board = told.board;
    return told.number;
}

/* The kept events into an area of the pack's memory, oldest first; the board is as it was.
 * 31: an area not of 248 bytes; 21: no board. A refused area is not written. */
static inline int sc_save(const struct sc_board *board, uint8_t *area, size_t length) {
    return slatecauseway_save(*board, area, length).number;
}

/* The events of an area in the place of the board's, all of them marked as sent.
 * 31: not of 248 bytes, nor of 192 as before W-207; 32: a used record after an unused one; 33: an event never recorded; 21: no board. */
static inline int sc_load(struct sc_board *board, const uint8_t *area, size_t length) {
    struct sc_told told = slatecauseway_load(*board, area, length);
    *board = told.board;
    return told.number;
}

/* The settings into a store, under a new edition, which `edition` takes (0 where it is refused); the board is as it was.
 * 51: a store not of 512 bytes; 52: a spoilt one; 55: no edition is left; 21: no board. A refused store is not written. */
static inline int sc_keep(const struct sc_board *board, uint8_t *store, size_t length, uint32_t *edition) {
    struct sc_told told = slatecauseway_keep(*board, store, length);
    if (edition) *edition = (uint32_t)told.more;
    return told.number;
}

/* The settings of an edition of a store in the place of the board's, as one write.
 * 51 and 52 as sc_keep; 53: no such edition; 54: its settings break the rules; 21: no board. */
static inline int sc_recall(struct sc_board *board, const uint8_t *store, size_t length, uint32_t edition) {
    struct sc_told told = slatecauseway_recall(*board, store, length, edition);
    *board = told.board;
    return told.number;
}

/* A store put in order: used records by rising edition, then the unused.
 * 51 and 52 as sc_keep. A refused store is not written. */
static inline int sc_tidy(uint8_t *store, size_t length) { return slatecauseway_tidy(store, length); }

/* What a partner's cabinet reads: twenty registers of the readings that the board holds; the board is as it was.
 * 71: a slice not of 20 registers; 21: no board. A refused slice is not written. */
static inline int sc_cabinet(const struct sc_board *board, uint16_t *registers, size_t count) {
    return slatecauseway_cabinet(*board, registers, count).number;
}

/* A register's value, read as by 0x03.
 * false: there is no such register, and `value` is as it was. */
static inline bool sc_register(const struct sc_board *board, uint16_t number, uint16_t *value) {
    struct sc_word word = slatecauseway_register(*board, number);
    if (word.is) *value = word.value;
    return word.is;
}

/* Whether the charger may charge, and the motor draw.
 * Each is off while a condition that names it is latched, and before the first tick of a hire. */
static inline bool sc_charge_switch(const struct sc_board *board) { return slatecauseway_charge_switch(*board); }
static inline bool sc_discharge_switch(const struct sc_board *board) { return slatecauseway_discharge_switch(*board); }

/* Register 51, which cells need balancing, and 52, which are balanced.
 * Cell 1 is the lowest bit. */
static inline uint16_t sc_decision_bits(const struct sc_board *board) { return slatecauseway_decision_bits(*board); }
static inline uint16_t sc_balancing_bits(const struct sc_board *board) { return slatecauseway_balancing_bits(*board); }

/* How many bytes of a reply buffer, after sc_frame or sc_fetch, are the reply: what is sent on the line.
 * 0 to 259; 0 where the buffer was under 259 bytes or there is no reply. */
static inline size_t sc_reply_length(const uint8_t *reply, size_t room) { return slatecauseway_reply_length(reply, room); }

/* ---- the layout: where it differs, this compiler lays structs out otherwise than the archive, and must not link it */

#define SC_LAYOUT(type, field, at) SC_STATIC_ASSERT(offsetof(struct type, field) == (at), #type "." #field)
#define SC_SIZE(type, bytes) SC_STATIC_ASSERT(sizeof(struct type) == (bytes), #type)
SC_LAYOUT(sc_readings, current, 0); SC_LAYOUT(sc_readings, internal, 4); SC_LAYOUT(sc_readings, external1, 6);
SC_LAYOUT(sc_readings, external2, 8); SC_LAYOUT(sc_readings, pulses, 10); SC_LAYOUT(sc_readings, charger, 12);
SC_LAYOUT(sc_readings, ignition, 13); SC_SIZE(sc_readings, 16);
SC_LAYOUT(sc_settings, r301, 0); SC_LAYOUT(sc_settings, r303, 2); SC_LAYOUT(sc_settings, r308, 4); SC_LAYOUT(sc_settings, r315, 6);
SC_LAYOUT(sc_settings, r316, 8); SC_LAYOUT(sc_settings, r317, 10); SC_LAYOUT(sc_settings, r318, 12); SC_LAYOUT(sc_settings, r319, 14);
SC_LAYOUT(sc_settings, r320, 16); SC_LAYOUT(sc_settings, r332, 18); SC_LAYOUT(sc_settings, r334, 20); SC_LAYOUT(sc_settings, r335, 22);
SC_SIZE(sc_settings, 24);
SC_LAYOUT(sc_conditions, uv, 0); SC_LAYOUT(sc_conditions, ov, 1); SC_LAYOUT(sc_conditions, ot, 2); SC_LAYOUT(sc_conditions, doc, 3);
SC_LAYOUT(sc_conditions, coc, 4); SC_LAYOUT(sc_conditions, roc, 5); SC_LAYOUT(sc_conditions, lt, 6); SC_SIZE(sc_conditions, 7);
SC_LAYOUT(sc_waits, doc, 0); SC_LAYOUT(sc_waits, coc, 4); SC_LAYOUT(sc_waits, roc, 8); SC_SIZE(sc_waits, 12);
SC_LAYOUT(sc_remembered, external1, 0); SC_LAYOUT(sc_remembered, external2, 1); SC_SIZE(sc_remembered, 2);
SC_LAYOUT(sc_guard, latched, 0); SC_LAYOUT(sc_guard, waits, 8); SC_LAYOUT(sc_guard, remembered, 20); SC_SIZE(sc_guard, 24);
SC_LAYOUT(sc_clock, seconds, 0); SC_LAYOUT(sc_clock, tenths, 4); SC_SIZE(sc_clock, 8);
SC_LAYOUT(sc_pack, settings, 0); SC_LAYOUT(sc_pack, guard, 24); SC_LAYOUT(sc_pack, clock, 48); SC_LAYOUT(sc_pack, cells, 56);
SC_LAYOUT(sc_pack, per_km, 58); SC_SIZE(sc_pack, 60);
SC_LAYOUT(sc_extremes, lowest, 0); SC_LAYOUT(sc_extremes, highest, 2); SC_SIZE(sc_extremes, 4);
SC_LAYOUT(sc_live, volts, 0); SC_LAYOUT(sc_live, amps, 4); SC_SIZE(sc_live, 8);
SC_LAYOUT(sc_sensed, readings, 0); SC_LAYOUT(sc_sensed, cells, 16); SC_LAYOUT(sc_sensed, extremes, 48); SC_LAYOUT(sc_sensed, live, 52);
SC_SIZE(sc_sensed, 60);
SC_LAYOUT(sc_event, bytes, 0); SC_SIZE(sc_event, 4);
SC_LAYOUT(sc_events, list, 0); SC_LAYOUT(sc_events, kept, 248); SC_LAYOUT(sc_events, unsent, 249); SC_SIZE(sc_events, 252);
SC_LAYOUT(sc_temperatures, coldest, 0); SC_LAYOUT(sc_temperatures, hottest, 2); SC_LAYOUT(sc_temperatures, seen, 4);
SC_SIZE(sc_temperatures, 6);
SC_LAYOUT(sc_counts, uv, 0); SC_LAYOUT(sc_counts, ov, 2); SC_LAYOUT(sc_counts, doc, 4); SC_LAYOUT(sc_counts, charge, 6);
SC_LAYOUT(sc_counts, ot, 8); SC_LAYOUT(sc_counts, charging, 10); SC_SIZE(sc_counts, 12);
SC_LAYOUT(sc_sums, positive, 0); SC_LAYOUT(sc_sums, negative, 8); SC_SIZE(sc_sums, 16);
SC_LAYOUT(sc_statistics, temperatures, 0); SC_LAYOUT(sc_statistics, counts, 6); SC_LAYOUT(sc_statistics, sums, 24);
SC_LAYOUT(sc_statistics, pulses, 40); SC_LAYOUT(sc_statistics, drawn, 48); SC_LAYOUT(sc_statistics, fed, 50);
SC_LAYOUT(sc_statistics, difference, 52); SC_LAYOUT(sc_statistics, cleared, 56); SC_SIZE(sc_statistics, 64);
SC_LAYOUT(sc_receiver, bytes, 0); SC_LAYOUT(sc_receiver, count, 264); SC_SIZE(sc_receiver, 266);
SC_LAYOUT(sc_hire, sensed, 0); SC_LAYOUT(sc_hire, window, 60); SC_LAYOUT(sc_hire, events, 80); SC_LAYOUT(sc_hire, statistics, 336);
SC_LAYOUT(sc_hire, status, 400); SC_LAYOUT(sc_hire, decision, 402); SC_LAYOUT(sc_hire, balancing, 404); SC_LAYOUT(sc_hire, charge, 406);
SC_LAYOUT(sc_hire, discharge, 407); SC_LAYOUT(sc_hire, receiver, 408); SC_SIZE(sc_hire, 680);
SC_LAYOUT(sc_board, pack, 0); SC_LAYOUT(sc_board, hire, 64); SC_SIZE(sc_board, 744);
SC_LAYOUT(sc_told, number, 0); SC_LAYOUT(sc_told, which, 2); SC_LAYOUT(sc_told, more, 8); SC_LAYOUT(sc_told, board, 16);
SC_SIZE(sc_told, 760);
SC_LAYOUT(sc_word, value, 0); SC_LAYOUT(sc_word, is, 2); SC_SIZE(sc_word, 4);

#undef SC_LAYOUT
#undef SC_SIZE
#undef SC_STATIC_ASSERT

#ifdef __cplusplus
}
#endif

#endif
