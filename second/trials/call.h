/* A call as data, and what it gives back as data: what a line of the console says, and what is said to it. */
#ifndef CALL_H
#define CALL_H

#include "../board/board.h"

/* The console's limits, in the words of its paper. */
enum {
    MOST_BYTES = 300,                   /* "0 to 300 bytes" */
    MOST_CELLS_LENT = 32,               /* "0 to 32 cells" */
    MOST_REGISTERS_LENT = 40,           /* "a slice of LENGTH registers, 0 to 40" */
    MOST_ROOM = 600,                    /* "a reply buffer of ROOM bytes, 0 to 600", "an area", "a record" and a store */
    UNWRITTEN = 0x5A                    /* "which the console fills with 0x5A first" */
};

/* W-210: "the console's one store of classes" */
struct store {
    uint8_t bytes[MOST_ROOM];
    size_t length;
};

/* By their words. The last two, `store` and `tidy` are no calls of the board. */
enum call_kind {
    NO_CALL, CALL_START, CALL_TICK, CALL_FRAME, CALL_OFFER, CALL_FETCH, CALL_HANDOVER, CALL_SAVE, CALL_LOAD, CALL_CABINET,
    CALL_STORE, CALL_KEEP, CALL_RECALL, CALL_TIDY, CALL_CRC, CALL_REGISTER, CALL_KINDS
};

static const char *const word_of_call[CALL_KINDS] = {
    "", "start", "tick", "frame", "offer", "fetch", "handover", "save", "load", "cabinet",
    "store", "keep", "recall", "tidy", "crc", "register"
};

/* Whoever makes one up points `cell` and `bytes` to room for as many as there may be. */
struct call {
    enum call_kind kind;
    uint8_t cells;              /* of a start, as the next */
    uint16_t pulses_per_km;
    struct readings readings;   /* of a tick */
    uint32_t number;            /* the pack of a handover, the edition of a recall, a register's number */
    size_t room;                /* ROOM of a frame and a fetch, LENGTH of a save, a cabinet, a handover and a store */
    bool alone;                 /* "`handover` alone": its record is not shown */
    size_t length;              /* of the cells of a tick, or of the bytes of a frame, an offer, a load, a store and a crc */
    uint16_t *cell;
    uint8_t *bytes;
};

/* Whoever has a call made points `bytes` and `words` to room for what it lends. */
struct answer {
    enum number number;
    uint16_t which;             /* the register of an OUT_OF_RANGE, and 0 otherwise */
    uint32_t more;              /* how many bytes an offer took, the edition of a keep, the value of a register, a CRC */
    bool exists;                /* such a register */
    bool charge_switch, discharge_switch;
    uint16_t need, real;
    uint8_t *bytes;             /* as they stand after the call: a reply buffer, an area or a record */
    uint16_t *words;            /* a cabinet's slice */
};

/* "Before the first `start` a call is made on a board that was started with 0 cells"; before the first `store` the store
   "has 512 zeros". */
void set_up(struct board *board, struct store *store);

/* What is lent to be written is filled first. */
void make_call(struct board *board, struct store *store, const struct call *call, struct answer *answer);

#endif
